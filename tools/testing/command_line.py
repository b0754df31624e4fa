"""The command line of cedar-test."""
import difflib
from dataclasses import dataclass, field

from testing.printable import Stop, printable

USAGE = 'Usage: cedar-test [OPTIONS] --schema <FILE> --policies <FILE> <CASES>...'
LETTERS = {'s': 'schema', 'p': 'policies', 'l': 'links', 'e': 'entities'}
VALUES = ('schema', 'policies', 'links', 'entities', 'language', 'junit', 'program')
LANGUAGES = ('3', '4')
FLAGS = ('any-decimal', 'json', 'all', 'coverage', 'mutate', 'strict', 'help', 'test')
# What to write in place of an option of another tool.
OF_CASES, OF_LINKS = 'files of cases have no option: write their names alone', "write '--links <FILE>'"
OF_FORM, OF_MORE = "'--json' writes JSON, and '--junit <FILE>' a report", "'--all' shows each policy of a case that differs"
TIPS = {'--verbose': OF_MORE, '-v': OF_MORE, '--cases': OF_CASES, '--tests': OF_CASES, '-t': OF_CASES,
        '--template-linked': OF_LINKS, '-k': OF_LINKS, '--format': OF_FORM, '--output': OF_FORM,
        '--schema-format': 'a schema is always JSON: leave it out',
        '--policy-format': 'policies are always written as text: leave it out'}


@dataclass
class Options:
    """What the command line says."""
    schema: str = None
    policies: str = None
    links: str = None
    entities: str = None
    language: str = None
    junit: str = None
    program: str = None
    any_decimal: bool = False
    json: bool = False
    all: bool = False
    coverage: bool = False
    mutate: bool = False
    strict: bool = False
    help: bool = False
    test: bool = False
    cases: list = field(default_factory=list)


def refused(words, tip=None):
    """The end for a command line that is refused."""
    tip = '\n\n  tip: %s' % tip if tip else ''
    return Stop(4, "error: %s%s\n\n%s\n\nFor more information, try '--help'." % (words, tip, USAGE))


def name_of(word):
    """The option that a word names, and its value after `=` or a letter, or None."""
    if not word.startswith('--'):
        name = {**LETTERS, 'h': 'help'}.get(word[1])
        return name, (word[2:].removeprefix('=') or None)
    name, equals, value = word[2:].partition('=')
    return (name if name in VALUES + FLAGS else None), (value if equals else None)


def shown(name):
    """An option with its value, as the help writes it."""
    return '--%s <%s>' % (name, 'N' if name == 'language' else 'FILE')


def unknown(word):
    """The end for an option that there is not."""
    name = word.partition('=')[0]
    near = difflib.get_close_matches(name, ['--' + it for it in VALUES + FLAGS], 1, 0.7)
    tip = TIPS.get(name) or ("a similar argument exists: '%s'" % near[0] if near else None)
    return refused("unexpected argument '%s' found" % printable(word), tip)


def has_one_dash(word):
    """Whether a word is a long option with one dash."""
    return word[1:].partition('=')[0] in VALUES + FLAGS


def read_words(words):
    """The options that the words give."""
    options, words = Options(), list(words)
    while words:
        word = words.pop(0)
        if word == '--':
            options.cases += words
            break
        if word == '-' or not word.startswith('-'):
            options.cases.append(word)
            continue
        if has_one_dash(word):
            tip = "a long option has two dashes: '-%s'" % word.partition('=')[0]
            raise refused("unexpected argument '%s' found" % printable(word), tip)
        name, value = name_of(word)
        if name is None:
            raise unknown(word)
        if name in FLAGS and value is not None:
            raise refused("unexpected value for '--%s' found; it takes none" % name)
        if name in VALUES and value is None:
            if not words or words[0].startswith('-') and words[0] != '-':
                raise refused("a value is required for '%s' but none was supplied" % shown(name))
            value = words.pop(0)
        if name not in FLAGS and name != 'program' and getattr(options, name) is not None:
            raise refused("the argument '%s' cannot be used multiple times" % shown(name))
        setattr(options, name.replace('-', '_'), True if name in FLAGS else value)
    return checked(options)


def checked(options):
    """The options, if they fit together."""
    if options.help or options.test:
        return options
    if options.language not in (None, *LANGUAGES):
        raise refused("invalid value '%s' for '%s'\n  [possible values: %s]"
                      % (printable(options.language), shown('language'), ', '.join(LANGUAGES)))
    missing = [shown(it) for it in ('schema', 'policies') if not getattr(options, it)]
    missing += [] if options.cases else ['<CASES>...']
    if missing:
        raise refused('the following required arguments were not provided:\n  ' + '\n  '.join(missing))
    if options.strict and not (options.coverage or options.mutate):
        raise refused("the argument '--strict' needs '--coverage' or '--mutate'")
    return options
