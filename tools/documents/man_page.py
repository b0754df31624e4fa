"""Writes the man page of `cedar` from its help texts. Used by tools/documents/completions."""
import re
from itertools import takewhile

# What the usage names: a value, an option, or a word such as OPTIONS.
USED = re.compile(r'<(?P<value>\w+)>|(?P<name>--?\w[\w-]*)|\b(?P<word>[A-Z]+)\b')
PAGE = '''\
.\\" tools/documents/completions wrote this from the help of the program: do not change it here.
.TH CEDAR 1 "" "{version}" "User commands"
.SH NAME
cedar \\- {name}
.SH SYNOPSIS
{synopsis}.SH DESCRIPTION
{description}.SH OPTIONS
{options}.SH SUBCOMMANDS
{subcommands}.SH EXIT STATUS
{statuses}.SH EXAMPLES
.EX
{examples}
.EE
.SH SEE ALSO
{pages}'''


def plain(text):
    """A text whose signs mean nothing to groff."""
    text = text.replace('\\', '\\e').replace("'", '\\(aq').replace('`', '\\(ga').replace('^', '\\(ha').replace('~', '\\(ti')
    return '\\&' + text if text.startswith('.') else text


def code(text):
    """A text that is typed or printed as it is."""
    return plain(text).replace('-', '\\-')


def prose(text):
    """A text to read. The dashes of options in it can be copied."""
    return re.sub(r'(?<![\w-])--?[a-zA-Z][\w-]*', lambda it: it[0].replace('-', '\\-'), plain(text))


def bold(text):
    return '\\fB%s\\fR' % code(text)


def italic(text):
    return '\\fI%s\\fR' % code(text)


def row(left, right):
    return '.TP\n%s\n%s\n' % (left, prose(right))


def sign(it):
    """An option or an argument as it is typed."""
    value = [italic(it.value) + ('...' if it.is_many else '')] if it.value else []
    return ' '.join([*([', '.join(map(bold, it.names))] if it.names else []), *value])


def usage(line):
    """A form of the usage: what is typed as it is is bold, and what it is typed for is italic."""
    words = line.split(' ')
    command = [*takewhile(lambda it: it[:1].islower(), words)]
    rest = USED.sub(lambda it: bold(it['name']) if it['name'] else italic(it['value'] or it['word']), ' '.join(words[len(command):]))
    return '.SY "%s"\n%s\n.YS\n' % (code(' '.join(command)), rest)


def paragraph(lines):
    """A paragraph; what is indented keeps its lines."""
    made, is_code = ['.PP'], False
    for line in lines:
        if line.startswith('  ') != is_code:
            is_code = not is_code
            made += ['.RS 4', '.EX'] if is_code else ['.EE', '.RE']
        made.append(code(line.removeprefix('  ')) if is_code else prose(line))
    return '\n'.join(made + (['.EE', '.RE'] if is_code else [])) + '\n'


def rows(read):
    """The arguments and the options of a help."""
    return ''.join(row(sign(it), it.about) for it in (*read.arguments, *read.options))


def statuses(read, above=()):
    """The exit statuses of a help, but for those that the help above explains in the same words."""
    return ''.join(row(bold(status), when) for status, when in read.statuses if (status, when) not in above)


def man_page(version, read, subcommands, pages):
    """The man page. The pages are what to read beside it, each a pair of a path and a title."""
    every = [read, *subcommands.values()]
    of_subcommands = [(name, statuses(it, read.statuses)) for name, it in subcommands.items()]
    return PAGE.format(
        version=code(version), name=prose(read.about[:1].lower() + read.about[1:]),
        synopsis=''.join(usage(line) for it in every for line in it.usage),
        description=prose(read.about) + '.\n' + ''.join(row(bold(name), about) for name, about in read.commands), options=rows(read),
        subcommands=''.join('.SS %s\n%s\n%s%s' % (code(name), prose(it.about), rows(it), ''.join(map(paragraph, it.texts)))
                            for name, it in subcommands.items()),
        statuses=statuses(read) + ''.join('.PP\nOf %s:\n%s' % (bold(name), said) for name, said in of_subcommands if said),
        examples='\n'.join(map(code, dict.fromkeys(line for it in every for line in it.examples))),
        pages=''.join(row(italic(path), title) for path, title in pages))
