"""Reads the help texts of `cedar`: the one of the program, and one for each subcommand. Used by tools/documents/completions.

A help text is what it is about, the usage, sections of rows (`Commands:`, `Arguments:`, `Options:`), and then paragraphs. Among these,
`Example:` or `Examples:` is over command lines, and `Statuses:` over rows of an exit status and when it comes. A line that does not fit is
a fault, so nothing of a text is passed over."""
import re
import subprocess
from dataclasses import dataclass, field

ROW = re.compile(r' {2}(?: {4})?(\S.*?) {2,}(\S.*)')
OPTION = re.compile(r'(?:(-\w), )?(--[a-z-]+)(?: <(\w+)>)?')
ARGUMENT = re.compile(r'([<\[])(\w+)[>\]](\.\.\.)?')
SECONDS = 60


class Malformed(Exception):
    """A help text that cannot be read, or a program that does not print one."""


@dataclass
class Argument:
    """An option, or an argument without a name. `names` are those of an option, the short one first; `value` is the name of its value,
    which a flag lacks; `is_required` and `is_many` are of arguments alone."""
    names: list
    value: str
    about: str
    is_required: bool = False
    is_many: bool = False


@dataclass
class Help:
    """What a help text says. `usage` has a line for each form; `commands` and `statuses` are pairs of a name and its text; `texts` are the
    paragraphs after the options that are neither examples nor statuses."""
    about: str
    usage: list
    commands: list = field(default_factory=list)
    arguments: list = field(default_factory=list)
    options: list = field(default_factory=list)
    examples: list = field(default_factory=list)
    statuses: list = field(default_factory=list)
    texts: list = field(default_factory=list)


def matched(pattern, text):
    """The groups of a text that has to be of this form."""
    found = pattern.fullmatch(text)
    if not found:
        raise Malformed('this line does not fit: %r' % text)
    return found.groups()


def option(left, about):
    short, long, value = matched(OPTION, left)
    return Argument([*filter(None, (short, long))], value or '', about)


def argument(left, about):
    bracket, value, many = matched(ARGUMENT, left)
    return Argument([], value, about, bracket == '<', bool(many))


def read_help(text):
    """What a help text says."""
    about, usage, *paragraphs = [it.split('\n') for it in re.split(r'\n\n+(?=\S)', text.strip('\n'))]
    read = Help(' '.join(about), [it.strip().removeprefix('Usage: ') for it in usage])
    kinds = {'Commands:': (read.commands, lambda *row: row), 'Arguments:': (read.arguments, argument), 'Options:': (read.options, option),
             'Statuses:': (read.statuses, lambda *row: row)}
    for heading, *lines in paragraphs:
        if heading in kinds:
            into, made = kinds[heading]
            into += [made(*matched(ROW, line)) for line in lines]
        elif heading in ('Example:', 'Examples:'):
            read.examples += [line.removeprefix('  ') for line in lines]
        else:
            read.texts.append([heading, *lines])
    return read


def printed(program, *words):
    """What the program prints for these words."""
    try:
        return subprocess.run([program, *words], stdin=subprocess.DEVNULL, stdout=subprocess.PIPE, encoding='utf-8', check=True,
                              timeout=SECONDS).stdout
    except (OSError, subprocess.SubprocessError) as error:
        raise Malformed('%s: %s' % (program, error)) from error


def read_program(program):
    """The version of the program, its help, and the help of each subcommand by its name."""
    whole = read_help(printed(program, '--help'))
    return printed(program, '--version').strip(), whole, {name: read_help(printed(program, 'help', name)) for name, _ in whole.commands}
