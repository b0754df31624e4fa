"""What is likely meant by a file of cases that is not JSON, or that holds something else."""
import re

import cedar_forms
from testing.printable import printable, shortened

STRING_OR_CONSTANT = re.compile(r'"(?:[^"\\]|\\.)*"|-?Infinity|NaN', re.S)
SPACE_OR_COMMENTS = re.compile(r'(?:[ \t\r\n]|//[^\n]*)*')
POLICIES = re.compile(r'(?:permit|forbid)\b|@[A-Za-z_]\w*\s*\(', re.A)
SCHEMA_SYNTAX = re.compile(r'(?:entity|namespace|action|type)\s+[\w"]', re.A)
WORD = re.compile(r'[A-Za-z_]\w*', re.A)
WORDS = {'true': 'true', 'false': 'false', 'null': 'null', 'none': 'null', 'nil': 'null', 'undefined': 'null'}
SIGNS = {"'": 'strings have double quotes', '\u201c': 'strings have double quotes, `"`', '\u201d': 'strings have double quotes, `"`',
         '\u201e': 'strings have double quotes, `"`', '/': 'JSON has no comments', '#': 'JSON has no comments',
         '=': 'write `:` between a key and its value', '\n': 'a string ends in the line in which it begins',
         '\r': 'a string ends in the line in which it begins', '\t': 'write `\\t` for a tabulator in a string'}
# What is missing where Python's reader says this.
MISSING = {"Expecting ',' delimiter": 'a `,` is missing before it', "Expecting ':' delimiter": 'a `:` is missing before it'}


def place_of_constant(text, at, words):
    """The offset of the word that JSON does not have, such as NaN, in a value that begins at an offset; or None for another fault."""
    if not words.endswith(' is not JSON'):
        return None
    return next((it.start() for it in STRING_OR_CONSTANT.finditer(text, at) if it[0][0] != '"'), None)


def place_of_fault(text, at):
    """The offset of a fault of JSON: after a `,` that nothing may follow, what follows it."""
    if text[at:at + 1] != ',':
        return at
    end = re.compile(r'\s*').match(text, at + 1).end()
    return end if text[end:end + 1] in (']', '}') else at


def meant_by_word(text, at):
    """What is likely meant by a word that is not in quotes."""
    word = WORD.match(text, at)[0]
    if word.lower() in WORDS:
        return 'write `%s`' % WORDS[word.lower()]
    if text[at - 1:at] == '"':
        return 'a quote in a string is written `\\"`'
    return 'words have double quotes, but for `true`, `false` and `null`'


def meant(text, at, fault):
    """What is likely meant where a text is not JSON from an offset on, which Python's reader says in its words; or None."""
    last, sign = text[:at].rstrip()[-1:], text[at]
    if 'escape' in fault:
        return 'JSON does not have this escape'
    if sign in ']}' and last == ',':
        return 'remove the `,` before it'
    if sign == ',' and last == '}':
        return 'the lines of JSON Lines have no `,` between them; a list has `[` and `]` around it'
    if sign.isdigit() and text[at - 1:at] == '0':
        return 'a number has no zero in front'
    if sign.isdigit() or sign in '"{[-':
        return MISSING.get(fault, 'the string that begins here is not closed' if sign == '"' else None)
    return meant_by_word(text, at) if WORD.match(text, at) else SIGNS.get(sign)


def words_of_fault(text, at, fault):
    """What is said where a text is not JSON from an offset on."""
    if not text[at:].strip() and not fault.startswith('Invalid control character'):
        return 'invalid JSON: unexpected end of input'
    tip = meant(text, at, fault)
    return 'invalid JSON: ' + tip if tip else 'invalid JSON here'


def other_text(text):
    """What a text that is not JSON holds in place of cases; or None."""
    begin = SPACE_OR_COMMENTS.match(text).end()
    if POLICIES.match(text, begin):
        return 'this looks like policies: give the file to `--policies`'
    if SCHEMA_SYNTAX.match(text, begin):
        return "this looks like a schema in Cedar's schema syntax: `--schema` takes one in JSON"
    if text.startswith(('---', '- ')) or WORD.match(text, begin) and not text[begin:].startswith(('true', 'false', 'null')):
        return 'this looks like YAML or another language: cases are JSON'
    return None


def is_namespace(value):
    """Whether a JSON value has the form of a namespace of a schema."""
    return isinstance(value, dict) and ('entityTypes' in value or 'actions' in value)


def is_list_of_cases(value):
    """Whether a JSON value is a list that begins with a case."""
    return isinstance(value, list) and bool(value) and isinstance(value[0], dict) and 'request' in value[0]


def wrapped(node):
    """The key under which an object has a list of cases, or None."""
    return next((key for key, value in node.items() if is_list_of_cases(value)), None)


def other_kind(node):
    """What a file holds whose first value this is, if that is not a case; or None."""
    if not isinstance(node, dict) or any(it in node for it in ('request', 'decision', 'refused', 'name')):
        return None
    if 'uid' in node:
        return 'this looks like a file of entities: give it to `--entities`'
    if 'principal' in node and 'action' in node:
        return 'this looks like a file of request lines: a case has the request under the key `request`'
    if any(it in node for it in cedar_forms.TEMPLATE_KEYS):
        return 'this looks like a file of links: give it to `--links`'
    if 'requests' in node and 'policies' in node:
        return "this looks like an integration test of Cedar: `tools/integration_tests` runs it"
    if wrapped(node) is not None:
        return 'the file is a list of cases: leave `{"%s": .. }` out' % shortened(printable(wrapped(node)), 40)
    if any(map(is_namespace, node.values())):
        return 'this looks like a schema: give it to `--schema`'
    return None
