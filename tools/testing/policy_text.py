"""The parts of a Cedar policy text: statements, the sides of scopes, clauses and the operands of conditions, each with its place.

The text is one that the program accepts. It is cut into tokens first, so what is in a string or a comment is never taken for syntax."""
from dataclasses import dataclass

import cedar_forms
from testing.printable import Stop

CLOSED = {'(': ')', '[': ']', '{': '}'}
SIGNS = ('&&', '||', '::', '==', '!=', '<=', '>=')


@dataclass(frozen=True)
class Token:
    """A token, and where it begins and ends."""
    text: str
    start: int
    end: int


@dataclass(frozen=True)
class Clause:
    """A `when` or an `unless`: its place and the tokens of its condition."""
    word: str
    start: int
    end: int
    body: list


@dataclass(frozen=True)
class Statement:
    """A policy or a template: its id, where its effect is written, the three sides of its scope as tokens, and its clauses."""
    id: str
    start: int
    sides: list
    clauses: list

    def is_template(self):
        """Whether a side of the scope has a slot."""
        return any(map(has_slot, self.sides))


def has_slot(side):
    """Whether a side of a scope has a slot."""
    return any(it.text == '?' for it in side)


def end_of_string(text, at):
    """Where the string ends that begins at an offset."""
    at += 1
    while text[at:at + 1] not in ('"', ''):
        at += 2 if text[at] == '\\' else 1
    return at + 1


def end_of_comment(text, at):
    """Where the comment ends that begins at an offset: at the next LF or CR."""
    while at < len(text) and text[at] not in '\n\r':
        at += 1
    return at


def is_in_word(character):
    """Whether a character may be in a word or a number."""
    return character.isascii() and character.isalnum() or character == '_'


def end_of_token(text, at):
    """Where the token ends that begins at an offset."""
    if text[at] == '"':
        return end_of_string(text, at)
    if text[at:at + 2] in SIGNS:
        return at + 2
    end = at
    while end < len(text) and is_in_word(text[end]):
        end += 1
    return max(end, at + 1)


def tokens_of(text):
    """The tokens of a text."""
    found, at = [], 0
    while at < len(text):
        if text.startswith('//', at):
            at = end_of_comment(text, at)
        elif text[at].isspace():
            at += 1
        else:
            end = end_of_token(text, at)
            found.append(Token(text[at:end], at, end))
            at = end
    return found


def pairs_of(tokens):
    """The position of the closing bracket for that of each opening one."""
    found, opened = {}, []
    for at, it in enumerate(tokens):
        if it.text in CLOSED:
            opened.append(at)
        elif it.text in CLOSED.values():
            found[opened.pop()] = at
    return found


def split(tokens, sign):
    """The parts of a row of tokens between signs that no bracket holds."""
    parts, depth = [[]], 0
    for it in tokens:
        depth += (it.text in CLOSED) - (it.text in CLOSED.values())
        if it.text == sign and not depth:
            parts.append([])
        else:
            parts[-1].append(it)
    return parts


def statements_of(text):
    """The statements of a policy text that the program accepts."""
    tokens = tokens_of(text)
    try:
        return read_statements(tokens, pairs_of(tokens))
    except (IndexError, KeyError) as fault:
        raise Stop(1, 'the policy text cannot be cut into statements') from fault


def read_statements(tokens, pairs):
    """The statements of tokens."""
    found, at = [], 0
    while at < len(tokens):
        own = None
        while tokens[at].text == '@':
            if tokens[at + 1].text == 'id':
                own = cedar_forms.unescaped(tokens[at + 3].text[1:-1])
            at = pairs[at + 2] + 1
        effect, opened = tokens[at], at + 1
        sides, at, clauses = split(tokens[opened + 1:pairs[opened]], ','), pairs[opened] + 1, []
        while tokens[at].text in ('when', 'unless'):
            closed = pairs[at + 1]
            clauses.append(Clause(tokens[at].text, tokens[at].start, tokens[closed].end, tokens[at + 2:closed]))
            at = closed + 1
        found.append(Statement('policy%d' % len(found) if own is None else own, effect.start, sides, clauses))
        at += 1
    return found


def bare(tokens):
    """An expression without the brackets around it."""
    while tokens and tokens[0].text == '(' and pairs_of(tokens)[0] == len(tokens) - 1:
        tokens = tokens[1:-1]
    return tokens


def conjuncts(tokens):
    """The operands of the conjunction that an expression is: one for another expression."""
    tokens = bare(tokens)
    if not tokens or tokens[0].text == 'if' or len(split(tokens, '||')) > 1:
        return [tokens]
    return split(tokens, '&&')


def branches(tokens):
    """The three expressions of `if .. then .. else ..`."""
    parts, depth, inner = [[]], 0, 0
    for it in tokens[1:]:
        depth += (it.text in CLOSED) - (it.text in CLOSED.values())
        inner += (it.text == 'if' and not depth)
        if it.text in ('then', 'else') and not depth and not inner and len(parts) < 3:
            parts.append([])
            continue
        inner -= (it.text == 'else' and not depth and len(parts) < 3)
        parts[-1].append(it)
    return parts


def parts_of(tokens):
    """The smallest parts of a condition that `&&`, `||` and `if` combine, with the brackets around them. A `true` is none, since it
    has no place in what `why` says."""
    inner = bare(tokens)
    if inner and inner[0].text == 'if':
        operands = branches(inner)
    else:
        operands = split(inner, '||')
        operands = operands if len(operands) > 1 else split(inner, '&&')
    if len(operands) == 1:
        return [] if [it.text for it in inner] == ['true'] else [tokens]
    return [part for it in operands for part in parts_of(it)]


def written(tokens):
    """Tokens as a text, with a space where anything was between two."""
    text = ''
    for before, it in zip([None, *tokens], tokens):
        text += ' ' * (before is not None and before.end < it.start) + it.text
    return text


class Places:
    """The line and the column of offsets, from 1; a column counts characters."""

    def __init__(self, text):
        self.text, self.starts = text, [0]
        self.starts += [at + 1 for at, it in enumerate(text) if it == '\n']

    def of(self, offset):
        """The line and the column of an offset."""
        low, high = 0, len(self.starts)
        while high - low > 1:
            middle = (low + high) // 2
            low, high = (middle, high) if self.starts[middle] <= offset else (low, middle)
        return low + 1, offset - self.starts[low] + 1
