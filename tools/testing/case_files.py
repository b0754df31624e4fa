"""Reads files of cases: a JSON list, one JSON object, or JSON Lines. What is wrong with them is said with file and line."""
import difflib
import os
import re
import sys
from dataclasses import dataclass

import cedar_forms
from cedar_forms import NoJson, Notes, Number
from testing import hints
from testing.printable import Stop, printable, shortened

KEYS = ('name', 'request', 'entities', 'decision', 'reason', 'errors', 'num_errors', 'refused')
REQUEST_KEYS = ('principal', 'action', 'resource', 'context')
DECISIONS = ('allow', 'deny')
SPACE = re.compile(r'[ \t\r\n]*')
ENDINGS = ('.json', '.jsonl')


@dataclass(frozen=True)
class Wanted:
    """What a case wants; None is wanted of nothing."""
    decision: str = None
    reason: frozenset = None
    errors: frozenset = None
    num_errors: int = None
    refused: int = None


@dataclass(frozen=True)
class Case:
    """A case: its name and place, its request as JSON on one line, its entities as JSON or None, and what it wants."""
    name: str
    file: str
    line: int
    request: str
    entities: str
    wanted: Wanted


class Wrong(Exception):
    """A fault of one case."""


class Broken(Exception):
    """A fault that ends the reading of a file: the offset of its place, words, and whether the offset has a column or just a line."""

    def __init__(self, at, words, has_column=False):
        super().__init__(words)
        self.at, self.words, self.has_column = at, words, has_column

    def place(self, text):
        """The line and perhaps the column of the fault in its text, as the end of the name of a file."""
        if self.at is None:
            return ''
        line, column = text.count('\n', 0, self.at) + 1, self.at - text.rfind('\n', 0, self.at)
        return ':%d:%d' % (line, column) if self.has_column else ':%d' % line


def decoded(text, at):
    """The JSON value that begins at an offset, and the offset of its end."""
    try:
        return cedar_forms.DECODER.raw_decode(text, at)
    except NoJson as fault:
        place = hints.place_of_constant(text, at, str(fault))
        raise Broken(at if place is None else place, str(fault), place is not None) from fault
    except RecursionError as fault:
        raise Broken(at, 'the JSON is nested too deeply') from fault
    except ValueError as fault:
        place = hints.place_of_fault(text, getattr(fault, 'pos', at))
        raise Broken(place, hints.words_of_fault(text, place, getattr(fault, 'msg', '')), True) from fault


def values_in(text):
    """The values of a text, each with its offset: those of its one list, or those that follow one another."""
    at = SPACE.match(text).end()
    is_list = text[at:at + 1] == '['
    at = SPACE.match(text, at + is_list).end()
    ended = not is_list or text[at:at + 1] == ']'
    while at < len(text) and not (is_list and ended):
        value, end = decoded(text, at)
        yield at, value
        at = SPACE.match(text, end).end()
        if is_list and at < len(text):
            ended = text[at] == ']'
            if text[at] not in ',]':
                raise Broken(at, 'invalid JSON here: expected `,` or `]`', True)
            at = at if ended else SPACE.match(text, at + 1).end()
    if is_list and not ended:
        raise Broken(at, 'invalid JSON: unexpected end of input', True)
    if is_list and SPACE.match(text, at + 1).end() < len(text):
        raise Broken(SPACE.match(text, at + 1).end(), 'expected nothing after the list of cases', True)


def shown(value):
    """A JSON value in a message."""
    if isinstance(value, dict):
        return 'an object'
    if isinstance(value, list):
        return 'a list'
    if isinstance(value, Number):
        return 'the number ' + shortened(printable(value), 40)
    if isinstance(value, str):
        return 'the string "%s"' % shortened(printable(value), 40)
    return {None: 'null', True: 'true', False: 'false'}[value]


def near(word, words, mark='`'):
    """The word that was likely meant, as the end of a message."""
    found = difflib.get_close_matches(word, words, 1)
    return '; did you mean %s%s%s?' % (mark, found[0], mark) if found else ''


def need(has_form, key, form, value):
    """Raises an error where the value at a key has the wrong form."""
    if not has_form:
        raise Wrong('`%s` must be %s, not %s' % (key, form, shown(value)))


def ids_of(node, key):
    """The ids that a case lists at a key, or None."""
    if key not in node:
        return None
    need(isinstance(node[key], list), key, 'a list of ids of policies', node[key])
    other = [it for it in node[key] if not cedar_forms.is_text(it)]
    if other:
        raise Wrong('`%s` must be a list of strings, not a list with %s' % (key, shown(other[0])))
    return frozenset(node[key])


def number_of(node, key):
    """The whole number that a case has at a key, or None."""
    if key not in node:
        return None
    is_whole = isinstance(node[key], Number) and re.fullmatch('0|[1-9][0-9]{0,8}', node[key])
    need(is_whole, key, 'a whole number', node[key])
    return int(node[key])


def decision_of(node):
    """The decision that a case wants, in small letters."""
    value = node['decision']
    need(cedar_forms.is_text(value), 'decision', '"allow" or "deny"', value)
    if value.lower() not in DECISIONS:
        raise Wrong('`decision` must be "allow" or "deny", not %s%s' % (shown(value), near(value.lower(), DECISIONS, '"')))
    return value.lower()


def wanted_of(node):
    """What a case wants."""
    if 'refused' not in node:
        if 'decision' not in node:
            raise Wrong('the key `decision` is missing')
        return Wanted(decision_of(node), ids_of(node, 'reason'), ids_of(node, 'errors'), number_of(node, 'num_errors'))
    beside = next((it for it in ('decision', 'reason', 'errors', 'num_errors') if it in node), None)
    if beside:
        raise Wrong('a refused request has no `%s`: write `refused` or `%s`' % (beside, beside))
    return Wanted(refused=number_of(node, 'refused'))


def in_form(value, form):
    """A JSON value in the form of this project; as it is where it has none, so that the program refuses it."""
    notes = Notes()
    turned = form(value, notes)
    return cedar_forms.written(value if notes.refused else turned)


def case_of(node, file, line, number):
    """The case that a JSON value denotes."""
    if not isinstance(node, dict):
        raise Wrong('a case must be an object, not %s' % shown(node))
    for key in node:
        if key not in KEYS:
            tip = '; write it in `request`' if key in REQUEST_KEYS else near(key, KEYS)
            tip = tip or '; its keys are ' + ', '.join(KEYS)
            raise Wrong('a case has no key `%s`%s' % (shortened(printable(key), 40), tip))
    if 'request' not in node:
        raise Wrong('the key `request` is missing')
    need(isinstance(node['request'], dict), 'request', 'an object', node['request'])
    if 'entities' in node['request']:
        raise Wrong('write `entities` beside `request`, not in it')
    name = node.get('name', '%s:%d' % (file, number))
    need(cedar_forms.is_text(name), 'name', 'a string', name)
    wanted, entities = wanted_of(node), None
    try:
        request = in_form(node['request'], cedar_forms.request_form)
        if 'entities' in node:
            need(isinstance(node['entities'], list), 'entities', 'a list', node['entities'])
            entities = in_form(node['entities'], cedar_forms.entities_form)
    except RecursionError as fault:
        raise Wrong('the JSON is nested too deeply') from fault
    return Case(name, file, line, request, entities, wanted)


def content(path):
    """The text of a file, or of standard input."""
    try:
        if path == '-' and sys.stdin is None:
            raise Stop(1, 'standard input is closed')
        if path == '-':
            held = sys.stdin.buffer.read()
        else:
            with open(path, 'rb') as file:
                held = file.read()
    except (OSError, ValueError) as fault:
        raise Stop(1, '%s: %s' % (printable(path) or "''", getattr(fault, 'strerror', None) or 'not the name of a file')) from fault
    try:
        return held.decode('utf-8').removeprefix('\ufeff')
    except UnicodeDecodeError as fault:
        raise Broken(None, 'not UTF-8, from line %d' % (held[:fault.start].count(b'\n') + 1)) from fault


def files_of(path):
    """The files of cases that a word of the command line denotes."""
    if path == '-' or not os.path.isdir(path):
        return [path]
    try:
        found = [os.path.join(path, it) for it in sorted(os.listdir(path)) if it.endswith(ENDINGS)]
    except OSError as fault:
        raise Stop(1, '%s: %s' % (printable(path), fault.strerror)) from fault
    found = [it for it in found if not os.path.isdir(it)]
    if not found:
        raise Stop(2, '%s: the folder has no file *.json or *.jsonl' % printable(path))
    return found


class Reader:
    """The cases and the faults that were found."""

    def __init__(self):
        self.cases, self.faults, self.places = [], [], {}

    def fault(self, file, place, words):
        """Notes a fault of a file."""
        self.faults.append('%s%s: %s' % (printable(file), place, words))

    def enter(self, node, file, line, number):
        """Enters a case, or what is wrong with it."""
        try:
            case = case_of(node, file, line, number)
        except Wrong as fault:
            self.fault(file, ':%d' % line, 'case %d: %s' % (number, fault))
            return
        if case.name in self.places:
            self.fault(file, ':%d' % line, 'case %d: the name `%s` is that of the case at %s, too' % (
                number, shortened(printable(case.name), 60), self.places[case.name]))
        self.places.setdefault(case.name, '%s:%d' % (printable(file), line))
        self.cases.append(case)

    def read(self, path):
        """Reads a file."""
        name, line, before, number, text = 'standard input' if path == '-' else path, 1, 0, 0, ''
        try:
            text = content(path)
            for at, node in values_in(text):
                line, before, number = line + text.count('\n', before, at), at, number + 1
                other = hints.other_kind(node) if number == 1 else None
                if other:
                    self.fault(name, '', other)
                    return
                self.enter(node, name, line, number)
        except Broken as fault:
            other = hints.other_text(text) if not number else None
            self.fault(name, '' if other else fault.place(text), other or fault.words)
        else:
            if not number:
                self.fault(name, '', 'there is no case in this file')


def read_cases(paths, most=20):
    """The cases of all files, in order. Ends where one is wrong."""
    reader = Reader()
    for path in (it for word in paths for it in files_of(word)):
        reader.read(path)
    if reader.faults:
        more = ['and %d more' % (len(reader.faults) - most)] if len(reader.faults) > most else []
        raise Stop(2, '\ncedar-test: '.join(reader.faults[:most] + more))
    return reader.cases
