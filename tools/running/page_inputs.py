"""What tools/running/page_test gives to the module of the playground: rows of texts, from tests and made at random."""
import json
import os
import random
import struct
import sys

TOP = os.path.dirname(os.path.dirname(os.path.dirname(os.path.abspath(__file__))))
sys.path.insert(0, os.path.join(TOP, 'tools'))
from binding_cases import content, shown_examples  # noqa: E402
from scripts import script  # noqa: E402

FILES = ('schema', 'policies', 'links', 'entities')
NAMES = ('schema.json', 'policies.cedar', 'links.json', 'entities.json', 'requests.jsonl')
OPTIONS = {'--' + name: name for name in FILES}
# What is put into texts: parts of both languages, and bytes that are not UTF-8 or that JSON does not allow.
PIECES = [b'"', b'\\', b'{', b'}', b'[', b']', b'(', b')', b' && ', b' || ', b'!', b'-', b'9223372036854775807', b'-9223372036854775808',
          b'1.2345', b'decimal("1.5")', b'like "*a*"', b' has ', b' in ', b' is ', b'if true then 1 else 2', b'\xc3\xa9',
          b'\xf0\x9f\x98\x80', b'\xff', b'\xed\xa0\x80', b'\xc0\x80', b'\xe2\x82', b'\\u00e9', b'\\ud83d\\ude00', b'\\ud800', b'\n', b',',
          b':', b'null', b'true', b'0', b'1e5', b'::', b'@id("x")', b'principal', b'?principal', b'.containsAll([', b'__cedar', b'\x00',
          b'\xf4\x90\x80\x80', b'"type"', b'"Long"', b'"Set"']


class Row:
    """Texts and settings, and what the program is to say of them."""

    def __init__(self, name, texts, settings=0):
        self.name, self.settings = name, settings
        self.texts = [texts.get(it, b'') for it in (*FILES, 'requests')]

    def bytes(self):
        """The form in which tests/page/rows.c reads a row."""
        return struct.pack('<I', self.settings) + b''.join(struct.pack('<I', len(text)) + text for text in self.texts)


def row_of(name, words, files, lines):
    """The row of a command line of `validate` or `authorize`, or None where it has another option."""
    texts, settings, at = {'requests': lines, 'entities': b'[]'}, 0, 1
    while at < len(words):
        if words[at] == '--any-decimal':
            settings, at = settings | 1, at + 1
        elif words[at] == '--language' and words[at + 1:at + 2] in (['3'], ['4']):
            settings, at = settings | (2 if words[at + 1] == '4' else 0), at + 2
        elif words[at] in OPTIONS and at + 1 < len(words) and words[at + 1] in files:
            texts[OPTIONS[words[at]]] = files[words[at + 1]]
            at += 2
        else:
            return None
    return Row(name, texts, settings)


def cases():
    """The rows of tools/running/cases: the row, the subcommand, the standard output and the status that are wanted, and None for the words."""
    found = script('cases')
    for case in (*found.examples(), *found.tried(), *found.refusals(), *found.data(), *found.any_decimal(), *found.sizes(),
                 *found.worked()):
        row = row_of(case.name, case.words, case.files, case.lines) if case.words[0] in ('validate', 'authorize') else None
        if row and not case.lacks_memory and not case.holds and case.status != 4:
            yield row, case.words[0], case.stdout, case.status, None


def diagnosed():
    """The rows of tests/diagnostics whose files have the names that the library gives them. Words are wanted where a file is refused or
    the policies have faults: of warnings alone the library says nothing."""
    found = script('diagnostics')
    for case in found.cases():
        if case['args'][:1] not in (['validate'], ['authorize']) or 'stdout' not in case or case['status'] not in (0, 2, 3):
            continue
        files = {name: found.content(text) for name, text in case['files'].items()}
        row = row_of(case['name'], [found.word(it, case) for it in case['args']], files, found.content(case.get('stdin', '')))
        if row and set(files) <= set(NAMES):
            words = found.content(case['stderr']) if case['status'] else None
            yield row, case['args'][0], found.content(case['stdout']), case['status'], words


def bent(chance, text):
    """A text in which bytes are changed, put in, taken out, doubled or copied."""
    text = bytearray(text)
    for _ in range(chance.choice([1, 1, 1, 2, 3, 8])):
        way, at = chance.randrange(6), chance.randrange(len(text) + 1)
        if way == 0 and text:
            text[at % len(text)] = chance.randrange(256)
        elif way == 1:
            text[at:at] = chance.choice(PIECES)
        elif way == 2:
            del text[at:at + chance.randrange(1, 12)]
        elif way == 3:
            text[at:at] = text[at:at + chance.randrange(1, 60)]
        elif way == 4:
            text[at:at] = bytes(chance.randrange(128, 256) for _ in range(chance.randrange(1, 40)))
        else:
            other, length = chance.randrange(len(text) + 1), chance.randrange(1, 40)
            text[at:at + length] = text[other:other + length]
    return bytes(text)


def bent_rows(count, seed=46):
    """So many rows of the examples, with one or two texts bent."""
    chance = random.Random(seed)
    sets = [[content(name, file) for file in NAMES] for name in shown_examples()]
    for number in range(count):
        texts = list(chance.choice(sets))
        for _ in range(1 + (chance.random() < 0.2)):
            place = chance.choice([0, 1, 1, 1, 2, 3, 3, 4, 4, 4])
            texts[place] = bent(chance, texts[place])
        yield Row('bent-%d' % number, dict(zip((*FILES, 'requests'), texts)), chance.randrange(4))
