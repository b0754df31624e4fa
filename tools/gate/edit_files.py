"""The edits of edits/ and of must-fail/: what each changes, and whether it can be applied. Used by tools/gate/edits."""
import os
import re
from dataclasses import dataclass, field

from gate.built import named

TOP = os.path.dirname(os.path.dirname(os.path.dirname(os.path.abspath(__file__))))


def body_of(text, function):
    """The text of a function in its file's text, from its head to its end."""
    lines = text.split('\n')
    at = function.line - 1
    end = re.compile(' ' * (len(lines[at]) - len(lines[at].lstrip())) + r'(?:\}|(?:\S.*)?\{\})')
    last = next((it for it in range(at, len(lines)) if end.fullmatch(lines[it])), at)
    return '\n'.join(lines[at:last + 1])


@dataclass
class Edit:
    """An edit: its crate, its path, its text, and why it cannot be applied, if so. `texts` has each file as the edit makes it, and
    `places` the file and the offset of each change in the text that it applies to."""
    crate: str
    path: str
    text: str
    fault: str = ''
    texts: dict = field(default_factory=dict)
    places: list = field(default_factory=list)

    def name(self):
        return os.path.basename(self.path).removesuffix('.edit')

    def label(self):
        return '%s/%s' % (self.crate, self.name())

    def lines(self):
        """The files and the numbers of the lines that it changes, from 1. An edit changes one line to one line."""
        return {(file, text.count('\n', 0, at) + 1) for file, text, at in self.places}

    def changed(self, house):
        """The functions that it changes, with None for text outside of functions."""
        return [function_at(house.sources.get((self.crate, file)), text, at) for file, text, at in self.places]


def pairs(text):
    """The file, the old text and the new text of each change of an edit's text."""
    file = old = ''
    for line in text.split('\n'):
        word, _, rest = line.partition(': ')
        if word == 'file':
            file = rest.strip()
        elif word == 'old':
            old = rest
        elif line.startswith('new:') and file:
            yield file, old, rest


def read_edit(crate, path):
    """An edit from its file. Its later texts apply to what the earlier ones made, file by file."""
    with open(path, encoding='utf-8') as file:
        edit = Edit(crate, path, file.read())
    others = [it for it in edit.text.splitlines() if it and not it.startswith(('file:', 'old:', 'new:'))]
    if others:
        edit.fault = 'a line of it is none of file:, old: and new:, such as %r' % others[0]
        return edit
    for file, old, new in pairs(edit.text):
        source = os.path.join(TOP, 'crates', crate, file)
        if file not in edit.texts and os.path.isfile(source):
            with open(source, encoding='utf-8') as text:
                edit.texts[file] = text.read()
        text = edit.texts.get(file)
        if text is None:
            edit.fault = 'there is no crates/%s/%s' % (crate, file)
            return edit
        if old == new:
            edit.fault = 'it puts the same text in place of one in crates/%s/%s' % (crate, file)
            return edit
        if text.count(old) != 1:
            edit.fault = 'its text is %d times in crates/%s/%s' % (text.count(old), crate, file)
            return edit
        edit.places.append((file, text, text.index(old)))
        edit.texts[file] = text.replace(old, new)
    edit.fault = '' if edit.places else 'it changes nothing'
    return edit


def edits_in(folder, crate):
    """The edits of a crate in a folder, by their names."""
    names = sorted(os.listdir(folder)) if os.path.isdir(folder) else []
    return [read_edit(crate, os.path.join(folder, name)) for name in names if name.endswith('.edit')]


def edits_of(crate):
    """The edits of a crate in edits/."""
    return edits_in(os.path.join(TOP, 'edits', crate), crate)


def must_fail_of(crate):
    """The edits of a crate in its must-fail/."""
    return edits_in(os.path.join(TOP, 'crates', crate, 'must-fail'), crate)


def with_edits():
    """The crates that have edits in edits/, in the order of crates.txt."""
    return [it for it in named() if os.path.isdir(os.path.join(TOP, 'edits', it))]


def function_at(source, text, at):
    """The function of a source whose lines have the offset of a text, if one has."""
    line = text.count('\n', 0, at) + 1
    for function in source.functions if source else ():
        if function.line <= line < function.line + body_of(text, function).count('\n') + 1:
            return function
    return None


def uncommented(text):
    """A text without comments, and with even white space."""
    return ' '.join(re.sub(r'^\s*(?://|--).*$', '', text, flags=re.M).split())
