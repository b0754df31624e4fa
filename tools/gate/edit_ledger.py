"""The ledgers edits/CRATE/refused: what refused each edit, when it was last tried. Used by tools/gate/edits.

A line has a digest, the edit's name, the function whose proof failed, and the goal that was left there. The goal has the name of the
clause. The digest is that of the edit, of the functions that it changes with their contracts, of the function whose proof failed, and of
the definitions which those contracts name, with those that these name in the same crate. So an edit is to be tried again where its
function or its promise changes, and not where something far below does."""
import hashlib
import os
from dataclasses import dataclass

from documents.antt import Type
from edit_files import TOP, body_of, uncommented

HEAD = '# What refused each edit when it was last tried, as tools/gate/edits has entered it: a digest, the edit, the function, and the goal.\n'


@dataclass
class Refusal:
    """What refused an edit: the function, as its label, and the goal that was not proved."""
    digest: str
    edit: str
    function: str
    goal: str

    def line(self):
        return '%s %s %s %s\n' % (self.digest, self.edit, self.function, self.goal)


def path_of(crate):
    return os.path.join(TOP, 'edits', crate, 'refused')


def read(crate):
    """The refusals of a crate, by the names of their edits."""
    try:
        with open(path_of(crate), encoding='utf-8') as lines:
            found = [Refusal(*line.rstrip('\n').split(' ', 3)) for line in lines if not line.startswith('#')]
    except FileNotFoundError:
        return {}
    return {it.edit: it for it in found}


def write(crate, refusals):
    """Writes the ledger of a crate, in the order of the edits' names."""
    with open(path_of(crate), 'w', encoding='utf-8') as file:
        file.write(HEAD + ''.join(refusals[name].line() for name in sorted(refusals)))


def functions_named(house, crate, label):
    """The functions of a crate with this label."""
    return [it for (of, _path), source in house.sources.items() if of == crate for it in source.functions if it.label() == label]


def promised(house, function):
    """The text of each definition that a function's contract names, and of those of its crate that these name."""
    pending, found = house.cited(function.file, function.contract), []
    while pending:
        it = pending.pop()
        if it not in found:
            found.append(it)
            crate = it.crate if isinstance(it, Type) else it.module.crate
            pending += house.cites(it) if crate == function.file.crate else []
    return sorted(uncommented(it.believed() if isinstance(it, Type) else '\n'.join(it.text)) for it in found)


def digest(house, edit, refusing):
    """The digest of an edit that the function with this label refuses."""
    sum_of, changed = hashlib.sha256(edit.text.encode()), edit.changed(house)
    for file, text, _at in edit.places if None in changed else ():
        sum_of.update(uncommented(house.sources[edit.crate, file].text if (edit.crate, file) in house.sources else text).encode())
    functions = {it.place(): it for it in [*filter(None, changed), *functions_named(house, edit.crate, refusing)]}
    for place in sorted(functions):
        it = functions[place]
        sum_of.update(uncommented(body_of(it.file.text, it)).encode())
        sum_of.update('\n'.join(promised(house, it)).encode())
    return sum_of.hexdigest()[:16]


def standing(house, edit, refusals):
    """Whether the ledger has a line of the edit (None where it has none), and whether it is still so."""
    it = refusals.get(edit.name())
    return None if it is None else it.digest == digest(house, edit, it.function)
