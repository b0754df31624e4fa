"""What the calls below promise rests on: the definitions that their contracts reach, in reading order. Used by tools/documents/believed and
tools/documents/definitions."""
import sys

from documents.antt import Definition, Type

# The calls, by crate and name.
CALLS = [
    ('cedar_auth_law', 'engine_is_sound'), ('cedar_auth', 'serve'), ('cedar_schema', 'Schema::read'), ('cedar_conform_entities', 'read_entities'),
    ('cedar_conform', 'read_request'), ('cedar_parser', 'parse'), ('cedar_files', 'validate'), ('cedar_cli', 'authorize'),
]


def function(house, crate, label):
    """The public function of this name."""
    found = [it for source in house.sources.values() if source.crate == crate for it in source.functions
             if it.is_public and not it.trait and it.label() == label]
    if len(found) != 1 or not found[0].contract:
        sys.exit('tools/documents/promises.py: %s: %d public functions of the name %s with a contract' % (crate, len(found), label))
    return found[0]


def reached(house, calls):
    """The units and types that the contracts of the calls reach."""
    units, types, left = set(), set(), []
    for crate, label in calls:
        it = function(house, crate, label)
        left += house.cited(it.file, it.signature) + house.cited(it.file, it.contract)
    while left:
        it = left.pop()
        if isinstance(it, Type) and it not in types:
            types.add(it)
            left += house.cites(it)
        elif isinstance(it, Definition) and it.unit not in units:
            units.add(it.unit)
            left += [x for member in it.unit.definitions for x in house.cites(member)]
    return units, types


def ordered(house, units):
    """The units in reading order: by crate, in it cited files before those that cite them, and in a file by lines."""
    order, crates = [], list(house.libraries)

    def visit(module):
        if module in order:
            return
        for _, path, _, _ in module.imports:
            lower = house.modules.get((path.split('.')[1], '.'.join(path.split('.')[2:]))) if path.startswith('Rattle.') else None
            if lower and lower.crate == module.crate:
                visit(lower)
        order.append(module)

    for module in sorted({it.module for it in units}, key=lambda it: (crates.index(it.crate), it.file)):
        visit(module)
    order.sort(key=lambda it: crates.index(it.crate))
    place = {it: at for at, it in enumerate(order)}
    return sorted(units, key=lambda it: (place[it.module], it.definitions[0].line))


def ordered_types(house, types):
    """The Rust types in reading order."""
    return sorted(types, key=lambda it: (list(house.libraries).index(it.crate), it.file.file, it.line))
