"""Has the prover judge edits, several in one check. Used by tools/gate/edits.

A proof of a function rests on the contracts of what it calls, and not on their bodies. So edits of several functions are judged in one
check of a copy of the crate, which proves those functions alone and what they call. An edit is refused where the proof of a function that
it changes fails there, and it is not where all of them are still proved. The prover does not try all of a function that calls one whose
proof failed; an edit of such a function is judged in a later check. One of text outside of functions is judged alone: over the modules
that it changes, and if these are still proved, over the whole crate.

Each check begins with what those before it have kept of the crate in this checkout, and the first with what `rt check` has kept."""
import os
import re
import shutil
import subprocess
import tempfile
from dataclasses import dataclass

from edit_files import TOP, body_of
from prover import rattle, words

PARTS = ('src', 'specs', 'proofs')
VERDICT = re.compile(r'^fn \w+::(\S+): (.*)$', re.M)
GOAL = re.compile(r'`search` did not prove `([^`]+)`')
# A goal that is left, with its place in the sources.
PLACED = re.compile(r'^(?:note: )?(?:\./)?(src/\S+?):(\d+):\d+: .*?\(`([^`]+)`\)', re.M)
REJECTED = re.compile(r'^(?:\./)?(src/\S+?):(\d+):\d+: error\[[\w-]+\]', re.M)
# An error in a proof file, and what the prover says where the file names what an edit took away, which says nothing of a contract.
IN_PROOF = re.compile(r'^(?:note: )?(?:\./)?proofs/(\S+)/\w+\.antt:\d+:\d+: (.*)$', re.M)
LOST_NAME = re.compile(r'has no field|is not in scope|has no `|was not admitted|was rejected')
# An error in a lemma of a file that belongs to no function.
IN_LEMMA = re.compile(r'^(?:\./)?proofs/\w+\.antt:\d+:\d+: error: `(\w+)`: (.*)$', re.M)
# The head of an impl: its parameters, its trait and its type; a parameter; and a name that is neither a lifetime nor a module.
HEAD = re.compile(r'(?:unsafe )?impl(<.*?(?<!-)>)? (?:(.*) for )?(.*)')
PARAMETER = re.compile(r'[<,] *(\w+)(?=[:,>])')
WORD = re.compile(r"(?<!['\w])\w+(?!\w|::)")
# The attribute that names the cycle of calls of a function.
CYCLE = re.compile(r'\s*#\[cycle\((\w+)\)\]')
# A check judges at most so many edits, so that what it finds is entered before long.
MOST = 12
PROVED, FAILED, LOST, WAITS = 'proved', 'failed', 'lost', 'waits'
NOTHING = 'refused only because a proof names what it took away, which says nothing of a contract'
UNREAD = 'it does not compile: no contract was tried'


@dataclass
class Verdict:
    """What the prover says of an edit: refused by a goal of a function, or why it is not."""
    edit: object
    function: str = ''
    goal: str = ''
    why: str = ''


@dataclass
class Check:
    """What a check of a crate with edits said."""
    status: int
    said: str

    def rejected(self):
        """The files and lines that the compiler rejected before any proof."""
        return {(file, int(line)) for file, line in REJECTED.findall(self.said)}

    def of(self, function):
        """What became of the proof of a function, and the first goal that was left."""
        rows = [said for name, said in VERDICT.findall(self.said) if is_name_of(name, function)]
        if rows and all(it == PROVED for it in rows):
            return PROVED, ''
        file, last = path_in(function), function.line + body_of(function.file.text, function).count('\n')
        goals = [goal for at, line, goal in PLACED.findall(self.said) if at == file and function.line <= int(line) <= last]
        goals += [goal[1] for goal in map(GOAL.search, rows) if goal]
        if goals:
            return FAILED, goals[0]
        errors = [said for folder, said in IN_PROOF.findall(self.said)
                  if is_name_of(folder.replace('/', '::'), function) or os.path.basename(folder) == '+' + cycle_of(function)]
        if errors and 'not proved' in rows:
            return (LOST, '') if all(map(LOST_NAME.search, errors)) else (FAILED, 'proof')
        return WAITS, ''

    def failing(self):
        """The functions whose own proof failed, each with its goal."""
        errors = {}
        for folder, said in IN_PROOF.findall(self.said):
            errors.setdefault(folder.replace('/', '::'), []).append(said)
        return [(name, goal[1]) for name, said in VERDICT.findall(self.said) for goal in [GOAL.search(said)] if goal] + \
               [(name, 'proof') for name, said in errors.items() if not all(map(LOST_NAME.search, said))] + \
               [(name, 'proof') for name, said in IN_LEMMA.findall(self.said) if not LOST_NAME.search(said)]


def path_in(function):
    """The path of a function's file in its crate."""
    return os.path.relpath(function.file.file, os.path.join('crates', function.file.crate))


def module_of(file):
    """The path of a source file's module below its crate."""
    return '::'.join(it for it in file[len('src/'):-len('.rt')].split('/') if it not in ('lib', 'main'))


def owner_in(function):
    """The type of a function and its trait, with their arguments, as the prover writes them."""
    heads = [it for it in map(HEAD.match, function.file.text.split('\n')[:function.line]) if it]
    if not function.owner or not heads:
        return function.owner
    parameters = PARAMETER.findall(heads[-1][1] or '')
    trait, owner = ([it for it in WORD.findall(part or '') if it not in parameters] for part in heads[-1].groups()[1:])
    return ''.join(owner + trait) if trait else '+'.join(owner)


def name_of(function):
    """The name of a function below its crate, as the prover writes it, or the end of it where its type is declared in another file."""
    is_here = not function.owner or any(it.name == function.owner for it in function.file.types)
    return '::'.join(filter(None, (module_of(path_in(function)) if is_here else '', owner_in(function), function.name)))


def is_name_of(name, function):
    """Whether the prover's name is that of a function."""
    return ('::' + name).endswith('::' + name_of(function))


def cycle_of(function):
    """The name of the cycle of calls that a function is in, whose functions have one proof, or its own name."""
    for line in reversed(function.file.text.split('\n')[:function.line - 1]):
        found = CYCLE.match(line)
        if found or not line.strip() or line.endswith(('{', '}')):
            break
    return found[1] if found else function.name


def names_of(house, edits):
    """The names of the functions that edits change, as the prover writes them."""
    return sorted({name_of(it) for edit in edits for it in edit.changed(house) if it})


def check(crate, texts, only, kept):
    """Checks a copy of a crate with these texts: the functions and modules of these names, or all where there is none, or an empty one. It
    begins with what the folder `kept` has, and leaves there what it keeps."""
    with tempfile.TemporaryDirectory(prefix='edits-') as room:
        for part in PARTS:
            if os.path.isdir(os.path.join(TOP, 'crates', crate, part)):
                shutil.copytree(os.path.join(TOP, 'crates', crate, part), os.path.join(room, part))
        for file, text in texts.items():
            with open(os.path.join(room, file), 'w', encoding='utf-8') as target:
                target.write(text)
        paths = [word for it in only for word in ('--only', it)] if all(only) else []
        ran = subprocess.run([rattle(), 'check', *words(crate), *paths, '--incremental', kept], cwd=room, stdin=subprocess.DEVNULL,
                             stdout=subprocess.PIPE, stderr=subprocess.STDOUT, encoding='utf-8', errors='replace', check=False)
    return Check(ran.returncode, ran.stdout)


def begun(crate):
    """The folder of what checks of a crate with edits keep, in this checkout. It begins with what `rt check` has kept of the crate here."""
    kept, own = (os.path.join(TOP, 'crates', crate, 'out', it) for it in ('edits', 'incremental'))
    if not os.path.isdir(kept) and os.path.isdir(own):
        shutil.copytree(own, kept, symlinks=True, copy_function=linked)
    os.makedirs(kept, exist_ok=True)
    return kept


def linked(one, other):
    """Copies a file that a check has kept, by a link where it can: a check replaces such a file, and changes none."""
    if one.endswith('.oantt'):
        try:
            return os.link(one, other)
        except OSError:
            pass
    return shutil.copy2(one, other)


def merged(edits):
    """The texts of the files that edits change, with all their changes. No two of them change one line."""
    texts = {}
    for edit in edits:
        changed = edit.lines()
        for file, text in edit.texts.items():
            lines = text.split('\n')
            whole = texts.setdefault(file, lines)
            for line in (at - 1 for of, at in changed if of == file):
                whole[line] = lines[line]
    return {file: '\n'.join(lines) for file, lines in texts.items()}


def batch_of(house, edits):
    """The first edits of a list that change different functions, of different cycles of calls, and no text outside of functions."""
    taken, batch = set(), []
    for edit in edits:
        its = edit.changed(house)
        keys = {key for it in its if it for key in ((it.file.file, it.label()), (cycle_of(it),))}
        if None not in its and not keys & taken:
            taken |= keys
            batch.append(edit)
    return batch


def judged(house, edit, found):
    """What a check says of an edit by the functions that it changes, or None where it says nothing of them."""
    states = [(it, *found.of(it)) for it in edit.changed(house) if it]
    refusing = [Verdict(edit, it.label(), goal) for it, state, goal in states if state == FAILED]
    if refusing:
        return refusing[0]
    if any(state == LOST for _it, state, _goal in states):
        return Verdict(edit, why=NOTHING)
    is_proved = None not in edit.changed(house) and all(state == PROVED for _it, state, _goal in states)
    return Verdict(edit, why='NOT REFUSED: what it changes is still proved') if is_proved else None


def alone(house, edit, kept):
    """Judges one edit over the modules that it changes, and if these are still proved, over its whole crate."""
    modules = sorted(module_of(it) for it in edit.texts if it.startswith('src/'))
    found = check(edit.crate, edit.texts, modules, kept)
    if modules and all(modules) and not found.status:
        found = check(edit.crate, edit.texts, (), kept)
    if found.rejected():
        return Verdict(edit, why=UNREAD)
    if not found.status:
        return Verdict(edit, why='NOT REFUSED: the crate is still proved with it')
    if found.status != 1:
        return Verdict(edit, why='the prover gave no verdict (status %d)' % found.status)
    return judged(house, edit, found) or next((Verdict(edit, *it) for it in found.failing()), Verdict(edit, why=NOTHING))


def tries(house, crate, edits):
    """Judges edits of a crate, and gives each verdict as it is found."""
    kept = begun(crate)
    left, single = [it for it in edits if None not in it.changed(house)], [it for it in edits if None in it.changed(house)]
    most = MOST
    while left:
        batch = batch_of(house, left)[:most]
        found = check(crate, merged(batch), names_of(house, batch), kept)
        verdicts = verdicts_of(house, batch, found)
        yield from verdicts
        done = [it.edit for it in verdicts]
        # A check that says nothing of any edit is made again with half of them, and one edit of which it says nothing is judged alone.
        if not done and len(batch) == 1:
            done = batch
            single += batch
        most = MOST if done else len(batch) // 2
        left = [it for it in left if it not in done]
    for edit in single:
        yield alone(house, edit, kept)


def verdicts_of(house, batch, found):
    """What a check says of the edits of a batch. Of some it may say nothing."""
    if found.rejected():
        return [Verdict(it, why=UNREAD) for it in batch if it.lines() & found.rejected()]
    return [it for it in (judged(house, edit, found) for edit in batch) if it]
