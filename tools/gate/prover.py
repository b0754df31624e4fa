"""The words with which the toolchain's prover is called over the libraries that ./prove, or a check, has left in a checkout. Used by
tools/gate/archive and tools/gate/edits.

`rt check` would prove each crate below once more, since the gate leaves only what its libraries say, and not what a later proof could
begin with. So these scripts call the prover as `rt` does."""
import os
import shutil
import sys

from gate.built import below, named

TOP = os.path.dirname(os.path.dirname(os.path.dirname(os.path.abspath(__file__))))


def kit():
    """The folder of the toolchain."""
    rt = shutil.which('rt')
    if not rt:
        sys.exit('the toolchain is not installed')
    return os.path.dirname(os.path.dirname(os.path.realpath(rt)))


def rattle():
    """The path of the prover."""
    return os.path.join(kit(), 'bin', 'rattle')


def library(name):
    """The library of a crate, as it was built in this checkout."""
    path = os.path.join(TOP, 'crates', name, 'out', 'rlib', name + '.rlib')
    if not os.path.isdir(path):
        sys.exit('the library of %s is not built in this checkout: ./prove builds each' % name)
    return path


def words(crate, jobs=1):
    """The words after `rattle check` or `rattle build` for a crate, in whose folder, or a copy of it, it is called."""
    crates, home = named(), kit()
    root = 'main' if os.path.isfile(os.path.join(TOP, 'crates', crate, 'src', 'main.rt')) else 'lib'
    found = ['--crate-name', crate, os.path.join('src', root + '.rt')]
    for name in ['std'] + crates[crate]:
        found += ['--extern', '%s=%s' % (name, library(name) if name in crates else os.path.join(home, 'rlibs', name + '.rlib'))]
    found += ['-L', 'dependency=' + os.path.join(home, 'rlibs')]
    for name in below(crate)[:-1]:
        found += ['-L', 'dependency=' + os.path.dirname(library(name))]
    found += ['--antt-project', os.path.join(home, 'rattle', 'logic', 'antt-project.json'), '--logic-built', os.path.join(home, 'logic_built')]
    return found + ['--jobs', str(jobs), '--links', crate + '=']
