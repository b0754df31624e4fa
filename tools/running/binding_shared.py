"""What tools/running/bindings tests of the shared engine, c/shared.c, and of what the library exports."""
import os
import re
import shutil

from scripts import script

TOP = os.path.dirname(os.path.dirname(os.path.dirname(os.path.abspath(__file__))))
NOTES = os.path.join(TOP, 'examples', 'notes')
# The versions that are published while threads ask, and the threads that ask until the engine is closed: plainly, and under tools.
MANY, FEW = ['1000', '100'], ['10', '8']
# The header of helgrind's requests, by which c/shared.c says what its atomics order.
HELGRIND = '/usr/include/valgrind/helgrind.h'


def objects(run, *words):
    """The C files of the library, compiled with these words, so that a tool sees what they order; None where they do not compile."""
    made = []
    for part in script('library').PARTS:
        path = os.path.join(run.room, '%s.%d.o' % (part, len(os.listdir(run.room))))
        source = os.path.join(TOP, 'c', part + '.c')
        ended = run.done(['cc', '-std=c11', '-O1', '-g1', '-Wall', '-Wextra', '-Wpedantic', '-Wconversion', '-Werror', *words, '-c', source, '-o', path])
        run.judge('c/%s.c with %s' % (part, ' '.join(words)), ended.returncode == 0, ended.stderr.decode(errors='replace'))
        made += [path] * (ended.returncode == 0)
    return made if len(made) == len(script('library').PARTS) else None


def seen(run, name, words, under, versions):
    """Runs tests/bindings/shared.c over the C files with these words, under a tool."""
    made = objects(run, *words)
    path = made and run.compiled('cc', 'shared.c', '-std=gnu11', *words, *made)
    if path:
        run.counted('shared.c ' + name, [*under, path, NOTES, *versions], TSAN_OPTIONS='exitcode=66')


def test_shared(run):
    """Threads over a shared engine: over the library as it is, and under tools that see what c/shared.c orders, without suppressions."""
    path = run.compiled('cc', 'shared.c', '-std=gnu11')
    if path:
        run.counted('shared.c', [path, NOTES, *MANY])
    if path and shutil.which('valgrind'):
        under = ['valgrind', '-q', '--fair-sched=try', '--error-exitcode=99', '--leak-check=full', '--errors-for-leak-kinds=definite,possible']
        run.counted('shared.c under valgrind', [*under, path, NOTES, *FEW])
    if run.can('cc', '-fsanitize=thread'):
        seen(run, 'under ThreadSanitizer', ['-fsanitize=thread'], [], MANY)
    else:
        run.skip('shared.c under ThreadSanitizer', 'the compiler cannot link it')
    if shutil.which('valgrind') and os.path.exists(HELGRIND):
        under = ['valgrind', '-q', '--tool=helgrind', '--fair-sched=try', '--error-exitcode=99']
        seen(run, 'under helgrind', ['-DCEDAR_HELGRIND'], under, FEW)
    else:
        run.skip('shared.c under helgrind', 'valgrind is not installed')


def test_exports(run):
    """A host that finds each call by its name; and what the shared library exports, which is what cedar.h declares, and no more."""
    library = os.path.join(run.folder, 'libcedar.so')
    path = run.compiled('cc', 'by_name.c', '-std=gnu11', '-ldl')
    if path:
        run.counted('by_name.c', [path, library, NOTES])
    if not shutil.which('readelf'):
        run.skip('what the library exports', '`readelf` is not installed')
        return
    symbols = run.done(['readelf', '-W', '--dyn-syms', library], LC_ALL='C').stdout.decode()
    names = sorted(re.findall(r' (?:GLOBAL|WEAK) +DEFAULT +\d+ (\w+)$', symbols, re.M))
    declared = sorted(script('library').exported())
    run.judge('what libcedar.so exports', names == declared and len(names) > 40, repr(set(names) ^ set(declared)))
    dynamic = run.done(['readelf', '-W', '-d', library], LC_ALL='C').stdout.decode()
    run.judge('what libcedar.so needs', re.findall(r'\(NEEDED\).*\[(.*)\]', dynamic) == ['libc.so.6'], dynamic)
    run.judge('libcedar.so is bound when it is loaded', 'BIND_NOW' in dynamic and 'TEXTREL' not in dynamic, dynamic)
