"""What tools/running/bindings tests of a library that is installed: that pkg-config says how a program is compiled over it, by which name programs
load it, and that a wheel of the binding for Python is installed and has it."""
import glob
import os
import re
import shlex
import shutil
import sys
import sysconfig

from scripts import script

TOP = os.path.dirname(os.path.dirname(os.path.dirname(os.path.abspath(__file__))))
BINDINGS = os.path.join(TOP, 'bindings')
EXAMPLES = (('cc', '-std=c11', 'example.c'), ('c++', '-std=c++17', 'example.cpp'))
# Ends with 0 where a Python can make a wheel without a network. setuptools has to be imported before pip.
CAN_MAKE_A_WHEEL = """
import setuptools, pip
assert int(setuptools.__version__.split('.')[0]) >= 61
try:
    import setuptools.command.bdist_wheel
except ImportError:
    import wheel
"""


def words_of(ended):
    """What a command has said."""
    return (ended.stdout + ended.stderr).decode(errors='replace')


def spaced(run):
    """The folder of an installed library whose path has a space; None where it cannot be made."""
    folder = os.path.join(run.room, 'a prefix')
    ended = run.done([os.path.join(TOP, 'tools', 'library'), '--of', os.path.join(run.folder, 'libcedar.a'), folder])
    run.judge('tools/library --of libcedar.a', ended.returncode == 0, words_of(ended))
    return folder if ended.returncode == 0 else None


def test_commands(run):
    """Runs the commands of bindings/c/README.md as they are written, but for the folder that they make and the library that is tested."""
    with open(os.path.join(BINDINGS, 'c', 'README.md'), encoding='utf-8') as file:
        blocks = re.findall(r'\n\n((?:    [^\n]*\n)+)', file.read())
    folder, archive = os.path.join(run.room, 'of_commands'), os.path.join(run.folder, 'libcedar.a')
    run.judge('bindings/c/README.md: the commands', len(blocks) == 3 and all('/tmp/cedar' in it for it in blocks))
    for number, block in enumerate(blocks):
        ended = run.done(['bash', '-c', 'set -e\n' + block.replace('/tmp/cedar', folder).replace('release/libcedar_c.a', archive)], folder=TOP)
        said = ended.stdout.count(b'{"decision":"allow"')
        run.judge('bindings/c/README.md: commands %d' % number, ended.returncode == 0 and (number == 0) == (said == 0), words_of(ended))


def test_names(run, *programs):
    """Checks by which name programs load the library: what the library says, and what programs over it do."""
    if not shutil.which('readelf'):
        run.skip('the name of the library', '`readelf` is not installed')
        return
    wanted = 'libcedar.so.%d' % script('library').ABI
    for path, kind in [(os.path.join(run.folder, 'libcedar.so'), 'SONAME'), *((it, 'NEEDED') for it in programs)]:
        ended = run.done(['readelf', '-d', path], LC_ALL='C')
        names = re.findall(r'\(%s\).*\[(libcedar.*)\]' % kind, ended.stdout.decode())
        run.judge('%s of %s' % (kind, os.path.basename(path)), names == [wanted], words_of(ended))


def test_installed(run):
    """Compiles the examples in C and C++ with what pkg-config says of the installed library, and runs them."""
    if not shutil.which('pkg-config'):
        run.skip('the installed library', '`pkg-config` is not installed')
        return
    test_commands(run)
    folder, programs = spaced(run), []
    if not folder:
        return
    shared = sorted(os.listdir(os.path.join(folder, 'share', 'cedar')))
    run.judge('share/cedar', shared == ['calls.c', 'calls.h', 'handles.c', 'heap.c', 'publications.c', 'shared.c', 'tsan.supp'], repr(shared))
    said = run.done(['pkg-config', '--cflags', '--libs', 'cedar'], PKG_CONFIG_PATH=os.path.join(folder, 'lib', 'pkgconfig'))
    run.judge('pkg-config', said.returncode == 0, words_of(said))
    for compiler, standard, source in EXAMPLES if said.returncode == 0 else ():
        if not shutil.which(compiler):
            run.skip('the installed library with ' + source, '`%s` is not installed' % compiler)
            continue
        path = os.path.join(run.room, 'installed_' + source.replace('.', '_'))
        source_path = os.path.join(BINDINGS, 'c', source)
        made = run.done([compiler, standard, source_path, *shlex.split(said.stdout.decode()), '-o', path])
        run.shown('the installed library with ' + source, [path], made)
        programs += [path] * (made.returncode == 0)
    test_names(run, *programs)


def maker(run):
    """The path of a Python that can make a wheel without a network; None where none can."""
    pythons = [it for it in (sys.executable, '/usr/bin/python3') if os.path.exists(it)]
    return next((it for it in pythons if run.done([it, '-c', CAN_MAKE_A_WHEEL]).returncode == 0), None)


def test_platform(run, makes, sources, found):
    """Checks that a wheel with the library is for machines of this kind, and that one without it is for all."""
    platform = re.sub('[-.]', '_', sysconfig.get_platform())
    run.judge('the platform of the wheel', [it.endswith('-py3-none-%s.whl' % platform) for it in found] == [True], repr(found))
    plain, wheels = [os.path.join(run.room, it) for it in ('python_without', 'wheels_without')]
    shutil.copytree(sources, plain, ignore=shutil.ignore_patterns('libcedar.so', 'build', '*.egg-info'))
    made = run.done([*makes, '-w', wheels, plain])
    names = [os.path.basename(it) for it in glob.glob(os.path.join(wheels, '*.whl'))]
    run.judge('a wheel without the library', [it.endswith('-py3-none-any.whl') for it in names] == [True], repr(names) + words_of(made))


def test_wheel(run):
    """Makes a wheel of the binding for Python with the library in it, installs it in a folder, and runs the example over it."""
    python = maker(run)
    if not python:
        run.skip('the wheel of the binding for Python', 'pip, setuptools and wheel are not installed')
        return
    sources, wheels, site = [os.path.join(run.room, it) for it in ('python', 'wheels', 'site')]
    shutil.copytree(os.path.join(BINDINGS, 'python'), sources, ignore=shutil.ignore_patterns('__pycache__'))
    shutil.copy(os.path.join(run.folder, 'libcedar.so'), os.path.join(sources, 'bobbinjade'))
    pip = [python, '-m', 'pip', '--disable-pip-version-check', '--no-cache-dir']
    made = run.done([*pip, 'wheel', '--no-deps', '--no-index', '--no-build-isolation', '-w', wheels, sources])
    found = glob.glob(os.path.join(wheels, 'bobbinjade-*.whl'))
    run.judge('the wheel', made.returncode == 0 and len(found) == 1, words_of(made))
    test_platform(run, [*pip, 'wheel', '--no-deps', '--no-index', '--no-build-isolation'], sources, found)
    if len(found) == 1:
        put = run.done([*pip, 'install', '--no-deps', '--no-index', '--target', site, *found])
        run.judge('the wheel, installed', put.returncode == 0, words_of(put))
        # The source of the package is not beside this copy of the example.
        example = shutil.copy(os.path.join(BINDINGS, 'python', 'example.py'), wheels)
        run.shown('the wheel', [python, example], PYTHONPATH=site, BOBBINJADE_LIB='', PYTHONDONTWRITEBYTECODE='1')
