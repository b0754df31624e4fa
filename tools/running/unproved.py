#!/usr/bin/env python3
"""Code that is compiled over checked libraries without a proof of its own: the tests of tests/unproved/, and the host of examples/service.

  tools/running/unproved.py --fmt    lays out its files, as `rt fmt` does those of a crate

Each folder is a module of one crate, `examples`, which is made in a copy of the repository. Its files end in .rt.in, since the gate
refuses a file that ends in .rt and is in no crate; `crate::` in them is the folder. A folder with `data/` has cases, JSON Lines with
one case a line: each file is a test, which calls the folder's `check`."""
import json
import os
import re
import shutil
import subprocess
import sys
import tempfile
from glob import glob

TOP = os.path.dirname(os.path.dirname(os.path.dirname(os.path.abspath(__file__))))
sys.dont_write_bytecode = True
sys.path.insert(0, os.path.join(TOP, 'tools'))
from gate.built import named  # noqa: E402

KIND = '.rt.in'
FOLDER = 'tests/unproved'
# The host: its module, its folder, and the folder whose files its test reads.
HOST, HOST_FOLDER, HOST_FILES = 'example_host', 'examples/service/host', 'examples/service'
CRATE = re.compile(r'\b([a-z]\w*)::')
# A place of the crate that is made, as the toolchain writes it.
PLACE = re.compile(r'(?:\bsrc/)?\b([a-z][\w/]*)\.rt:(\d+)')


def paths(pattern):
    """The files of the repository that fit a pattern, in order."""
    return sorted(os.path.relpath(it, TOP) for it in glob(os.path.join(TOP, pattern), recursive=True))


def read(path):
    """The lines of a file of the repository."""
    with open(os.path.join(TOP, path), encoding='utf-8') as file:
        return file.read().split('\n')


def folders():
    """The folders, by the names of their modules."""
    found = {it.split('/')[-2]: os.path.dirname(it) for it in paths('%s/*/lib%s' % (FOLDER, KIND))}
    return {**found, HOST: HOST_FOLDER}


def data_of(folder):
    """The files of cases of a folder."""
    return paths(folder + '/data/*.jsonl')


def lines_of(files):
    """The lines of files, each with its place."""
    return [('%s:%d' % (path, at), line) for path in files for at, line in enumerate(read(path), 1) if line]


def cases_of(folder):
    """The cases of a folder, each with its place."""
    return lines_of(data_of(folder))


def literal(text):
    """The bytes of a text, as Rattle writes them."""
    return 'b"%s"' % ''.join(chr(it) if 32 <= it < 127 and it not in b'"\\' else '\\x%02x' % it for it in text.encode())


def tests_of_cases(name, folder):
    """The module of the tests that the files of cases of a folder are, each line with its place."""
    made = [('', 'use crate::%s::check;' % name)]
    for path in data_of(folder):
        made += [(path, it) for it in ('', '#[test]', 'fn %s(rt: HostRuntime) {' % os.path.basename(path).removesuffix('.jsonl'),
                                       '    check(&rt, rt.alloc(), %s);' % literal('\n'.join(read(path))), '}')]
    return made


def module(name, path):
    """The lines of a file of a folder, each with its place."""
    return [('%s:%d' % (path, at), line.replace('crate::', 'crate::%s::' % name))
            for at, line in enumerate(read(path), 1) if not line.startswith('#![')]


def modules(only=None):
    """The modules of all folders, or of some, by their paths below src/."""
    made = {}
    for name, folder in folders().items():
        if only and name not in only:
            continue
        for path in paths(folder + '/**/*' + KIND):
            inner = os.path.relpath(path, folder).removesuffix(KIND)
            made[name if inner in ('lib', 'main') else '%s/%s' % (name, inner)] = module(name, path)
        if data_of(folder):
            made[name + '/cases'] = tests_of_cases(name, folder)
    return made


def tests_in(lines):
    """The functions of a module that are tests, each with its place."""
    return [(lines[at + 1][1].split('(')[0].removeprefix('fn '), lines[at + 1][0])
            for at, (_, line) in enumerate(lines) if line.strip() == '#[test]']


def counted(place):
    """The places that a test denotes, by its own: those of its cases, or that place."""
    return [it for it, _ in lines_of([place])] if place.endswith('.jsonl') else [place]


def count_tests(made):
    """How many tests modules have. Each case is one."""
    return sum(len(counted(place)) for lines in made.values() for _, place in tests_in(lines))


def place_of(made, test_module, function):
    """The place of a test."""
    return dict(tests_in(made.get(test_module.replace('::', '/'), []))).get(function, test_module)


def used_by(made):
    """The libraries that modules use."""
    libraries = named()
    known = set(libraries) | {it for lower in libraries.values() for it in lower}
    return {it for lines in made.values() for _, line in lines for it in CRATE.findall(line) if it in known}


def assemble(top, made):
    """Makes a copy of the repository with the crate `examples` of these modules. Gives the crate's folder."""
    for name in ('crates.txt', 'HANDLES'):
        shutil.copy2(os.path.join(TOP, name), os.path.join(top, name))
    shutil.copytree(os.path.join(TOP, 'crates'), os.path.join(top, 'crates'), symlinks=True, ignore=shutil.ignore_patterns('out'))
    with open(os.path.join(top, 'crates.txt'), 'a', encoding='utf-8') as file:
        file.write('examples: %s\n' % ' '.join(sorted(used_by(made))))
    crate = os.path.join(top, 'crates', 'examples')
    lib = [('', '//! Code that is not proved.'), ('', '#![tactic(auto)]'), ('', '')]
    lib += [('', '#[cfg(test)]\nmod %s;' % it) for it in sorted(it for it in made if '/' not in it)]
    for name, lines in {**made, 'lib': lib}.items():
        path = os.path.join(crate, 'src', name + '.rt')
        os.makedirs(os.path.dirname(path), exist_ok=True)
        with open(path, 'w', encoding='utf-8') as file:
            file.write('\n'.join(line for _, line in lines).rstrip() + '\n')
    return crate


def host_files():
    """The words of `rt try` for the files that the test of the host reads."""
    names = (path for path in paths(HOST_FILES + '/*.*') if not path.endswith('.md'))
    return [word for path in names for word in ('--data', '%s=%s' % (os.path.basename(path), os.path.join(TOP, path)))]


def placed(text, made):
    """The messages of the toolchain with the places from which the lines are."""
    def place(found):
        lines, at = made.get(found[1], []), int(found[2])
        return lines[at - 1][0] or found[0] if 0 < at <= len(lines) else found[0]

    return PLACE.sub(place, text)


def lay_out():
    """Lays out the files. Gives the exit status."""
    every = [path for folder in folders().values() for path in paths(folder + '/**/*' + KIND)]
    with tempfile.TemporaryDirectory() as crate:
        os.mkdir(os.path.join(crate, 'src'))
        copies = {path: os.path.join(crate, 'src', '%d.rt' % at) for at, path in enumerate(every)}
        for path, copy in copies.items():
            shutil.copyfile(os.path.join(TOP, path), copy)
        status = subprocess.run(['rt', 'fmt'], cwd=crate, stdin=subprocess.DEVNULL, check=False).returncode
        for path, copy in copies.items():
            shutil.copyfile(copy, os.path.join(TOP, path))
    return status


if __name__ == '__main__':
    sys.exit(lay_out() if sys.argv[1:] == ['--fmt'] else __doc__)
