#!/usr/bin/env python3
"""Says what is built of the sources of this checkout, and where. Scripts of Python import it, and others run it.

  tools/gate/built.py [FILE]               prints the path of a file: of that of release/, if it was built from these sources and is for this
                                           machine; or else of the one that was built here, if no source of it is newer
  tools/gate/built.py --released [FILE]    only the one of release/: `cedar`, `libcedar_c.a` or `playground.html`
  tools/gate/built.py --current [FILE]     only the one that was built here: one of these, the program of another crate, or CRATE_tests
  tools/gate/built.py --digest [FILE]      prints the SHA-256 of the sources of a file: of the lines of its crates in crates.txt, and of the
                                           SHA-256 and the path of each file of their src, specs and proofs
  tools/gate/built.py --crates CRATE       prints the crates below a crate, lowest first, and the crate last

FILE is `cedar`, if it is left out. Where there is no such file, it says on standard error why release/ has none, and ends with 1.

Of `playground.html`, which is for every machine, the digest is that of the module in it: of the library, and of what makes a module of the
library. tools/gate/page --check compares the page around the module."""
import hashlib
import os
import re
import sys

TOP = os.path.dirname(os.path.dirname(os.path.dirname(os.path.abspath(__file__))))
RELEASE = os.path.join(TOP, 'release')
PLAYGROUND = 'playground.html'
PARTS = ('src', 'specs', 'proofs')
# What makes a module of the library, and the page around it.
MODULE = ('c/cedar.h', 'page/module', 'tools/gate/page_module.py')
PAGE = ('page', 'tools/gate/page', 'tools/gate/page_module.py')


def named(top=TOP):
    """The libraries that each crate names in crates.txt."""
    with open(os.path.join(top, 'crates.txt'), encoding='utf-8') as lines:
        rows = [line.split('#')[0].partition(':') for line in lines]
    return {row[0].split()[0]: row[2].split() for row in rows if row[1]}


def below(crate, libraries=None):
    """The crates below a crate, lowest first, and the crate."""
    libraries = libraries or named()
    order = []

    def visit(it):
        if it in libraries and it not in order:
            for lower in libraries[it]:
                visit(lower)
            order.append(it)

    visit(crate)
    return order


def crate_of(file):
    """The crate of which a file is built."""
    found = re.fullmatch(r'lib(\w+)\.a|(\w+)_tests', file)
    return 'cedar_c' if file == PLAYGROUND else found[1] or found[2] if found else file


def folders(file, others=()):
    """The folders of the sources of a file, and these."""
    crates = [os.path.join('crates', crate, part) for crate in below(crate_of(file)) for part in PARTS]
    return [it for it in (*crates, *others) if os.path.exists(os.path.join(TOP, it))]


def walked(path):
    """A file, or a folder with all that is in it."""
    yield path
    for folder, inner, names in os.walk(path):
        yield from (os.path.join(folder, it) for it in inner + names)


def sha256(path):
    with open(path, 'rb') as file:
        return hashlib.sha256(file.read()).hexdigest()


def digest(file='cedar'):
    """The SHA-256 of the sources of a file, as sha256sum prints those of the files in it."""
    crates = below(crate_of(file))
    with open(os.path.join(TOP, 'crates.txt'), encoding='utf-8') as lines:
        made = hashlib.sha256(''.join(it for it in lines if re.split('[: ]', it)[0] in crates).encode())
    paths = {it for folder in folders(file, MODULE if file == PLAYGROUND else ()) for it in walked(os.path.join(TOP, folder))}
    for path in sorted((os.path.relpath(it, TOP) for it in paths if os.path.isfile(it)), key=os.fsencode):
        made.update(('%s  %s\n' % (sha256(os.path.join(TOP, path)), path)).encode())
    return made.hexdigest()


def value(key):
    """What release/MANIFEST says under a key."""
    with open(os.path.join(RELEASE, 'MANIFEST'), encoding='utf-8') as lines:
        return next((line.rstrip('\n').partition(': ')[2] for line in lines if line.startswith(key + ': ')), '')


def refusal(file):
    """Why a file of release/ is not one that was built from these sources for this machine, if so."""
    path = os.path.join(RELEASE, file)
    if not os.path.exists(path):
        return 'there is no release/%s' % file
    if file != PLAYGROUND and (os.uname().sysname, os.uname().machine) != ('Linux', 'x86_64'):
        return 'release/%s is for x86-64 Linux' % file
    try:
        if value(file + ' sources') != digest(file):
            return 'release/%s was built from other sources than this checkout has' % file
        return '' if value(file) == sha256(path) else 'release/%s is not what release/MANIFEST names' % file
    except OSError as error:
        return 'release/%s cannot be compared with the sources: %s: %s' % (file, os.path.relpath(error.filename, TOP), error.strerror)


def current(file='cedar'):
    """The path of a file that was built here, if no source of it is newer."""
    path = os.path.join(TOP, 'crates', crate_of(file), 'out', file)
    if not os.path.exists(path):
        return None
    sources = [os.path.join(TOP, it) for it in ('crates.txt', *folders(file, PAGE if file == PLAYGROUND else ()))]
    newest = max(os.lstat(it).st_mtime_ns for source in sources for it in walked(source))
    return path if newest <= os.stat(path).st_mtime_ns else None


def found(file='cedar'):
    """The path of a file that was built from these sources: that of release/, or else the one that was built here."""
    return current(file) if refusal(file) else os.path.join(RELEASE, file)


def main(words):
    option = words.pop(0) if words[:1] and words[0].startswith('--') else ''
    ways = {'': found, '--released': lambda it: None if refusal(it) else os.path.join(RELEASE, it), '--current': current,
            '--digest': digest, '--crates': lambda it: '\n'.join(below(it))}
    if option not in ways or len(words) > 1 or option == '--crates' and not words:
        print(__doc__, file=sys.stderr)
        return 2
    file = words[0] if words else 'cedar'
    said = ways[option](file)
    if not said:
        if option in ('', '--released'):
            print('cedar: ' + refusal(file), file=sys.stderr)
        return 1
    print(said)
    return 0


if __name__ == '__main__':
    sys.exit(main(sys.argv[1:]))
