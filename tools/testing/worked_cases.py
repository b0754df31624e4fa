"""Runs the worked cases of tests/testing.

A case is a folder with the file `command`, the words of the command line. In it, ROOM denotes a temporary folder, and `input` is
standard input if it is there. The wanted results are `output`, `messages` (standard error), `status` and `junit.xml`; a file that
is not there wants nothing, or the status 0."""
import os
import shlex
import subprocess
import sys
import tempfile

from testing.printable import Stop

FOLDER = os.path.join(os.path.dirname(os.path.dirname(os.path.dirname(os.path.abspath(__file__)))), 'tests', 'testing')


def held(folder, name, other=''):
    """What a file holds, or something else where it is not there."""
    path = os.path.join(folder, name)
    if not os.path.exists(path):
        return other
    with open(path, encoding='utf-8', newline='') as file:
        return file.read()


def results(script, program, folder, room):
    """What a case gives: standard output, standard error, the status and the report of JUnit."""
    words = [it.replace('ROOM', room) for it in shlex.split(held(folder, 'command'))]
    words = [sys.executable, script, '--program', program, *words]
    done = subprocess.run(words, cwd=folder, input=held(folder, 'input').encode(), capture_output=True, check=False)
    said = [it.decode().replace(room, 'ROOM') for it in (done.stdout, done.stderr)]
    return [*said, '%d\n' % done.returncode, held(room, 'junit.xml')]


def test(script, program):
    """Runs all cases; the exit status."""
    if not os.path.isdir(FOLDER):
        raise Stop(1, 'the cases of tests/testing are in a checkout alone')
    passed = failed = 0
    for name in sorted(os.listdir(FOLDER)):
        folder = os.path.join(FOLDER, name)
        if not os.path.exists(os.path.join(folder, 'command')):
            continue
        wanted = [held(folder, it, '0\n' if it == 'status' else '') for it in ('output', 'messages', 'status', 'junit.xml')]
        with tempfile.TemporaryDirectory() as room:
            found = results(script, program, folder, room)
        passed, failed = passed + (wanted == found), failed + (wanted != found)
        for what, one, other in zip(('output', 'messages', 'status', 'junit.xml'), wanted, found):
            if one != other:
                print('%s: %s: wanted\n%s\nand found\n%s' % (name, what, one, other))
    print('%d passed, %d failed' % (passed, failed))
    return 1 if failed or not passed else 0
