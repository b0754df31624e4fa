"""Runs the proved program over cases."""
import json
import os
import re
import subprocess
import textwrap
from dataclasses import dataclass

from testing.printable import Stop, printable, shortened

FILES = ('schema', 'policies', 'links', 'entities')
REFUSED = re.compile(r'refused \d+\n')


@dataclass(frozen=True)
class Refusal:
    """What the program said where it answered nothing."""
    status: int
    errors: str


def is_answer(value):
    """Whether a JSON value is an answer of the program."""
    if not isinstance(value, dict):
        return False
    return isinstance(value.get('refused'), int) or (isinstance(value.get('decision'), str) and
                                                     all(isinstance(value.get(it), list) for it in ('determining', 'erring')))


def apart(cases, has_file):
    """The positions of cases in at most two groups: those over the file of entities, and those over their own. Without a file all
    are in one."""
    groups = {True: [], False: []}
    for at, case in enumerate(cases):
        groups[case.entities is not None or not has_file].append(at)
    return [(own, group) for own, group in sorted(groups.items()) if group]


class Engine:
    """The program, its files, and a folder for temporary files."""

    def __init__(self, program, options, room):
        self.program, self.room, self.shows_all = program, room, options.all
        self.flags = ['--any-decimal'] * options.any_decimal + (['--language', options.language] if options.language else [])
        self.files = {it: self.held(getattr(options, it)) for it in FILES}

    def held(self, path):
        """A file that can be read more than once: a pipe is copied."""
        if path is None or not os.path.exists(path) or os.path.isfile(path) or os.path.isdir(path):
            return path
        try:
            with open(path, 'rb') as file:
                content = file.read()
        except OSError as fault:
            raise Stop(1, '%s: %s' % (printable(path), fault.strerror)) from fault
        return self.write(os.path.basename(path), content)

    def write(self, name, content):
        """Writes a temporary file; its path."""
        path = os.path.join(self.room, name)
        try:
            with open(path, 'wb') as file:
                file.write(content)
        except OSError as fault:
            raise Stop(1, 'the folder for temporary files: %s' % fault.strerror) from fault
        return path

    def words(self, subcommand, entities, policies=None):
        """The command line of a subcommand over the files."""
        words = [self.program, subcommand]
        for name, path in {**self.files, 'policies': policies or self.files['policies'], 'entities': entities}.items():
            words += ['--' + name, path] if path is not None else []
        return words + self.flags

    def run(self, words, lines=()):
        """Runs the program over request lines: its status, standard output and standard error."""
        try:
            done = subprocess.run(words, input=''.join(it + '\n' for it in lines).encode(), capture_output=True, check=False)
        except (OSError, ValueError) as fault:
            raise Stop(1, '%s: %s' % (printable(self.program), getattr(fault, 'strerror', None) or fault)) from fault
        return done.returncode, done.stdout.decode(errors='replace'), done.stderr.decode(errors='replace')

    def strange(self, said):
        """The end where the program printed something else than it should."""
        return Stop(1, '%s printed what is not an answer: %s' % (printable(self.program), shortened(printable(said.strip('\n')))))

    def objects(self, output, count):
        """The JSON objects that the program printed, one for each line."""
        lines = output.split('\n')[:-1]
        try:
            found = [json.loads(it) for it in lines]
        except (ValueError, RecursionError) as fault:
            raise self.strange(output) from fault
        if len(found) != count or not all(map(is_answer, found)):
            raise self.strange(output)
        return found

    def asked(self, cases, policies=None):
        """Asks the cases, group by group: pairs of the positions, and their answers or a Refusal."""
        for own, group in apart(cases, self.files['entities']):
            words = self.words('authorize', None if own else self.files['entities'], policies)
            words += ['--entities-in-lines'] * own + ['--quiet'] * (policies is not None)
            status, output, errors = self.run(words, [with_entities(cases[at]) for at in group])
            yield group, Refusal(status, errors) if status else self.objects(output, len(group))

    def answers(self, cases):
        """An answer for each case, or a Refusal."""
        found = [None] * len(cases)
        for group, answers in self.asked(cases):
            if isinstance(answers, Refusal):
                return answers
            for at, answer in zip(group, answers):
                found[at] = answer
        return found

    def groups(self, cases):
        """The cases by the entities that they are answered over: pairs of a path and of positions."""
        held = {}
        for at, case in enumerate(cases):
            held.setdefault(case.entities, []).append(at)
        for number, (entities, group) in enumerate(held.items()):
            if entities is None and self.files['entities']:
                yield self.files['entities'], group
            else:
                yield self.write('entities-%d.json' % number, (entities or '[]').encode()), group

    def explain(self, cases):
        """What `why` says of each case, as a text."""
        found = [''] * len(cases)
        for entities, group in self.groups(cases):
            said = self.blocks([cases[at] for at in group], entities)
            for at, words in zip(group, said):
                found[at] = words
        return found

    def blocks(self, cases, entities):
        """What `why` says of cases over the same entities."""
        status, output, errors = self.run(self.words('why', entities) + ['--all'] * self.shows_all, [it.request for it in cases])
        if status:
            return [errors.replace(entities, 'entities').strip('\n')] * len(cases)
        parts = [plain(it.strip('\n')) for it in re.split(r'(?:\A|\n\n)line \d+: ', output)[1:]]
        if len(parts) != len(cases) and len(cases) > 1:
            return [self.blocks([it], entities)[0] for it in cases]
        return parts if len(parts) == len(cases) else [output.strip('\n')]

    def reasons(self, cases):
        """What `why --all --json` says of each case, or None where the entities of a case are refused."""
        found = [None] * len(cases)
        for entities, group in self.groups(cases):
            words = self.words('why', entities) + ['--all', '--json', '--quiet']
            status, output, errors = self.run(words, [cases[at].request for at in group])
            if status not in (0, 2):
                raise Stop(1, errors.strip() or 'the program ended with status %d' % status)
            for at, answer in zip(group, [] if status else self.objects(output, len(group))):
                found[at] = answer
        return found

    def report(self):
        """What `validate` says of the policies in words."""
        return self.run(self.words('validate', None) + ['--report', 'human', '--quiet'])[1]


def plain(part):
    """What `why` says of a request: of a refused one without the number."""
    found = REFUSED.match(part)
    return textwrap.dedent(part[found.end():]) if found else part


def with_entities(case):
    """The request line of a case, with its entities."""
    if case.entities is None:
        return case.request
    comma = ',' if case.request != '{}' else ''
    return '%s%s"entities":%s}' % (case.request[:-1], comma, case.entities)
