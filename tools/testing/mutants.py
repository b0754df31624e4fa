"""Policy texts with one condition less or one scope wider, and which of them no case notices."""
import concurrent.futures
import os
from dataclasses import dataclass, field

from testing.engine import Refusal
from testing.outcomes import differs
from testing.policy_text import conjuncts, has_slot, written
from testing.printable import Stop, printable, shortened

AT_ONCE = min(4, os.cpu_count() or 1)
CASE, VALIDATION, NOTHING = 'case', 'validation', 'nothing'


@dataclass(frozen=True)
class Mutant:
    """A change of a policy text: the policy, the place, the range that is replaced, with what, and the change in words."""
    policy: str
    place: tuple
    start: int
    end: int
    instead: str
    words: str


@dataclass
class Mutation:
    """What noticed the mutants."""
    mutants: list = field(default_factory=list)
    noticed: list = field(default_factory=list)
    cases: int = 0

    def count(self, what):
        """How many mutants this noticed."""
        return self.noticed.count(what)

    def survivors(self):
        """The mutants that nothing noticed."""
        return [it for it, what in zip(self.mutants, self.noticed) if what == NOTHING]

    def counts(self):
        """The counts in words."""
        return 'mutants: %d; noticed by a case %d, by validation %d; not noticed %d' % (
            len(self.mutants), self.count(CASE), self.count(VALIDATION), self.count(NOTHING))


def quoted(text):
    """A part of a policy text in a message."""
    return '`%s`' % shortened(printable(text))


def of_clause(statement, clause, places):
    """The mutants of a clause: without it, and without each conjunct of a `when`."""
    body = written(clause.body)
    yield Mutant(statement.id, places.of(clause.start), clause.start, clause.end, '',
                 'without %s' % quoted('%s { %s }' % (clause.word, body)))
    parts = conjuncts(clause.body) if clause.word == 'when' else []
    for at, part in enumerate(parts if len(parts) > 1 else ()):
        start, end = part[0].start, part[-1].end
        if at + 1 < len(parts):
            end = parts[at + 1][0].start
        else:
            start = parts[at - 1][-1].end
        yield Mutant(statement.id, places.of(part[0].start), start, end, '', 'without the condition %s' % quoted(written(part)))


def of_statement(statement, places):
    """The mutants of a statement: those of its scope, then those of its clauses."""
    for side in statement.sides:
        if len(side) > 1 and not has_slot(side):
            yield Mutant(statement.id, places.of(side[0].start), side[0].start, side[-1].end, side[0].text,
                         'with `%s` in place of %s' % (side[0].text, quoted(written(side))))
    for clause in statement.clauses:
        yield from of_clause(statement, clause, places)


def mutants_of(statements, links, places):
    """The mutants of the statements that are evaluated: a template without a link has none."""
    linked = {template for _, template in links}
    evaluated = [it for it in statements if not it.is_template() or it.id in linked]
    return [it for statement in evaluated for it in of_statement(statement, places)]


def noticed_by(engine, text, mutant, number, cases):
    """What notices a mutant."""
    path = engine.write('mutant-%d.cedar' % number, (text[:mutant.start] + mutant.instead + text[mutant.end:]).encode())
    try:
        for group, answers in engine.asked(cases, path):
            if isinstance(answers, Refusal) and answers.status not in (2, 3):
                raise Stop(1, answers.errors.strip() or 'the program ended with status %d' % answers.status)
            if isinstance(answers, Refusal):
                return VALIDATION
            if any(differs(cases[at], answer) for at, answer in zip(group, answers)):
                return CASE
    finally:
        os.remove(path)
    return NOTHING


def mutated(engine, text, mutants, cases):
    """What notices each mutant, over cases that hold."""
    pool = concurrent.futures.ThreadPoolExecutor(AT_ONCE)
    try:
        runs = [pool.submit(noticed_by, engine, text, it, number, cases) for number, it in enumerate(mutants)]
        return Mutation(mutants, [it.result() for it in runs], len(cases))
    finally:
        pool.shutdown(cancel_futures=True)
