"""Which policies and which parts of conditions no case decided, according to `cedar why --all`."""
from dataclasses import dataclass, field

from testing.policy_text import parts_of, written
from testing.printable import printable, shortened

SATISFIED = ('satisfied', 'overridden')


@dataclass
class Coverage:
    """What no case decided, as pairs of a place and words, and the counts of what was decided and of all."""
    missed: list = field(default_factory=list)
    policies: tuple = (0, 0)
    conditions: tuple = (0, 0)
    parts: tuple = (0, 0)
    unlinked: list = field(default_factory=list)

    def is_whole(self):
        """Whether a case satisfied each policy."""
        return self.policies[0] == self.policies[1]

    def counts(self):
        """The counts in words."""
        return ['policies satisfied by a case: %d of %d' % self.policies,
                'conditions that were false in a case: %d of %d' % self.conditions,
                'parts of conditions that decided in a case: %d of %d' % self.parts]


@dataclass(frozen=True)
class Policy:
    """A policy that is evaluated: its id, its statement, and whether it is a link."""
    id: str
    statement: object
    is_link: bool


def policies_of(statements, links):
    """The policies that are evaluated: statements that are not templates, then the links."""
    templates = {it.id: it for it in statements if it.is_template()}
    found = [Policy(it.id, it, False) for it in statements if it.id not in templates]
    return found + [Policy(link, templates[template], True) for link, template in links if template in templates]


def decided(reasons):
    """What policies came to in the cases: for each id the results, and the places that decided."""
    results, places = {}, {}
    for reason in reasons:
        for it in (reason or {}).get('policies', ()):
            results.setdefault(it['policy'], set()).add(it['result'])
            if it['result'] != 'false_by_scope' and 'line' in it:
                places.setdefault(it['policy'], set()).add((it['line'], it['column']))
    return results, places


def spans(policy, places):
    """The parts of the conditions of a policy: the tokens, where they begin and where they end."""
    for clause in policy.statement.clauses:
        for part in parts_of(clause.body):
            yield part, places.of(part[0].start), places.of(part[-1].end)


def unlinked(statements, links):
    """The ids of the templates that have no link."""
    linked = {template for _, template in links}
    return [it.id for it in statements if it.is_template() and it.id not in linked]


def covered(statements, links, reasons, places):
    """The coverage of cases."""
    results, deciding = decided(reasons)
    policies, missed, counts = policies_of(statements, links), [], {'policies': [], 'conditions': [], 'parts': []}
    for policy in policies:
        came, where = results.get(policy.id, set()), places.of(policy.statement.start)
        checks = [('policies', not came.isdisjoint(SATISFIED), where, 'no case satisfies it')]
        for clause in policy.statement.clauses[:1]:
            checks.append(('conditions', 'false' in came, places.of(clause.start), 'its condition is false in no case'))
        for part, start, end in () if policy.is_link else spans(policy, places):
            has_decided = any(start <= it < end for it in deciding.get(policy.id, ()))
            words = '`%s` decides in no case' % shortened(printable(written(part)))
            checks.append(('parts', has_decided, start, words))
        for kind, holds, place, words in checks:
            counts[kind].append(holds)
            missed += [] if holds else [(policy.id, place, words)]
    return Coverage(missed, *((sum(it), len(it)) for it in counts.values()), unlinked(statements, links))
