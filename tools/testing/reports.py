"""What is printed on standard output: lines for people, or JSON."""
import json

from testing.outcomes import found_keys, in_words, wanted_keys
from testing.printable import counted, printable, printable_lines


def differing_lines(outcome):
    """The lines for people of a case that differs."""
    case = outcome.case
    yield 'differs: %s (%s:%d)' % (printable(case.name), printable(case.file), case.line)
    yield '  wanted: ' + in_words(wanted_keys(case.wanted))
    yield '  found:  ' + in_words(found_keys(outcome.answer))
    for line in printable_lines(outcome.why):
        yield '    ' + line if line else ''


def coverage_lines(file, coverage):
    """The lines for people of a coverage."""
    for policy, (line, column), words in coverage.missed:
        yield '%s:%d:%d: %s: %s' % (printable(file), line, column, printable(policy), words)
    for template in coverage.unlinked:
        yield '%s: the template has no link, so it has no effect' % printable(template)
    yield from coverage.counts()


def still_hold(count):
    """That so many cases hold."""
    return 'all %d cases still hold' % count if count > 1 else 'the one case still holds'


def mutation_lines(file, mutation, count):
    """The lines for people of the mutants, for so many cases."""
    if 0 < mutation.cases < count:
        yield 'mutants are tried over the cases that are as wanted: %d of %d' % (mutation.cases, count)
    for it in mutation.survivors():
        yield '%s:%d:%d: %s: %s %s' % (printable(file), *it.place, printable(it.policy), it.words, still_hold(mutation.cases))
    yield mutation.counts() if mutation.cases else 'mutants: none was tried, since no case is as wanted'


def last_line(outcomes):
    """The counts of cases, for people."""
    differing = sum(it.differs for it in outcomes)
    return '%s: %d as wanted, %s' % (counted(len(outcomes), 'case'), len(outcomes) - differing, counted(differing, 'differs', 'differ'))


def notes(outcomes, options, unlinked):
    """What is said on standard error beside the cases: that so many templates have no link, and that cases which differ lack entities."""
    if unlinked:
        has_no = '%s no link, so %s no effect' % (('has', 'it has') if unlinked == 1 else ('have', 'they have'))
        tip = '' if options.links else ': `--links` names the file of links'
        yield '%s %s%s' % (counted(unlinked, 'template'), has_no, tip)
    if not options.entities and any(it.differs and it.case.entities is None for it in outcomes):
        yield 'no --entities: where a case brings none, nothing is stored'


def lines_for_people(outcomes, file, coverage, mutation):
    """All lines for people."""
    for outcome in outcomes:
        if outcome.differs:
            yield from differing_lines(outcome)
            yield ''
    if coverage:
        yield from coverage_lines(file, coverage)
    if mutation:
        yield from mutation_lines(file, mutation, len(outcomes))
    yield last_line(outcomes)


def json_line(value):
    """A JSON object on one line, in ASCII."""
    return json.dumps(value, sort_keys=True, separators=(',', ':'))


def case_object(outcome):
    """A case in JSON."""
    case = outcome.case
    found = {'name': case.name, 'file': case.file, 'line': case.line, 'status': 'differs' if outcome.differs else 'as_wanted',
             'wanted': wanted_keys(case.wanted), 'found': found_keys(outcome.answer)}
    return {**found, 'why': outcome.why} if outcome.differs else found


def coverage_object(coverage):
    """A coverage in JSON."""
    counts = {key: {'decided': decided, 'all': whole} for key, (decided, whole) in
              (('policies', coverage.policies), ('conditions', coverage.conditions), ('parts', coverage.parts))}
    missed = [{'policy': policy, 'line': line, 'column': column, 'says': words} for policy, (line, column), words in coverage.missed]
    return {**counts, 'missed': missed, 'templates_without_link': coverage.unlinked}


def mutation_object(mutation):
    """The mutants in JSON."""
    survivors = [{'policy': it.policy, 'line': it.place[0], 'column': it.place[1], 'says': it.words} for it in mutation.survivors()]
    return {'made': len(mutation.mutants), 'by_case': mutation.count('case'), 'by_validation': mutation.count('validation'),
            'not_noticed': len(survivors), 'survivors': survivors}


def json_lines(outcomes, coverage, mutation):
    """All lines of JSON: one for each case, and one with the counts."""
    differing = sum(it.differs for it in outcomes)
    last = {'cases': len(outcomes), 'as_wanted': len(outcomes) - differing, 'differs': differing}
    if coverage:
        last['coverage'] = coverage_object(coverage)
    if mutation:
        last['mutants'] = mutation_object(mutation)
    return [json_line(case_object(it)) for it in outcomes] + [json_line(last)]
