"""Compares answers with what cases want."""
from dataclasses import dataclass

from testing.case_files import Case
from testing.printable import printable


@dataclass
class Outcome:
    """A case, its answer, whether it differs from what was wanted, and then what `why` says."""
    case: Case
    answer: dict
    differs: bool
    why: str = ''


def erring(answer):
    """The ids of the policies that erred."""
    return [it['policy'] for it in answer['erring']]


def differs(case, answer):
    """Whether an answer is not the one that a case wants."""
    wanted = case.wanted
    if wanted.refused is not None or 'refused' in answer:
        return wanted.refused != answer.get('refused')
    return (wanted.decision != answer['decision']
            or wanted.reason is not None and wanted.reason != set(answer['determining'])
            or wanted.errors is not None and wanted.errors != set(erring(answer))
            or wanted.num_errors is not None and wanted.num_errors != len(answer['erring']))


def wanted_keys(wanted):
    """What a case wants, with the keys of a case."""
    found = {'decision': wanted.decision, 'reason': wanted.reason, 'errors': wanted.errors, 'num_errors': wanted.num_errors,
             'refused': wanted.refused}
    return {key: sorted(it) if isinstance(it, frozenset) else it for key, it in found.items() if it is not None}


def found_keys(answer):
    """An answer, with the keys of a case."""
    if 'refused' in answer:
        return {'refused': answer['refused']}
    return {'decision': answer['decision'], 'reason': sorted(answer['determining']), 'errors': sorted(erring(answer))}


def in_words(keys):
    """What is wanted or found, on one line: `deny, reason [policy2], errors []`."""
    parts = []
    for key, value in keys.items():
        if key == 'decision':
            parts.append(value)
        elif isinstance(value, list):
            parts.append('%s [%s]' % (key, ', '.join(printable(it) for it in value)))
        else:
            parts.append('%s %d' % (key, value))
    return ', '.join(parts)


def compared(cases, answers):
    """The outcome of each case."""
    return [Outcome(case, answer, differs(case, answer)) for case, answer in zip(cases, answers)]
