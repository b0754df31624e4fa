"""A report in JUnit's XML."""
from html import escape

from testing.outcomes import found_keys, in_words, wanted_keys
from testing.printable import Stop, printable, printable_lines


def attributes(**values):
    """Attributes of an element."""
    return ''.join(' %s="%s"' % (key, escape(printable(str(it)))) for key, it in values.items())


def text_of(why):
    """A text in an element."""
    return escape('\n'.join(printable_lines(why)), quote=False)


def element_of(case, kind, message, why):
    """A case as an element; it holds a failure or an error where there is one."""
    opened = '    <testcase%s' % attributes(name=case.name, classname=case.file, file=case.file, line=case.line)
    if not kind:
        return opened + '/>'
    return '%s>\n      <%s%s>%s</%s>\n    </testcase>' % (opened, kind, attributes(message=message), text_of(why), kind)


def judged(outcome):
    """The kind, the message and the text of an outcome."""
    if not outcome.differs:
        return None, '', ''
    words = 'wanted %s; found %s' % (in_words(wanted_keys(outcome.case.wanted)), in_words(found_keys(outcome.answer)))
    return 'failure', words, outcome.why


def document(rows):
    """The document for rows of a case, a kind, a message and a text."""
    suites = {}
    for case, *row in rows:
        suites.setdefault(case.file, []).append((case, *row))
    lines = ['<?xml version="1.0" encoding="UTF-8"?>', '<testsuites%s>' % counts(rows)]
    for file, found in suites.items():
        lines.append('  <testsuite%s%s>' % (attributes(name=file), counts(found)))
        lines += [element_of(*it) for it in found]
        lines.append('  </testsuite>')
    return '\n'.join(lines + ['</testsuites>', ''])


def counts(rows):
    """The counts of rows as attributes."""
    kinds = [it[1] for it in rows]
    return attributes(tests=len(rows), failures=kinds.count('failure'), errors=kinds.count('error'))


def write(path, rows):
    """Writes the report to a file."""
    try:
        with open(path, 'w', encoding='utf-8', newline='\n') as file:
            file.write(document(rows))
    except (OSError, ValueError) as fault:
        raise Stop(1, '%s: %s' % (printable(path), getattr(fault, 'strerror', None) or 'not the name of a file')) from fault
