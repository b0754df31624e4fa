"""Texts of users in a form that a terminal and an XML file can show."""
import unicodedata

SHORT = {'\n': '\\n', '\r': '\\r', '\t': '\\t'}
HIDDEN = ('Cc', 'Cf', 'Cs', 'Zl', 'Zp')
NOT_IN_XML = ('\ufffe', '\uffff')


class Stop(Exception):
    """An end of the run: a status, and a line for standard error, or none where the program has said it."""

    def __init__(self, status, words=None):
        super().__init__(words)
        self.status, self.words = status, words


def escaped(character):
    """A character as an escape of Cedar."""
    return SHORT.get(character) or '\\u{%x}' % ord(character)


def printable(text):
    """A text on one line: each control character, mark of direction, line end and half of a pair is an escape, such as `\\u{1b}`."""
    if text.isascii() and text.isprintable():
        return text
    return ''.join(escaped(it) if unicodedata.category(it) in HIDDEN or it in NOT_IN_XML else it for it in text)


def printable_lines(text):
    """The lines of a text, each printable."""
    return [printable(it) for it in text.split('\n')]


def counted(count, one, many=None):
    """A number with its noun: `1 case`, `2 cases`."""
    return '%d %s' % (count, one if count == 1 else many or one + 's')


def shortened(text, most=100):
    """A text that is cut after so many characters."""
    return text if len(text) <= most else text[:most - 3] + '...'
