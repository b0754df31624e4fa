"""Why a call fails. A failure is never a decision."""
from __future__ import annotations

from collections.abc import Callable
from typing import Any, Optional

FILES = {1: 'schema', 2: 'policies', 3: 'links', 4: 'entities'}


def _notes(error: Exception) -> dict[str, Any]:
    """What was put into an error after it was made, for example notes. pickle and copy make the error anew by its arguments."""
    return dict(vars(error))


class Error(Exception):
    """The base of what the calls raise."""


class OutOfMemory(Error, MemoryError):
    """Out of memory. Nothing was decided, and nothing has changed."""


class Closed(Error):
    """The engine was closed."""


class Refused(Error):
    """A file is refused. Nothing has changed.

    `file` is 'schema', 'policies', 'links' or 'entities'; `number` is one of docs/REFUSALS.md; `offset` counts bytes from 0 and `line`
    counts from 1, both None where the file has no place; `words` explains it to people."""

    def __init__(self, file: str, number: int, offset: Optional[int], line: Optional[int], words: str) -> None:
        super().__init__(words.rstrip('\n'))
        self.file = file
        self.number = number
        self.offset = offset
        self.line = line
        self.words = words

    def __reduce__(self) -> tuple[Any, ...]:
        return type(self), (self.file, self.number, self.offset, self.line, self.words), _notes(self)


class Faults(Error):
    """The policies have faults. Nothing has changed. `report` is what `cedar validate` prints; `words` explains it to people."""

    def __init__(self, report: str, words: str) -> None:
        super().__init__(words.rstrip('\n'))
        self.report = report
        self.words = words

    def __reduce__(self) -> tuple[Any, ...]:
        return type(self), (self.report, self.words), _notes(self)


class RequestRefused(Error, ValueError):
    """A request is refused, so nothing was decided. `number` is one of docs/REFUSALS.md."""

    def __init__(self, number: int, words: str = '', explain: Optional[Callable[[], str]] = None) -> None:
        super().__init__(number)
        self.number = number
        self._words, self._explain = words, explain

    @property
    def words(self) -> str:
        """The explanation for people. It is made when it is asked for, since it may take a thousand times as long as a decision; empty where
        the engine is closed, or where other files have been published by which the request is not refused with this number."""
        explain, self._explain = self._explain, None
        if explain:
            try:
                self._words = explain()
            except Error:
                self._words = ''
        return self._words

    def __str__(self) -> str:
        return self.words.rstrip('\n') or 'the request is refused: %d' % self.number

    def __reduce__(self) -> tuple[Any, ...]:
        return type(self), (self.number, self.words), {it: value for it, value in _notes(self).items() if it not in ('_words', '_explain')}
