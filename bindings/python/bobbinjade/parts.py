"""Reports in parts."""
from __future__ import annotations

import ctypes
from typing import Any, Optional

from .library import ALL_LINES, FAULTS, LIBRARY, MORE, OK, Files, Place, Text, check, files_of, grown

# The room with which a part begins: most parts are a little longer than 64 KiB.
ROOM = 72 << 10


class ReportParts:
    """A report in parts, each of which is made when it is asked for: an iterator over texts of whole lines. It may be left at any part, and the
    rest is then never made. One thread at a time uses it.

    A part ends after the policy with which it has 64 KiB, or after 1,000 policies. It may be empty."""

    def __init__(self, files: Files, lines: Optional[int]) -> None:
        if lines is not None and lines < 0:
            raise ValueError('a report has no less than 0 lines')
        self._files = files
        self._place = Place(ctypes.sizeof(Place), 0, 0, 0, ALL_LINES if lines is None else min(lines, ALL_LINES))
        self._status: Optional[int] = MORE

    def __iter__(self) -> ReportParts:
        return self

    def __next__(self) -> str:
        """The next part. Raises Refused where a file is refused, or OutOfMemory; then it has ended."""
        if self._status != MORE:
            raise StopIteration
        place, text = Place.from_buffer_copy(self._place), ''

        def validated(why: Any) -> int:
            nonlocal text

            def call(room: Any) -> int:
                LIBRARY.cedar_refusal_free(why)
                return LIBRARY.cedar_validate_part(ctypes.byref(self._files), ctypes.byref(place), why, room)
            status, text = grown(ROOM, call)
            return status
        self._status = None
        self._status = check(validated, (OK, FAULTS, MORE))
        self._place = place
        return text

    @property
    def policies(self) -> int:
        """How many policies have been reported on so far."""
        return self._place.policies

    @property
    def faults(self) -> int:
        """How many faults they have."""
        return self._place.faults

    @property
    def warnings(self) -> int:
        """How many warnings."""
        return self._place.warnings

    @property
    def is_accepted(self) -> bool:
        """Whether the report has ended, and the policies have no faults."""
        return self._status == OK


def validate_parts(schema: Text, policies: Text, links: Optional[Text] = None, any_decimal: bool = False, *,
                   lines: Optional[int] = None, language: int = 3) -> ReportParts:
    """Validates policies, and gives the report in parts. It is for policies that one does not trust, whose report may be a thousand times as
    long as they are.

    The parts, one after another, are the text of `validate`. With a limit of `lines` they are its first lines, as many as these, and the line
    of totals, which has all counts."""
    return ReportParts(files_of(schema, policies, links, b'[]', any_decimal, language), lines)
