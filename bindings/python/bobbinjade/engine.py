"""An engine, for any number of threads."""
from __future__ import annotations

import ctypes
import json
import re
from collections.abc import Callable, Mapping
from typing import Any, NamedTuple, Optional, Union

from . import library
from .errors import RequestRefused
from .library import (FAULTS, LIBRARY, LINE, LINE_WITH_ENTITIES, NO_REQUEST, OK, ROOM, SHORT, WORDS, Bytes, Scratch, Text, bytes_of, check, encoded,
                      failed, files_of, grown, written)

UID = re.compile(r'([A-Za-z_][A-Za-z0-9_]*(?:::[A-Za-z_][A-Za-z0-9_]*)*)::"([^"\\]*)"')
Uid = Union[str, 'tuple[str, str]']
Context = Union[None, str, bytes, Mapping[str, Any]]
Changes = Union[str, bytes, Mapping[str, Any]]

ANSWER_LINE = SHORT.cedar_shared_answer_line
DECIDE = SHORT.cedar_shared_decide
JSON = json.JSONEncoder(separators=(',', ':'), allow_nan=False).encode
NO_BYTES = Bytes()
# Uids as the library takes them: a bounded count of short ones is kept.
MOST_UIDS, LONGEST_UID = 8192, 256
_uids: dict[Uid, library.Uid] = {}


class Erring(NamedTuple):
    """A policy that failed, and was skipped. `error` is 'overflow', 'missing_entity' or 'decimal'."""
    policy: str
    error: str


class Report(NamedTuple):
    """A report of the validation of policies: whether they have no faults, and what `cedar validate` prints."""
    is_accepted: bool
    text: str


class Response:
    """An answer. It is true where the request is allowed, and false where it is denied."""
    __slots__ = ('allowed', 'text', '_read')

    def __init__(self, allowed: bool, text: str) -> None:
        self.allowed = allowed
        self.text = text
        self._read: Optional[dict[str, Any]] = None

    def __bool__(self) -> bool:
        return self.allowed

    def __repr__(self) -> str:
        return 'Response(%s)' % self.text

    def _field(self, name: str) -> Any:
        if self._read is None:
            self._read = json.loads(self.text)
        return self._read[name]

    @property
    def decision(self) -> str:
        """'allow' or 'deny'."""
        return 'allow' if self.allowed else 'deny'

    @property
    def determining(self) -> list[str]:
        """The ids of the policies that determine the decision."""
        return list(self._field('determining'))

    @property
    def erring(self) -> list[Erring]:
        """The policies that failed. A service should watch them."""
        return [Erring(it['policy'], it['error']) for it in self._field('erring')]


def uid_of(uid: Uid) -> library.Uid:
    """A uid as the library takes it."""
    if isinstance(uid, str):
        found = UID.fullmatch(uid)
        if not found:
            raise RequestRefused(502, '%r is not a uid such as User::"ann"; an id with a quote or a backslash needs a pair (type, id)' % uid)
        parts = found.groups()
    else:
        parts = tuple(uid)
        if len(parts) != 2 or not all(isinstance(it, str) for it in parts):
            raise RequestRefused(502, '%r is not a pair of a type and an id' % (uid,))
    made = library.Uid(*map(bytes_of, parts))
    if made.type.length + made.id.length <= LONGEST_UID:
        if len(_uids) >= MOST_UIDS:
            _uids.clear()
        _uids[uid if isinstance(uid, str) else parts] = made
    return made


def json_of(given: Union[str, bytes, Mapping[str, Any]]) -> bytes:
    """A context or changes as the library takes them. A number that is not finite has no JSON, and raises ValueError."""
    if isinstance(given, (str, bytes)):
        return encoded(given)
    return JSON(given if isinstance(given, dict) else dict(given)).encode()


class Engine:
    """An engine of files. Any number of threads may use it, and may publish other files while requests run. Each answer is that of files
    that were current during its call."""

    _shared: Optional[ctypes.c_void_p] = None

    def __init__(self, schema: Text, policies: Text, entities: Text, links: Optional[Text] = None, any_decimal: bool = False, *,
                 language: int = 3) -> None:
        """Reads and validates the contents of files. The schema and the policies are in the language 4, that of Cedar 4, or in the default
        one, 3. Raises Refused, Faults or OutOfMemory, and ValueError where there is no such language."""
        self._shared = ctypes.c_void_p()
        status = LIBRARY.cedar_shared_new(ctypes.byref(self._shared))
        if status != OK:
            raise failed(status)
        self.publish(schema, policies, entities, links, any_decimal, language=language)

    def __del__(self, free: Any = LIBRARY.cedar_shared_free) -> None:
        free(self._shared)

    def __enter__(self) -> Engine:
        return self

    def __reduce_ex__(self, _: Any) -> Any:
        """An engine is not copied: threads share one, and another process makes its own."""
        raise TypeError('an Engine cannot be copied or pickled: threads share one, and another process makes its own of the files')

    def __exit__(self, *_: object) -> None:
        self.close()

    def publish(self, schema: Text, policies: Text, entities: Text, links: Optional[Text] = None, any_decimal: bool = False, *,
                language: int = 3) -> None:
        """Reads and validates files, and has all later calls answer according to them. Requests do not wait for it. Raises Refused, Faults,
        OutOfMemory, Closed, or ValueError where there is no such language; then nothing has changed."""
        files = files_of(schema, policies, links, entities, any_decimal, language)
        check(lambda why: LIBRARY.cedar_shared_publish(self._shared, ctypes.byref(files), why, None))

    def publish_entities(self, entities: Text) -> None:
        """Reads entities, and has all later calls answer over them, according to the schema, the policies and the links that are current.
        These are not read again. Requests do not wait for it; `publish` of another thread waits with its swap. Raises Refused, OutOfMemory
        or Closed; then nothing has changed."""
        given = bytes_of(entities)
        check(lambda why: LIBRARY.cedar_shared_publish_entities(self._shared, given, why, None))

    def publish_changes(self, changes: Changes) -> None:
        """Reads changes of entities, a mapping {'upsert': [entry, ..], 'remove': [uid, ..]} or its JSON, and has all later calls answer over
        the entities after them. What they do not name is not read again. Requests do not wait for it; another publisher waits. Raises
        Refused, OutOfMemory or Closed; then nothing has changed."""
        given = bytes_of(json_of(changes))
        check(lambda why: LIBRARY.cedar_shared_publish_changes(self._shared, given, why, None))

    def with_changes(self, changes: Changes) -> Engine:
        """Another engine, of the same policies, over the entities after changes, for example those that a request brings with it. This engine
        is as before. Closing the other one frees it. Raises as `publish_changes` does."""
        given, other = bytes_of(json_of(changes)), Engine.__new__(Engine)
        other._shared = ctypes.c_void_p()
        at = ctypes.byref(other._shared)
        check(lambda why: LIBRARY.cedar_shared_with_changes(self._shared, given, at, why, None))
        return other

    def kept_changes(self) -> int:
        """How many changes of entities are kept over the entities that were read as a whole: 0 after `publish` and `publish_entities`. It
        takes time in proportion to the count. Raises OutOfMemory or Closed."""
        count = ctypes.c_uint64()
        status = LIBRARY.cedar_shared_kept_changes(self._shared, ctypes.byref(count))
        if status != OK:
            raise failed(status)
        return count.value

    def close(self) -> None:
        """Frees all that no running call uses. Later calls raise Closed. Closing twice is safe."""
        LIBRARY.cedar_shared_close(self._shared)

    def authorize(self, principal: Uid, action: Uid, resource: Uid, context: Context = None) -> Response:
        """The answer to a request. A uid is a text such as 'User::"ann"', or a pair of a type and an id. The context is a mapping, or a
        JSON object as a text. Raises RequestRefused, OutOfMemory or Closed."""
        scratch = _asked(principal, action, resource, context)
        try:
            while True:
                status = DECIDE(self._shared, scratch.request_at, scratch.decision_at, scratch.buffer_at)
                if status == OK:
                    return Response(scratch.decision.allow == 1, scratch.text())
                if status != ROOM:
                    raise self._undecided(status, scratch, (principal, action, resource, context))
                scratch.grow(scratch.buffer.written)
        finally:
            _give(scratch, context)

    def decide(self, principal: Uid, action: Uid, resource: Uid, context: Context = None) -> bool:
        """Whether a request is allowed. It makes no text, so it is the fastest call. Raises as `authorize` does."""
        scratch = _asked(principal, action, resource, context)
        try:
            status = DECIDE(self._shared, scratch.request_at, scratch.decision_at, None)
            if status == OK:
                return scratch.decision.allow == 1
            raise self._undecided(status, scratch, (principal, action, resource, context))
        finally:
            _give(scratch, context)

    def answer_line(self, line: Text) -> str:
        """The answer line to a request line, as `cedar authorize` writes it, without a line feed."""
        given = encoded(line)
        try:
            scratch = _POOL.pop()
        except IndexError:
            scratch = Scratch()
        asked = scratch.line
        asked.at, asked.length = given, len(given)
        try:
            while True:
                status = ANSWER_LINE(self._shared, asked, scratch.buffer_at)
                if status == OK:
                    return scratch.text()
                if status != ROOM:
                    raise failed(status)
                scratch.grow(scratch.buffer.written)
        finally:
            asked.at = None
            _POOL.append(scratch)

    def answer(self, lines: Text) -> str:
        """The answer lines to request lines, all of one engine."""
        return self._answered(LIBRARY.cedar_shared_answer, lines)

    def answer_with_entities(self, lines: Text) -> str:
        """The answer lines to request lines that may bring entities, as `cedar authorize --entities-in-lines` writes them, all of one
        engine. The entities of a line replace those of the engine with their uids, or are added to them, for this line alone. A line with
        entities that are refused has an answer that says so."""
        return self._answered(LIBRARY.cedar_shared_answer_with_entities, lines)

    def explain_line(self, line: Text, may_bring_entities: bool = False) -> str:
        """Why a request line is refused, in words; empty where it is not."""
        given, kind = bytes_of(line), LINE_WITH_ENTITIES if may_bring_entities else LINE
        return written(1024, lambda room: LIBRARY.cedar_shared_explain_line(self._shared, given, kind, ctypes.c_uint32(0), WORDS, room))

    def _answered(self, call: Callable[..., int], lines: Text) -> str:
        """The answer lines that a call of the library gives to request lines."""
        given = bytes_of(lines)
        return written(256 + given.length, lambda room: call(self._shared, given, room))

    def _undecided(self, status: int, scratch: Scratch, asked: tuple[Uid, Uid, Uid, Context]) -> Exception:
        """The error where a request is not decided."""
        if status != NO_REQUEST:
            return failed(status)
        number = scratch.decision.refused
        return RequestRefused(number, explain=lambda: self._words_of(ctypes.c_uint32(number), asked))

    def _words_of(self, number: ctypes.c_uint32, asked: tuple[Uid, Uid, Uid, Context]) -> str:
        """Why a request is refused with a number."""
        scratch = _asked(*asked)
        try:
            return written(1024, lambda room: LIBRARY.cedar_shared_explain_request(self._shared, scratch.request_at, number, WORDS, room))
        finally:
            _give(scratch, asked[3])


_POOL = Scratch.POOL


def _asked(principal: Uid, action: Uid, resource: Uid, context: Context) -> Scratch:
    """A request as the library takes it."""
    kept = _uids.get
    who = kept(principal) or uid_of(principal)
    what = kept(action) or uid_of(action)
    where = kept(resource) or uid_of(resource)
    given = NO_BYTES if context is None else bytes_of(json_of(context))
    try:
        scratch = _POOL.pop()
    except IndexError:
        scratch = Scratch()
    request = scratch.request
    request.principal = who
    request.action = what
    request.resource = where
    request.context = given
    return scratch


def _give(scratch: Scratch, context: Context) -> None:
    """Puts back what `_asked` has taken, without the context, which may be long."""
    if context is not None:
        scratch.request.context = NO_BYTES
    _POOL.append(scratch)


def validate(schema: Text, policies: Text, links: Optional[Text] = None, any_decimal: bool = False, *, language: int = 3) -> Report:
    """Validates policies. Raises Refused where a file is refused, OutOfMemory, or ValueError where there is no such language."""
    files, text = files_of(schema, policies, links, b'[]', any_decimal, language), ''

    def validated(why: Any) -> int:
        nonlocal text

        def call(room: Any) -> int:
            LIBRARY.cedar_refusal_free(why)
            return LIBRARY.cedar_validate_files(ctypes.byref(files), why, room)
        status, text = grown(4096, call)
        return status
    return Report(check(validated, (OK, FAULTS)) == OK, text)


def explain(schema: Text, policies: Text, entities: Text = b'[]', links: Optional[Text] = None, any_decimal: bool = False, *,
            language: int = 3) -> str:
    """Explains in words why files are refused or have faults. Empty where they are accepted. Raises OutOfMemory, or ValueError where there is
    no such language."""
    files = files_of(schema, policies, links, entities, any_decimal, language)
    return written(4096, lambda room: LIBRARY.cedar_explain(ctypes.byref(files), WORDS, room))


def version() -> str:
    """The version of the engine, for example 0.1.0."""
    return written(64, LIBRARY.cedar_version)
