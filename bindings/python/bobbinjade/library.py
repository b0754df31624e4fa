"""The calls of libcedar. The library is in the folder that BOBBINJADE_LIB names, or in this package, or where the system finds it."""
from __future__ import annotations

import ctypes
import os
from collections import deque
from collections.abc import Callable
from typing import Any, Optional, Union

from .errors import FILES, Closed, Error, Faults, OutOfMemory, Refused

OK, MEMORY, REFUSED, FAULTS, ROOM, NO_REQUEST, CLOSED, MORE = 0, 1, 2, 3, 6, 7, 8, 9
ABI_VERSION = 1
NAME = 'libcedar.so'
SYSTEM_NAME = NAME + '.1'
NO_OFFSET = ALL_LINES = 2 ** 64 - 1
ANY_DECIMAL = 1
# The languages of schemas and policies, and the setting of each.
LANGUAGES = {3: 0, 4: 2}
WORDS = ctypes.c_uint32(0)
LINE, LINE_WITH_ENTITIES = ctypes.c_uint32(0), ctypes.c_uint32(1)
Text = Union[str, bytes]


class Bytes(ctypes.Structure):
    """cedar_bytes. It keeps the bytes that it was made of."""
    _fields_ = [('at', ctypes.c_char_p), ('length', ctypes.c_size_t)]


class Buffer(ctypes.Structure):
    """cedar_buffer."""
    _fields_ = [('at', ctypes.c_void_p), ('room', ctypes.c_size_t), ('written', ctypes.c_size_t)]


class Files(ctypes.Structure):
    """cedar_files."""
    _fields_ = [('size', ctypes.c_size_t), ('schema', Bytes), ('policies', Bytes), ('links', Bytes), ('entities', Bytes),
                ('settings', ctypes.c_uint32), ('reserved', ctypes.c_uint32)]


class Uid(ctypes.Structure):
    """The type and the id of a request's entity."""
    _fields_ = [('type', Bytes), ('id', Bytes)]


class Request(ctypes.Structure):
    """cedar_request."""
    _fields_ = [('size', ctypes.c_size_t), ('principal', Uid), ('action', Uid), ('resource', Uid), ('context', Bytes)]


class Decision(ctypes.Structure):
    """cedar_decision."""
    _fields_ = [('size', ctypes.c_size_t), ('allow', ctypes.c_uint32), ('refused', ctypes.c_uint32)]


class Place(ctypes.Structure):
    """cedar_report_place."""
    _fields_ = [('size', ctypes.c_size_t), ('policies', ctypes.c_uint64), ('faults', ctypes.c_uint64), ('warnings', ctypes.c_uint64),
                ('lines', ctypes.c_uint64)]


class Why(ctypes.Structure):
    """cedar_refusal. It owns its texts."""
    _fields_ = [('size', ctypes.c_size_t), ('file', ctypes.c_uint32), ('number', ctypes.c_uint32), ('offset', ctypes.c_uint64),
                ('wants', ctypes.c_uint32), ('reserved', ctypes.c_uint32), ('line', ctypes.c_uint64), ('text_at', ctypes.c_void_p),
                ('text_length', ctypes.c_size_t), ('words_at', ctypes.c_void_p), ('words_length', ctypes.c_size_t)]


def loaded(kind: type) -> Any:
    """The library."""
    folder = os.environ.get('BOBBINJADE_LIB')
    beside = os.path.join(os.path.dirname(os.path.abspath(__file__)), NAME)
    library = kind(os.path.join(folder, NAME) if folder else beside if os.path.exists(beside) else SYSTEM_NAME)
    for name in ('abi_version', 'version', 'validate_files', 'validate_part', 'explain', 'shared_new', 'shared_publish',
                 'shared_publish_entities', 'shared_publish_changes', 'shared_with_changes', 'shared_kept_changes', 'shared_decide',
                 'shared_answer', 'shared_answer_line', 'shared_answer_with_entities', 'shared_explain_line', 'shared_explain_request'):
        getattr(library, 'cedar_' + name).restype = ctypes.c_uint32
    for name in ('refusal_free', 'shared_free', 'shared_close'):
        getattr(library, 'cedar_' + name).restype = None
    library.cedar_status_text.restype = ctypes.c_char_p
    if library.cedar_abi_version() != ABI_VERSION:
        raise Error('the library does not fit this package')
    return library


# Calls of the first free the lock of the interpreter while they run, and calls of the second keep it. A request takes about a
# microsecond: to hand the lock over takes longer.
LIBRARY = loaded(ctypes.CDLL)
SHORT = loaded(ctypes.PyDLL)


class Scratch:
    """What the calls of a request read and write. One call at a time uses it."""
    __slots__ = ('line', 'request', 'request_at', 'decision', 'decision_at', 'buffer', 'buffer_at', 'view', 'storage')

    # Those that no call uses. A deque is changed without a lock.
    POOL: deque[Scratch] = deque(maxlen=64)

    def __init__(self) -> None:
        self.line = Bytes()
        self.request = Request(ctypes.sizeof(Request))
        self.request_at = ctypes.byref(self.request)
        self.decision = Decision(ctypes.sizeof(Decision))
        self.decision_at = ctypes.byref(self.decision)
        self.buffer = Buffer()
        self.buffer_at = ctypes.byref(self.buffer)
        self.grow(512)

    def grow(self, room: int) -> None:
        """Makes the buffer this large."""
        self.storage = ctypes.create_string_buffer(room)
        self.view = memoryview(self.storage).cast('B')
        self.buffer.at, self.buffer.room = ctypes.addressof(self.storage), room

    def text(self) -> str:
        """What was written."""
        return str(self.view[:self.buffer.written], 'utf-8')


def encoded(text: Text) -> bytes:
    """A text as bytes. A lone surrogate becomes bytes that are not UTF-8, which the library refuses."""
    return text if isinstance(text, bytes) else text.encode('utf-8', 'surrogatepass')


def bytes_of(text: Text) -> Bytes:
    """A text as the library takes it."""
    given = encoded(text)
    return Bytes(given, len(given))


def files_of(schema: Text, policies: Text, links: Optional[Text], entities: Text, any_decimal: bool, language: int) -> Files:
    """The files as the library takes them. Raises ValueError where there is no such language."""
    if language not in LANGUAGES:
        raise ValueError('the language is 3 or 4, not %r' % (language,))
    texts = map(bytes_of, (schema, policies, links or b'', entities))
    return Files(ctypes.sizeof(Files), *texts, (ANY_DECIMAL if any_decimal else 0) | LANGUAGES[language], 0)


def failed(status: int) -> Error:
    """The error of a status that needs no further words."""
    if status == MEMORY:
        return OutOfMemory('out of memory')
    if status == CLOSED:
        return Closed('the engine is closed')
    return Error('the library does not fit this package: status %d, %s' % (status, LIBRARY.cedar_status_text(ctypes.c_uint32(status)).decode()))


def text_of(at: Optional[int], length: int) -> str:
    """A copy of a text of the library."""
    return ctypes.string_at(at, length).decode() if at else ''


def refused(status: int, why: Why) -> Error:
    """The error of a call that may refuse what it was given."""
    if status == REFUSED:
        offset = None if why.offset == NO_OFFSET else why.offset
        return Refused(FILES.get(why.file, ''), why.number, offset, why.line or None, text_of(why.words_at, why.words_length))
    if status == FAULTS:
        return Faults(text_of(why.text_at, why.text_length), text_of(why.words_at, why.words_length))
    return failed(status)


def check(call: Callable[[Any], int], accepted: tuple[int, ...] = (OK,)) -> int:
    """Makes a call that may refuse what it is given, and raises why. Gives the status."""
    why = Why(ctypes.sizeof(Why), wants=1)
    at = ctypes.byref(why)
    try:
        status = call(at)
        if status not in accepted:
            raise refused(status, why)
        return status
    finally:
        LIBRARY.cedar_refusal_free(at)


def grown(room: int, call: Callable[[Any], int]) -> tuple[int, str]:
    """Makes a call that writes a text, in a buffer that grows until the text fits. Gives the status and the text."""
    while True:
        storage = ctypes.create_string_buffer(max(room, 1))
        buffer = Buffer(ctypes.addressof(storage), room)
        status = call(ctypes.byref(buffer))
        if buffer.written <= room:
            return status, storage.raw[:buffer.written].decode()
        room = buffer.written


def written(room: int, call: Callable[[Any], int]) -> str:
    """The text that a call writes. Raises the error of its status."""
    status, text = grown(room, call)
    if status != OK:
        raise failed(status)
    return text
