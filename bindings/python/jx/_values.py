"""The values of an array or object, one after another, while the text is read."""
from __future__ import annotations

import contextlib
import ctypes
import os
import threading
import weakref
from typing import Any, BinaryIO, Generator, Iterable, List, Optional, Tuple, Union

from . import _faults
from ._chunks import Chunks, chunks_of, slices
from ._faults import Kind, Refused, Verdict, refused_in
from ._find import NO_TEXT, spelt_pointer
from ._library import DEPTH_DEFAULT, LIBRARY, Buffer, CAnswer, COutcome, CValues, Status, done, held, settings, view

_FOUND = 0
_ROOM = 1 << 16


class ValueReader:
    """The elements of an array, or the values of an object's members, in a text that comes chunk by chunk: each compact, as `bytes`.

    A pointer (RFC 6901) leads to the array or object, by the first member of each of its names. A value comes as soon as the comma or the
    bracket after it is read, before the text's first fault. No byte is kept but those of a value or a name that is not whole yet.
    """

    def __init__(self, pointer: str = "", *, depth: int = DEPTH_DEFAULT, ignore_bom: bool = False):
        asked = settings(depth, ignore_bom, False)
        self._pointer = pointer
        spelt = spelt_pointer(pointer)
        self._values = CValues()
        self._room = ctypes.create_string_buffer(_ROOM)
        self._size = 0
        # Other threads of Python run during a call, and the library wants one call at a time.
        self._lock = threading.Lock()
        status = LIBRARY.jx_values_new_non_null(spelt, len(spelt), ctypes.byref(asked), ctypes.byref(self._values))
        if status == Status.NOT_A_POINTER:
            _faults.raise_not_found(pointer, *_why_none(spelt))
        done(status)
        # The library reads the pointer until the stream ends, so what frees it keeps that.
        self._free = weakref.finalize(self, _free, self._values, spelt)

    def feed(self, chunk: Buffer) -> List[bytes]:
        """Reads the bytes after those it was fed before, and gives the values that are due then and were not given before.

        A chunk may end anywhere, also inside a character. What was given is never taken back. After a `MemoryError`, `end` or `close` there
        is no stream any more: later calls raise `ValueError`.
        """
        with held(chunk) as (address, size), self._lock:
            self._done(LIBRARY.jx_values_feed_non_null(ctypes.byref(self._values), address, size))
            self._size += size
            lines = self._taken()
        # No compact value has a line feed, and one follows each.
        values = lines.split(b"\n")
        values.pop()
        return values

    def end(self) -> None:
        """Ends the text. No value comes by it.

        Raises `Refused`, without line and column, if the bytes are not valid JSON, and a `NotFound` where the pointer leads to no array or
        object.
        """
        kind, at = self._ended()
        if kind in NO_TEXT:
            raise self._refused(Verdict(NO_TEXT[kind], at))
        if kind != _FOUND:
            _faults.raise_not_found(self._pointer, kind, at)

    def close(self) -> None:
        """Frees the stream, if it has not ended."""
        with self._lock:
            self._free()

    def __reduce__(self) -> Tuple[Any, ...]:
        raise TypeError("a reader of values is not copied or pickled")

    def _taken(self) -> bytes:
        size = ctypes.c_size_t()
        status = self._take(size)
        if status == Status.NO_ROOM:
            # Memory that `ctypes` cannot have is a MemoryError, and the values wait on.
            self._room = ctypes.create_string_buffer(size.value)
            status = self._take(size)
        self._done(status)
        return ctypes.string_at(self._room, size.value)

    def _take(self, size: ctypes.c_size_t) -> int:
        return int(LIBRARY.jx_values_take_non_null(ctypes.byref(self._values), self._room, len(self._room), ctypes.byref(size)))

    def _ended(self) -> Tuple[int, int]:
        outcome = COutcome()
        with self._lock:
            self._done(LIBRARY.jx_values_end_non_null(ctypes.byref(self._values), ctypes.byref(outcome)))
        return int(outcome.kind), int(outcome.at)

    def _refused(self, verdict: Verdict) -> Refused:
        return Refused(verdict, self._size if verdict.kind is Kind.TRUNCATED else verdict.offset, None)

    @staticmethod
    def _done(status: int) -> None:
        if status == Status.NO_VALUES:
            raise ValueError("the stream of values has ended, or was lost for want of memory")
        done(status)


def each(
    data: Buffer, pointer: str = "", *, depth: int = DEPTH_DEFAULT, ignore_bom: bool = False
) -> Generator[bytes, None, None]:
    """The elements of the array that a pointer leads to, or the values of the object's members: each compact, as `bytes`.

    After the last one it raises `Refused` if the data is not valid JSON, and a `NotFound` if the pointer leads to no array or object. A
    string that is not a pointer is a `BadPointer` at once. What was given before a fault stays right: it is what each text has that so
    begins.
    """
    whole = view(data)
    given = _given(ValueReader(pointer, depth=depth, ignore_bom=ignore_bom), slices(whole))
    return _with_places(given, whole, depth, ignore_bom)


def each_file(
    file: Union[str, bytes, os.PathLike[str], os.PathLike[bytes], BinaryIO, Iterable[Buffer]],
    pointer: str = "",
    *,
    depth: int = DEPTH_DEFAULT,
    ignore_bom: bool = False,
) -> Generator[bytes, None, None]:
    """The same of a file, by its path or open for reading bytes, or of any chunks of bytes, while they are read.

    Each value comes before more is waited for, as of a pipe or of `sys.stdin.buffer`. No more is kept than the largest value and a chunk.
    A path is opened with the first value, and closed after the last one or with the generator. `Refused` has no line and column. The
    file's own faults are raised where they happen, and a `BlockingIOError` where it does not block and has no bytes yet.
    """
    reader = ValueReader(pointer, depth=depth, ignore_bom=ignore_bom)
    return _given(reader, chunks_of(file))


def _given(reader: ValueReader, chunks: Chunks) -> Generator[bytes, None, None]:
    # Both are closed also where whoever takes the values wants no more of them.
    with contextlib.closing(reader), contextlib.closing(chunks):
        for chunk in chunks:
            yield from reader.feed(chunk)
        reader.end()


def _with_places(given: Generator[bytes, None, None], whole: memoryview, depth: int, ignore_bom: bool) -> Generator[bytes, None, None]:
    """The same values, and a refusal with its place in the whole text."""
    with contextlib.closing(given):
        try:
            yield from given
        except Refused as refused:
            raise refused_in(whole, refused.verdict, depth, ignore_bom) from None


def _why_none(spelt: bytes) -> Tuple[int, int]:
    """The outcome of a string that is not a pointer, and its place in it."""
    answer, asked = CAnswer(), settings(DEPTH_DEFAULT, False, False)
    with held(b"") as (address, size):
        done(LIBRARY.jx_at_non_null(address, size, spelt, len(spelt), ctypes.byref(asked), ctypes.byref(answer)))
    return int(answer.outcome), int(answer.at)


def _free(values: CValues, _spelt: bytes) -> None:
    LIBRARY.jx_values_free_non_null(ctypes.byref(values))
