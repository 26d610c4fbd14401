"""Texts that are edited."""
from __future__ import annotations

import ctypes
import operator
import threading
import weakref
from typing import Any, Tuple, Union, overload

from ._faults import Kind, Place, Refused, Verdict, message_of, refused_in
from ._library import DEPTH_DEFAULT, LIBRARY, Buffer, CDocument, CVerdict, Status, done, held, settings
from ._sentence import Front

_STEP = 1 << 20


class Document:
    """A JSON text (RFC 8259) that is edited, with the verdict on all of it after each edit.

    It keeps a copy of the bytes, outside of Python's memory, until `close` or until nothing refers to it. An edit and its verdict
    read what is near the edit. Offsets count bytes, with those of a byte order mark that `ignore_bom` skips. It keeps no names, so
    they may repeat.
    """

    def __init__(self, data: Buffer = b"", *, depth: int = DEPTH_DEFAULT, ignore_bom: bool = False):
        asked = settings(depth, ignore_bom, False)
        self._document = CDocument()
        self._front = (depth, ignore_bom)
        # Other threads of Python run during a call, and the library wants one call at a time.
        self._lock = threading.Lock()
        with held(data) as (address, size):
            done(LIBRARY.jx_document_new_non_null(address, size, ctypes.byref(asked), ctypes.byref(self._document)))
        self._free = weakref.finalize(self, LIBRARY.jx_document_free_non_null, ctypes.pointer(self._document))

    def edit(self, start: int, end: int, data: Buffer = b"") -> None:
        """Puts `data` in the place of the bytes from `start` up to `end`. An `IndexError` or a `MemoryError` leaves all as it was."""
        places = _place(start), _place(end)
        with held(data) as (address, size):
            self._call(LIBRARY.jx_document_edit_non_null, *places, address, size)

    def verdict(self) -> Verdict:
        """The verdict on all bytes as one text, as `jx.verdict` gives it. There may be several edits before one verdict."""
        answer = CVerdict()
        self._call(LIBRARY.jx_document_verdict_non_null, ctypes.byref(answer))
        return Verdict._of(answer.kind, answer.offset)

    def check(self) -> None:
        """Raises `Refused`, with line and column, unless the bytes are a text."""
        found = self.verdict()
        if found:
            return
        offset = len(self) if found.kind is Kind.TRUNCATED else found.offset
        if len(self) <= _STEP:
            raise refused_in(memoryview(self._bytes(0, len(self))), found, *self._front)
        place, front = Place(), Front(*self._front)
        for start in range(0, offset, _STEP):
            part = self._bytes(start, min(start + _STEP, offset))
            place.go_over(part)
            front.read(memoryview(part))
        rest = self._bytes(offset, min(offset + 4, len(self)))
        raise Refused(found, offset, place.told(), msg=message_of(found.kind, front, rest))

    def __len__(self) -> int:
        size = ctypes.c_size_t()
        self._call(LIBRARY.jx_document_size_non_null, ctypes.byref(size))
        return size.value

    @overload
    def __getitem__(self, key: int) -> int: ...

    @overload
    def __getitem__(self, key: slice) -> bytes: ...

    def __getitem__(self, key: Union[int, slice]) -> Union[int, bytes]:
        """A copy of a slice as bytes, or one byte as an int, as of `bytes`."""
        size = len(self)
        if isinstance(key, slice):
            start, end, step = key.indices(size)
            if step == 1:
                return self._bytes(start, max(start, end))
            return self._bytes(0, size)[key]
        at = operator.index(key)
        if not -size <= at < size:
            raise IndexError("byte %d of %d" % (at, size))
        return self._bytes(at % size, at % size + 1)[0]

    def __bytes__(self) -> bytes:
        return self._bytes(0, len(self))

    def close(self) -> None:
        """Frees the memory. Later calls raise `ValueError`, but for `close`."""
        with self._lock:
            self._free()

    def __enter__(self) -> Document:
        return self

    def __exit__(self, *_: Any) -> None:
        self.close()

    def __reduce__(self) -> Tuple[Any, ...]:
        raise TypeError("a document is not copied or pickled: make one of its bytes")

    def _bytes(self, start: int, end: int) -> bytes:
        # Memory that `ctypes` cannot have is a MemoryError.
        room = ctypes.create_string_buffer(max(1, end - start))
        self._call(LIBRARY.jx_document_copy_non_null, start, room, end - start)
        return room.raw[: end - start]

    def _call(self, call: Any, *words: Any) -> None:
        with self._lock:
            status = call(ctypes.byref(self._document), *words)
        if status == Status.NO_DOCUMENT:
            raise ValueError("the document is closed")
        if status == Status.OUT_OF_BOUNDS:
            raise IndexError("the range ends before it starts, or behind the last byte")
        done(status)


def _place(at: Any) -> int:
    """An offset. One that no document has, as below 0, becomes one that is out of bounds."""
    number = operator.index(at)
    most = ctypes.c_size_t(-1).value
    return number if 0 <= number <= most else most
