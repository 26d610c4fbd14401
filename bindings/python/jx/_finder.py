"""Values by JSON Pointer in a text that comes chunk by chunk."""
from __future__ import annotations

import contextlib
import ctypes
import os
import threading
import weakref
from typing import Any, BinaryIO, Iterable, List, NamedTuple, Tuple, TypeVar, Union, overload

from . import _faults
from ._chunks import chunks_of, read_much
from ._faults import Kind, Refused, Verdict
from ._find import NO_TEXT, RAISE, spelt_pointer
from ._index import ValueKind
from ._library import DEPTH_DEFAULT, LIBRARY, Buffer, CAnswer, CFinder, CPointer, Status, done, held, settings

T = TypeVar("T")
_FOUND = 0


class Found(NamedTuple):
    """A value of a text: its kind, and its span in bytes from the start, a string with its quotation marks."""

    kind: ValueKind
    start: int
    end: int


class Finder:
    """A look-up of pointers (RFC 6901) in a text that comes chunk by chunk, in constant memory beside the pointers. Names may repeat.

    A lone `str` is refused, since its characters are no pointers.
    """

    def __init__(self, pointers: Iterable[str], *, depth: int = DEPTH_DEFAULT, ignore_bom: bool = False):
        if isinstance(pointers, str):
            raise TypeError("a Finder takes several pointers, and this is one: pass [%r]" % pointers)
        asked = settings(depth, ignore_bom, False)
        self._named = list(pointers)
        # The empty pointer after them says whether the bytes are a text.
        words = [spelt_pointer(pointer) for pointer in self._named] + [b""]
        spelt = (CPointer * len(words))(*(CPointer(word, len(word)) for word in words))
        self._finder = CFinder()
        self._size = 0
        # Other threads of Python run during a call, and the library wants one call at a time.
        self._lock = threading.Lock()
        done(LIBRARY.jx_finder_new_non_null(spelt, len(words), ctypes.byref(asked), ctypes.byref(self._finder)))
        # The library reads the pointers until the look-up ends, so what frees it keeps them.
        self._free = weakref.finalize(self, _free, self._finder, spelt, words)

    def feed(self, chunk: Buffer) -> None:
        """Reads the bytes after those it was fed before. A chunk may end anywhere, also inside a character.

        After a `MemoryError` or `end` there is no look-up any more: later calls raise `ValueError`.
        """
        with held(chunk) as (address, size), self._lock:
            self._done(LIBRARY.jx_finder_feed_non_null(ctypes.byref(self._finder), address, size))
            self._size += size

    @overload
    def end(self) -> List[Found]: ...

    @overload
    def end(self, default: T) -> List[Union[Found, T]]: ...

    def end(self, default: Any = RAISE) -> List[Any]:
        """The answers to the pointers in the text of all bytes, in order. It ends the look-up.

        Raises `Refused`, without line and column, if the bytes are not valid JSON; `BadPointer` if one is no pointer; and a `NotFound`
        where one leads to no value, unless there is a default.
        """
        count = len(self._named) + 1
        answers = (CAnswer * count)()
        with self._lock:
            self._done(LIBRARY.jx_finder_end_non_null(ctypes.byref(self._finder), answers, count))
        if answers[count - 1].outcome in NO_TEXT:
            verdict = Verdict(NO_TEXT[answers[count - 1].outcome], answers[count - 1].at)
            raise Refused(verdict, self._size if verdict.kind is Kind.TRUNCATED else verdict.offset, None)
        return [self._told(pointer, answer, default) for pointer, answer in zip(self._named, answers)]

    def __reduce__(self) -> Tuple[Any, ...]:
        raise TypeError("a look-up is not copied or pickled")

    @staticmethod
    def _told(pointer: str, answer: CAnswer, default: Any) -> Any:
        if answer.outcome == _FOUND:
            return Found(ValueKind(answer.kind), answer.span.start, answer.span.end)
        if _faults.is_lost(answer.outcome) and default is not RAISE:
            return default
        _faults.raise_not_found(pointer, answer.outcome, answer.at)

    @staticmethod
    def _done(status: int) -> None:
        if status == Status.NO_FINDER:
            raise ValueError("the look-up has ended, or was lost for want of memory")
        done(status)


@overload
def find_file(
    file: Union[str, bytes, os.PathLike[str], os.PathLike[bytes], BinaryIO, Iterable[Buffer]],
    pointers: Iterable[str],
    *,
    depth: int = ...,
    ignore_bom: bool = ...,
) -> List[Found]: ...


@overload
def find_file(
    file: Union[str, bytes, os.PathLike[str], os.PathLike[bytes], BinaryIO, Iterable[Buffer]],
    pointers: Iterable[str],
    default: T,
    *,
    depth: int = ...,
    ignore_bom: bool = ...,
) -> List[Union[Found, T]]: ...


def find_file(
    file: Any,
    pointers: Iterable[str],
    default: Any = RAISE,
    *,
    depth: int = DEPTH_DEFAULT,
    ignore_bom: bool = False,
) -> List[Any]:
    """The answers to pointers in a file, by its path or open for reading bytes, or in any chunks of bytes: in constant memory.

    The values are spans: `file.seek(found.start)` leads to the first byte of one. The words are those of `Finder`. The file's own
    faults are raised where they happen, and a `BlockingIOError` where it does not block and has no bytes yet.
    """
    finder = Finder(pointers, depth=depth, ignore_bom=ignore_bom)
    with contextlib.closing(chunks_of(file, read_much)) as chunks:
        for chunk in chunks:
            finder.feed(chunk)
    return finder.end(default)


def _free(finder: CFinder, _spelt: Any, _words: List[bytes]) -> None:
    LIBRARY.jx_finder_free_non_null(ctypes.byref(finder))
