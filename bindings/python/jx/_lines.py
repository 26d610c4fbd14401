"""JSON Lines, also called NDJSON."""
from __future__ import annotations

import contextlib
import ctypes
import dataclasses
import os
import threading
import weakref
from typing import Any, BinaryIO, Generator, Iterable, Iterator, List, Optional, Tuple, Union

from ._chunks import Chunks, chunks_of, slices
from ._faults import Kind, Verdict
from ._library import DEPTH_DEFAULT, LIBRARY, Buffer, CLine, CLineCounts, CLines, Status, done, held, settings, view

_ROOM = 64


@dataclasses.dataclass(frozen=True)
class Line:
    """A line that is not valid JSON: its number, from 1; its span without line feed; its verdict. Offsets count from the input's start."""

    number: int
    start: int
    end: int
    verdict: Verdict

    @property
    def kind(self) -> Kind:
        return self.verdict.kind

    @property
    def offset(self) -> Optional[int]:
        """The offset of the fault in the input; None of a line that ends too early, may be cut or is empty."""
        return self.verdict.offset if self.kind in (Kind.STOPPED, Kind.TOO_DEEP) else None

    @property
    def reason(self) -> str:
        """The verdict in words for people."""
        return self.verdict.reason

    def __str__(self) -> str:
        where = "bytes %d..%d" % (self.start, self.end) if self.offset is None else "byte %d" % self.offset
        return "line %d: %s (%s)" % (self.number, self.reason, where)

    @classmethod
    def _of(cls, line: CLine) -> Line:
        return cls(line.number, line.span.start, line.span.end, Verdict._of(line.verdict.kind, line.verdict.offset))


class LineReader:
    """JSON Lines that come chunk by chunk. A line feed ends a line; what follows the last one is a line, too, unless it is empty.

    It keeps no byte of the input. `ignore_bom` skips a byte order mark in front of the input. Names may repeat.
    """

    def __init__(self, *, depth: int = DEPTH_DEFAULT, ignore_bom: bool = False):
        asked = settings(depth, ignore_bom, False)
        self._lines = CLines()
        self._room = (CLine * _ROOM)()
        # Other threads of Python run during a call, and the library wants one call at a time.
        self._lock = threading.Lock()
        done(LIBRARY.jx_lines_new_non_null(ctypes.byref(asked), ctypes.byref(self._lines)))
        self._free = weakref.finalize(self, LIBRARY.jx_lines_free_non_null, ctypes.pointer(self._lines))

    def feed(self, chunk: Buffer) -> List[Line]:
        """Reads the bytes after those it was fed before, and gives the lines that end there and are not valid JSON.

        A chunk may end anywhere, also inside a character. After a `MemoryError` the reader is lost: later calls raise `ValueError`.
        """
        with held(chunk) as (address, size), self._lock:
            self._done(LIBRARY.jx_lines_feed_non_null(ctypes.byref(self._lines), address, size))
            return self._taken()

    def end(self) -> List[Line]:
        """The last line, if no line feed ends it and it is not valid JSON: a list of one line or none. More may be fed."""
        last = self._told()[0]
        return [Line._of(last)] if last.number else []

    @property
    def accepted(self) -> int:
        """How many lines are texts, if the input ends here."""
        return int(self._told()[1].accepted)

    @property
    def refused(self) -> int:
        """How many lines are not valid JSON, or may be cut, if the input ends here. Empty ones are not counted."""
        return int(self._told()[1].refused)

    @property
    def blank(self) -> int:
        """How many lines have no byte, or white space alone, if the input ends here."""
        return int(self._told()[1].blank)

    def __reduce__(self) -> Tuple[Any, ...]:
        raise TypeError("a reader of lines is not copied or pickled")

    def _taken(self) -> List[Line]:
        count = ctypes.c_size_t()
        room = self._room
        status = self._take(room, count)
        if status == Status.NO_ROOM:
            # Memory that `ctypes` cannot have is a MemoryError, and the lines wait on.
            room = (CLine * count.value)()
            status = self._take(room, count)
        self._done(status)
        return [Line._of(line) for line in room[: count.value]]

    def _take(self, room: Any, count: ctypes.c_size_t) -> int:
        return int(LIBRARY.jx_lines_take_non_null(ctypes.byref(self._lines), room, len(room), ctypes.byref(count)))

    def _told(self) -> Tuple[CLine, CLineCounts]:
        last, counts = CLine(), CLineCounts()
        with self._lock:
            self._done(LIBRARY.jx_lines_end_non_null(ctypes.byref(self._lines), ctypes.byref(last), ctypes.byref(counts)))
        return last, counts

    @staticmethod
    def _done(status: int) -> None:
        if status == Status.NO_LINES:
            raise ValueError("the reader of lines was lost for want of memory")
        done(status)


class Lines(Iterator[Line]):
    """The lines that are not valid JSON, in order, each as soon as it was read. `accepted`, `refused` and `blank` count what was read.

    A file that was opened by its path is closed after the last line, by `close`, at the end of a `with`, or once nothing refers to the
    lines.
    """

    def __init__(self, chunks: Chunks, depth: int, ignore_bom: bool, skip_blank: bool):
        self._reader = LineReader(depth=depth, ignore_bom=ignore_bom)
        # It does not refer to this object, which so is gone, with its file, once the last reference to it is.
        self._told = _told(self._reader, chunks, skip_blank)

    def __iter__(self) -> Lines:
        return self

    def __next__(self) -> Line:
        return next(self._told)

    @property
    def accepted(self) -> int:
        """How many lines are texts, of what was read."""
        return self._reader.accepted

    @property
    def refused(self) -> int:
        """How many lines are not valid JSON, or may be cut, of what was read. Empty ones are not counted."""
        return self._reader.refused

    @property
    def blank(self) -> int:
        """How many lines have no byte, or white space alone, of what was read."""
        return self._reader.blank

    def close(self) -> None:
        """Ends the reading. The counts stay."""
        self._told.close()

    def __enter__(self) -> Lines:
        return self

    def __exit__(self, *_: object) -> None:
        self.close()


def _told(reader: LineReader, chunks: Chunks, skip_blank: bool) -> Generator[Line, None, None]:
    with contextlib.closing(chunks):
        for chunk in chunks:
            for line in reader.feed(chunk):
                if not (skip_blank and line.kind is Kind.BLANK):
                    yield line
    for line in reader.end():
        if not (skip_blank and line.kind is Kind.BLANK):
            yield line


def lines(data: Buffer, *, depth: int = DEPTH_DEFAULT, ignore_bom: bool = False, skip_blank: bool = False) -> Lines:
    """The lines of JSON Lines that are not valid JSON (RFC 8259), with their numbers. Without `skip_blank` empty lines are among them."""
    return Lines(slices(view(data)), depth, ignore_bom, skip_blank)


def lines_file(
    file: Union[str, bytes, os.PathLike[str], os.PathLike[bytes], BinaryIO, Iterable[Buffer]],
    *,
    depth: int = DEPTH_DEFAULT,
    ignore_bom: bool = False,
    skip_blank: bool = False,
) -> Lines:
    """The same of a file, by its path or open for reading bytes, or of any chunks of bytes: in constant memory, while they are read.

    Each line comes before more is waited for, as of a pipe or of `sys.stdin.buffer`. A path is opened with the first line. The file's own
    faults are raised where they happen, and a `BlockingIOError` where it does not block and has no bytes yet.
    """
    return Lines(chunks_of(file), depth, ignore_bom, skip_blank)
