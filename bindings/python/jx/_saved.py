"""Saved indexes: which bytes of a text they need, and how these are read."""
from __future__ import annotations

import builtins
import collections
import contextlib
import ctypes
import os
import tempfile
import threading
import weakref
from typing import Any, BinaryIO, Callable, Iterator, List, NoReturn, Optional, Sequence, Tuple, Union

from ._children import Children, PartOf
from ._chunks import bytes_of, chunks_of, refuse_words
from ._faults import BadIndex, Changed, Kind, Refused, Stale, Verdict
from ._find import spelt_pointer
from ._library import (
    DEPTH_DEFAULT,
    LIBRARY,
    Buffer,
    CAnswer,
    CPart,
    CPointer,
    CSave,
    CSaved,
    CSavedText,
    CSpan,
    CVerdict,
    Status,
    done,
    held,
    settings,
    view,
)

Path = Union[str, bytes, "os.PathLike[str]", "os.PathLike[bytes]"]
CHUNK = 32768
_STEP = 1 << 20
# So many chunks that were read last are kept, and containers that were indexed last with so many values in all.
_KEPT = 64
_KEPT_VALUES = 1 << 18
# Tables of names begin so (docs/FORMAT.md).
_NAMES = b"\x89jxnam\n"
_WRONG = {
    Status.NOT_SAVED: "not a saved index",
    Status.OTHER_VERSION: "another version",
    Status.CUT_SHORT: "cut short",
    Status.DAMAGED: "damaged",
    Status.MALFORMED: "malformed",
    Status.MORE_BYTES: "more bytes than an index has",
}


def index_path(file: Path) -> str:
    """Where the index of a file is saved, unless another place is named."""
    return os.fsdecode(file) + ".jxi"


def save(
    file: Union[Path, BinaryIO],
    index: Optional[Path] = None,
    *,
    depth: int = DEPTH_DEFAULT,
    ignore_bom: bool = False,
    chunk: int = CHUNK,
    names: bool = False,
) -> str:
    """Reads a text once and saves its index, 0.075 % of its size, as FILE.jxi or at the path `index`. Gives that path.

    With `names` tables of the text's names follow the index, at most four bytes for each name. By these a look-up reads only the
    chunks of an object that may have the name. The answers are the same.

    The file is a path, or is open for reading bytes and then needs `index`. The index is written beside its place and renamed.
    Raises `Refused`, without line and column, where the bytes are not valid JSON, a `ValueError` where `index` is the file itself, and a
    `BlockingIOError` where the file does not block and has no bytes yet. A `chunk` has a power of two from 64 to 1,048,576 bytes.
    """
    if index is None:
        if not isinstance(file, (str, bytes, os.PathLike)):
            raise TypeError("a file that is open has no place for its index: pass its path as `index`")
        index = index_path(file)
    place = os.fsdecode(index)
    if _is_at(file, place):
        raise ValueError("%s is the text itself: its index needs another place" % place)
    with contextlib.closing(chunks_of(file)) as chunks:
        found = _index_of(chunks, settings(depth, ignore_bom, False), chunk, names)
    descriptor, name = tempfile.mkstemp(dir=os.path.dirname(place) or ".", prefix=".jx-")
    try:
        with builtins.open(descriptor, "wb") as new:
            new.write(found)
        os.chmod(name, 0o666 & ~_umask())
        os.replace(name, place)
    except BaseException:
        os.unlink(name)
        raise
    return place


def _is_at(file: Any, path: str) -> bool:
    """Whether a path leads to the file."""
    try:
        text = os.stat(file) if isinstance(file, (str, bytes, os.PathLike)) else os.fstat(file.fileno())
        return os.path.samestat(text, os.stat(path))
    except (AttributeError, OSError, ValueError):
        # One of them is no file of the operating system.
        return False


def _umask() -> int:
    mask = os.umask(0)
    os.umask(mask)
    return mask


def _index_of(chunks: Iterator[Buffer], asked: Any, chunk: int, names: bool) -> bytes:
    """The bytes of the index of a text that comes chunk by chunk, and of tables of its names where they are asked for."""
    if isinstance(chunk, bool) or not isinstance(chunk, int):
        raise TypeError("chunk is an int, not " + type(chunk).__name__)
    if not 64 <= chunk <= 2**20 or chunk & (chunk - 1):
        raise ValueError("chunk is a power of two from 64 to 1,048,576, not %d" % chunk)
    size, told, total = ctypes.c_size_t(), CVerdict(), 0
    save = CSave()
    begin = LIBRARY.jx_save_new_with_names_non_null if names else LIBRARY.jx_save_new_non_null
    done(begin(ctypes.byref(asked), chunk, ctypes.byref(save)))
    try:
        for piece in chunks:
            with held(piece) as (address, length):
                done(LIBRARY.jx_save_feed_non_null(ctypes.byref(save), address, length))
                total += length
        done(LIBRARY.jx_save_end_non_null(ctypes.byref(save), ctypes.byref(size), ctypes.byref(told)))
        if told.kind != Kind.ACCEPTED:
            verdict = Verdict._of(told.kind, told.offset)
            raise Refused(verdict, total if verdict.kind is Kind.TRUNCATED else verdict.offset, None)
        index = ctypes.create_string_buffer(size.value)
        done(LIBRARY.jx_save_take_non_null(ctypes.byref(save), index, size.value, ctypes.byref(size)))
        return index.raw
    finally:
        LIBRARY.jx_save_free_non_null(ctypes.byref(save))


class SavedText:
    """A text that stays where it is, and its saved index. Chunks that are read are checked against their checksums."""

    def __init__(self, file: Any, index: Any = None):
        self.source: Optional[Tuple[str, str]] = None
        if isinstance(file, (str, bytes, os.PathLike)):
            path = os.fsdecode(file)
            named = index_path(path) if index is None else index
            if isinstance(named, (str, bytes, os.PathLike)) and not isinstance(named, bytes):
                self.source = (os.path.abspath(path), os.path.abspath(os.fsdecode(named)))
            index = _bytes_of(named)
            self._read, self._close, self.size = _by_path(path)
        else:
            if index is None:
                raise TypeError("a file that is open has no place for its index: pass `index`")
            index = _bytes_of(index)
            self._read, self._close, self.size = _by_object(file)
        self._saved = CSaved()
        self._at_saved = ctypes.byref(self._saved)
        # One look-up at a time goes on by an index, and other threads of Python run during a call.
        self._lock = threading.Lock()
        self._chunks: collections.OrderedDict[int, bytes] = collections.OrderedDict()
        self._indexed: collections.OrderedDict[Tuple[int, int, int], Children] = collections.OrderedDict()
        self._indexed_values = 0
        # Where the chunk stands that was read last, and its bytes.
        self._last: Tuple[int, int, bytes] = (0, 0, b"")
        self._free = weakref.finalize(self, _free, self._saved, self._close)
        try:
            self._open(index)
        except BaseException:
            self._free()
            raise

    def _open(self, index: Buffer) -> None:
        with held(index) as (address, length):
            status = LIBRARY.jx_saved_open_non_null(address, length, self.size, self._at_saved)
        if status == Status.OTHER_SIZE:
            raise Stale("%d bytes, and the index is of another size" % self.size)
        if status in _WRONG:
            raise BadIndex(_WRONG[Status(status)])
        done(status)
        about = CSavedText()
        done(LIBRARY.jx_saved_about_non_null(self._at_saved, ctypes.byref(about)))
        self.chunk: int = about.chunk
        self.depth: int = about.depth
        # By tables of names a look-up reads a few chunks of an object, and else all of it.
        self.has_names = _NAMES in (index if isinstance(index, bytes) else bytes(view(index)))

    @property
    def is_closed(self) -> bool:
        return not self._free.alive

    def close(self) -> None:
        """Closes what was opened. Values can be read no more."""
        with self._lock:
            self.forget()
            self._free()

    def forget(self) -> None:
        """Forgets what was read."""
        self._chunks.clear()
        self._indexed.clear()
        self._indexed_values = 0
        self._last = (0, 0, b"")

    def answers(self, pointers: Sequence[str]) -> List[Tuple[int, int, int, int, int]]:
        """For each pointer its outcome, the number that goes with it, and kind, start and end of the value."""
        words = [spelt_pointer(pointer) for pointer in pointers]
        spelt = (CPointer * len(words))(*(CPointer(word, len(word)) for word in words))
        told = (CAnswer * len(words))()
        with self._lock:
            self._done(LIBRARY.jx_saved_seek_non_null(self._at_saved, spelt, len(words)))
            try:
                self._give()
                self._done(LIBRARY.jx_saved_answers_non_null(self._at_saved, told, len(words)))
            except BaseException:
                # The library forgets the pointers, which are gone after this call.
                LIBRARY.jx_saved_seek_non_null(self._at_saved, spelt, 0)
                raise
        return [(one.outcome, one.at, one.kind, one.span.start, one.span.end) for one in told]

    def parts(self, start: int, end: int, count: int) -> List[PartOf]:
        """The parts of the container with this span that have a child."""
        told, found = (CPart * count)(), ctypes.c_size_t()
        with self._lock:
            self._done(LIBRARY.jx_saved_split_non_null(self._at_saved, ctypes.byref(CSpan(start, end)), count))
            self._give()
            self._done(LIBRARY.jx_saved_parts_non_null(self._at_saved, told, count, ctypes.byref(found)))
        return [PartOf(one.number, one.span.start, one.span.end, one.first, one.end) for one in told[: found.value]]

    def read(self, start: int, end: int) -> bytes:
        """The bytes of a part of the text, as they were indexed."""
        low, high, chunk = self._last
        if low <= start and end <= high:
            return chunk[start - low : end - low]
        if end <= start:
            return b""
        first = start // self.chunk
        low = first * self.chunk
        if end - low <= self.chunk:
            with self._lock:
                chunk = self._kept(first)
                if not self.is_closed:
                    self._last = (low, low + len(chunk), chunk)
            return chunk[start - low : end - low]
        if end - start <= 8 * self.chunk:
            with self._lock:
                pieces = [self._kept(number) for number in range(first, -(-end // self.chunk))]
            return b"".join(pieces)[start - low : end - low]
        return b"".join(self.pieces(start, end))

    def children(self, start: int, end: int, first: int = -1) -> Children:
        """The children of the container with this span. With `first` the elements of an array that have the span, from that number on.

        What was indexed last is kept.
        """
        key = start, end, first
        with self._lock:
            found = self._indexed.get(key)
            if found is not None:
                self._indexed.move_to_end(key)
                return found
        data = self.read(start, end)
        found = Children(data, start) if first < 0 else Children(b"[%b]" % data, start - 1, first)
        with self._lock:
            if key not in self._indexed and not self.is_closed:
                self._indexed[key] = found
                self._indexed_values += found.size
                while self._indexed_values > _KEPT_VALUES and len(self._indexed) > 1:
                    self._indexed_values -= self._indexed.popitem(last=False)[1].size
        return found

    def is_indexed(self, start: int, end: int) -> bool:
        """Whether the children of the container with this span are kept."""
        return (start, end, -1) in self._indexed

    def pieces(self, start: int, end: int) -> Iterator[bytes]:
        """The same, part by part."""
        step = max(self.chunk, _STEP)
        low = start // self.chunk * self.chunk
        while low < end:
            high = min(low + step, -(-end // self.chunk) * self.chunk, self.size)
            piece = self._read(low, high - low)
            with self._lock:
                for at in range(low, high, self.chunk):
                    self._check(at, piece[at - low : at - low + self.chunk])
            yield piece[max(start - low, 0) : end - low]
            low = high

    def _kept(self, number: int) -> bytes:
        """The bytes of a chunk, which are read unless they were read of late."""
        found = self._chunks.get(number)
        if found is None:
            low = number * self.chunk
            found = self._read(low, min(self.chunk, self.size - low))
            self._check(low, found)
            self._keep(number, found)
        else:
            self._chunks.move_to_end(number)
        return found

    def _keep(self, number: int, chunk: bytes) -> None:
        self._chunks[number] = chunk
        if len(self._chunks) > _KEPT:
            self._chunks.popitem(last=False)

    def _check(self, at: int, chunk: bytes) -> None:
        status = LIBRARY.jx_saved_check_non_null(self._at_saved, at, chunk, len(chunk))
        if status == Status.CHANGED:
            raise Changed(at, min(at + self.chunk, self.size))
        self._done(status)

    def _give(self) -> None:
        """Reads what the library needs, and gives it."""
        need = CSpan()
        while True:
            self._done(LIBRARY.jx_saved_needs_non_null(self._at_saved, ctypes.byref(need)))
            if need.end == 0:
                return
            number = need.start // self.chunk
            kept = self._chunks.get(number)
            chunk = self._read(need.start, need.end - need.start) if kept is None else kept
            status = LIBRARY.jx_saved_give_non_null(self._at_saved, chunk, len(chunk))
            if status == Status.CHANGED:
                raise Changed(need.start, need.end)
            self._done(status)
            self._keep(number, chunk)

    @staticmethod
    def _done(status: int) -> None:
        if status == Status.NO_SAVED:
            raise ValueError("the file is closed")
        if status == Status.DAMAGED:
            raise BadIndex("damaged")
        done(status)


def _bytes_of(index: Any) -> Buffer:
    """The bytes of an index: at a path, or in a buffer."""
    if isinstance(index, (str, os.PathLike)):
        with builtins.open(index, "rb") as file:
            return file.read()
    buffer: Buffer = index
    return buffer


_Opened = Tuple[Callable[[int, int], bytes], Callable[[], None], int]


def _by_path(path: str) -> _Opened:
    file = builtins.open(path, "rb", buffering=0)
    try:
        size = _size_of(file)
    except BaseException:
        file.close()
        raise
    if not hasattr(os, "pread"):
        return _by_object(file)[0], file.close, size

    def read_at(start: int, length: int) -> bytes:
        return _whole(lambda rest, behind: os.pread(file.fileno(), rest, start + behind), start, length)

    return read_at, file.close, size


def _by_object(file: Any) -> _Opened:
    refuse_words(file)
    lock = threading.Lock()
    size = _size_of(file)

    def read_at(start: int, length: int) -> bytes:
        with lock:
            file.seek(start)
            return _whole(lambda rest, behind: file.read(rest), start, length)

    return read_at, lambda: None, size


def _size_of(file: Any) -> int:
    place = file.seek(0, os.SEEK_END)
    # Up to Python 3.12 the `seek` of a map answers None.
    return int(file.tell() if place is None else place)


def _whole(read: Callable[[int, int], Any], start: int, length: int) -> bytes:
    """All bytes of a part, in as many reads as that takes."""
    pieces: List[bytes] = []
    behind = 0
    while behind < length:
        given = bytes_of(read(length - behind, behind))
        piece = given if isinstance(given, bytes) else bytes(view(given))
        if not piece:
            _ended(start, length)
        pieces.append(piece)
        behind += len(piece)
    return pieces[0] if len(pieces) == 1 else b"".join(pieces)


def _ended(start: int, length: int) -> NoReturn:
    """The file has become shorter."""
    raise Changed(start, start + length)


def _free(saved: CSaved, close: Callable[[], None]) -> None:
    LIBRARY.jx_saved_free_non_null(ctypes.byref(saved))
    close()
