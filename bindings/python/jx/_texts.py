"""Whole texts, and texts that come in parts."""
from __future__ import annotations

import ctypes
import io
import mmap
import os
from typing import Any, BinaryIO, Optional, Union

from . import _engine
from ._chunks import chunks_in, read_much, refuse_words
from ._faults import ACCEPTED, Kind, Place, Refused, Verdict, message_of, refused_in
from ._library import DEPTH_DEFAULT, LIBRARY, Buffer, CReader, CVerdict, done, held, settings, view
from ._sentence import Front


def verdict(data: Buffer, *, depth: int = DEPTH_DEFAULT, ignore_bom: bool = False, unique_names: bool = False) -> Verdict:
    """Checks whether bytes are a JSON text (RFC 8259), and if not, at which byte they stop being one. A verdict is true where they are.

    `data` is any buffer: bytes, bytearray, memoryview, mmap. It is not copied. At most `depth` containers may be open at once.
    `ignore_bom` skips a byte order mark in front. `unique_names` refuses a name that an object has twice.
    """
    found = _engine.verdict(data, depth, ignore_bom, unique_names)
    return ACCEPTED if found is None else Verdict._of(*found)


def check(data: Buffer, *, depth: int = DEPTH_DEFAULT, ignore_bom: bool = False, unique_names: bool = False) -> None:
    """Returns None if bytes are a JSON text that `verdict` accepts, and else raises `Refused`."""
    found = _engine.verdict(data, depth, ignore_bom, unique_names)
    if found is not None:
        raise refused_in(view(data), Verdict._of(*found), depth, ignore_bom)


def compact(data: Buffer, *, depth: int = DEPTH_DEFAULT, ignore_bom: bool = False, unique_names: bool = False) -> bytes:
    """The tokens of a JSON text in a row, without the white space between them. Raises `Refused` where `verdict` refuses the text.

    Each token keeps its bytes: no number, name or string is written anew. A byte order mark that is ignored is left out. It takes as much
    memory as the data beside the result.
    """
    form = _engine.compact(data, depth, ignore_bom, unique_names)
    if isinstance(form, tuple):
        raise refused_in(view(data), Verdict._of(*form), depth, ignore_bom)
    return form


class Reader:
    """A text that comes chunk by chunk. It keeps no byte of the text and has a fixed size, so names may repeat."""

    def __init__(self, *, depth: int = DEPTH_DEFAULT, ignore_bom: bool = False):
        asked = settings(depth, ignore_bom, False)
        self._reader = CReader()
        self._size = 0
        done(LIBRARY.jx_reader_start_non_null(ctypes.byref(self._reader), ctypes.byref(asked)))

    def feed(self, chunk: Buffer) -> None:
        """Reads the bytes after those it was fed before. A chunk may end anywhere, also inside a character."""
        with held(chunk) as (address, size):
            done(LIBRARY.jx_reader_feed(ctypes.byref(self._reader), address, size))
        self._size += size

    def verdict(self) -> Verdict:
        """The verdict on all bytes so far, as one text. More may be fed afterwards."""
        answer = CVerdict()
        done(LIBRARY.jx_reader_verdict(ctypes.byref(self._reader), ctypes.byref(answer)))
        return Verdict._of(answer.kind, answer.offset)

    def check(self) -> None:
        """Raises `Refused` unless all bytes so far are a text. It has no line or column: the bytes are gone."""
        found = self.verdict()
        if not found.is_accepted:
            raise Refused(found, self._size if found.kind is Kind.TRUNCATED else found.offset, None)


def check_file(
    file: Union[str, bytes, os.PathLike[str], os.PathLike[bytes], BinaryIO],
    *,
    depth: int = DEPTH_DEFAULT,
    ignore_bom: bool = False,
    unique_names: bool = False,
) -> None:
    """Checks a file, by its path or open for reading bytes, and raises `Refused`, or the file's own fault.

    It takes constant memory. With `unique_names` it takes memory in proportion to the names of the objects that are open at once. Then
    what is no file of the operating system itself, as a pipe or an unpacker, is read whole, and such a file is mapped into memory.

    `Refused` has the path as its `filename`. A file that does not block and has no bytes yet is a `BlockingIOError`.
    """
    try:
        if isinstance(file, (str, bytes, os.PathLike)):
            with open(file, "rb", buffering=0) as opened:
                _check_open(opened, depth, ignore_bom, unique_names)
        else:
            _check_open(file, depth, ignore_bom, unique_names)
    except Refused as refused:
        refused.filename = _path_of(file)
        raise


def _path_of(file: Any) -> Optional[str]:
    """The path of a file, as far as it is known."""
    path = file if isinstance(file, (str, bytes, os.PathLike)) else getattr(file, "name", None)
    return os.fsdecode(path) if isinstance(path, (str, bytes, os.PathLike)) else None


def _check_open(file: Any, depth: int, ignore_bom: bool, unique_names: bool) -> None:
    refuse_words(file)
    if unique_names:
        whole = _mapped(file)
        check(b"".join(chunks_in(file, read_much)) if whole is None else whole, depth=depth, ignore_bom=ignore_bom, unique_names=True)
    else:
        start = file.tell() if hasattr(file, "seekable") and file.seekable() else None
        _check_chunks(file, start, depth, ignore_bom)


def _mapped(file: Any) -> Optional[memoryview]:
    """A map of the bytes that are still to be read of a file of the operating system itself.

    None of any other: the descriptor of an unpacker is that of the packed bytes.
    """
    raw = file.raw if type(file) in (io.BufferedReader, io.BufferedRandom) else file
    if type(raw) is not io.FileIO or not raw.seekable():
        return None
    # What was written to a buffer and is not in the file yet.
    file.flush()
    start = file.tell()
    try:
        return memoryview(mmap.mmap(raw.fileno(), 0, access=mmap.ACCESS_READ))[start:]
    except (OSError, ValueError):
        # It is a device, or is empty.
        return None


def _check_chunks(file: Any, start: Optional[int], depth: int, ignore_bom: bool) -> None:
    reader = Reader(depth=depth, ignore_bom=ignore_bom)
    for chunk in chunks_in(file, read_much):
        reader.feed(chunk)
    found = reader.verdict()
    if found:
        return
    offset = reader._size if found.kind is Kind.TRUNCATED else found.offset
    if start is None:
        raise Refused(found, offset, None)
    # A second reading, so that accepted texts pay nothing for lines and words.
    file.seek(start)
    place, front, left, rest = Place(), Front(depth, ignore_bom), offset, b""
    for chunk in chunks_in(file, read_much):
        whole = view(chunk)
        if left == offset and min(offset + 4, reader._size) <= len(whole):
            raise refused_in(whole, found, depth, ignore_bom)
        part, rest = whole[:left], bytes(whole[left : left + 4])
        place.go_over(bytes(part))
        front.read(part)
        left -= len(part)
        if rest:
            break
    raise Refused(found, offset, place.told(), msg=message_of(found.kind, front, rest))
