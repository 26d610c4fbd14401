"""The bytes of files and of buffers, chunk by chunk."""
from __future__ import annotations

import errno
import io
import os
from typing import Any, Callable, Generator, Iterator

from ._library import Buffer

Chunks = Generator[Buffer, None, None]
# So few lines or values wait at once, also where each byte has one.
_STEP = 1 << 16
_LARGE_STEP = 1 << 20
_BUFFERED = (io.BufferedReader, io.BufferedRandom, io.BufferedRWPair)


def slices(data: memoryview) -> Chunks:
    for start in range(0, len(data), _STEP):
        yield data[start : start + _STEP]


def read_some(file: Any) -> Buffer:
    """The bytes that are there, without waiting for more; nothing at the end."""
    if type(file) in _BUFFERED:
        # Where a file has no bytes yet, `read1` answers as at the end, and `readinto1` does not.
        room = bytearray(_STEP)
        del room[_length(file.readinto1(room)) :]
        return room
    return bytes_of(getattr(file, "read1", file.read)(_STEP))


def read_much(file: Any) -> Buffer:
    """As much as there is up to a MiB; nothing at the end."""
    return bytes_of(file.read(_LARGE_STEP))


def chunks_of(file: Any, read: Callable[[Any], Buffer] = read_some) -> Chunks:
    """The chunks of a path, of a file that is open for reading bytes, or of any iterator of chunks.

    A path is opened with the first chunk, and closed with the last one or with the generator. What is open stays so.
    """
    if isinstance(file, (str, bytes, os.PathLike)):
        return _chunks_at(file, read)
    refuse_words(file)
    if hasattr(file, "read"):
        return chunks_in(file, read)
    return _passed(iter(file))


def chunks_in(file: Any, read: Callable[[Any], Buffer]) -> Chunks:
    """The chunks of an open file."""
    chunk: Any = read(file)
    while chunk:
        yield chunk
        chunk = read(file)


def refuse_words(file: Any) -> None:
    if isinstance(file, io.TextIOBase):
        raise TypeError("jx reads bytes: open the file with mode 'rb'")


def bytes_of(read: Any) -> Buffer:
    """The bytes that a file's `read` gave. None is no end: the file does not block, and its bytes are still to come."""
    if read is None:
        _refuse_none()
    if isinstance(read, str):
        raise TypeError("jx reads bytes: open the file with mode 'rb'")
    buffer: Buffer = read
    return buffer


def _length(read: Any) -> int:
    if read is None:
        _refuse_none()
    return int(read)


def _refuse_none() -> None:
    raise BlockingIOError(errno.EAGAIN, "the file does not block, and has no bytes yet")


def _chunks_at(path: Any, read: Callable[[Any], Buffer]) -> Chunks:
    with open(path, "rb", buffering=0) as file:
        yield from chunks_in(file, read)


def _passed(chunks: Iterator[Buffer]) -> Chunks:
    # `yield from` would close an iterator that belongs to the caller.
    for chunk in chunks:
        yield chunk
