"""Parts of a text that are read by themselves, on many machines, and joined."""
from __future__ import annotations

import ctypes
import operator
from typing import Any, Callable, Optional, Tuple

from ._faults import Verdict
from ._library import DEPTH_DEFAULT, LIBRARY, NO_FROM, Buffer, CVerdict, Status, done, held, settings

# So much room is tried first; few runs have more bytes.
_ROOM = 8192


class NoRun(ValueError):
    """There is no such run, or no verdict on it."""


class NotARun(NoRun):
    """The bytes are no run that this version of the library writes."""


class OtherDepth(NoRun):
    """The runs were made with different depths."""


class NotNeighbours(NoRun):
    """The right run does not begin where the left one ends, or the run is not of the bytes that were asked about."""


_FAULTS = {
    Status.NOT_A_RUN: NotARun,
    Status.OTHER_DEPTH: OtherDepth,
    Status.NOT_NEIGHBOURS: NotNeighbours,
}


def _checked(status: int) -> None:
    fault = _FAULTS.get(Status(status))
    if fault is not None:
        raise fault(fault.__doc__)
    if status == Status.TOO_MANY_BYTES:
        raise OverflowError("jx: the part would end at 2**64 or behind")
    done(status)


def _written(call: Callable[..., int], *words: Any) -> bytes:
    """The bytes that a call writes into a buffer, which is made larger where the call asks for it."""
    size = ctypes.c_size_t(_ROOM)
    while True:
        # Memory that `ctypes` cannot have is a MemoryError.
        room = ctypes.create_string_buffer(size.value)
        status = call(*words, room, len(room), ctypes.byref(size))
        if status != Status.NO_ROOM:
            _checked(status)
            return room.raw[: size.value]


class Run:
    """The partial result (run) of a part of a text, which may be cut at any byte. Its bytes may be kept, sent or pickled.

    `start` is the offset of the part's first byte in the text. Without it runs are joined in the order in which they are
    passed. At most `depth` containers may be open at once.
    """

    __slots__ = ("_bytes",)

    def __init__(self, data: Buffer, start: Optional[int] = None, *, depth: int = DEPTH_DEFAULT):
        asked = settings(depth, False, False)
        if start is None:
            place = NO_FROM
        else:
            place = operator.index(start)
            if place < 0:
                raise ValueError("start is not below 0")
            if place >= NO_FROM:
                raise OverflowError("jx: the part would end at 2**64 or behind")
        with held(data) as (address, size):
            self._bytes = _written(LIBRARY.jx_run_of, address, size, place, asked.depth)

    @classmethod
    def from_bytes(cls, data: Buffer) -> Run:
        """The run that has these bytes, which any machine may have written. Raises `NotARun` where there is none."""
        with held(data) as (address, size):
            # No part ends before it starts, so a run is said to be of other bytes.
            status = LIBRARY.jx_run_verdict(address, size, 1, 0, ctypes.byref(CVerdict()))
            if status != Status.NOT_NEIGHBOURS:
                _checked(status)
            return cls._of(ctypes.string_at(address, size))

    @classmethod
    def _of(cls, data: bytes) -> Run:
        run = cls.__new__(cls)
        run._bytes = data
        return run

    def join(self, right: Run) -> Run:
        """The run of both parts, of which the right begins where this one ends. Joins may be made in any order."""
        if not isinstance(right, Run):
            raise TypeError("a run is joined with a Run, not " + type(right).__name__)
        with held(self._bytes) as left, held(right._bytes) as other:
            return self._of(_written(LIBRARY.jx_run_join, *left, *other))

    def verdict(self, start: int, end: int) -> Verdict:
        """The verdict on the part as a whole text, which must be the bytes from `start` up to `end`."""
        places = operator.index(start), operator.index(end)
        if not all(0 <= place < NO_FROM for place in places):
            raise NotNeighbours(NotNeighbours.__doc__)
        answer = CVerdict()
        with held(self._bytes) as (address, size):
            _checked(LIBRARY.jx_run_verdict(address, size, *places, ctypes.byref(answer)))
        return Verdict._of(answer.kind, answer.offset)

    def __bytes__(self) -> bytes:
        return self._bytes

    def __eq__(self, other: Any) -> Any:
        return self._bytes == other._bytes if isinstance(other, Run) else NotImplemented

    def __hash__(self) -> int:
        return hash(self._bytes)

    def __reduce__(self) -> Tuple[Any, ...]:
        return type(self).from_bytes, (self._bytes,)
