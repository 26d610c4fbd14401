"""JSON text sequences (RFC 7464)."""
from __future__ import annotations

import ctypes
import dataclasses
from typing import List

from ._faults import Verdict
from ._library import DEPTH_DEFAULT, LIBRARY, Buffer, CElement, done, held, settings, view

_STEP = 1 << 20


@dataclasses.dataclass(frozen=True)
class Element:
    """An element: its bytes, a view of the data; its span; its verdict, whose offset counts from the sequence's start."""

    bytes: memoryview
    start: int
    end: int
    verdict: Verdict


def elements(data: Buffer, *, depth: int = DEPTH_DEFAULT, ignore_bom: bool = False, unique_names: bool = False) -> List[Element]:
    """All elements of a JSON text sequence, in order, whatever the verdict on each is."""
    asked = settings(depth, ignore_bom, unique_names)
    seen = view(data)
    separators = sum(bytes(seen[start : start + _STEP]).count(b"\x1e") for start in range(0, len(seen), _STEP))
    room, count = separators + 1, ctypes.c_size_t()
    found = (CElement * room)()
    with held(seen) as (address, size):
        done(LIBRARY.jx_elements_non_null(address, size, ctypes.byref(asked), found, room, ctypes.byref(count)))
    return [
        Element(seen[each.span.start : each.span.end], each.span.start, each.span.end, Verdict._of(each.verdict.kind, each.verdict.offset))
        for each in found[: count.value]
    ]
