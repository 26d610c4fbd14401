"""The calls of `native.c`, by `ctypes`: where it is not built, or Python is older than 3.11."""
from __future__ import annotations

import array
import ctypes
import weakref
from typing import ContextManager, List, Optional, Tuple, Union

from ._library import HELD, LIBRARY, NO_ROW, Buffer, CAnswer, CIndex, CRow, CSettings, CVerdict, Status, done, held, settings, view

_FOUND = 0


def verdict(data: Buffer, depth: int, ignore_bom: bool, unique_names: bool) -> Optional[Tuple[int, int]]:
    """None where a text is accepted, else the verdict's kind and offset."""
    asked = settings(depth, ignore_bom, unique_names)
    answer = CVerdict()
    with held(data) as (address, size):
        done(LIBRARY.jx_check_non_null(address, size, ctypes.byref(asked), ctypes.byref(answer)))
    return None if answer.kind == 0 else (answer.kind, answer.offset)


def compact(data: Buffer, depth: int, ignore_bom: bool, unique_names: bool) -> Union[bytes, Tuple[int, int]]:
    """The compact form of a text, or the verdict on bytes that are not one."""
    asked = settings(depth, ignore_bom, unique_names)
    answer, count = CVerdict(), ctypes.c_size_t()
    with held(data) as (address, size):
        # Memory that `ctypes` cannot have is a MemoryError.
        room = ctypes.create_string_buffer(max(size, 1))
        done(
            LIBRARY.jx_compact_non_null(
                address, size, ctypes.byref(asked), room, size, ctypes.byref(count), ctypes.byref(answer)
            )
        )
    return (answer.kind, answer.offset) if answer.kind != 0 else ctypes.string_at(room, count.value)


def at(data: Buffer, pointer: str, depth: int, ignore_bom: bool, unique_names: bool) -> Tuple[int, int, int, int]:
    """The answer to a pointer: the outcome, the number or offset that goes with it, and where the value starts and ends."""
    asked = settings(depth, ignore_bom, unique_names)
    words = _spelt(pointer)
    answer = CAnswer()
    with held(data) as (address, size), held(words) as (pointer_address, pointer_size):
        done(LIBRARY.jx_at_non_null(address, size, pointer_address, pointer_size, ctypes.byref(asked), ctypes.byref(answer)))
    return answer.outcome, answer.at, answer.span.start, answer.span.end


def index(data: Buffer, depth: int, ignore_bom: bool, unique_names: bool) -> Union[Rows, Tuple[int, int]]:
    """The rows of a text, or the verdict on bytes that are not one."""
    rows = Rows(data)
    found = rows._read(settings(depth, ignore_bom, unique_names))
    return rows if found is None else found


class Rows:
    """The index of a text, with the rows of each value's children once these are asked for.

    Calls of the library hold the interpreter's lock, so no two of them use one index at once.
    """

    def __init__(self, data: Buffer) -> None:
        self._text = view(data)
        self._held = held(data)
        self._index = CIndex()
        self._at_index = ctypes.byref(self._index)
        self._count = 0
        # The children of row n are those from the number at n in the first list up to the next one, in the second list.
        self._children: Optional[Tuple[array.array[int], array.array[int]]] = None

    def _read(self, asked: CSettings) -> Optional[Tuple[int, int]]:
        """Indexes the text. None where it is accepted, else the verdict's kind and offset."""
        answer = CVerdict()
        address, size = self._held.__enter__()
        # The text is kept for as long as the library has the index.
        self._free = weakref.finalize(self, _free, self._index, self._held)
        done(LIBRARY.jx_index_new_non_null(address, size, ctypes.byref(asked), self._at_index, ctypes.byref(answer)))
        if answer.kind != 0:
            return answer.kind, answer.offset
        self._count = self._counted()
        return None

    def __len__(self) -> int:
        return self._count

    def find(self, pointer: str) -> Union[int, Tuple[int, int]]:
        """The number of a row, or an outcome and its place."""
        words = _spelt(pointer)
        answer, row = CAnswer(), CRow()
        done(HELD.jx_index_find_non_null(self._at_index, words, len(words), ctypes.byref(answer)))
        if answer.outcome != _FOUND:
            return answer.outcome, answer.at
        start: int = answer.span.start
        low, high = 0, self._count
        while low < high:
            middle = (low + high) // 2
            HELD.jx_index_row_non_null(self._at_index, middle, ctypes.byref(row))
            if row.span.start < start:
                low = middle + 1
            else:
                high = middle
        return low

    def row(self, number: int) -> Tuple[int, int, int, int, int, Optional[int], int]:
        """Kind, start and end of the value, start and end of its name, parent or None, place."""
        if not 0 <= number < self._count:
            raise IndexError("row %d of %d" % (number, self._count))
        row = CRow()
        HELD.jx_index_row_non_null(self._at_index, number, ctypes.byref(row))
        parent = None if row.parent == NO_ROW else row.parent
        return row.kind, row.span.start, row.span.end, row.name.start, row.name.end, parent, row.place

    def kind(self, number: int) -> int:
        """The kind of a value."""
        return self.row(number)[0]

    def count(self, number: int) -> int:
        """How many children a value has."""
        firsts, _ = self._listed()
        return firsts[number + 1] - firsts[number]

    def child(self, number: int, place: int) -> int:
        """The number of a child, whose place is below the count of children."""
        firsts, children = self._listed()
        return children[firsts[number] + place]

    def members(self, number: int, name: str) -> Optional[Tuple[int, int]]:
        """The number of the member and how many have the name; or None where the names have to be decoded, since one has an escape."""
        wanted = name.encode()
        firsts, children = self._listed()
        found: List[int] = []
        for member in children[firsts[number] : firsts[number + 1]]:
            row = self.row(member)
            spelling = bytes(self._text[row[3] + 1 : row[4] - 1])
            if b"\\" in spelling:
                return None
            if spelling == wanted:
                found.append(member)
        return (found[-1], len(found)) if found else (0, 0)

    def _counted(self) -> int:
        """How many rows there are: the library gives a row by its number, or says that there is none."""
        low, high = 1, 1
        while self._is_row(high):
            low, high = high + 1, 2 * high
        while low < high:
            middle = (low + high) // 2
            if self._is_row(middle):
                low = middle + 1
            else:
                high = middle
        return low

    def _is_row(self, number: int) -> bool:
        status: int = HELD.jx_index_row_non_null(self._at_index, number, ctypes.byref(CRow()))
        return status == Status.OK

    def _listed(self) -> Tuple[array.array[int], array.array[int]]:
        """Counts the children of each row, then puts each child at its place."""
        if self._children is None:
            code = "I" if self._count < 2**32 and array.array("I").itemsize == 4 else "Q"
            firsts = array.array(code, bytes((self._count + 1) * array.array(code).itemsize))
            children = array.array(code, bytes(self._count * array.array(code).itemsize))
            row = CRow()
            for number in range(1, self._count):
                HELD.jx_index_row_non_null(self._at_index, number, ctypes.byref(row))
                firsts[row.parent + 1] += 1
            for number in range(1, self._count + 1):
                firsts[number] += firsts[number - 1]
            for number in range(1, self._count):
                HELD.jx_index_row_non_null(self._at_index, number, ctypes.byref(row))
                children[firsts[row.parent] + row.place] = number
            self._children = firsts, children
        return self._children


def _free(index: CIndex, text: ContextManager[Tuple[int, int]]) -> None:
    HELD.jx_index_free_non_null(ctypes.byref(index))
    text.__exit__(None, None, None)


def _spelt(pointer: str) -> bytes:
    if not isinstance(pointer, str):
        raise TypeError("a pointer is a str, not " + type(pointer).__name__)
    return pointer.encode()
