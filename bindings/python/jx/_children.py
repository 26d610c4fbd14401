"""Children of a container in a text that stays where it is, by the bytes of some of them."""
from __future__ import annotations

import json
import re
from typing import Any, Callable, Iterator, List, NamedTuple, Optional, Tuple

from ._faults import NAME_REPEATED, BadIndex, Refused
from ._index import Index, _decoded
from ._library import DEPTH_MAX

Read = Callable[[int, int], bytes]
# Kind, start and end of a value in the whole text.
Place = Tuple[int, int, int]
# The same after an outcome and the number that goes with it.
Answer = Tuple[int, int, int, int, int]
NOWHERE: Place = (0, 0, 0)
FOUND, NO_SUCH_MEMBER = 0, 1
# A child of more bytes is not read for its place.
LARGE = 1 << 20
KINDS = {**dict.fromkeys(b"-0123456789", 3), **dict(zip(b'{["tfn', (0, 1, 2, 4, 5, 6)))}
_BLANKS = b" \t\n\r"
_STRING = re.compile(rb'"[^"\\]*(?:\\.[^"\\]*)*"', re.S)
# The last one is the quotation mark of a string that is cut.
_TOKEN = re.compile(rb'"[^"\\]*(?:\\.[^"\\]*)*"|[][{},"]', re.S)


_READ = json.JSONDecoder().raw_decode


def scalar_of(value: bytes) -> Any:
    """A string, number or literal that was checked, as `json.loads` reads it."""
    return _READ(value.decode())[0]


class PartOf(NamedTuple):
    """A part of a container: its number, its span, its first child and the one after its last."""

    number: int
    start: int
    end: int
    first: int
    behind: int


class Children:
    """The children of a container, or some in a row with brackets around them. They are counted from `first`."""

    __slots__ = ("first", "count", "_data", "_index", "_start")

    def __init__(self, data: bytes, start: int, first: int = 0):
        """`start` is where the first bracket stands in the whole text."""
        try:
            self._index = Index(data, depth=DEPTH_MAX)
        except Refused:
            raise BadIndex("damaged") from None
        self._data = data
        self._start = start
        self.first = first
        self.count: int = self._index._rows.count(0)

    @property
    def size(self) -> int:
        """How many values the children and all in them are."""
        return len(self._index)

    def place(self, number: int) -> Place:
        rows = self._index._rows
        kind, start, end, _, _, _, _ = rows.row(rows.child(0, number - self.first))
        return kind, start + self._start, end + self._start

    def scalar(self, start: int, end: int) -> Any:
        """A child that is no container, as `json.loads` reads it."""
        return scalar_of(self._data[start - self._start : end - self._start])

    def find(self, pointer: str) -> Answer:
        """The value that a pointer leads to from the container. A `UnicodeEncodeError` where it has half of a surrogate pair."""
        found = self._index._rows.find(pointer)
        return (FOUND, 0, *self._place_of(found)) if isinstance(found, int) else (*found, 0, 0, 0)

    def member(self, name: str) -> Tuple[int, Place]:
        """How many members have a name, of which 2 stands for more, and the place of a single one."""
        number, times = self._index.root._members(name)
        return (1, self._place_of(number)) if times == 1 else (min(times, 2), NOWHERE)

    def all(self) -> Iterator[Tuple[str, int, int, int]]:
        """Name, kind, start and end of each. An element of an array has the name ''."""
        rows, data, shift = self._index._rows, self._data, self._start
        for number in range(self.count):
            kind, start, end, name_start, name_end, _, _ = rows.row(rows.child(0, number))
            yield _decoded(data[name_start:name_end]) if name_end else "", kind, start + shift, end + shift

    def scalars(self) -> Optional[List[Any]]:
        """All elements of an array as `json.loads` reads them, if that is sooner: where none is a container."""
        data = self._data
        if self.size != self.count + 1 or b"{" in data or data.count(b"[") != 1:
            return None
        try:
            found: List[Any] = json.loads(data)
            return found
        except ValueError:
            # An integer of more digits than Python reads stops no other element.
            return None

    def _place_of(self, number: int) -> Place:
        kind, start, end, _, _, _, _ = self._index._rows.row(number)
        return kind, start + self._start, end + self._start


def times_of(outcome: int) -> int:
    """How many members of an object have a name, by the outcome of a pointer: 2 stands for more."""
    if outcome in (FOUND, NO_SUCH_MEMBER, NAME_REPEATED):
        return (1, 0, 2)[outcome]
    raise BadIndex("damaged")


def children_in(read: Read, part: PartOf, is_object: bool) -> Iterator[Tuple[str, int, int, int]]:
    """Name, kind, start and end of each child in a part. A large last one is not read, but for its name."""
    last = part.start
    if part.end - part.start > (LARGE if part.behind - part.first == 1 else 2 * LARGE):
        if part.behind - part.first > 1:
            last = _last_comma(read, part) + 1
            yield from _between(read, part.start, last - 1, is_object).all()
        yield _large_child(read, last, part.end, is_object)
    else:
        yield from _between(read, part.start, part.end, is_object).all()


def _between(read: Read, start: int, end: int, is_object: bool) -> Children:
    return Children((b"{%b}" if is_object else b"[%b]") % read(start, end), start - 1)


def _last_comma(read: Read, part: PartOf) -> int:
    """Where the comma before the last child of a part stands. The bytes in front of it are no more than the share of a part."""
    size = 1 << 16
    while True:
        wanted, depth = part.behind - part.first - 1, 0
        data = read(part.start, min(part.start + size, part.end))
        for token in _TOKEN.finditer(data):
            byte = data[token.start()]
            if byte in b"[{":
                depth += 1
            elif byte in b"]}":
                depth -= 1
            elif byte == 0x2C and depth == 0:
                wanted -= 1
                if wanted == 0:
                    return part.start + token.start()
            elif token.end() - token.start() == 1 and byte == 0x22:
                break
        if size >= part.end - part.start:
            raise BadIndex("damaged")
        size *= 4


def _large_child(read: Read, start: int, end: int, is_member: bool) -> Tuple[str, int, int, int]:
    """Name, kind, start and end of a child that stands alone between two offsets, with white space around it."""
    name, at = "", _past_blanks(read, start, end)
    if is_member:
        spelling = _string_at(read, at, end)
        name = _decoded(spelling)
        at = _past_blanks(read, _past_blanks(read, at + len(spelling), end) + 1, end)
    kind = KINDS.get(read(at, at + 1)[0])
    if kind is None:
        raise BadIndex("damaged")
    return name, kind, at, _before_blanks(read, at, end)


def _past_blanks(read: Read, start: int, end: int) -> int:
    """Where the first byte stands other than white space."""
    while start < end:
        piece = read(start, min(start + 4096, end))
        rest = len(piece.lstrip(_BLANKS))
        start += len(piece) - rest
        if rest:
            return start
    raise BadIndex("damaged")


def _before_blanks(read: Read, start: int, end: int) -> int:
    """Where the white space at the end begins."""
    while start < end:
        piece = read(max(start, end - 4096), end)
        rest = len(piece.rstrip(_BLANKS))
        end -= len(piece) - rest
        if rest:
            return end
    raise BadIndex("damaged")


def _string_at(read: Read, start: int, end: int) -> bytes:
    size = 4096
    while True:
        piece = read(start, min(start + size, end))
        found = _STRING.match(piece)
        if found is not None:
            return found[0]
        if size >= end - start:
            raise BadIndex("damaged")
        size *= 16
