"""All values of a text, over an index of the library."""
from __future__ import annotations

import builtins
import enum
import json
import operator
from typing import Any, Iterator, List, NamedTuple, Optional, Tuple, TypeVar, Union, overload

from . import _engine, _faults
from ._faults import Verdict, refused_in
from ._find import refuse_surrogate
from ._library import DEPTH_DEFAULT, Buffer, view

T = TypeVar("T")
# Members of larger objects are looked up by the library, by their pointers.
_FEW = 32


class ValueKind(enum.IntEnum):
    """Kinds of values (RFC 8259, section 3)."""

    OBJECT = 0
    ARRAY = 1
    STRING = 2
    NUMBER = 3
    TRUE = 4
    FALSE = 5
    NULL = 6


# As numbers of the library, which are compared sooner.
_OBJECT, _ARRAY = ValueKind.OBJECT.value, ValueKind.ARRAY.value


class Row(NamedTuple):
    """A value: its kind, its span, the span of its name or None, the number of its parent's row or None, and its place there."""

    kind: ValueKind
    start: int
    end: int
    name: Optional[Tuple[int, int]]
    parent: Optional[int]
    place: int


class Index:
    """All values of a JSON text, in the order of their starts.

    `index[pointer]` is a `Value`, `len(index)` the count of values, and iteration goes over all of them. It keeps a view of the data,
    which cannot be resized meanwhile; data that may be written to, as a `bytearray`, is copied.
    """

    __slots__ = ("_rows", "_view")

    def __init__(self, data: Buffer, *, depth: int = DEPTH_DEFAULT, ignore_bom: bool = False, unique_names: bool = False):
        self._view = view(data)
        if not self._view.readonly:
            # The library may not read bytes that change under an index.
            self._view = memoryview(bytes(self._view))
        rows = _engine.index(self._view, depth, ignore_bom, unique_names)
        if isinstance(rows, tuple):
            raise refused_in(self._view, Verdict._of(*rows), depth, ignore_bom)
        self._rows = rows

    def __len__(self) -> int:
        return len(self._rows)

    def __iter__(self) -> Iterator[Value]:
        return (Value(self, number) for number in range(len(self._rows)))

    @property
    def root(self) -> Value:
        return Value(self, 0)

    def row(self, number: int) -> Row:
        """The row of a number from 0 to `len(index) - 1`."""
        kind, start, end, name_start, name_end, parent, place = self._rows.row(number)
        return Row(ValueKind(kind), start, end, None if name_end == 0 else (name_start, name_end), parent, place)

    @property
    def rows(self) -> Iterator[Row]:
        """All rows, in the order of the starts of their values."""
        return (self.row(number) for number in range(len(self._rows)))

    def __getitem__(self, pointer: str) -> Value:
        """The value that a pointer (RFC 6901) leads to. Raises `BadPointer` or a `NotFound`, as `jx.get` does."""
        found = self._find(pointer)
        if isinstance(found, tuple):
            _faults.raise_not_found(pointer, *found)
        return Value(self, found)

    @overload
    def get(self, pointer: str) -> Optional[Value]: ...

    @overload
    def get(self, pointer: str, default: T) -> Union[Value, T]: ...

    def get(self, pointer: str, default: Any = None) -> Any:
        """The value that a pointer leads to, or the default where it leads to none. Raises `BadPointer`."""
        found = self._find(pointer)
        if isinstance(found, int):
            return Value(self, found)
        if _faults.is_lost(found[0]):
            return default
        _faults.raise_not_found(pointer, *found)

    def __contains__(self, pointer: str) -> bool:
        return self.get(pointer) is not None

    def _find(self, pointer: str) -> Union[int, Tuple[int, int]]:
        try:
            return self._rows.find(pointer)
        except UnicodeEncodeError:
            refuse_surrogate(pointer)


class Value:
    """A value of an indexed text.

    Iteration goes over an array's elements, or over the names of an object, whose members' values are those of `values` and `items`. `len`
    counts them. `value[2]` and `value[-1]` are elements of an array, `value[1:3]` a list of them, and `value["name"]` is a member of an
    object. Two are equal if they are the same value of the same index. `bytes(value)` copies its bytes.
    """

    __slots__ = ("_index", "number", "_way")

    def __init__(self, index: Index, number: int):
        self._index = index
        self.number = number

    @property
    def row(self) -> Row:
        return self._index.row(self.number)

    @property
    def kind(self) -> ValueKind:
        return ValueKind(self._index._rows.kind(self.number))

    @property
    def bytes(self) -> memoryview:
        """The value's bytes, a view of the data."""
        row = self._index._rows.row(self.number)
        return self._index._view[row[1] : row[2]]

    def __bytes__(self) -> builtins.bytes:
        return self.bytes.tobytes()

    @property
    def name(self) -> Optional[str]:
        """The name of a member of an object; None for another value."""
        _, _, _, start, end, _, _ = self._index._rows.row(self.number)
        return None if end == 0 else _decoded(self._index._view[start:end].tobytes())

    @property
    def parent(self) -> Optional[Value]:
        parent = self._index._rows.row(self.number)[5]
        return None if parent is None else Value(self._index, parent)

    @property
    def pointer(self) -> Optional[str]:
        """The JSON Pointer (RFC 6901) that leads here. None where none does: an object on the way repeats the name that leads on, or such
        a name has half of a surrogate pair."""
        try:
            return self._way
        except AttributeError:
            self._way: Optional[str] = self._pointer()
            return self._way

    def _pointer(self) -> Optional[str]:
        rows, tokens = self._index._rows, []
        number: Optional[int] = self.number
        while number:
            _, _, _, start, end, parent, place = rows.row(number)
            tokens.append(_token(_decoded(self._index._view[start:end].tobytes())) if end else str(place))
            number = parent
        pointer = "".join("/" + token for token in reversed(tokens))
        try:
            return pointer if rows.find(pointer) == self.number else None
        except UnicodeEncodeError:
            return None

    def load(self, **options: Any) -> Any:
        """`json.loads` of just this value. The words go there."""
        return json.loads(self.bytes.tobytes(), **options)

    @overload
    def __getitem__(self, key: Union[int, str]) -> Value: ...

    @overload
    def __getitem__(self, key: slice) -> List[Value]: ...

    def __getitem__(self, key: Union[int, str, slice]) -> Union[Value, List[Value]]:
        """An element of an array by its place, or by a slice of places; a member of an object by its name.

        Raises an `IndexError` or a `KeyError`, among them `NoSuchMember` and `NameRepeated`, whose pointers begin at this value.
        """
        if isinstance(key, str):
            return self._member(key)
        rows, number = self._index._rows, self.number
        if rows.kind(number) != _ARRAY:
            raise TypeError("only an array has places: a member of an object is named by a str")
        count = rows.count(number)
        if isinstance(key, slice):
            return [Value(self._index, rows.child(number, place)) for place in range(*key.indices(count))]
        place = operator.index(key)
        if not -count <= place < count:
            raise IndexError("element %d of %d" % (place, count))
        return Value(self._index, rows.child(number, place % count))

    @overload
    def get(self, name: str) -> Optional[Value]: ...

    @overload
    def get(self, name: str, default: T) -> Union[Value, T]: ...

    def get(self, name: str, default: Any = None) -> Any:
        """The member of an object that has this name, or the default where there is none. Raises `NameRepeated`."""
        try:
            return self._member(name)
        except _faults.NoSuchMember:
            return default

    def __contains__(self, name: str) -> bool:
        """Whether an object has a member of this name."""
        if not isinstance(name, str):
            raise TypeError("a member of an object is named by a str, not by " + type(name).__name__)
        return bool(self._members(name)[1])

    def _member(self, name: str) -> Value:
        found, times = self._members(name)
        if times == 1:
            return Value(self._index, found)
        raise (_faults.NameRepeated if times else _faults.NoSuchMember)("/" + _token(name), 0)

    def _members(self, name: str) -> Tuple[int, int]:
        """The number of a member of this name, and how many there are, or at least whether there are more."""
        rows = self._index._rows
        if rows.kind(self.number) != _OBJECT:
            raise TypeError("only an object has members")
        try:
            if rows.count(self.number) > _FEW and self.pointer is not None:
                found = rows.find(self.pointer + "/" + _token(name))
                if isinstance(found, int):
                    return found, 1
                return 0, 2 if found[0] == _faults.NAME_REPEATED else 0
            told = rows.members(self.number, name)
        except UnicodeEncodeError:
            told = None
        if told is not None:
            return told
        wanted = _units(name)
        same = [child.number for child in self._children() if _units(child.name or "") == wanted]
        return (same[0], len(same)) if same else (0, 0)

    def __iter__(self) -> Iterator[Any]:
        return iter(self.keys()) if self._index._rows.kind(self.number) == _OBJECT else self._children()

    def keys(self) -> List[str]:
        """The names of an object's members, in order, also those that are repeated."""
        return [child.name or "" for child in self.values()]

    def values(self) -> List[Value]:
        """The values of an object's members, in order."""
        if self._index._rows.kind(self.number) != _OBJECT:
            raise TypeError("only an object has members")
        return list(self._children())

    def items(self) -> List[Tuple[str, Value]]:
        """Names and values of an object's members, in order."""
        return [(child.name or "", child) for child in self.values()]

    def _children(self) -> Iterator[Value]:
        index, number, child = self._index, self.number, self._index._rows.child
        return (Value(index, child(number, place)) for place in range(index._rows.count(number)))

    def __len__(self) -> int:
        return self._index._rows.count(self.number)

    def __bool__(self) -> bool:
        return True

    def __eq__(self, other: object) -> bool:
        if not isinstance(other, Value):
            return NotImplemented
        return self._index is other._index and self.number == other.number

    def __hash__(self) -> int:
        return hash((id(self._index), self.number))

    def __repr__(self) -> str:
        row = self.row
        return "<jx.Value %s %d..%d>" % (row.kind.name.lower(), row.start, row.end)


def _decoded(spelling: bytes) -> str:
    """The name that a string encodes, with its quotation marks. A name may have half of a surrogate pair."""
    if b"\\" not in spelling:
        return spelling[1:-1].decode()
    name: str = json.loads(spelling, strict=False)
    return name


def _token(name: str) -> str:
    return name.replace("~", "~0").replace("/", "~1")


def _units(name: str) -> bytes:
    """A name as its UTF-16 code units, so that each way to write it is the same."""
    return name.encode("utf-16-le", "surrogatepass")
