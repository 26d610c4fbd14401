"""Lazy views of a text that stays where it is, by its saved index."""
from __future__ import annotations

import bisect
import builtins
import collections
import collections.abc
import json
import operator
from typing import (
    Any,
    Dict,
    ItemsView,
    Iterable,
    Iterator,
    List,
    Mapping,
    NamedTuple,
    Optional,
    Sequence,
    Tuple,
    TypeVar,
    Union,
    ValuesView,
    overload,
)

from . import _engine, _faults
from ._children import FOUND, KINDS, LARGE, NO_SUCH_MEMBER, NOWHERE, Answer, Children, PartOf, Place, children_in, scalar_of, times_of
from ._find import NO_TEXT, refuse_surrogate
from ._index import ValueKind, _token, _units
from ._library import DEPTH_MAX
from ._saved import SavedText
from ._values import ValueReader

T = TypeVar("T")
_NOT_AN_INDEX, _PAST_END, _AFTER_LAST, _NOT_A_CONTAINER, _NO_SLASH = 3, 4, 5, 6, 7
_OBJECT, _ARRAY = ValueKind.OBJECT.value, ValueKind.ARRAY.value
_KINDS = tuple(ValueKind)
_MOST_PARTS = 65536
# A container of so few bytes is read for each child that is looked up, and of so few it is read and indexed.
_SMALL, _NEAR = 4096, 65536
# In an object that is larger the library does so many look-ups. Then it is indexed, or the places of its members are kept, of which there
# are at most so many. With tables of names it does one more for each 64 members, which takes as long as to list these.
_FEW_ASKED, _OFTEN_ASKED, _MOST_PLACES, _NAMES_LISTED = 4, 16, 1 << 20, 64
# Elements of a larger array are looked up by so many at once, and are read by about so many bytes where they are small.
_FEW, _MANY = 16, 1024
_RUN = 1 << 17


def open(file: Any, index: Any = None) -> View:
    """Opens a text by its saved index, FILE.jxi unless `index` is another path or the bytes of one: a view of the text's root.

    The file is a path, or any object with `seek` and `read` that gives bytes; then `index` is needed. Raises `FileNotFoundError` where
    there is no index, `Stale` where the text has another size than the one that was indexed, and `BadIndex`. A chunk that is read and is
    not that of the text that was indexed is a `Changed`. Chunks that are not read are not looked at. Where tables of names follow the
    index, look-ups go by them. Close the view, or use it by `with`.
    """
    text = SavedText(file, index)
    try:
        outcome, at, kind, start, end = text.answers([""])[0]
        if outcome != FOUND:
            _faults.raise_not_found("", outcome, at)
        return _viewed(text, "", kind, start, end)
    except BaseException:
        text.close()
        raise


def _viewed(text: SavedText, pointer: Optional[str], kind: int, start: int, end: int) -> View:
    if kind == _ARRAY:
        return ArrayView(text, pointer, kind, start, end)
    if kind == _OBJECT:
        return ObjectView(text, pointer, kind, start, end)
    return View(text, pointer, kind, start, end)


def _valued(text: SavedText, pointer: Optional[str], kind: int, start: int, end: int) -> Any:
    """A view of a container, and any other value as `json.loads` reads it."""
    if kind == _OBJECT or kind == _ARRAY:
        return _viewed(text, pointer, kind, start, end)
    return scalar_of(text.read(start, end))


class View:
    """A value of a text, of which no byte was read yet. `bytes(view)` reads its bytes.

    Two are equal if they are the same value of the same opened text.
    """

    __slots__ = ("_text", "pointer", "kind", "span")

    def __init__(self, text: SavedText, pointer: Optional[str], kind: int, start: int, end: int):
        self._text = text
        self.pointer = pointer
        """The JSON Pointer (RFC 6901) that led here. None where none does: a name on the way is repeated, or has half of a surrogate
        pair."""
        self.kind = _KINDS[kind]
        self.span = (start, end)
        """Where the value stands in the file: from the first byte up to, but not including, the second."""

    def load(self, **options: Any) -> Any:
        """`json.loads` of just this value. The words go there."""
        return json.loads(bytes(self), **options)

    def __bytes__(self) -> builtins.bytes:
        return self._text.read(*self.span)

    def find(self, pointer: str) -> Any:
        """The value that a pointer leads to from here: a view of a container, and any other value as `json.loads` reads it.

        Raises `BadPointer` or a `NotFound`, as `jx.get` does.
        """
        return self._found(pointer, self._look_up(pointer))

    def find_all(self, pointers: Iterable[str]) -> List[Any]:
        """The same for several pointers, in order, by one look-up."""
        if isinstance(pointers, str):
            raise TypeError("find_all takes several pointers, and this is one: pass [%r]" % pointers)
        named = list(pointers)
        told: List[Optional[Answer]] = [None] * len(named)
        if self._size() > _NEAR and self.pointer is not None:
            for pointer in named:
                _refuse_no_slash(pointer)
            told = self._by_pointers(named)
        return [self._found(pointer, one or self._look_up(pointer)) for pointer, one in zip(named, told)]

    def close(self) -> None:
        """Closes the text, for each view of it."""
        self._text.close()

    def __enter__(self: T) -> T:
        return self

    def __exit__(self, *_: object) -> None:
        self.close()

    def __eq__(self, other: object) -> bool:
        if not isinstance(other, View):
            return NotImplemented
        return self._text is other._text and self.span == other.span

    def __hash__(self) -> int:
        return hash((id(self._text), self.span))

    def __bool__(self) -> bool:
        return True

    def __repr__(self) -> str:
        return "<jx.%s %s %d..%d>" % (type(self).__name__, self.kind.name.lower(), *self.span)

    def __reduce__(self) -> Tuple[Any, ...]:
        return _view_again, (_places(self._text), self.pointer, int(self.kind), self.span)

    def _size(self) -> int:
        return self.span[1] - self.span[0]

    def _parts(self, count: int) -> List[PartOf]:
        return self._text.parts(*self.span, count)

    def _found(self, pointer: str, answer: Answer) -> Any:
        """The value of an answer, or what it raises."""
        outcome, at, kind, start, end = answer
        if outcome != FOUND:
            _faults.raise_not_found(pointer, outcome, at)
        return _valued(self._text, None if self.pointer is None else self.pointer + pointer, kind, start, end)

    def _look_up(self, pointer: str) -> Answer:
        """The value that a pointer leads to from here: by the bytes where they are few, else by the library, which begins at the root."""
        if self._size() <= _NEAR:
            return self._look_near(pointer)
        _refuse_no_slash(pointer)
        return self._by_pointers([pointer])[0] or self._walk(pointer)

    def _look_near(self, pointer: str) -> Answer:
        start, end = self.span
        try:
            if end - start > _SMALL:
                return self._text.children(start, end).find(pointer)
            data = self._text.read(start, end)
            outcome, at, low, high = _engine.at(data, pointer, DEPTH_MAX, False, False)
        except UnicodeEncodeError:
            refuse_surrogate(pointer)
        if outcome in NO_TEXT:
            raise _faults.BadIndex("damaged")
        return (FOUND, 0, KINDS[data[low]], start + low, start + high) if outcome == FOUND else (outcome, at, 0, 0, 0)

    def _by_pointers(self, pointers: Sequence[str]) -> List[Optional[Answer]]:
        """The same by one look-up from the root. None for each where no pointer leads here, as that of a name that is repeated."""
        base = self.pointer
        if base is None:
            return [None] * len(pointers)
        steps, length = base.count("/"), len(base.encode())
        told: List[Optional[Answer]] = []
        for outcome, at, kind, start, end in self._text.answers([base + pointer for pointer in pointers]):
            if _faults.is_lost(outcome) and at < steps:
                self.pointer = None
                return [None] * len(pointers)
            told.append((outcome, at and at - (steps if _faults.is_lost(outcome) else length), kind, start, end))
        return told

    def _walk(self, pointer: str) -> Answer:
        """The same by one token after another, where no pointer leads here."""
        try:
            outcome, at, _, _ = _engine.at(b"0", pointer, 0, False, False)
        except UnicodeEncodeError:
            refuse_surrogate(pointer)
        if _faults.is_no_pointer(outcome):
            return outcome, at, 0, 0, 0
        view, tokens = self, pointer.split("/")[1:]
        for number, token in enumerate(tokens):
            if view._size() <= _NEAR:
                outcome, at, kind, start, end = view._look_near("/" + "/".join(tokens[number:]))
                return outcome, at + number if outcome != FOUND else 0, kind, start, end
            outcome, kind, start, end = view._step(token.replace("~1", "/").replace("~0", "~"))
            if outcome != FOUND:
                return outcome, number, 0, 0, 0
            view = _viewed(self._text, None, kind, start, end)
        return FOUND, 0, int(view.kind), *view.span

    def _step(self, token: str) -> Tuple[int, int, int, int]:
        """The outcome of a token, and kind, start and end of what it leads to."""
        return _NOT_A_CONTAINER, 0, 0, 0


class _Container(View):
    __slots__ = ("_length",)

    def __len__(self) -> int:
        try:
            return self._length
        except AttributeError:
            self._length: int = self._count()
            return self._length

    def split(self, count: int) -> List[Part]:
        """The children in so many parts, from 1 to 65,536, of about the same size; parts without a child are left out.

        Which child stands in which part depends on the text and the count alone.
        """
        if isinstance(count, bool) or not isinstance(count, int):
            raise TypeError("a count of parts is an int, not " + type(count).__name__)
        if not 1 <= count <= _MOST_PARTS:
            raise ValueError("a container is split into 1 to %d parts, not %d" % (_MOST_PARTS, count))
        return [Part(self, count, part) for part in self._parts(count)]

    def _count(self) -> int:
        if self._size() <= _NEAR:
            return self._children().count
        parts = self._parts(1)
        return parts[0].behind if parts else 0

    def _children(self) -> Children:
        return self._text.children(*self.span)


class _Run(NamedTuple):
    """Elements of an array, from number `first` up to, but not including, `behind`, and where they stand."""

    first: int
    behind: int
    start: int
    end: int


class ArrayView(_Container, Sequence[Any]):
    """An array. `view[2]`, `view[-1]` and iteration give its elements: views of containers, and other values as `json.loads` does."""

    __slots__ = ("_run", "_width", "_next", "_parted")

    def __init__(self, text: SavedText, pointer: Optional[str], kind: int, start: int, end: int):
        super().__init__(text, pointer, kind, start, end)
        # Elements that were looked up at once: the more, the longer one is asked for after another.
        self._run = _Run(0, 0, 0, 0)
        self._width, self._next = 1, -1

    @overload
    def __getitem__(self, key: int) -> Any: ...

    @overload
    def __getitem__(self, key: slice) -> Elements: ...

    def __getitem__(self, key: Union[int, slice]) -> Any:
        if isinstance(key, slice):
            return Elements(self, range(len(self))[key])
        place = operator.index(key)
        if place < 0:
            place += len(self)
            if place < 0:
                raise IndexError("element %d of %d" % (place - len(self), len(self)))
        found = self._element(place)
        if found is None:
            _faults.raise_not_found("/%d" % place, _PAST_END, 0)
        return _valued(self._text, self._pointer_to(place), *found)

    def __iter__(self) -> Iterator[Any]:
        return self._elements(0, None, 1)

    def __reversed__(self) -> Iterator[Any]:
        return iter(self[::-1])

    def _pointer_to(self, place: int) -> Optional[str]:
        return None if self.pointer is None else "%s/%d" % (self.pointer, place)

    def _step(self, token: str) -> Tuple[int, int, int, int]:
        if token == "-":
            return _AFTER_LAST, *NOWHERE
        if token != "0" and not (token.isascii() and token.isdigit() and token[0] != "0"):
            return _NOT_AN_INDEX, *NOWHERE
        # More digits than any count has, and Python reads no number of very many.
        found = self._element(int(token)) if len(token) < 30 else None
        return (_PAST_END, *NOWHERE) if found is None else (FOUND, *found)

    def _element(self, place: int) -> Optional[Place]:
        """Where an element stands; None after the last one."""
        if self._size() <= _NEAR:
            children = self._children()
            return children.place(place) if place < children.count else None
        run = self._run
        if not run.first <= place < run.behind:
            width = self._width if place == self._next else 1
            found = None if width == 1 else self._run_of(place, place + width - 1)
            if found is None or found.end - found.start > 2 * _RUN:
                self._width, self._next = 2, place + 1
                return self._place_of(place, self._by_pointers(["/%d" % place])[0])
            run = self._run = found
            self._width, self._next = max(2, min(2 * width, _MANY, _RUN * width // (run.end - run.start))), run.behind
        return self._text.children(run.start, run.end, run.first).place(place)

    def _place_of(self, place: int, told: Optional[Answer]) -> Optional[Place]:
        """Where an element stands, by the answer on its pointer, if there is one."""
        if told is None:
            return self._without_pointer(place)
        return told[2:] if told[0] == FOUND else None

    def _run_of(self, low: int, high: int) -> Optional[_Run]:
        """The elements from one up to another, or to the last one. None where there is no first one, or where no pointer leads here."""
        first, last = self._by_pointers(["/%d" % low, "/%d" % high])
        if first is None or last is None or first[0] != FOUND:
            return None
        if last[0] == FOUND:
            return _Run(low, high + 1, first[3], last[4])
        return _Run(low, len(self), first[3], self.span[1] - 1)

    def _elements(self, place: int, end: Optional[int], step: int) -> Iterator[Any]:
        """The elements from a place on, by look-ups of several at once."""
        if self._size() <= _NEAR:
            children = self._children()
            yield from self._of(children, range(place, children.count if end is None else end, step))
            return
        width = _FEW
        while end is None or (place < end if step > 0 else place > end):
            behind = place + width * step
            if end is not None:
                behind = min(behind, end) if step > 0 else max(behind, end)
            some = range(place, behind, step)
            run = self._run_of(min(some[0], some[-1]), max(some[0], some[-1]))
            if run is None:
                if self.pointer is None:
                    yield from self._one_by_one(range(place, len(self) if end is None else end, step))
                return
            size, count = run.end - run.start, run.behind - run.first
            if end is None:
                some = range(place, run.behind)
            if size <= min(2 * _RUN, _SMALL * len(some)) and count <= 8 * len(some):
                yield from self._of(Children(b"[%b]" % self._text.read(run.start, run.end), run.start - 1, run.first), some)
            else:
                yield from self._one_by_one(some)
            if end is None and run.behind < behind:
                return
            place, width = behind, min(2 * width, max(_FEW, _RUN * len(some) // size))

    def _of(self, children: Children, places: range) -> Iterable[Any]:
        """Elements that are indexed."""
        first, plain = children.first, children.scalars()
        if plain is None:
            return self._each_of(children, places)
        if places.step == 1:
            return plain[places.start - first : places.stop - first]
        return [plain[place - first] for place in places]

    def _each_of(self, children: Children, places: range) -> Iterator[Any]:
        text, place_of, scalar = self._text, children.place, children.scalar
        for place in places:
            kind, start, end = place_of(place)
            if kind == _OBJECT or kind == _ARRAY:
                yield _viewed(text, self._pointer_to(place), kind, start, end)
            else:
                yield scalar(start, end)

    def _one_by_one(self, places: Sequence[int]) -> Iterator[Any]:
        for at in range(0, len(places), _MANY):
            some = places[at : at + _MANY]
            for place, told in zip(some, self._by_pointers(["/%d" % one for one in some])):
                found = self._place_of(place, told)
                if found is not None:
                    yield _valued(self._text, self._pointer_to(place), *found)

    def _without_pointer(self, place: int) -> Optional[Place]:
        """Where an element stands, by a part of the array, where no pointer leads here."""
        try:
            parts, spans = self._parted
        except AttributeError:
            parts, spans = self._parts(min(1 + self._size() // _NEAR, _MOST_PARTS)), {}
            self._parted: Tuple[List[PartOf], Dict[int, List[Place]]] = parts, spans
        number = bisect.bisect_right(parts, place, key=operator.attrgetter("first")) - 1
        if number < 0 or place >= parts[number].behind:
            return None
        of_part = spans.get(number)
        if of_part is None:
            # One part at a time is kept.
            spans.clear()
            of_part = spans[number] = [one[1:] for one in children_in(self._text.read, parts[number], False)]
        return of_part[place - parts[number].first]


class Elements(Sequence[Any]):
    """Elements of an array, by a slice of their places. None is read before it is asked for."""

    __slots__ = ("_array", "places")

    def __init__(self, array: ArrayView, places: range):
        self._array = array
        self.places = places

    def __len__(self) -> int:
        return len(self.places)

    @overload
    def __getitem__(self, key: int) -> Any: ...

    @overload
    def __getitem__(self, key: slice) -> Elements: ...

    def __getitem__(self, key: Union[int, slice]) -> Any:
        if isinstance(key, slice):
            return Elements(self._array, self.places[key])
        return self._array[self.places[key]]

    def __iter__(self) -> Iterator[Any]:
        return self._array._elements(self.places.start, self.places.stop, self.places.step)

    def __repr__(self) -> str:
        return "<jx.Elements %d of %r>" % (len(self), self._array)


class ObjectView(_Container, Mapping[str, Any]):
    """An object. `view["name"]`, `get`, `in`, `values` and `items` are those of a mapping, and iteration gives the names.

    `len` and iteration count each member, also of a repeated name; `view[name]` of one raises `NameRepeated`.
    """

    __slots__ = ("_asked", "_by_name")

    def __init__(self, text: SavedText, pointer: Optional[str], kind: int, start: int, end: int):
        super().__init__(text, pointer, kind, start, end)
        self._asked = 0
        self._by_name: Optional[Dict[str, Place]] = None

    def __getitem__(self, name: str) -> Any:
        start, end = self.span
        if end - start <= _SMALL and isinstance(name, str) and name.isascii():
            # The usual case in one reading, since it is that of loops.
            data = self._text.read(start, end)
            outcome, _, low, high = _engine.at(data, "/" + _token(name), DEPTH_MAX, False, False)
            if outcome == FOUND:
                kind = KINDS[data[low]]
                if kind == _OBJECT or kind == _ARRAY:
                    return _viewed(self._text, self._pointer_to(name), kind, start + low, start + high)
                return scalar_of(data[low:high])
        times, found = self._member(_named(name))
        if times == 1:
            return _valued(self._text, self._pointer_to(name), *found)
        raise (_faults.NameRepeated if times else _faults.NoSuchMember)("/" + _token(name), 0)

    def __contains__(self, name: object) -> bool:
        return self._member(_named(name))[0] > 0

    @overload
    def get(self, name: str) -> Any: ...

    @overload
    def get(self, name: str, default: Any) -> Any: ...

    def get(self, name: str, default: Any = None) -> Any:
        """The member of this name, or the default where there is none. Raises `NameRepeated`."""
        try:
            return self[name]
        except _faults.NoSuchMember:
            return default

    def __iter__(self) -> Iterator[str]:
        return (name for name, _, _, _ in self._members())

    def values(self) -> ValuesView[Any]:
        return _Values(self)

    def items(self) -> ItemsView[str, Any]:
        return _Items(self)

    def __eq__(self, other: object) -> bool:
        return View.__eq__(self, other)

    __hash__ = View.__hash__

    def _step(self, token: str) -> Tuple[int, int, int, int]:
        times, found = self._member(token)
        return (NO_SUCH_MEMBER, FOUND, _faults.NAME_REPEATED)[times], *found

    def _member(self, name: str) -> Tuple[int, Place]:
        """How many members have a name, of which 2 stands for more, and the place of a single one."""
        has_pointer = _is_utf8(name)
        if not has_pointer:
            # Two halves of a pair that stand side by side are one character.
            name = _units(name).decode("utf-16-le", "surrogatepass")
            has_pointer = _is_utf8(name)
        if self._size() <= _NEAR:
            if not has_pointer:
                return self._children().member(name)
            outcome, _, kind, start, end = self._look_near("/" + _token(name))
            return times_of(outcome), (kind, start, end)
        self._asked += 1
        if self._size() <= LARGE and (self._asked > _FEW_ASKED or self._text.is_indexed(*self.span)):
            return self._children().member(name)
        if has_pointer and not self._is_worth_a_list():
            told = self._by_pointers(["/" + _token(name)])[0]
            if told is not None:
                return times_of(told[0]), told[2:]
        return self._by_all(name)

    def _is_worth_a_list(self) -> bool:
        """Whether the look-ups so far took about as long as to list all members, where these are not too many."""
        if self._asked <= _OFTEN_ASKED or len(self) > _MOST_PLACES:
            return False
        return not self._text.has_names or self._asked > len(self) // _NAMES_LISTED

    def _by_all(self, name: str) -> Tuple[int, Place]:
        """The same by the places of all members, which are kept where there are not too many."""
        if self._size() <= LARGE:
            return self._children().member(name)
        if len(self) > _MOST_PLACES:
            same = [one[1:] for one in self._members() if one[0] == name][:2]
            return len(same), same[0] if len(same) == 1 else NOWHERE
        if self._by_name is None:
            places: Dict[str, Place] = {}
            for one, *place in self._members():
                places[one] = NOWHERE if one in places else (place[0], place[1], place[2])
            self._by_name = places
        found = self._by_name.get(name)
        return (0, NOWHERE) if found is None else (2 if found == NOWHERE else 1, found)

    def _members(self) -> Iterator[Tuple[str, int, int, int]]:
        """Name, kind, start and end of each member, by parts of the object."""
        if self._size() <= LARGE:
            yield from self._children().all()
            return
        for part in self._parts(_parts_of(self._size())):
            yield from children_in(self._text.read, part, True)

    def _pairs(self) -> Iterator[Tuple[str, Any]]:
        members: Iterable[Tuple[str, int, int, int]] = self._members()
        repeated = set()
        if self._size() <= LARGE:
            members = list(members)
            repeated = {name for name, times in collections.Counter(one[0] for one in members).items() if times > 1}
        for name, kind, start, end in members:
            yield name, _valued(self._text, None if name in repeated else self._pointer_to(name), kind, start, end)

    def _pointer_to(self, name: str) -> Optional[str]:
        return None if self.pointer is None or not _is_utf8(name) else "%s/%s" % (self.pointer, _token(name))


class _Items(collections.abc.ItemsView):  # type: ignore[type-arg]
    _mapping: ObjectView

    def __iter__(self) -> Iterator[Tuple[str, Any]]:
        return self._mapping._pairs()

    def __contains__(self, item: object) -> bool:
        return any(pair == item for pair in self)


class _Values(collections.abc.ValuesView):  # type: ignore[type-arg]
    _mapping: ObjectView

    def __iter__(self) -> Iterator[Any]:
        return (value for _, value in self._mapping._pairs())

    def __contains__(self, value: object) -> bool:
        return any(one is value or one == value for one in self)


class Part:
    """Whole children of a container, for one of several loaders: from number `first` up to `last`, both among them.

    It can be pickled where the text was opened by paths. Iteration gives an array's elements, or pairs of an object's names and values,
    as `json.loads` reads them, and holds a chunk and one child, or a MiB of members. `load` gives a list or a dict of all of them.
    """

    __slots__ = ("_view", "_count", "_part")

    def __init__(self, view: _Container, count: int, part: PartOf):
        self._view = view
        self._count = count
        self._part = part

    @property
    def first(self) -> int:
        """The number of its first child in the container, from 0."""
        return self._part.first

    @property
    def last(self) -> int:
        """The number of its last child."""
        return self._part.behind - 1

    @property
    def span(self) -> Tuple[int, int]:
        """From after the comma or bracket before its first child, up to the one after its last."""
        return self._part.start, self._part.end

    def __len__(self) -> int:
        return self._part.behind - self._part.first

    def __iter__(self) -> Iterator[Any]:
        return self._of_array() if isinstance(self._view, ArrayView) else self._of_object()

    def load(self) -> Union[List[Any], Dict[str, Any]]:
        """All its children: a list of an array's elements, or a dict of an object's members, the last one of each name."""
        return list(self) if isinstance(self._view, ArrayView) else dict(self)

    def __bytes__(self) -> builtins.bytes:
        """Its bytes: with brackets around them they are a JSON text."""
        return self._view._text.read(*self.span)

    def close(self) -> None:
        """Closes the text, which a part that was pickled has opened for itself."""
        self._view.close()

    def __enter__(self) -> Part:
        return self

    def __exit__(self, *_: object) -> None:
        self.close()

    def __repr__(self) -> str:
        return "<jx.Part %d..%d of %r>" % (self.first, self.last, self._view)

    def __reduce__(self) -> Tuple[Any, ...]:
        return _part_again, (self._view, self._count, tuple(self._part))

    def _of_array(self) -> Iterator[Any]:
        reader = ValueReader("", depth=DEPTH_MAX)
        try:
            reader.feed(b"[")
            for piece in self._view._text.pieces(*self.span):
                yield from map(json.loads, reader.feed(piece))
            yield from map(json.loads, reader.feed(b"]"))
            reader.end()
        finally:
            reader.close()

    def _of_object(self) -> Iterator[Tuple[str, Any]]:
        text, few = self._view._text, min(_parts_of(self.span[1] - self.span[0]), _MOST_PARTS // self._count)
        # A part of so many times more is a part of this part.
        finer = [self._part]
        if few > 1:
            finer = [one for one in self._view._parts(self._count * few) if one.number // few == self._part.number]
        for part in finer:
            for name, _, start, end in children_in(text.read, part, True):
                yield name, json.loads(text.read(start, end))


def _parts_of(size: int) -> int:
    return min(1 + size // LARGE, _MOST_PARTS)


def _is_utf8(name: str) -> bool:
    if name.isascii():
        return True
    try:
        name.encode()
        return True
    except UnicodeEncodeError:
        return False


def _refuse_no_slash(pointer: str) -> None:
    if isinstance(pointer, str) and pointer and pointer[0] != "/":
        _faults.raise_not_found(pointer, _NO_SLASH, 0)


def _named(name: object) -> str:
    if not isinstance(name, str):
        raise TypeError("a member of an object is named by a str, not by " + type(name).__name__)
    return name


def _places(text: SavedText) -> Tuple[str, str]:
    if text.source is None:
        raise TypeError("a view is pickled only where the text and its index were opened by their paths")
    return text.source


# The texts that were opened for what was pickled, by their paths, so that many parts share one.
_AGAIN: Dict[Tuple[str, str], SavedText] = {}


def _view_again(places: Tuple[str, str], pointer: Optional[str], kind: int, span: Tuple[int, int]) -> View:
    text = _AGAIN.get(places)
    if text is None or text.is_closed:
        text = _AGAIN[places] = SavedText(*places)
    return _viewed(text, pointer, kind, *span)


def _part_again(view: _Container, count: int, part: Tuple[int, int, int, int, int]) -> Part:
    return Part(view, count, PartOf(*part))

