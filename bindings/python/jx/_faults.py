"""Verdicts, and the exceptions that carry them."""
from __future__ import annotations

import dataclasses
import enum
from typing import Any, Dict, NoReturn, Optional, Type

from ._sentence import Front, explained

_CONTINUATIONS = bytes(range(0x80, 0xC0))


class Kind(enum.IntEnum):
    """The verdict on bytes as a JSON text (RFC 8259), as an element of a sequence (RFC 7464), or as a line."""

    ACCEPTED = 0
    STOPPED = 1
    TRUNCATED = 2
    TOO_DEEP = 3
    MAY_BE_CUT = 4
    UNMARKED = 5
    REPEATED_NAME = 6
    BLANK = 7


_MESSAGES = {
    Kind.ACCEPTED: "Accepted",
    Kind.STOPPED: "No JSON text has this byte here",
    Kind.TRUNCATED: "The text ends too early",
    Kind.TOO_DEEP: "More containers are open than depth allows",
    Kind.MAY_BE_CUT: "More of the value may follow: it may be cut",
    Kind.UNMARKED: "The element has no record separator in front",
    Kind.REPEATED_NAME: "An earlier member of the object has this name",
    Kind.BLANK: "The line is blank",
}


@dataclasses.dataclass(frozen=True)
class Verdict:
    """A kind, and the offset of the byte it is about: of the fault, of the repeated name, or 0 where the kind has none.

    It is true where the bytes are accepted.
    """

    kind: Kind
    offset: int

    @property
    def is_accepted(self) -> bool:
        return self.kind is Kind.ACCEPTED

    def __bool__(self) -> bool:
        return self.is_accepted

    @property
    def reason(self) -> str:
        """The kind in words for people."""
        return _MESSAGES[self.kind]

    @classmethod
    def _of(cls, kind: int, offset: int) -> Verdict:
        return cls(Kind(kind), offset)


ACCEPTED = Verdict(Kind.ACCEPTED, 0)


class Refused(ValueError):
    """The bytes are not a text that is accepted.

    `msg` says what may stand at the place, or what the verdict is once the bytes in front are gone. `offset` counts bytes from 0.
    `lineno` and `colno` count lines and characters from 1, as `json.JSONDecodeError` does; both are `None` once the bytes in front are
    gone. A text that ends too early has the offset of its end. `filename` is the path of a file that was checked, and else None.
    """

    def __init__(
        self,
        verdict: Verdict,
        offset: Optional[int],
        place: Optional[tuple[int, int]],
        filename: Optional[str] = None,
        msg: Optional[str] = None,
    ):
        self.filename = filename
        self.verdict = verdict
        self.kind = verdict.kind
        self.offset = offset
        self.msg = msg or _MESSAGES[verdict.kind]
        self.lineno: Optional[int]
        self.colno: Optional[int]
        self.lineno, self.colno = place or (None, None)
        where = [] if place is None else ["line %d column %d" % place]
        if offset is not None:
            where.append("(byte %d)" % offset if where else "byte %d" % offset)
        super().__init__(": ".join([self.msg, " ".join(where)]) if where else self.msg)

    def __reduce__(self) -> Any:
        place = None if self.lineno is None else (self.lineno, self.colno)
        return type(self), (self.verdict, self.offset, place, self.filename, self.msg)

    def __str__(self) -> str:
        said = super().__str__()
        return said if self.filename is None else "%s: %s" % (self.filename, said)


class Place:
    """Counts lines and characters over bytes that come in parts."""

    def __init__(self) -> None:
        self.lineno, self.colno = 1, 1

    def go_over(self, part: bytes) -> None:
        newlines = part.count(b"\n")
        if newlines:
            self.lineno += newlines
            self.colno = 1
            part = part[part.rindex(b"\n") + 1 :]
        # One of each character's bytes is no continuation.
        self.colno += len(part.translate(None, _CONTINUATIONS))

    def told(self) -> tuple[int, int]:
        return self.lineno, self.colno


def refused_in(data: memoryview, verdict: Verdict, depth: int, ignore_bom: bool) -> Refused:
    """The refusal of these bytes, with its place and what may stand there."""
    offset = len(data) if verdict.kind is Kind.TRUNCATED else verdict.offset
    sentence, place = explained(data, verdict.kind, verdict.offset, depth, ignore_bom)
    return Refused(verdict, offset, place, msg=sentence)


def message_of(kind: Kind, front: Front, rest: bytes) -> str:
    """The sentence that says what is wrong at a place, by the bytes before it and some after it."""
    return front.too_deep() if kind is Kind.TOO_DEEP else front.sentence(rest)


class BadPointer(ValueError):
    """The words are no JSON Pointer (RFC 6901, section 3)."""


class BadIndex(ValueError):
    """The bytes are not a saved index, or not that of any text."""


class Stale(ValueError):
    """The text is not the one that was indexed."""


class Changed(Stale):
    """The bytes from `start` up to, but not including, `end` are not those of the text that was indexed."""

    def __init__(self, start: int, end: int):
        super().__init__(start, end)
        self.start = start
        self.end = end

    def __str__(self) -> str:
        return "changed in %d..%d" % (self.start, self.end)


class NotFound(LookupError):
    """The pointer leads to no value of the text. `token` counts the pointer's tokens from 0."""

    why = ""

    def __init__(self, pointer: str, token: int):
        super().__init__(pointer, token)
        self.pointer = pointer
        self.token = token

    def __str__(self) -> str:
        return "%s: token %d %s" % (self.pointer, self.token, self.why)


class NoSuchMember(NotFound, KeyError):
    why = "is the name of no member of the object"


class NameRepeated(NotFound, KeyError):
    why = "is the name of two or more members of the object"


class NotAContainer(NotFound, KeyError):
    why = "would lead on from a value that is neither an object nor an array"


class NotAnIndex(NotFound, IndexError):
    why = "is no number of an array's element"


class PastEnd(NotFound, IndexError):
    why = "is not below the count of the array's elements"


class AfterLast(NotFound, IndexError):
    why = "names what would stand after the array's last element"


# Outcomes of a pointer, as the library numbers them: 0 is a value.
NAME_REPEATED = 2
_NOT_FOUND: Dict[int, Type[NotFound]] = {
    1: NoSuchMember,
    NAME_REPEATED: NameRepeated,
    3: NotAnIndex,
    4: PastEnd,
    5: AfterLast,
    6: NotAContainer,
}
_BAD_POINTERS = {7: "it is not empty and does not begin with /", 8: "the ~ at byte %d has no 0 or 1 behind it", 9: "it is not in UTF-8"}


def is_lost(outcome: int) -> bool:
    """Whether the pointer is one, and leads to no value of the text."""
    return outcome in _NOT_FOUND


def is_no_pointer(outcome: int) -> bool:
    return outcome in _BAD_POINTERS


def raise_not_found(pointer: str, outcome: int, at: int) -> NoReturn:
    """Raises what such an outcome says of a pointer."""
    if outcome in _NOT_FOUND:
        raise _NOT_FOUND[outcome](pointer, at)
    why = _BAD_POINTERS[outcome]
    raise BadPointer("%r is no JSON Pointer: %s" % (pointer, why % at if "%" in why else why))
