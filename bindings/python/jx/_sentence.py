"""The sentence that says what is wrong with a refused text, in the words of `jx explain`.

The library says it of a text that is there. Of one that comes in parts, it is asked byte by byte what may stand at the place.
"""
from __future__ import annotations

import ctypes
import re
import unicodedata
from typing import List, Tuple

from ._library import LIBRARY, CPlace, CReader, CVerdict, done, held, settings

_STOPPED = 1
# Most sentences are shorter: only one with a long name is not.
_ROOM = 256
# Categories of characters that take no column: controls, format characters, marks, separators of lines and paragraphs.
_NO_WIDTH = ("Cc", "Cf", "Mn", "Me", "Zl", "Zp")
_IN_WORDS = {"\n": "the end of the line", "\r": "a carriage return", "\t": "a tab", " ": "a space", ",": "a comma", ":": "a colon", ".": "a point"}
# What may stand at a place: the words, bytes that all may stand there, and one that may not, since with it more is meant.
_CHOICES = (
    ("a character in UTF-8", b"z[", b""),
    ('one of " \\ / b f n r t u', b"/b", b"z"),
    ("a hexadecimal digit", b"Aa", b"z"),
    ("a byte from 80 to BF", b"\x80\xbf", b""),
    ("a byte from 80 to 8F", b"\x80", b"\x90"),
    ("a byte from 80 to 9F", b"\x80\x90", b"\xbf"),
    ("a byte from 90 to BF", b"\x90\xbf", b"\x80"),
    ("a byte from A0 to BF", b"\xbf", b"\x90"),
    ("a digit", b"0", b"[A"),
    ("a sign", b"+", b"z"),
    ("a decimal point", b".", b"z"),
    ("an exponent", b"eE", b"A"),
    ("a", b"a", b"A"),
    ("e", b"e", b"E"),
    ("l", b"l", b"z"),
    ("r", b"r", b"b"),
    ("s", b"s", b"z"),
    ("u", b"u", b"b"),
    ("a value", b"[", b"z"),
    ("a string", b'"', b"[/"),
    ("a colon", b":", b"z"),
    ("a comma", b",", b"z"),
    ("]", b"]", b"z"),
    ("}", b"}", b"z"),
)
_ASKED = frozenset(byte for _, those, others in _CHOICES for byte in those + others)


def explained(data: memoryview, kind: int, offset: int, depth: int, ignore_bom: bool) -> Tuple[str, Tuple[int, int]]:
    """The sentence on a text that has this verdict; and the line and the column, both from 1."""
    asked, verdict, place, size = settings(depth, ignore_bom, False), CVerdict(offset, kind), CPlace(), ctypes.c_size_t(_ROOM)
    sentence = b""
    with held(data) as (address, count):
        while len(sentence) < size.value:
            room = ctypes.create_string_buffer(size.value)
            done(
                LIBRARY.jx_explain_non_null(
                    address, count, ctypes.byref(asked), ctypes.byref(verdict), room, len(room), ctypes.byref(size), ctypes.byref(place)
                )
            )
            sentence = room.raw[: size.value]
    return sentence.decode(), (place.line, place.column)


class Front:
    """The bytes of a text before a place, which come in parts."""

    def __init__(self, depth: int, ignore_bom: bool) -> None:
        self._reader, self._size, self._end = CReader(), 0, b""
        self._depth, self._ignores_mark = depth, ignore_bom
        done(LIBRARY.jx_reader_start_non_null(ctypes.byref(self._reader), ctypes.byref(settings(depth, ignore_bom, False))))

    def read(self, part: memoryview) -> None:
        with held(part) as (address, size):
            done(LIBRARY.jx_reader_feed(ctypes.byref(self._reader), address, size))
        self._size += size
        self._end = (self._end + bytes(part[-4:]))[-4:]

    def too_deep(self) -> str:
        return "more than %d containers open" % self._depth

    def sentence(self, rest: bytes) -> str:
        """The sentence on a text that stops there, by the bytes after the place; or without any, on one that ends too early."""
        may = frozenset(byte for byte in _ASKED if self._goes_on(byte))
        named = [words for words, those, others in _CHOICES if may.issuperset(those) and may.isdisjoint(others)]
        if not self._size and rest.startswith(b"\xef\xbb\xbf"):
            return "a byte order mark stands in front of the text"
        if self._ignores_mark and self._end in (b"\xef", b"\xef\xbb"):
            return "a byte order mark is begun and not ended" if rest else "the text ends inside a byte order mark"
        return _stopped(named, self._end, rest) if rest else _ended(named, self._end)

    def _goes_on(self, byte: int) -> bool:
        """Whether a text goes on with the byte, at some depth."""
        trial, answer = CReader.from_buffer_copy(self._reader), CVerdict()
        done(LIBRARY.jx_reader_feed(ctypes.byref(trial), bytes((byte,)), 1))
        done(LIBRARY.jx_reader_verdict(ctypes.byref(trial), ctypes.byref(answer)))
        return bool(answer.kind != _STOPPED)


def _stopped(named: List[str], end: bytes, rest: bytes) -> str:
    if named == ["a character in UTF-8"] and rest[0] < 0x20:
        return "a control character in a string must be escaped"
    if "a decimal point" in named and "a digit" not in named and rest[:1].isdigit():
        return "no digit may follow a 0 that begins a number"
    return "expected %s%s, found %s" % (_joined(named), _literal(named, end), _found(rest))


def _ended(named: List[str], end: bytes) -> str:
    if named and (named[0] in ("a character in UTF-8", 'one of " \\ / b f n r t u', "a hexadecimal digit") or named[0].startswith("a byte")):
        return "the text ends inside a string"
    literal = _literal(named, end)
    return "the text ends where %s%s is expected" % (_joined(named), literal and literal + ",")


def _joined(named: List[str]) -> str:
    return "the end of the text" if not named else " or ".join(filter(None, (", ".join(named[:-1]), named[-1])))


def _literal(named: List[str], end: bytes) -> str:
    """The literal that is begun where one letter is due."""
    begun = re.search(rb"(t|f|n)[a-z]*\Z", end)
    if begun is None or len(named) != 1 or len(named[0]) != 1 or not named[0].isalpha():
        return ""
    return ", as in " + {b"t": "true", b"f": "false", b"n": "null"}[begun[1]]


def _found(rest: bytes) -> str:
    """The first character, as a terminal may show it."""
    try:
        character = rest[:4].decode()[0]
    except UnicodeDecodeError as fault:
        if fault.start == 0:
            return _escaped(rest[: fault.end])
        character = rest[: fault.start].decode()[0]
    return _IN_WORDS.get(character) or (_escaped(character.encode()) if unicodedata.category(character) in _NO_WIDTH else character)


def _escaped(those: bytes) -> str:
    return "".join("\\x%02X" % byte for byte in those)
