"""Values by JSON Pointer (RFC 6901)."""
from __future__ import annotations

import ctypes
import json
from typing import Any, Iterable, List, NoReturn, TypeVar, Union, overload

from . import _engine, _faults
from ._faults import Kind, Verdict, refused_in
from ._library import DEPTH_DEFAULT, LIBRARY, Buffer, CAnswer, CPointer, done, held, settings, view

T = TypeVar("T")
_FOUND = 0
NO_TEXT = {10: Kind.STOPPED, 11: Kind.TRUNCATED, 12: Kind.TOO_DEEP, 13: Kind.REPEATED_NAME}
RAISE: Any = object()


@overload
def get(data: Buffer, pointer: str, *, depth: int = ..., ignore_bom: bool = ..., unique_names: bool = ...) -> memoryview: ...


@overload
def get(
    data: Buffer, pointer: str, default: T, *, depth: int = ..., ignore_bom: bool = ..., unique_names: bool = ...
) -> Union[memoryview, T]: ...


def get(
    data: Buffer,
    pointer: str,
    default: Any = RAISE,
    *,
    depth: int = DEPTH_DEFAULT,
    ignore_bom: bool = False,
    unique_names: bool = False,
) -> Any:
    """The bytes of the value that a pointer leads to, as a memoryview of `data`: a string with its quotation marks.

    Raises a `NotFound` (a `KeyError` or `IndexError`) where it leads to none, unless there is a default; `BadPointer` where it is
    none; `Refused` where the bytes are not valid JSON.
    """
    try:
        outcome, at, start, end = _engine.at(data, pointer, depth, ignore_bom, unique_names)
    except UnicodeEncodeError:
        refuse_surrogate(pointer)
    if outcome == _FOUND:
        return view(data)[start:end]
    if outcome in NO_TEXT:
        raise refused_in(view(data), Verdict(NO_TEXT[outcome], at), depth, ignore_bom)
    return _told(pointer, outcome, at, default)


def refuse_surrogate(pointer: str) -> NoReturn:
    raise _faults.BadPointer("%a: a lone surrogate has no UTF-8" % pointer) from None


def _told(pointer: str, outcome: int, at: int, default: Any) -> Any:
    """The default, or what an outcome that is no value raises."""
    if _faults.is_lost(outcome) and default is not RAISE:
        return default
    _faults.raise_not_found(pointer, outcome, at)


def loads(
    data: Buffer,
    pointer: str = "",
    *,
    depth: int = DEPTH_DEFAULT,
    ignore_bom: bool = False,
    unique_names: bool = False,
    **options: Any,
) -> Any:
    """`json.loads` of just the value that a pointer leads to. Other words go to `json.loads`."""
    value = get(data, pointer, depth=depth, ignore_bom=ignore_bom, unique_names=unique_names)
    return json.loads(bytes(value), **options)


@overload
def get_all(
    data: Buffer, pointers: Iterable[str], *, depth: int = ..., ignore_bom: bool = ..., unique_names: bool = ...
) -> List[memoryview]: ...


@overload
def get_all(
    data: Buffer, pointers: Iterable[str], default: T, *, depth: int = ..., ignore_bom: bool = ..., unique_names: bool = ...
) -> List[Union[memoryview, T]]: ...


def get_all(
    data: Buffer,
    pointers: Iterable[str],
    default: Any = RAISE,
    *,
    depth: int = DEPTH_DEFAULT,
    ignore_bom: bool = False,
    unique_names: bool = False,
) -> List[Any]:
    """The bytes of the values that pointers lead to, in order. They are looked up in one reading of the text.

    The words are those of `get`, but for the pointers: a lone `str` is refused, since its characters are no pointers.
    """
    if isinstance(pointers, str):
        raise TypeError("get_all takes several pointers, and this is one: pass [%r], or call get" % pointers)
    asked = settings(depth, ignore_bom, unique_names)
    named = list(pointers)
    # The empty pointer after them says whether the bytes are a text.
    words = [spelt_pointer(pointer) for pointer in named] + [b""]
    count = len(words)
    spelt = (CPointer * count)(*(CPointer(word, len(word)) for word in words))
    answers = (CAnswer * count)()
    with held(data) as (address, size):
        done(LIBRARY.jx_at_all_non_null(address, size, ctypes.byref(asked), spelt, count, answers, count))
    whole, last = view(data), answers[count - 1]
    if last.outcome != _FOUND:
        raise refused_in(whole, Verdict(NO_TEXT[last.outcome], last.at), depth, ignore_bom)
    return [
        whole[answer.span.start : answer.span.end]
        if answer.outcome == _FOUND
        else _told(pointer, answer.outcome, answer.at, default)
        for pointer, answer in zip(named, answers)
    ]


def spelt_pointer(pointer: str) -> bytes:
    if not isinstance(pointer, str):
        raise TypeError("a pointer is a str, not " + type(pointer).__name__)
    try:
        return pointer.encode()
    except UnicodeEncodeError:
        refuse_surrogate(pointer)
