"""The C library: its structs, its calls, and the bytes of any buffer without a copy."""
from __future__ import annotations

import contextlib
import ctypes
import enum
import os
import pathlib
from typing import TYPE_CHECKING, Any, Iterator, List

if TYPE_CHECKING:
    # What gives its bytes: bytes, bytearray, memoryview, mmap, arrays of numpy.
    from _typeshed import ReadableBuffer

    Buffer = ReadableBuffer
else:
    Buffer = Any

DEPTH_DEFAULT = 512
DEPTH_MAX = 65535
IGNORE_BOM = 1
UNIQUE_NAMES = 2
# `parent` of the row of the root.
NO_ROW = ctypes.c_size_t(-1).value
# In place of an offset: where a part stands is not told.
NO_FROM = 2**64 - 1


class Status(enum.IntEnum):
    OK = 0
    NO_MEMORY = 1
    DEPTH_TOO_GREAT = 2
    NOT_STARTED = 3
    TOO_MANY_BYTES = 4
    UNKNOWN_FLAG = 5
    NO_UNIQUE_NAMES = 6
    OUT_OF_BOUNDS = 7
    NO_DOCUMENT = 8
    NO_ROOM = 11
    NOT_A_RUN = 12
    OTHER_DEPTH = 13
    NOT_NEIGHBOURS = 14
    NO_LINES = 15
    NO_FINDER = 17
    NO_VALUES = 18
    NOT_A_POINTER = 19
    NOT_SAVED = 20
    OTHER_VERSION = 21
    CUT_SHORT = 22
    DAMAGED = 23
    MALFORMED = 24
    MORE_BYTES = 25
    OTHER_SIZE = 26
    CHANGED = 27
    NO_SAVED = 28
    NO_SAVE = 29
    NOT_A_CHUNK = 30
    MORE_NEEDED = 31
    NOT_BEGUN = 32


class CSettings(ctypes.Structure):
    _fields_ = [("depth", ctypes.c_uint32), ("flags", ctypes.c_uint32)]


class CVerdict(ctypes.Structure):
    _fields_ = [("offset", ctypes.c_size_t), ("kind", ctypes.c_uint32)]


class CPlace(ctypes.Structure):
    _fields_ = [("line", ctypes.c_size_t), ("column", ctypes.c_size_t)]


class CReader(ctypes.Structure):
    _fields_ = [("words", ctypes.c_uint64 * 1031)]


class CDocument(ctypes.Structure):
    _fields_ = [("inside", ctypes.c_void_p)]


class CIndex(ctypes.Structure):
    _fields_ = [("inside", ctypes.c_void_p)]


class CFinder(ctypes.Structure):
    _fields_ = [("inside", ctypes.c_void_p)]


class CValues(ctypes.Structure):
    _fields_ = [("inside", ctypes.c_void_p)]


class CLines(ctypes.Structure):
    _fields_ = [("inside", ctypes.c_void_p)]


class CSave(ctypes.Structure):
    _fields_ = [("inside", ctypes.c_void_p)]


class CSaved(ctypes.Structure):
    _fields_ = [("inside", ctypes.c_void_p)]


class CSpan(ctypes.Structure):
    _fields_ = [("start", ctypes.c_size_t), ("end", ctypes.c_size_t)]


class CPointer(ctypes.Structure):
    _fields_ = [("bytes", ctypes.c_char_p), ("size", ctypes.c_size_t)]


class CAnswer(ctypes.Structure):
    _fields_ = [("span", CSpan), ("at", ctypes.c_size_t), ("outcome", ctypes.c_uint32), ("kind", ctypes.c_uint32)]


class COutcome(ctypes.Structure):
    _fields_ = [("at", ctypes.c_size_t), ("kind", ctypes.c_uint32)]


class CRow(ctypes.Structure):
    _fields_ = [
        ("span", CSpan),
        ("name", CSpan),
        ("parent", ctypes.c_size_t),
        ("place", ctypes.c_size_t),
        ("kind", ctypes.c_uint32),
    ]


class CElement(ctypes.Structure):
    _fields_ = [("span", CSpan), ("verdict", CVerdict)]


class CLine(ctypes.Structure):
    _fields_ = [("number", ctypes.c_size_t), ("span", CSpan), ("verdict", CVerdict)]


class CLineCounts(ctypes.Structure):
    _fields_ = [("accepted", ctypes.c_size_t), ("refused", ctypes.c_size_t), ("blank", ctypes.c_size_t)]


class CSavedText(ctypes.Structure):
    _fields_ = [("size", ctypes.c_size_t), ("chunk", ctypes.c_size_t), ("depth", ctypes.c_uint32), ("flags", ctypes.c_uint32)]


class CPart(ctypes.Structure):
    _fields_ = [("span", CSpan), ("number", ctypes.c_size_t), ("first", ctypes.c_size_t), ("end", ctypes.c_size_t)]


_POINTER = ctypes.c_void_p
_SIZE = ctypes.c_size_t
_CALLS = {
    "jx_check_non_null": [_POINTER, _SIZE, _POINTER, _POINTER],
    "jx_explain_non_null": [_POINTER, _SIZE, _POINTER, _POINTER, _POINTER, _SIZE, _POINTER, _POINTER],
    "jx_compact_non_null": [_POINTER, _SIZE, _POINTER, _POINTER, _SIZE, _POINTER, _POINTER],
    "jx_reader_start_non_null": [_POINTER, _POINTER],
    "jx_reader_feed": [_POINTER, _POINTER, _SIZE],
    "jx_reader_verdict": [_POINTER, _POINTER],
    "jx_at_non_null": [_POINTER, _SIZE, _POINTER, _SIZE, _POINTER, _POINTER],
    "jx_at_all_non_null": [_POINTER, _SIZE, _POINTER, _POINTER, _SIZE, _POINTER, _SIZE],
    "jx_rows_non_null": [_POINTER, _SIZE, _POINTER, _POINTER, _SIZE, _POINTER, _POINTER],
    "jx_index_new_non_null": [_POINTER, _SIZE, _POINTER, _POINTER, _POINTER],
    "jx_index_find_non_null": [_POINTER, ctypes.c_char_p, _SIZE, _POINTER],
    "jx_index_row_non_null": [_POINTER, _SIZE, _POINTER],
    "jx_index_free_non_null": [_POINTER],
    "jx_elements_non_null": [_POINTER, _SIZE, _POINTER, _POINTER, _SIZE, _POINTER],
    "jx_finder_new_non_null": [_POINTER, _SIZE, _POINTER, _POINTER],
    "jx_finder_feed_non_null": [_POINTER, _POINTER, _SIZE],
    "jx_finder_end_non_null": [_POINTER, _POINTER, _SIZE],
    "jx_finder_free_non_null": [_POINTER],
    "jx_values_new_non_null": [_POINTER, _SIZE, _POINTER, _POINTER],
    "jx_values_feed_non_null": [_POINTER, _POINTER, _SIZE],
    "jx_values_take_non_null": [_POINTER, _POINTER, _SIZE, _POINTER],
    "jx_values_end_non_null": [_POINTER, _POINTER],
    "jx_values_free_non_null": [_POINTER],
    "jx_save_new_non_null": [_POINTER, _SIZE, _POINTER],
    "jx_save_new_with_names_non_null": [_POINTER, _SIZE, _POINTER],
    "jx_save_feed_non_null": [_POINTER, _POINTER, _SIZE],
    "jx_save_end_non_null": [_POINTER, _POINTER, _POINTER],
    "jx_save_take_non_null": [_POINTER, _POINTER, _SIZE, _POINTER],
    "jx_save_free_non_null": [_POINTER],
    "jx_saved_open_non_null": [_POINTER, _SIZE, _SIZE, _POINTER],
    "jx_saved_about_non_null": [_POINTER, _POINTER],
    "jx_saved_seek_non_null": [_POINTER, _POINTER, _SIZE],
    "jx_saved_split_non_null": [_POINTER, _POINTER, _SIZE],
    "jx_saved_needs_non_null": [_POINTER, _POINTER],
    "jx_saved_give_non_null": [_POINTER, _POINTER, _SIZE],
    "jx_saved_answers_non_null": [_POINTER, _POINTER, _SIZE],
    "jx_saved_parts_non_null": [_POINTER, _POINTER, _SIZE, _POINTER],
    "jx_saved_chunk_non_null": [_POINTER, _SIZE, _POINTER],
    "jx_saved_check_non_null": [_POINTER, _SIZE, _POINTER, _SIZE],
    "jx_saved_free_non_null": [_POINTER],
    "jx_lines_new_non_null": [_POINTER, _POINTER],
    "jx_lines_feed_non_null": [_POINTER, _POINTER, _SIZE],
    "jx_lines_take_non_null": [_POINTER, _POINTER, _SIZE, _POINTER],
    "jx_lines_end_non_null": [_POINTER, _POINTER, _POINTER],
    "jx_lines_free_non_null": [_POINTER],
    "jx_document_new_non_null": [_POINTER, _SIZE, _POINTER, _POINTER],
    "jx_document_edit_non_null": [_POINTER, _SIZE, _SIZE, _POINTER, _SIZE],
    "jx_document_verdict_non_null": [_POINTER, _POINTER],
    "jx_document_size_non_null": [_POINTER, _POINTER],
    "jx_document_copy_non_null": [_POINTER, _SIZE, _POINTER, _SIZE],
    "jx_document_free_non_null": [_POINTER],
    "jx_run_of": [_POINTER, _SIZE, ctypes.c_uint64, ctypes.c_uint32, _POINTER, _SIZE, _POINTER],
    "jx_run_join": [_POINTER, _SIZE, _POINTER, _SIZE, _POINTER, _SIZE, _POINTER],
    "jx_run_verdict": [_POINTER, _SIZE, _SIZE, _SIZE, _POINTER],
    "jx_version": [],
}


def _places() -> Iterator[str]:
    """Where the shared library may be, best first."""
    named = os.environ.get("JX_LIBRARY")
    if named:
        yield named
        return
    here = pathlib.Path(__file__).resolve()
    yield str(here.parent / "libjx.so.0")
    if len(here.parents) > 3:
        yield str(here.parents[3] / "crates" / "jx_c" / "out" / "libjx.so.0")
    yield "libjx.so.0"


def _load() -> ctypes.CDLL:
    faults: List[str] = []
    for place in _places():
        try:
            return ctypes.CDLL(place)
        except OSError as fault:
            faults.append(str(fault))
    raise ImportError("jx: libjx.so.0 is not found; build it with tools/library or set JX_LIBRARY: " + "; ".join(faults))


def _declare(library: ctypes.CDLL) -> None:
    for name, arguments in _CALLS.items():
        call = getattr(library, name)
        call.argtypes = arguments
        call.restype = None if name.endswith("_free_non_null") else ctypes.c_uint32


# Other threads of Python run during its calls.
LIBRARY = _load()
# Short calls on what threads may share hold the interpreter's lock, so no two of them run at once.
HELD = ctypes.PyDLL(LIBRARY._name, handle=LIBRARY._handle)
_declare(LIBRARY)
_declare(HELD)


def version() -> str:
    number = LIBRARY.jx_version()
    return "%d.%d.%d" % (number // 10000, number // 100 % 100, number % 100)


def settings(depth: int, ignore_bom: bool, unique_names: bool) -> CSettings:
    if isinstance(depth, bool) or not isinstance(depth, int):
        raise TypeError("depth is an int, not " + type(depth).__name__)
    if not 0 <= depth <= DEPTH_MAX:
        raise ValueError("depth is from 0 to %d, not %d" % (DEPTH_MAX, depth))
    return CSettings(depth, (IGNORE_BOM if ignore_bom else 0) | (UNIQUE_NAMES if unique_names else 0))


def done(status: int) -> None:
    """Raises what a status stands for. The callers have ruled out all others but these."""
    if status == Status.NO_MEMORY:
        raise MemoryError("jx: out of memory")
    if status == Status.TOO_MANY_BYTES:
        raise OverflowError("jx: a reader takes fewer than 2**64 bytes")
    if status != Status.OK:
        raise SystemError("jx: status %s" % Status(status).name)


class _PyBuffer(ctypes.Structure):
    """The interpreter's `Py_buffer`, part of its stable interface."""

    _fields_ = [
        ("buf", ctypes.c_void_p),
        ("obj", ctypes.py_object),
        ("len", ctypes.c_ssize_t),
        ("itemsize", ctypes.c_ssize_t),
        ("readonly", ctypes.c_int),
        ("ndim", ctypes.c_int),
        ("format", ctypes.c_char_p),
        ("shape", ctypes.c_void_p),
        ("strides", ctypes.c_void_p),
        ("suboffsets", ctypes.c_void_p),
        ("internal", ctypes.c_void_p),
    ]


_get_buffer = ctypes.pythonapi.PyObject_GetBuffer
_get_buffer.argtypes = [ctypes.py_object, ctypes.c_void_p, ctypes.c_int]
_get_buffer.restype = ctypes.c_int
_release_buffer = ctypes.pythonapi.PyBuffer_Release
_release_buffer.argtypes = [ctypes.c_void_p]
_release_buffer.restype = None
_SIMPLE = 0
# The library takes no null pointer, also where there are no bytes.
_NO_BYTES = ctypes.create_string_buffer(1)


@contextlib.contextmanager
def held(data: Buffer) -> Iterator[tuple[int, int]]:
    """The address and size of a buffer's bytes. While they are in use, the object refuses to be resized or closed."""
    if isinstance(data, str):
        raise TypeError("jx reads bytes, and this is a str: pass data.encode()")
    buffer = _PyBuffer()
    _get_buffer(data, ctypes.byref(buffer), _SIMPLE)
    try:
        yield buffer.buf or ctypes.addressof(_NO_BYTES), buffer.len
    finally:
        _release_buffer(ctypes.byref(buffer))


def view(data: Buffer) -> memoryview:
    """The bytes of a buffer, without a copy."""
    if isinstance(data, str):
        raise TypeError("jx reads bytes, and this is a str: pass data.encode()")
    return memoryview(data).cast("B")
