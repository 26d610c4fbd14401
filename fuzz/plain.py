"""The plain readers of fuzz/readers, called from Python: what the program and the language server should say."""
import ctypes
import os

DEPTH_MAX = 65535
IGNORE_MARK, UNIQUE_NAMES = 1, 2
KINDS = ["object", "array", "string", "number", "true", "false", "null"]
VERDICTS = ["accepted", "stopped at %d", "truncated", "too deep at %d", "may be cut", "unmarked", "repeated name at %d"]
OUTCOMES = [
    None, "no such member at token %d", "name repeated at token %d", "not an index at token %d", "past end at token %d", "after last at token %d",
    "not a container at token %d", "no slash", "bad escape at %d", "not UTF-8",
]
size_t, u32, bytes_p = ctypes.c_size_t, ctypes.c_uint32, ctypes.c_char_p


class Verdict(ctypes.Structure):
    _fields_ = [("offset", size_t), ("kind", u32)]

    def __str__(self):
        words = VERDICTS[self.kind]
        return words % self.offset if self.has_offset() else words

    def has_offset(self):
        return "%" in VERDICTS[self.kind]


class Settings(ctypes.Structure):
    _fields_ = [("depth", u32), ("flags", u32)]


class Span(ctypes.Structure):
    _fields_ = [("start", size_t), ("end", size_t)]

    def __str__(self):
        return "%d..%d" % (self.start, self.end)


class Row(ctypes.Structure):
    _fields_ = [("span", Span), ("name", Span), ("parent", size_t), ("place", size_t), ("kind", u32)]


class Rows(ctypes.Structure):
    _fields_ = [("all", ctypes.POINTER(Row)), ("count", size_t), ("deepest", size_t)]


class Answer(ctypes.Structure):
    _fields_ = [("span", Span), ("at", size_t), ("outcome", u32), ("kind", u32)]

    def __str__(self):
        if self.outcome == 0:
            return "found %s %s" % (KINDS[self.kind], self.span)
        words = OUTCOMES[self.outcome]
        return words % self.at if "%" in words else words


class Element(ctypes.Structure):
    _fields_ = [("span", Span), ("verdict", Verdict)]


class Readers:
    """Each call of plain.h, by its name there without `plain_`."""

    def __init__(self, path):
        library = ctypes.CDLL(os.path.abspath(path))
        for name, result, words in (
            ("read", Verdict, [bytes_p, size_t, size_t, ctypes.POINTER(Settings), ctypes.POINTER(Rows)]),
            ("find", Answer, [bytes_p, ctypes.POINTER(Rows), ctypes.POINTER(Verdict), bytes_p, size_t]),
            ("elements", size_t, [bytes_p, size_t, ctypes.POINTER(Settings), ctypes.POINTER(Element), size_t]),
            ("path", size_t, [bytes_p, ctypes.POINTER(Rows), size_t, bytes_p, size_t]),
        ):
            call = getattr(library, "plain_" + name)
            call.restype, call.argtypes = result, words
            setattr(self, "_" + name, call)

    def read(self, text, settings):
        """The verdict on a text, and its rows, which hold until the next reading."""
        rows = Rows()
        return self._read(text, 0, len(text), settings, rows), rows

    def find(self, text, rows, verdict, pointer):
        return self._find(text, rows, verdict, pointer, len(pointer))

    def elements(self, text, settings):
        found = (Element * (len(text) // 2 + 2))()
        return found[: self._elements(text, len(text), settings, found, len(found))]

    def path(self, text, rows, number, most=1 << 16):
        """The pointer that leads to a row."""
        room = ctypes.create_string_buffer(most)
        size = self._path(text, rows, number, room, most)
        return room.raw[:size]
