#!/usr/bin/env python3
"""Edits of documents beside jx.verdict, which is jx_check, on the bytes that are kept here, and beside json.loads.

Each function is a kind of documents. Prints the last line of tests/*.sh. JX_ROUNDS edits are made at random, 10,000 if left out.
"""
import ctypes
import json
import os
import random
import sys

import jx

ROUNDS = int(os.environ.get("JX_ROUNDS", "10000"))
# The bytes of a chunk, by docs/DOCUMENTS.md: some 32 KiB.
CHUNK = 32768
PARTS = (b"", b"0", b"7", b"-", b".", b"e", b"[", b"]", b"{", b"}", b"[]", b'{"a":', b'"', b"\\", b"\\u00", b"\xc3", b"\xa9", b"\xed\xa0\x80",
         "é𝄞".encode(), b",", b":", b" ", b"\n", b"true", b"nul", b"\xef\xbb\xbf", b"\x00", b'"a":1,', b"1,")
passed = failed = 0


def holds(is_so, what):
    global passed, failed
    if is_so:
        passed += 1
    else:
        failed += 1
        if failed < 20:
            print("documents.py: FAILED: " + what)


def refuse(word):
    raise ValueError(word)


def is_loaded(text):
    """Whether json.loads takes the bytes, held to the rules that it shares: UTF-8 without a mark, no NaN, no limit of digits."""
    try:
        json.loads(bytes(text).decode("utf-8"), parse_constant=refuse, parse_int=len, parse_float=len)
    except (ValueError, RecursionError):
        return False
    return True


class Kept:
    """A document, and the bytes that it should have."""

    met = set()

    def __init__(self, text, **settings):
        self.text = bytearray(text)
        self.settings = settings
        self.document = jx.Document(text, **settings)
        self.undo = []

    def edit(self, start, end, data):
        self.document.edit(start, end, data)
        self.undo.append((start, start + len(data), bytes(self.text[start:end])))
        self.text[start:end] = data

    def take_back(self):
        start, end, data = self.undo.pop()
        self.document.edit(start, end, data)
        self.text[start:end] = data

    def agrees(self, what, is_python_asked=False):
        told = self.document.verdict()
        wanted = jx.verdict(self.text, **self.settings)
        self.met.add(wanted.kind)
        holds(told == wanted, "%s: %s in place of %s" % (what, told, wanted))
        holds(len(self.document) == len(self.text), what + ": the length")
        if is_python_asked and told.kind is not jx.Kind.TOO_DEEP and not self.settings.get("ignore_bom"):
            holds(told.is_accepted == is_loaded(self.text), what + ": json.loads")

    def has_its_bytes(self, what):
        holds(bytes(self.document) == self.text, what + ": the bytes")


def value(rng, depth):
    kind = rng.randrange(8 if depth else 5)
    if kind < 2:
        return rng.choice((rng.randrange(10**6), -1.5e300, 0, 12345678901234567890))
    if kind == 2:
        return rng.choice(("", "é𝄞\u0001\\\"", "name", "x" * rng.randrange(40)))
    if kind < 5:
        return rng.choice((True, False, None))
    if kind < 7:
        return [value(rng, depth - 1) for _ in range(rng.randrange(6))]
    return {"k%d" % at: value(rng, depth - 1) for at in range(rng.randrange(5))}


def text(rng, size):
    """A JSON text of about so many bytes, in one line or in many."""
    found, length = [], 0
    while length < size:
        found.append(value(rng, 4))
        length += len(json.dumps(found[-1])) + 2
    return json.dumps(found, ensure_ascii=rng.random() < 0.5, indent=rng.choice((None, None, 1))).encode()


def place(rng, size):
    """Anywhere, at both ends, and at the ends of chunks, which multiples of 16,384 are where nothing was edited."""
    where = rng.randrange(6)
    if where == 0:
        return rng.choice((0, size))
    if where < 3:
        return min(size, max(0, CHUNK * rng.randrange(size // CHUNK + 1) + rng.randrange(-2, 3)))
    return rng.randrange(size + 1)


def change(rng, size):
    """The range and the bytes of an edit."""
    start, kind = place(rng, size), rng.randrange(20)
    if kind == 0:
        return start, start, b'"' + b"y" * 9000 + b'"'
    if kind == 1:
        return start, min(size, start + rng.randrange(30001)), rng.choice(PARTS)
    if kind == 2:
        return min(start, place(rng, size)), size, rng.choice(PARTS)
    if kind == 3:
        return start, start, rng.choice(PARTS) * rng.randrange(2000)
    if kind < 12:
        return start, start, rng.choice(PARTS)
    return start, min(size, start + rng.randrange(1, 4)), rng.choice(PARTS)


def edits_at_random():
    rng, made = random.Random(8259), 0
    while made < ROUNDS:
        size = int(500_000 ** rng.random()) if rng.random() < 0.9 else 480_000
        settings = rng.choice(({}, {}, {"depth": 3}, {"ignore_bom": True}))
        kept = Kept(b"" if rng.random() < 0.05 else text(rng, size), **settings)
        kept.agrees("a new document", True)
        for _ in range(min(rng.randrange(10, 60), ROUNDS - made)):
            # Chains of edits, taken back one by one, so that places and links are met again.
            if kept.undo and rng.random() < 0.35:
                for _ in range(rng.randrange(1, len(kept.undo) + 1)):
                    kept.take_back()
                    made += 1
            else:
                kept.edit(*change(rng, len(kept.text)))
                made += 1
            # Now and then several edits before one verdict.
            if rng.random() < 0.85:
                kept.agrees("edit %d" % made, len(kept.text) < 20_000)
        kept.has_its_bytes("edit %d" % made)
        while kept.undo:
            kept.take_back()
        kept.agrees("all edits taken back, %d" % made)
        kept.document.close()
    for kind in (jx.Kind.ACCEPTED, jx.Kind.STOPPED, jx.Kind.TRUNCATED, jx.Kind.TOO_DEEP):
        holds(kind in Kept.met, "an edit comes to " + kind.name)


def edits_over_groups_of_chunks():
    """Chunks are passed 64 at a time, by what is kept of them: edits at the borders of so many, and over them."""
    rng, group = random.Random(64), 64 * CHUNK
    kept = Kept(text(rng, 4 * group))
    kept.agrees("a document of four groups")
    for made in range(300):
        size = len(kept.text)
        start = min(size, max(0, group * rng.randrange(5) + rng.randrange(-CHUNK, CHUNK + 1)))
        end = min(size, start + rng.choice((0, 0, 0, 1, 3, CHUNK, 3 * CHUNK, group, 2 * group)))
        kept.edit(start, end, rng.choice(PARTS) * rng.choice((1, 1, 1, 20000)))
        if rng.random() < 0.8:
            kept.agrees("edit %d over groups" % made)
        while kept.undo and rng.random() < 0.6:
            kept.take_back()
            if rng.random() < 0.5:
                kept.agrees("edit %d over groups, taken back" % made)
    kept.has_its_bytes("300 edits over groups")
    while kept.undo:
        kept.take_back()
    kept.agrees("all edits over groups taken back")
    kept.has_its_bytes("all edits over groups taken back")


def ranges_that_are_refused():
    rng = random.Random(7464)
    kept = Kept(text(rng, 50_000))
    size = len(kept.text)
    for start, end in ((2, 1), (0, size + 1), (size + 1, size + 1), (size, 0), (-1, 3), (0, 2**64), (2**64 - 1, 2**64 - 1), (2**70, 2**71)):
        try:
            kept.document.edit(start, end, b"7")
            holds(False, "a range %d..%d" % (start, end))
        except IndexError:
            holds(True, "")
    kept.edit(0, 0, b"")
    kept.edit(size, size, b"")
    kept.agrees("refused ranges and edits of nothing", True)
    kept.has_its_bytes("refused ranges")


def each_byte_typed_and_taken():
    """A text put in byte by byte, at its end and at its start, and taken out from its middle."""
    whole = '{"a\\u00e9":[1,-2.5e+3,"é𝄞\\ud834\\udd1e",true,null,{}],"":[]} '.encode()
    kept = Kept(b"")
    for at, byte in enumerate(whole):
        kept.edit(at, at, bytes([byte]))
        kept.agrees("typed at the end", True)
    kept.has_its_bytes("typed at the end")
    while kept.text:
        middle = len(kept.text) // 2
        kept.edit(middle, middle + 1, b"")
        kept.agrees("taken from the middle", True)
    for byte in reversed(whole):
        kept.edit(0, 0, bytes([byte]))
        kept.agrees("typed at the start", True)
    kept.has_its_bytes("typed at the start")


def a_mark_in_front():
    for settings in ({}, {"ignore_bom": True}):
        kept = Kept(b"", **settings)
        for start, end, data in ((0, 0, b"\xef"), (1, 1, b"\xbb\xbf"), (3, 3, b"[1]"), (1, 2, b""), (1, 1, b"\xbb"), (0, 3, b""), (0, 0, b"\xef\xbb"), (2, 2, b"\xbf"), (3, 6, b""), (0, 0, b" ")):
            kept.edit(start, end, data)
            kept.agrees("a mark in front")
            kept.has_its_bytes("a mark in front")


def one_string():
    kept = Kept(b'"' + b"x" * 400_000 + b'"')
    for start, end, data in ((200_000, 200_000, b'"'), (200_000, 200_001, b""), (CHUNK, CHUNK, b"\\"), (CHUNK + 1, CHUNK + 1, b"u12"), (0, 1, b""), (0, 0, b'"'), (len(kept.text) - 1, len(kept.text), b"")):
        kept.edit(start, end, data)
        kept.agrees("one string", True)
    while kept.undo:
        kept.take_back()
        kept.agrees("one string, taken back", True)


def nesting_of_65535():
    deep = b"[" * 65535 + b"]" * 65535
    kept = Kept(deep, depth=65535)
    kept.agrees("65,535 containers")
    for start, end, data in ((65535, 65535, b"[]"), (65535, 65537, b"1"), (0, 1, b""), (0, 0, b"["), (40_000, 40_001, b'{"a":'), (len(deep), len(deep), b"]")):
        kept.edit(start, min(end, len(kept.text)), data)
        kept.agrees("65,535 containers")
    while kept.undo:
        kept.take_back()
    kept.agrees("65,535 containers, taken back")
    kept.has_its_bytes("65,535 containers")


def brackets_in_front_of_a_million_arrays():
    kept = Kept(b"[" + b"[]," * 999_999 + b"[]]")
    for start, end, data in ((0, 0, b"["), (0, 1, b""), (0, 0, b"[["), (0, 1, b"{"), (0, 2, b""), (0, 1, b"{"), (0, 1, b"[")):
        kept.edit(start, end, data)
        kept.agrees("a bracket in front of a million arrays")
    kept.agrees("a million arrays", True)
    kept.has_its_bytes("a million arrays")


def a_paste_of_100_mb():
    kept = Kept(b"[1,2]")
    paste = b'"' + b"z" * 100_000_000 + b'",'
    kept.document.edit(1, 1, paste)
    holds(kept.document.verdict().is_accepted and len(kept.document) == len(paste) + 5, "a paste of 100 MB")
    kept.document.edit(50_000_000, 50_000_000, b"\n")
    holds(kept.document.verdict() == jx.Verdict(jx.Kind.STOPPED, 50_000_000), "a line feed in it")
    kept.document.edit(1, 1 + len(paste) + 1, b"")
    kept.agrees("100 MB taken out", True)
    kept.has_its_bytes("100 MB taken out")
    kept.edit(0, len(kept.text), b"")
    kept.agrees("all taken out", True)
    kept.edit(0, 0, b"null")
    kept.agrees("a text put in again", True)


class Mallinfo(ctypes.Structure):
    """The C library's count of what it has handed out, as `malloc.h` has it."""

    _fields_ = [(name, ctypes.c_size_t) for name in "arena ordblks smblks hblks hblkhd usmblks fsmblks uordblks fordblks keepcost".split()]


def used():
    """How many bytes are handed out: those of pages, which the kernel may join and split meanwhile, tell less."""
    mallinfo = ctypes.CDLL(None).mallinfo2
    mallinfo.restype = Mallinfo
    now = mallinfo()
    return now.uordblks + now.hblkhd


def memory_comes_back():
    """Documents that are made, edited and closed or let go, over and over, take no more memory than a few."""
    start = text(random.Random(1), 2_000_000)


    def round_trip():
        with jx.Document(start) as document:
            document.edit(1000, 2000, b"[")
            document.verdict()
        jx.Document(start).edit(0, 5, b"")

    for _ in range(3):
        round_trip()
    before = used()
    for _ in range(30):
        round_trip()
    holds(used() - before < 20_000_000, "memory of 60 documents comes back: %d bytes more" % (used() - before))
    # Chunks stay few behind many edits.
    kept = Kept(start)
    kept.agrees("a document of 2 MB")
    before, rng = used(), random.Random(2)
    for _ in range(5000):
        at = rng.randrange(len(kept.text) - 1)
        kept.document.edit(at, at + 1, b"  ")
        kept.document.edit(at, at + 2, bytes(kept.text[at : at + 1]))
        kept.document.verdict()
    holds(used() - before < 4_000_000, "10,000 edits and back: %d bytes more" % (used() - before))
    kept.has_its_bytes("10,000 edits and back")


for test in (edits_at_random, edits_over_groups_of_chunks, ranges_that_are_refused, each_byte_typed_and_taken, a_mark_in_front, one_string, nesting_of_65535, brackets_in_front_of_a_million_arrays, a_paste_of_100_mb, memory_comes_back):
    test()
print("documents.py: %d passed, %d failed" % (passed, failed))
sys.exit(failed != 0)
