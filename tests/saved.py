"""Saved indexes: the bytes of the index of a text and of tables of its names, and what bytes say, by docs/FORMAT.md and RFC 8259 alone. Nothing
of a crate is called.

    saved.py lines SEED COUNT     writes lines for crates/test_calls_of_indexes: for each of so many random texts one to index it, in chunks from
                                  64 bytes, and one to read bytes of its index, which often have something amiss
    saved.py answers < LINES      writes the answer to each line, on the line of the same number
    saved.py files SEED COUNT     writes random texts as N.json, what `jx save` has to write of each as N.jxi, and the options for it to N.options
    saved.py file TEXT WORD..     writes the index of a file by options of `jx save`, whose names are taken to be unique where that is asked for

The sum of a chunk is taken from the depths at its marks, and not mark by mark as the crate takes it.
"""
import bisect
import json
import random
import re
import struct
import sys

STATES = ("Gap Str Esc Hex4 Hex3 Hex2 Hex1 Tail1 Tail2 Tail3 AfterE0 AfterEd AfterF0 AfterF4 Minus Zero Int Dot Frac E ESign Exp "
          "T Tr Tru F Fa Fal Fals N Nu Nul").split()
EXPECTATIONS = "Value ArrayFirst ObjectFirst Name Colon After".split()
BLANKS = b" \t\n\r"
MARK = b"\xef\xbb\xbf"
WORD = (1 << 64) - 1


# ---- XXH64, from its public description

P1, P2, P3, P4, P5 = 0x9E3779B185EBCA87, 0xC2B2AE3D27D4EB4F, 0x165667B19E3779F9, 0x85EBCA77C2B2AE63, 0x27D4EB2F165667C5


def turned(word, by):
    return (word << by | word >> (64 - by)) & WORD


def lane_round(lane, word):
    return turned((lane + word * P2) & WORD, 31) * P1 & WORD


def xxh64(data):
    at = 0
    if len(data) >= 32:
        lanes = [(P1 + P2) & WORD, P2, 0, -P1 & WORD]
        while at + 32 <= len(data):
            lanes = [lane_round(lane, word) for lane, word in zip(lanes, struct.unpack_from("<4Q", data, at))]
            at += 32
        hash_ = sum(turned(lane, by) for lane, by in zip(lanes, (1, 7, 12, 18))) & WORD
        for lane in lanes:
            hash_ = ((hash_ ^ lane_round(0, lane)) * P1 + P4) & WORD
    else:
        hash_ = P5
    hash_ = (hash_ + len(data)) & WORD
    while at + 8 <= len(data):
        hash_ = (turned(hash_ ^ lane_round(0, struct.unpack_from("<Q", data, at)[0]), 27) * P1 + P4) & WORD
        at += 8
    if at + 4 <= len(data):
        hash_ = (turned(hash_ ^ struct.unpack_from("<I", data, at)[0] * P1 & WORD, 23) * P2 + P3) & WORD
        at += 4
    for byte in data[at:]:
        hash_ = turned(hash_ ^ byte * P5 & WORD, 11) * P1 & WORD
    hash_ = (hash_ ^ hash_ >> 33) * P2 & WORD
    hash_ = (hash_ ^ hash_ >> 29) * P3 & WORD
    return hash_ ^ hash_ >> 32


# Digests of other programs.
for data, digest in ((b"", 0xEF46DB3751D8E999), (b"a", 0xD24EC4F1A98C6E5B), (b"abc", 0x44BC2CF5AD770999),
                     (b"Nobody inspects the spammish repetition", 0xFBCEA83C8A378BF1)):
    assert xxh64(data) == digest, data


# Those of the reference program's own test: lengths of two lists of bytes.
def made(size, word, shift, step):
    out = []
    for _ in range(size):
        out.append(word >> shift & 0xFF)
        word = step(word)
    return bytes(out)


SQUARES = made(101, 2654435761, 24, lambda word: word * word & 0xFFFFFFFF)
PRODUCTS = made(222, 2654435761, 56, lambda word: word * 11400714785074694797 & WORD)
VECTORS = [(SQUARES[:1], 0x4FCE394CC88952D8), (SQUARES[:14], 0xCFFA8DB881BC3A3D), (SQUARES, 0x0EAB543384F878AD), (PRODUCTS[:1], 0xE934A84ADB052768),
           (PRODUCTS[:4], 0x9136A0DCA57457EE), (PRODUCTS[:14], 0x8282DCC4994E35C8), (PRODUCTS, 0xB641AE8CB691C174)]
for data, digest in VECTORS:
    assert xxh64(data) == digest, data


# ---- tokens of an accepted text

NUMBER = re.compile(rb"-?(0|[1-9][0-9]*)(\.[0-9]+)?([eE][+-]?[0-9]+)?")
STRING = re.compile(rb'"([^"\\]|\\.)*"', re.S)


def tokens(text, start):
    """Of each token its kind, its first byte's offset and the offset behind it."""
    at = start
    while at < len(text):
        byte = text[at:at + 1]
        if byte in (b" ", b"\t", b"\n", b"\r"):
            at += 1
            continue
        if byte in b"[]{}:,":
            kind, end = byte.decode(), at + 1
        elif byte == b'"':
            kind, end = "string", STRING.match(text, at).end()
        elif byte in b"tfn":
            kind, end = "literal", at + {b"t": 4, b"f": 5, b"n": 4}[byte]
        else:
            kind, end = "number", NUMBER.match(text, at).end()
        yield kind, at, end
        at = end


def string_state(begun):
    """The state behind the beginning of a string, without its last quotation mark."""
    state = "Str"
    for byte in begun[1:]:
        if state == "Str":
            if byte == 0x5C:
                state = "Esc"
            elif byte == 0xE0:
                state = "AfterE0"
            elif byte == 0xED:
                state = "AfterEd"
            elif byte == 0xF0:
                state = "AfterF0"
            elif byte == 0xF4:
                state = "AfterF4"
            elif byte >= 0xF1:
                state = "Tail3"
            elif byte >= 0xE1:
                state = "Tail2"
            elif byte >= 0xC2:
                state = "Tail1"
        elif state == "Esc":
            state = "Hex4" if byte == 0x75 else "Str"
        else:
            state = {"Hex4": "Hex3", "Hex3": "Hex2", "Hex2": "Hex1", "Hex1": "Str", "Tail3": "Tail2", "Tail2": "Tail1", "Tail1": "Str",
                     "AfterE0": "Tail1", "AfterEd": "Tail1", "AfterF0": "Tail2", "AfterF4": "Tail2"}[state]
    return state


def number_state(begun):
    for state, form in (("Minus", rb"-"), ("Zero", rb"-?0"), ("Int", rb"-?[1-9][0-9]*"), ("Dot", rb"[^.eE]+\."), ("Frac", rb"[^.eE]+\.[0-9]+"),
                        ("E", rb"[^eE]+[eE]"), ("ESign", rb"[^eE]+[eE][+-]"), ("Exp", rb"[^eE]+[eE][+-]?[0-9]+")):
        if re.fullmatch(form, begun):
            return state
    raise ValueError(begun)


def state_in(kind, begun):
    if kind == "string":
        return string_state(begun)
    if kind == "number":
        return number_state(begun)
    return begun.decode().capitalize()


class Reading:
    """What stands in an accepted text: for each mark its kind, offset, the depth behind it and what may stand next then."""

    def __init__(self, text, start):
        self.text = text
        self.start = start
        self.tokens = list(tokens(text, start))
        self.marks = []
        open_ones, expect = [], "Value"
        for kind, at, _ in self.tokens:
            if kind == "[":
                open_ones.append(kind)
                expect = "ArrayFirst"
            elif kind == "{":
                open_ones.append(kind)
                expect = "ObjectFirst"
            elif kind in "]}":
                open_ones.pop()
                expect = "After"
            elif kind == ":":
                expect = "Value"
            elif kind == ",":
                expect = "Value" if open_ones[-1] == "[" else "Name"
            elif kind == "string" and expect in ("Name", "ObjectFirst"):
                expect = "Colon"
            else:
                expect = "After"
            self.marks.append((kind, at, len(open_ones), expect))
        # A string and a literal end with a byte of theirs, a number before the byte that shows it.
        self.shown = [end if kind == "number" else end - 1 for kind, _, end in self.tokens if kind in ("string", "number", "literal")]
        self.places = [mark[1] for mark in self.marks]

    def count(self, at):
        """How many marks stand before an offset."""
        return bisect.bisect_left(self.places, at)

    def state(self, at):
        if self.count(at) == 0:
            return "Gap"
        kind, begin, end = self.tokens[self.count(at) - 1]
        if kind in ("string", "number", "literal") and (at < end or kind == "number" and at == end):
            return state_in(kind, self.text[begin:at])
        return "Gap"

    def expect(self, at):
        return self.marks[self.count(at) - 1][3] if self.count(at) else "Value"

    def depth(self, at):
        return self.marks[self.count(at) - 1][2] if self.count(at) else 0


def entry(reading, chunk, k):
    """The entry of a chunk: its numbers, and then its digest."""
    low, high = k * chunk, min((k + 1) * chunk, len(reading.text))
    inside = reading.marks[reading.count(low):reading.count(high)]
    before = reading.depth(low)
    lowest = min([before] + [m[2] for m in inside])
    last = inside[-1][2] if inside else before
    commas = sum(1 for m in inside if m[0] == "," and m[2] == lowest)
    flags = (1 if inside else 0) + (2 if bisect.bisect_left(reading.shown, low) < bisect.bisect_left(reading.shown, high) else 0)
    return (before - lowest, last - lowest, STATES.index(reading.state(low)), EXPECTATIONS.index(reading.expect(low)), flags, commas,
            xxh64(reading.text[low:high]))


def spelt(e):
    return struct.pack("<HHBBBBQQ", e[0], e[1], e[2], e[3], e[4], 0, e[5], e[6])


def joined(l, r):
    if r[0] > l[1]:
        return l[0] + r[0] - l[1], r[1], r[5]
    if r[0] == l[1]:
        return l[0], r[1], l[5] + r[5]
    return l[0], l[1] - r[0] + r[1], l[5]


def block(entries):
    closed, opened, commas, flags = entries[0][0], entries[0][1], entries[0][5], entries[0][4]
    for e in entries[1:]:
        closed, opened, commas = joined((closed, opened, 0, 0, 0, commas), e)
        flags |= e[4]
    return closed, opened, entries[0][2], entries[0][3], flags, commas, xxh64(b"".join(map(spelt, entries)))


def index(text, depth, ignores, chunk, unique=False):
    start = 3 if ignores and text.startswith(MARK) else 0
    reading = Reading(text, start)
    level = [entry(reading, chunk, k) for k in range((len(text) + chunk - 1) // chunk)]
    body = b""
    while len(level) > 1:
        body += b"".join(map(spelt, level))
        level = [block(level[k:k + 64]) for k in range(0, len(level), 64)]
    head = b"\x89jxidx\x0a\x01" + struct.pack("<QIIII", len(text), chunk, depth, (1 if ignores else 0) + (2 if unique else 0), 0) + spelt(level[0])
    return head + struct.pack("<Q", xxh64(head)) + body


# ---- tables of names

NAMES_TAG = b"\x89jxnam\x0a\x01"
NONE_KEPT = (1 << 32) - 1


def number_of(name):
    """The number of a name, by its bytes with the quotation marks."""
    spelt_so = json.loads(name.decode("utf-8", "surrogatepass"), strict=False).encode("utf-16-le", "surrogatepass")
    units = struct.unpack("<%dH" % (len(spelt_so) // 2), spelt_so)
    return xxh64(struct.pack("<%dI" % len(units), *units)) % (1 << 26)


def keys_of(reading, chunk, k):
    """The keys of the names that end in a chunk, and stand where as few containers are open as anywhere in it."""
    low, high = k * chunk, min((k + 1) * chunk, len(reading.text))
    lowest = min([reading.depth(low)] + [mark[2] for mark in reading.marks[reading.count(low):reading.count(high)]])
    keys = []
    # A name whose end lies in the chunk has begun there, or is the last token before it.
    for place in range(max(0, reading.count(low) - 1), reading.count(high)):
        kind, begin, end = reading.tokens[place]
        if kind == "string" and low < end <= high and reading.marks[place][2:] == (lowest, "Colon"):
            keys.append(64 * number_of(reading.text[begin:end]) + k % 64)
    return keys


def table(reading, chunk, first, count):
    """The table of 64 chunks, or of those that are left."""
    keys = sorted(key for k in range(first, min(first + 64, count)) for key in keys_of(reading, chunk, k))
    if len(keys) > 4 * chunk:
        return struct.pack("<I", NONE_KEPT)
    return struct.pack("<%dI" % (len(keys) + 1), len(keys), *keys)


def names_behind(front, text, ignores, chunk):
    """The bytes of an index, and behind them those of tables."""
    reading = Reading(text, 3 if ignores and text.startswith(MARK) else 0)
    count = -(-len(text) // chunk)
    front += NAMES_TAG + b"".join(table(reading, chunk, first, count) for first in range(0, count, 64))
    return front + struct.pack("<Q", xxh64(front))


def saved(text, depth, ignores, chunk, unique=False, names=False):
    """What is saved of a text: its index, and tables of its names where they are wanted."""
    front = index(text, depth, ignores, chunk, unique)
    return names_behind(front, text, ignores, chunk) if names else front


# ---- what bytes say

class Fault(Exception):
    """Why bytes are those of no index."""


def needed(holds, why):
    if not holds:
        raise Fault(why)


def entry_said(data):
    closed, opened, state, expect, flags, nothing, commas, digest = struct.unpack("<HHBBBBQQ", data)
    flag = lambda bit: "true" if flags & bit else "false"
    return " %d,%d,%d,%s,%s,%s,%s,%016x" % (closed, opened, commas, STATES[state], EXPECTATIONS[expect], flag(1), flag(2), digest)


def entry_in(data):
    """The numbers of an entry, and then its digest, as `entry` gives them."""
    closed, opened, state, expect, flags, nothing, commas, digest = struct.unpack("<HHBBBBQQ", data)
    needed(state < len(STATES) and expect < len(EXPECTATIONS) and flags < 4 and nothing == 0, "malformed")
    return closed, opened, state, expect, flags, commas, digest


def kept_of(size, chunk):
    """How many entries stand behind the head."""
    level, kept = -(-size // chunk), 0
    while level > 1:
        kept += level
        level = -(-level // 64)
    return kept


def loaded(data):
    needed(data[:7] == b"\x89jxidx\x0a", "not a saved index")
    needed(data[7:8] == b"\x01", "another version")
    needed(len(data) >= 64, "cut short")
    needed(xxh64(data[:56]) == struct.unpack_from("<Q", data, 56)[0], "damaged")
    size, chunk, depth, flags, nothing = struct.unpack_from("<QIIII", data, 8)
    needed(size > 0 and chunk in [1 << bits for bits in range(6, 21)] and depth <= 65535, "malformed")
    kept = kept_of(size, chunk)
    needed((len(data) - 64) // 24 >= kept, "cut short")
    needed(len(data) - 64 <= 24 * kept, "more bytes than an index has")
    needed(flags < 4 and nothing == 0, "malformed")
    entries = [entry_in(data[at:at + 24]) for at in range(64, len(data), 24)]
    top = entry_in(data[32:56])
    level, said_of = entries[:-(-size // chunk)] or [top], []
    while len(level) > 1:
        said_of += level
        level = [block(level[k:k + 64]) for k in range(0, len(level), 64)]
    needed(said_of == entries and level == [top], "damaged")
    said = "%d %s %s %d %d" % (depth, ("Refused", "Ignored")[flags & 1], ("Any", "Unique")[flags >> 1], chunk, size)
    return said + "".join(entry_said(data[at:at + 24]) for at in [32] + list(range(64, len(data), 24)))


def load(data):
    try:
        return loaded(data)
    except Fault as fault:
        return str(fault)


def end_of_index(data):
    """Where tables begin, or the end of the bytes where none do."""
    if len(data) >= 64:
        size, chunk = struct.unpack_from("<QI", data, 8)
        if size and chunk >= 64:
            end = 64 + 24 * kept_of(size, chunk)
            if data[end:end + 8] == NAMES_TAG:
                return end
    return len(data)


def most_bytes(size):
    """How many bytes are read at most of an index, and of tables behind it, where the text has so many."""
    return size + 52 * (size // 64 + 1) + 81


def tables_said(data, at, count):
    """The keys of so many tables, the first of which begins there."""
    said = []
    for _ in range(count):
        needed(len(data) >= at + 4, "cut short")
        keys, = struct.unpack_from("<I", data, at)
        at += 4
        if keys == NONE_KEPT:
            said.append(" none")
            continue
        needed(len(data) - at >= 4 * keys, "cut short")
        said.append(" " + ",".join(map(str, struct.unpack_from("<%dI" % keys, data, at))))
        at += 4 * keys
    needed(len(data) - at >= 8, "cut short")
    needed(len(data) - at == 8, "more bytes than an index has")
    needed(xxh64(data[:-8]) == struct.unpack_from("<Q", data, at)[0], "damaged")
    return "".join(said)


def load_all(data):
    """What bytes say, of an index and of the tables behind it if there are any."""
    end = end_of_index(data)
    try:
        said = loaded(data[:end])
        if end == len(data):
            return said
        size, chunk = struct.unpack_from("<QI", data, 8)
        return said + tables_said(data, end + 8, -(-(-(-size // chunk)) // 64))
    except Fault as fault:
        return str(fault)


def sealed(front):
    return front[:56] + struct.pack("<Q", xxh64(front[:56])) + front[64:]


def tables_changed(rng, data):
    """The bytes of an index with tables behind it, with something amiss in these."""
    end = end_of_index(data)
    if end == len(data):
        return data
    way = rng.randrange(6)
    if way == 0:
        return data[:rng.choice((end + rng.randrange(9), len(data) - rng.randrange(1, 9), rng.randrange(end, len(data))))]
    if way == 1:
        return data + bytes(rng.randrange(256) for _ in range(rng.choice((1, 4, 8))))
    if way < 4:
        at = rng.randrange(end, len(data))
        return data[:at] + bytes([data[at] ^ 1 << rng.randrange(8)]) + data[at + 1:]
    # The count of the first table's keys.
    count, = struct.unpack_from("<I", data, end + 8)
    other = struct.pack("<I", rng.choice((0, 1, (count + 1) & NONE_KEPT, max(count, 1) - 1, NONE_KEPT, NONE_KEPT - 1, 1 << 31)))
    return data[:end + 8] + other + data[end + 12:]


def changed(rng, data):
    """The bytes of an index, often with something amiss."""
    way = rng.randrange(8)
    if way == 0:
        return data[:rng.choice((rng.randrange(len(data)), rng.randrange(10), 64, 64 + rng.randrange(max(1, len(data) - 64))))]
    if way == 1:
        return data + bytes(rng.randrange(256) for _ in range(rng.choice((1, 23, 24, 48))))
    if way == 2:
        at = rng.randrange(min(len(data), 200))
        return data[:at] + bytes([data[at] ^ 1 << rng.randrange(8)]) + data[at + 1:]
    if way < 6:
        at = rng.choice((0, 6, 7, 8, 15, 16, 17, 18, 20, 22, 24, 25, 28, 32, 36, 37, 38, 39, 40, 48, 55))
        return sealed(data[:at] + bytes([rng.choice((0, 1, 2, 3, 4, 5, 6, 31, 32, 64, 128, 255))]) + data[at + 1:])
    return data


# ---- random texts

def string(rng):
    pieces = ["a", "name", "\u00e9", "\u20ac", "\U0001F600", "\u0800", "\ud7ff", "\\n", "\\u00e9", "\\uD83D\\uDE00", "\\\\", "\\\"", "[", "]", "{", "}", ",", ":", " ",
              "\U00010000", "\U0010FFFF", "x" * 40]
    return '"' + "".join(rng.choice(pieces) for _ in range(rng.choice((0, 1, 2, 5, 12)))) + '"'


def value(rng, depth):
    kind = rng.randrange(9)
    if depth and kind < 5:
        gap = lambda: rng.choice(["", "", " ", "\n  ", "\t"])
        size = rng.choice((0, 1, 2, 4, 9))
        if kind < 3:
            return "[" + gap() + ("," + gap()).join(value(rng, depth - 1) + gap() for _ in range(size)) + "]"
        return "{" + gap() + ("," + gap()).join(string(rng) + gap() + ":" + gap() + value(rng, depth - 1) for _ in range(size)) + gap() + "}"
    if kind == 5:
        return string(rng)
    if kind == 6:
        return rng.choice(("true", "false", "null"))
    return rng.choice(("0", "-0", "7", "-12", "3.25", "1e9", "-2.5E-7", "12345678901234567890", "0.1e+2", "5" * 70))


def text_of(rng):
    whole = value(rng, rng.choice((0, 1, 3, 6, 12)))
    while len(whole.encode("utf-8", "surrogatepass")) > 9000:
        whole = value(rng, 3)
    return (rng.choice(("", "", " \n")) + whole + rng.choice(("", "", " ", "\n" * 70))).encode("utf-8", "surrogatepass")


def word(text):
    out = "".join(chr(b) if 0x21 <= b <= 0x7E and b != 0x5C else "\\x%02X" % b for b in text)
    return out or "\\-"


def bytes_of(spelling):
    if spelling == "\\-":
        return b""
    spelling = re.sub(r"\\\((\d+);(.*?)\\\)", lambda m: m.group(2) * int(m.group(1)), spelling)
    spelling = re.sub(r"\\\*(\d+);(\\x..|.)", lambda m: m.group(2) * int(m.group(1)), spelling)
    return re.sub(rb"\\x(..)", lambda m: bytes([int(m.group(1), 16)]), spelling.encode())


# Names that are spelt in several ways, or are one when escapes are read.
NAMES = ['""', '"a"', '"\\u0061"', '"b"', '"a\\/b"', '"a/b"', '"~"', '"\\ud83d"', '"\\ud83d\\ude00"', '"\U0001F600"', '"\u00e9"', '"\\u00E9"', '"%s"' % ("long" * 40)]


def close(rng):
    """Arrays in one another whose tokens stand close together, so that blocks of them are read. Some have an object among them."""
    row = lambda: "[" + ",".join(rng.choice(("1", "23", '"a"', "[]", "[4,5]")) for _ in range(rng.choice((0, 2, 8)))) + "]"
    rows = [row() for _ in range(rng.choice((3, 20, 60)))]
    if rng.random() < 0.3:
        rows[rng.randrange(len(rows))] = '{"a":[1,2]}'
    deep = rng.choice((1, 1, 3))
    return "[" * deep + ",".join(rows) + "]" * deep


def members_of(rng):
    """An object of many members, which stand in many chunks. In some there are more names than are kept."""
    ways = rng.choice(("few", "few", "spelt", "empty", "nested", "close"))
    names = {
        "few": lambda n: '"%d"' % rng.randrange(300),
        "close": lambda n: '"%d"' % rng.randrange(30),
        "spelt": lambda n: rng.choice(NAMES),
        "empty": lambda n: '""',
        "nested": lambda n: rng.choice(NAMES + [string(rng), '"%d"' % n]),
    }[ways]
    member = {"empty": lambda: "0", "close": lambda: close(rng), "nested": lambda: value(rng, rng.choice((0, 0, 1, 3)))}.get(ways, lambda: rng.choice(("0", "true", "[7]", '{"a":1}', '"x"')))
    return "{" + ",".join(names(n) + ":" + member() for n in range(rng.choice((3, 40) if ways == "close" else (3, 40, 400, 900)))) + "}"


def text_of_names(rng):
    """A text with an object of many members, somewhere in it."""
    front, behind = rng.choice((("", ""), ("[1,", "]"), ('{"a":{"b":', '},"a":2}'), ("[[" + " " * 50, "],[]]"), (" ", "\n" * 70)))
    return (front + members_of(rng) + behind).encode("utf-8", "surrogatepass")


def lines(seed, count):
    rng = random.Random(seed)
    for _ in range(count):
        text = text_of(rng)
        settings = rng.choice("--b")
        if settings == "b" and rng.random() < 0.5:
            text = MARK + text
        chunk = rng.choice((64, 64, 64, 128, 1024, 32768))
        yield "save 512 %s %d %s" % (settings, chunk, word(text))
        yield "load " + word(changed(rng, index(text, 512, settings == "b", chunk)))


def index_by(text, options):
    """The index by options of the program."""
    value = lambda name, default: int(options[options.index(name) + 1]) if name in options else default
    return saved(text, value("--depth", 512), "--ignore-bom" in options, value("--chunk", 32768), "--unique-names" in options, "--names" in options)


def files(seed, count):
    rng = random.Random(seed)
    for number in range(count):
        options = ["--names"] if rng.random() < 0.5 else []
        text = text_of_names(rng) if options and rng.random() < 0.6 else text_of(rng)
        if rng.random() < 0.9:
            options += ["--chunk", str(rng.choice((64, 64, 128, 256, 1024, 4096, 32768, 1048576)))]
        if rng.random() < 0.3:
            options += ["--depth", str(rng.choice((12, 40, 65535)))]
        if rng.random() < 0.3:
            options += ["--ignore-bom"]
            if rng.random() < 0.5:
                text = MARK + text
        for ending, data in ((".json", text), (".jxi", index_by(text, options)), (".options", " ".join(options).encode())):
            with open(str(number) + ending, "wb") as file:
                file.write(data)


# ---- texts that several workers read

def long_text(kind, size):
    """A text of so many bytes or a few more, of which all borders between chunks cut the same sort of thing."""
    rng = random.Random(kind)
    items = {
        "records": lambda n: b'{"id":%d,"name":"n%d","tags":["a","b"],"at":{"x":%d.5,"y":null}}' % (n, n * 7, n),
        "numbers": lambda n: b"-%d.%de-%d" % (n, 10 ** 30 + n, n % 300),
        "digits": lambda n: b'"%d"' % (n * n),
        "literals": lambda n: (b"true", b"false", b"null")[n % 3],
        "escapes": lambda n: b'"' + b'\\ud83d\\ude00\\"\\\\' * 20 + b'"',
        "letters": lambda n: '"\u00e9\u4e16\U0001f600"'.encode() * 1,
        "deep": lambda n: b"[" * (n % 60) + b"1" + b"]" * (n % 60),
        "blanks": lambda n: b" \n\t " * 50 + b"1",
        "mixed": lambda n: rng.choice((b"[]", b"{}", b'"' + b"x" * rng.randrange(90000) + b'"', b"%d" % rng.getrandbits(rng.randrange(1, 5000)), b'{"a":[1,{"b":2}]}')),
    }
    if kind == "string":
        return b'"' + b"x" * (size - 2) + b'"'
    if kind == "closes":
        return b"[" * 500 + b'"' + b"y" * (size - 1002) + b'"' + b"]" * 500
    parts, total = [], 1
    while total < size:
        parts.append(items[kind](len(parts)))
        total += len(parts[-1]) + 1
    return b"[" + b",".join(parts) + b"]"


def shared(program, rows):
    """Each row is a kind of text, bytes and options. What several workers write of it, whole, cut and damaged, is what one writes."""
    import subprocess
    right = wrong = 0
    for row in rows:
        kind, size, options = (field.strip() for field in row.split("|"))
        text, options = long_text(kind, int(size)), options.split()
        chunk = int(options[options.index("--chunk") + 1]) if "--chunk" in options else 32768
        texts = [text, text[:-1], text + b"x", MARK + text]
        for at in (chunk * 7, chunk * 7 + 1, chunk * 9 - 1, len(text) // 2):
            if at < len(text):
                texts += [text[:at], text[:at] + b"\1" + text[at + 1:], text[:at] + b'"' + text[at + 1:]]
        for number, data in enumerate(texts):
            with open("shared.json", "wb") as file:
                file.write(data)
            runs = [subprocess.run([program, "save", "--workers", str(workers)] + options + ["shared.json"], capture_output=True) for workers in (1, 2, 4, 7)]
            answers = [(run.returncode, run.stdout, run.stderr) for run in runs]
            good = all(answer == answers[0] for answer in answers) and answers[0][0] in (0, 1) and (answers[0][0] == 0) == (len(answers[0][1]) > 0)
            if number == 0 and "--names" not in options:
                # (The row with a depth has a text that is deeper.)
                good = good and answers[0][1] == (b"" if "--depth" in options else index_by(data, options))
            if not good:
                print("%s: text %d: %s" % (row, number, [(status, len(out), told[:80]) for status, out, told in answers]))
            right, wrong = right + good, wrong + (not good)
    print("%d right, %d wrong" % (right, wrong))


def main():
    if sys.argv[1] == "lines":
        for line in lines(int(sys.argv[2]), int(sys.argv[3])):
            print(line)
        return
    if sys.argv[1] == "files":
        files(int(sys.argv[2]), int(sys.argv[3]))
        return
    if sys.argv[1] == "shared":
        shared(sys.argv[2], [row for row in sys.stdin.read().split("\n") if row])
        return
    if sys.argv[1] == "file":
        with open(sys.argv[2], "rb") as file:
            sys.stdout.buffer.write(index_by(file.read(), sys.argv[3:]))
        return
    for line in sys.stdin.read().split("\n")[:-1]:
        words = line.split(" ")
        if words[0] == "digest":
            print("%016x" % xxh64(bytes_of(words[1])))
        elif words[0] == "load":
            print(load(bytes_of(words[1])))
        elif words[0] == "save":
            print("index " + index(bytes_of(words[4]), int(words[1]), "b" in words[2], int(words[3])).hex())
        else:
            print(line)


if __name__ == "__main__":
    main()
