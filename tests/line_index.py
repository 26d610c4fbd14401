"""Indexes of lines: the bytes of the index of a text's lines, what bytes say, and where a line begins, by docs/FORMAT.md alone. Nothing of a crate
is called.

    line_index.py lines SEED COUNT    writes lines for crates/test_calls_of_indexes: for each of so many random texts one to index it, one to find a
                                      line by its index, and one to read bytes of its index, which often have something amiss
    line_index.py answers < LINES     writes the answer to each line, on the line of the same number
    line_index.py file TEXT CHUNK     writes the index of a file
"""
import random
import struct
import sys

import saved

TAG = bytes.fromhex("896A786C696E0A01")


def chunks(text, size):
    return [text[at:at + size] for at in range(0, len(text), size)]


def sealed(front):
    return front + struct.pack("<Q", saved.xxh64(front))


def index(text, size):
    entries, feeds = b"", 0
    for chunk in chunks(text, size):
        feeds += chunk.count(b"\n")
        entries += struct.pack("<QQ", feeds, saved.xxh64(chunk))
    return sealed(TAG + struct.pack("<QII", len(text), size, 0) + entries)


def load(data):
    """What an index says, or why it is refused."""
    if data[:7] != TAG[:7]:
        return "not a saved index"
    if data[:8] != TAG:
        return "another version"
    if len(data) < 32:
        return "cut short"
    size, chunk, nothing = struct.unpack_from("<QII", data, 8)
    if not 64 <= chunk <= 1048576 or chunk & (chunk - 1):
        return "malformed"
    wanted, has = -(-size // chunk) * 16, len(data) - 32
    if has < wanted:
        return "cut short"
    if has > wanted:
        return "more bytes than an index has"
    if saved.xxh64(data[:-8]) != struct.unpack("<Q", data[-8:])[0]:
        return "damaged"
    if nothing:
        return "malformed"
    entries = struct.iter_unpack("<QQ", data[24:-8])
    return "%d %d" % (chunk, size) + "".join(" %d,%016x" % entry for entry in entries)


def start(text, feeds):
    """The offset behind so many line feeds, or the end."""
    at = 0
    for _ in range(feeds):
        at = text.find(b"\n", at) + 1
        if at == 0:
            return len(text)
    return at


def place(text, size, feeds):
    """Where the line behind so many line feeds begins: by the index the chunk and how many of its own are before it."""
    at = start(text, feeds)
    if feeds == 0 or text.count(b"\n") < feeds:
        return "at %d" % at
    chunk = (at - 1) // size
    return "chunk %d behind %d: at %d" % (chunk, feeds - text[:chunk * size].count(b"\n"), at)


def changed(rng, data):
    """Often other bytes: one changed, cut off, or behind them, with or without a checksum that is right again."""
    way = rng.randrange(8)
    if way == 0 and len(data) > 40:
        data = data[:24] + data[24 + 16:]
    elif way == 1:
        data = data[:rng.randrange(len(data))]
    elif way == 2:
        data += bytes(rng.randrange(1, 30))
    elif way in (3, 4, 5):
        at = rng.randrange(len(data)) if way == 3 else rng.randrange(min(24, len(data)))
        data = data[:at] + bytes([data[at] ^ 1 << rng.randrange(8)]) + data[at + 1:]
    if way in (0, 4, 5) and len(data) >= 8:
        data = sealed(data[:-8])
    return data


def text_of(rng):
    """Lines of any bytes: empty ones, some longer than a chunk, the last with a line feed or without."""
    lines = []
    for _ in range(rng.randrange(rng.choice((1, 3, 30, 90)))):
        size = rng.choice((0, 1, rng.randrange(20), rng.randrange(90), rng.choice((63, 64, 65, 127, 128, 300))))
        lines.append(bytes(rng.choice(b"a{}[]\r\t\x00\xff0") for _ in range(size)))
    return b"\n".join(lines) + rng.choice((b"", b"\n", b"\n\n"))


def lines(seed, count):
    rng = random.Random(seed)
    for _ in range(count):
        text = text_of(rng)
        chunk = rng.choice((64, 64, 128, 32768))
        yield "lines %d %s" % (chunk, saved.word(text))
        yield "line %d %d %s" % (chunk, rng.randrange(text.count(b"\n") + 3), saved.word(text))
        yield "load_lines " + saved.word(changed(rng, index(text, chunk)))


def main():
    if sys.argv[1] == "lines":
        for line in lines(int(sys.argv[2]), int(sys.argv[3])):
            print(line)
        return
    if sys.argv[1] == "file":
        with open(sys.argv[2], "rb") as file:
            sys.stdout.buffer.write(index(file.read(), int(sys.argv[3])))
        return
    for line in sys.stdin.read().split("\n")[:-1]:
        words = line.split(" ")
        if words[0] == "lines":
            print("index " + index(saved.bytes_of(words[2]), int(words[1])).hex())
        elif words[0] == "line":
            print(place(saved.bytes_of(words[3]), int(words[1]), int(words[2])))
        elif words[0] == "load_lines":
            print(load(saved.bytes_of(words[1])))
        else:
            print(line)


if __name__ == "__main__":
    main()
