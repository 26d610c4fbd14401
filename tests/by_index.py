"""Pointers by a saved index: `jx at --index` answers as a reader does that is written from RFC 8259 and RFC 6901 alone. Texts are those that
saved.py makes, and their indexes too, half of them with tables of names, which change no answer. Then what is wrong with a text or an index is told by its name, or the answer is that on the text
that was indexed. `jx get --index` writes and tells what `jx get` does of that text, or whole lines for the first of the pointers before
such a fault; of a value in a chunk that has changed there is no line. The last line is `N passed, M failed`.

    by_index.py SEED COUNT    so many random texts
"""
import json
import os
import pathlib
import random
import re
import struct
import subprocess
import sys

import saved

HERE = pathlib.Path(__file__).resolve().parent
PROGRAM = os.environ.get("JX_PROGRAM", HERE.parent / "crates" / "jx" / "out" / "jx")
failed = passed = 0


def same(name, wanted, got):
    """Counts whether what was got is one of those that are right."""
    global failed, passed
    if got in wanted:
        passed += 1
        return
    failed += 1
    print("by_index.py: FAILED: %s\n--- wanted\n%s\n--- got\n%s" % (name, repr(wanted)[:2000], repr(got)[:2000]))


# ---- what pointers lead to

class Node:
    def __init__(self, kind, start):
        self.kind, self.start, self.end = kind, start, None
        # The children, with their names in an object.
        self.children = []


KINDS = {"[": "array", "{": "object", "string": "string", "number": "number"}


def units(text):
    """The UTF-16 code units of a text that Python has."""
    return text.encode("utf-16-le", "surrogatepass")


def tree(text, start):
    """The tree of an accepted text."""
    root, open_ones, name = None, [], None
    kinds = [kind for kind, _, _ in saved.tokens(text, start)]
    for place, (kind, at, end) in enumerate(saved.tokens(text, start)):
        if kind in ":,":
            continue
        if kind in "]}":
            open_ones.pop().end = end
            continue
        if kind == "string" and kinds[place + 1:place + 2] == [":"]:
            name = units(json.loads(text[at:end].decode("utf-8", "surrogatepass"), strict=False))
            continue
        node = Node(KINDS.get(kind) or text[at:end].decode(), at)
        if open_ones:
            open_ones[-1].children.append((name, node))
        else:
            root = node
        name = None
        if kind in "[{":
            open_ones.append(node)
        else:
            node.end = end
    return root


def answer(root, pointer):
    """The words for what a pointer comes to in a tree."""
    if pointer and not pointer.startswith("/"):
        return "no slash"
    spelt = pointer.encode()
    for at, byte in enumerate(spelt):
        if byte == 0x7E and spelt[at + 1:at + 2] not in (b"0", b"1"):
            return "bad escape at %d" % at
    node = root
    for number, token in enumerate(pointer.split("/")[1:]):
        token = token.replace("~1", "/").replace("~0", "~")
        where = " at token %d" % number
        if node.kind == "array":
            if token == "-":
                return "after last" + where
            if not (token == "0" or token.isascii() and token.isdigit() and token[0] != "0"):
                return "not an index" + where
            if int(token) >= len(node.children):
                return "past end" + where
            node = node.children[int(token)][1]
        elif node.kind == "object":
            named = [child for name, child in node.children if name == units(token)]
            if len(named) != 1:
                return ("name repeated" if named else "no such member") + where
            node = named[0]
        else:
            return "not a container" + where
    return "found %s %d..%d" % (node.kind, node.start, node.end)


def escaped(name):
    return name.decode("utf-16-le", "surrogatepass").replace("~", "~0").replace("/", "~1")


def all_pointers(node, front=""):
    yield front
    for place, (name, child) in enumerate(node.children):
        token = escaped(name) if node.kind == "object" else str(place)
        yield from all_pointers(child, front + "/" + token)


def can_be_a_word(pointer):
    return "\0" not in pointer and not any(0xD800 <= ord(c) < 0xE000 for c in pointer)


def is_misspelt(pointer):
    """Whether it is no pointer."""
    return re.search("~(?![01])", pointer) is not None or not re.match("/|$", pointer)


def asked(pointers):
    """The words that ask for pointers. A word that is none is refused, a line of a list is answered."""
    if not any(map(is_misspelt, pointers)):
        return ["--", *(pointer.encode() for pointer in pointers)]
    pathlib.Path("asked").write_text("".join(pointer + "\n" for pointer in pointers), encoding="utf-8", newline="")
    return ["--pointers", "asked"]


def some_pointers(rng, root):
    """Pointers into a tree, and some that lead nowhere or are none."""
    every = [pointer for pointer in all_pointers(root) if can_be_a_word(pointer)]
    chosen = rng.sample(every, min(len(every), rng.choice((1, 1, 2, 5, 20))))
    for _ in range(rng.choice((0, 1, 3))):
        chosen.append(rng.choice(every) + rng.choice(("/", "/0", "/1", "/a", "/-", "/01", "/999999999999999999999", "~", "x", "/~2", "/name")))
    if rng.random() < 0.2:
        chosen.append(rng.choice(("x", "~", "a/b")))
    if any("\n" in pointer or "\r" in pointer for pointer in chosen):
        # Such a pointer is no line of a list, in which those that are none stand.
        chosen = [pointer for pointer in chosen if not is_misspelt(pointer)] or [""]
    rng.shuffle(chosen)
    return chosen


def right(root, pointers):
    """What is written for pointers, what is told, and the status."""
    answers = [answer(root, pointer) for pointer in pointers]
    return "".join(a + "\n" for a in answers), "", int(any(not a.startswith("found ") for a in answers))


def fault(words):
    return "", "jx: %s\n" % words, 2


# ---- the program

def looked_up(index, text, pointers, words=()):
    pathlib.Path("text.jxi").write_bytes(index)
    pathlib.Path("text").write_bytes(text)
    command = [PROGRAM, "at", "--index", "text.jxi", "--file", "text", *words, *asked(pointers)]
    done = subprocess.run(command, capture_output=True)
    return done.stdout.decode(), done.stderr.decode(), done.returncode


# How values are written.
FORMS = ([], ["-c"], ["-r"], ["-c", "-r"])


def got(text, pointers, words):
    """What `jx get` writes and tells of a text, and its status."""
    pathlib.Path("text").write_bytes(text)
    done = subprocess.run([PROGRAM, "get", "--file", "text", *words, *asked(pointers)], capture_output=True)
    return done.stdout, done.stderr.decode(), done.returncode


def got_by_index(index, text, pointers, words=()):
    pathlib.Path("text.jxi").write_bytes(index)
    return got(text, pointers, ["--index", "text.jxi", *words])


class Case:
    """A random text, its index, with tables of its names or without, and pointers into it."""

    def __init__(self, rng):
        self.names = rng.random() < 0.5
        self.text = saved.text_of_names(rng) if self.names and rng.random() < 0.5 else saved.text_of(rng)
        self.ignores = rng.random() < 0.3
        if self.ignores and rng.random() < 0.5:
            self.text = saved.MARK + self.text
        self.chunk = rng.choice((64, 64, 64, 128, 256, 1024, 32768))
        self.root = tree(self.text, 3 if self.text.startswith(saved.MARK) else 0)
        self.pointers = some_pointers(rng, self.root)
        self.right = right(self.root, self.pointers)
        self.index = saved.saved(self.text, 512, self.ignores, self.chunk, names=self.names)

    def changed(self, other):
        """That each chunk in which the text differs is told to be changed."""
        return [fault("text: changed in %d..%d" % span) for span in self.chunks_changed(other)]

    def chunks_changed(self, other):
        spans = [(at, min(at + self.chunk, len(self.text))) for at in range(0, len(self.text), self.chunk)]
        return [(low, high) for low, high in spans if self.text[low:high] != other[low:high]]

    def values(self):
        """Where the value of each pointer stands, and nothing where it has none."""
        answers = [answer(self.root, pointer).split() for pointer in self.pointers]
        return [tuple(map(int, words[2].split(".."))) if words[0] == "found" else (0, 0) for words in answers]

    def got(self, form=()):
        """What `jx get` writes and tells of the text."""
        return got(self.text, self.pointers, [*form, *(["--ignore-bom"] if self.ignores else [])])


def as_it_is(rng, case):
    same("pointers %r into %r" % (case.pointers, case.text), [case.right], looked_up(case.index, case.text, case.pointers))
    if rng.random() < 0.1 and not any("\n" in pointer or "\r" in pointer for pointer in case.pointers):
        pathlib.Path("list").write_text("".join(pointer + "\n" for pointer in case.pointers), newline="")
        same("a list of %r into %r" % (case.pointers, case.text), [case.right], looked_up(case.index, case.text, [], ["--pointers", "list"]))


def values_as_they_are(rng, case):
    form = rng.choice(FORMS)
    same("values of %r by %r in %r" % (case.pointers, form, case.text), [case.got(form)], got_by_index(case.index, case.text, case.pointers, form))
    if rng.random() < 0.1 and not any("\n" in pointer or "\r" in pointer for pointer in case.pointers):
        pathlib.Path("list").write_text("".join(pointer + "\n" for pointer in case.pointers), newline="")
        same("values of a list of %r in %r" % (case.pointers, case.text), [case.got(form)], got_by_index(case.index, case.text, [], [*form, "--pointers", "list"]))


def values_of_another_text(rng, case):
    """A byte of the text is another. Whole lines stand before the fault, and none of a value with bytes in the chunk that has it."""
    at = rng.randrange(len(case.text))
    flipped = case.text[:at] + bytes([case.text[at] ^ 1 << rng.randrange(8)]) + case.text[at + 1:]
    (low, high), = case.chunks_changed(flipped)
    values = case.values()
    lines = [case.text[start:end] + b"\n" for start, end in values]
    within = [number for number, (start, end) in enumerate(values) if start < high and low < end]
    most = within[0] if within else len(lines)
    told = "jx: text: changed in %d..%d\n" % (low, high)
    wanted = [(b"".join(lines[:count]), told, 2) for count in range(most + 1)]
    if not within:
        wanted.append(case.got())
    same("values, and the byte %d of %r is another" % (at, case.text), wanted, got_by_index(case.index, flipped, case.pointers))


def values_without_a_text(rng, case):
    """The text has another size, or the index is none: there is no output."""
    other = rng.choice((case.text[:-1], case.text + b" ", b""))
    told = "jx: text: %d bytes, and the index is of %d\n" % (len(other), len(case.text))
    same("values of %r in place of %r" % (other, case.text), [(b"", told, 2)], got_by_index(case.index, other, case.pointers))
    same("values by no index", [(b"", "jx: text.jxi: not a saved index\n", 2)], got_by_index(b"x" + case.index[1:], case.text, case.pointers))


def of_another_text(rng, case):
    """Bytes of the text are others, or some are gone or more than there were."""
    at = rng.randrange(len(case.text))
    flipped = case.text[:at] + bytes([case.text[at] ^ 1 << rng.randrange(8)]) + case.text[at + 1:]
    same("the byte %d of %r is another" % (at, case.text), [case.right, *case.changed(flipped)], looked_up(case.index, flipped, case.pointers))
    other = rng.choice((case.text[:at], case.text + b" ", b"", case.text * 2, b" " + case.text))
    words = "text: %d bytes, and the index is of %d" % (len(other), len(case.text))
    same("%r in place of %r" % (other, case.text), [fault(words)], looked_up(case.index, other, case.pointers))


def of_the_index_of_another(rng, case, last):
    """The index is that of another text, which is as long where that can be."""
    longer, shorter = (case, last) if len(case.text) >= len(last.text) else (last, case)
    filled = shorter.text + b" " * (len(longer.text) - len(shorter.text))
    index = saved.saved(filled, 512, shorter.ignores, shorter.chunk, names=shorter.names)
    wanted = right(shorter.root, longer.pointers)
    spans = [(at, min(at + shorter.chunk, len(filled))) for at in range(0, len(filled), shorter.chunk)]
    told = [fault("text: changed in %d..%d" % (low, high)) for low, high in spans if filled[low:high] != longer.text[low:high]]
    same("the index of %r for %r" % (filled, longer.text), [wanted, *told], looked_up(index, longer.text, longer.pointers))


def of_another_index(rng, case):
    """Bytes of the index are others, with digests made anew or not, or some are gone or more than there were."""
    index = saved.tables_changed(rng, case.index) if case.names and rng.random() < 0.5 else saved.changed(rng, case.index)
    told = saved.load_all(index)
    size = struct.unpack_from("<Q", index, 8)[0] if len(index) >= 16 else 0
    if told in ("not a saved index", "another version") or len(index) < 64 or saved.xxh64(index[:56]) != struct.unpack_from("<Q", index, 56)[0]:
        wanted = [fault("text.jxi: " + told)]
    elif size != len(case.text):
        wanted = [fault("text: %d bytes, and the index is of %d" % (len(case.text), size))]
    elif told in ("cut short", "damaged", "malformed", "more bytes than an index has"):
        wanted = [fault("text.jxi: " + told)]
    else:
        # Another depth, or whether a byte order mark is ignored, may make a text none. Of one chunk the digest stands in the head.
        wanted = [case.right, fault("text.jxi: damaged")]
        if len(index) == 64 and struct.unpack_from("<Q", index, 48)[0] != saved.xxh64(case.text):
            wanted = [fault("text: changed in 0..%d" % size)]
    same("another index %r of %r" % (index, case.text), wanted, looked_up(index, case.text, case.pointers))


def of_the_tables_of_another(rng, case, last):
    """The tables behind the index are those of another text, with the digest that they had. No more is read than a text of this size asks for."""
    if not (case.names and last.names):
        return
    front, other = saved.end_of_index(case.index), saved.end_of_index(last.index)
    swapped = case.index[:front] + last.index[other:]
    told = saved.load_all(swapped[:saved.most_bytes(len(case.text))])
    wanted = [case.right] if swapped == case.index else [fault("text.jxi: " + told)]
    same("the tables of %r behind the index of %r" % (last.text, case.text), wanted, looked_up(swapped, case.text, case.pointers))


def of_many_members(rng):
    """Of a long object those chunks alone are looked at in which a member with a wanted name may stand: all others may have changed."""
    members = 5000
    text = ("{" + ",".join('"member %d":{"number":%d,"more":"%s"}' % (n, n, "x" * rng.randrange(20)) for n in range(members)) + "}").encode()
    chunks = -(-len(text) // 64)
    index = saved.saved(text, 512, False, 64, names=True)
    reading, root = saved.Reading(text, 0), tree(text, 0)
    # Where a chunk begins within a name of the object, it is read if the one before is.
    cut = {k for k in range(chunks) if reading.state(64 * k) != "Gap" and reading.expect(64 * k) == "Colon" and reading.depth(64 * k) == 1}

    def with_cut_names(low, high):
        while low in cut:
            low -= 1
        while high in cut:
            high += 1
        return range(low, min(high, chunks))

    for number in (0, 1, 777, 1234, members - 1, members):
        wanted = saved.number_of(b'"member %d"' % number)
        keys = [k for k in range(chunks) if any(key // 64 == wanted for key in saved.keys_of(reading, 64, k))]
        # A value ends in the chunk of its name or in the next one. The first chunk has the bracket of the object, and names that no table has.
        read = {k for spans in [(0, 2), (chunks - 1, chunks), *((key, key + 2) for key in keys)] for k in with_cut_names(*spans)}
        other = b"".join(text[64 * k:64 * k + 64] if k in read else b"x" * len(text[64 * k:64 * k + 64]) for k in range(chunks))
        pointers = ["/member %d/number" % number]
        same("the member %d by tables" % number, [right(root, pointers)], looked_up(index, text, pointers))
        same("the member %d by tables, where other chunks have changed" % number, [right(root, pointers)], looked_up(index, other, pointers))
        without = looked_up(saved.index(text, 512, False, 64), other, pointers)
        same("the member %d without tables, where they have" % number, [("", 2)], (without[0], without[2]))


def of_many_chunks(rng):
    """Of a text of more chunks than a block of blocks has, so that whole blocks are passed over: 64 times 64 chunks of 64 bytes."""
    values = []
    while sum(map(len, values)) < 70 * 64 * 64:
        values.append(saved.value(rng, rng.choice((0, 1, 2, 4))))
    named = ",".join('"%d":%s' % (number, value) for number, value in enumerate(values))
    for all_of in ("[%s]" % ",".join(values), "{%s}" % named):
        text = ('{"front":[1,{}],"all":%s,"behind":{"last":[7]}}' % all_of).encode("utf-8", "surrogatepass")
        pathlib.Path("many").write_bytes(text)
        root = tree(text, 0)
        every = [pointer for pointer in all_pointers(root) if can_be_a_word(pointer)]
        for options in ([], ["--names"]):
            index = subprocess.run([PROGRAM, "save", "--chunk", "64", *options, "many"], stdout=subprocess.PIPE).stdout
            for count in (1, 1, 1, 2, 5, 40):
                pointers = rng.sample(every, count) + ["/all/%d" % rng.randrange(len(values)), "/behind/last/0", "/all/%d" % len(values)]
                same("pointers %r into many chunks" % pointers, [right(root, pointers)], looked_up(index, text, pointers))


def main():
    rng = random.Random(int(sys.argv[1]))
    of_many_chunks(rng)
    of_many_members(rng)
    last = Case(rng)
    for _ in range(int(sys.argv[2])):
        case = Case(rng)
        as_it_is(rng, case)
        of_another_text(rng, case)
        of_the_index_of_another(rng, case, last)
        of_another_index(rng, case)
        of_the_tables_of_another(rng, case, last)
        values_as_they_are(rng, case)
        values_of_another_text(rng, case)
        values_without_a_text(rng, case)
        last = case
    print("%d passed, %d failed" % (passed, failed))


if __name__ == "__main__":
    main()
