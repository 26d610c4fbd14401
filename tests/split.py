"""Parts of a container by a saved index: `jx split` tells the parts that a reader does which is written from RFC 8259 alone, and each of them is a
text of its children between brackets. Texts are those that saved.py makes, and their indexes too. Then a changed text or index is told by its
name, or the parts are those of the text that was indexed. The last line is `N passed, M failed`.

    split.py SEED COUNT    so many random texts
"""
import json
import os
import pathlib
import random
import subprocess
import sys

import by_index
import saved
from shown import shown

HERE = pathlib.Path(__file__).resolve().parent
PROGRAM = os.environ.get("JX_PROGRAM", HERE.parent / "crates" / "jx" / "out" / "jx")
MOST = 65536
failed = passed = 0


def same(name, wanted, got):
    """Counts whether what was got is one of those that are right."""
    global failed, passed
    if got in wanted:
        passed += 1
        return
    failed += 1
    print("split.py: FAILED: %s\n--- wanted\n%s\n--- got\n%s" % (name, repr(wanted)[:2000], repr(got)[:2000]))


# ---- the parts of a container

def edges(text, start, node):
    """Where the bracket before its first child, the commas between its children and the bracket behind its last one stand; none where it has none."""
    inner = [(kind, at) for kind, at, _ in saved.tokens(text, start) if node.start < at < node.end - 1]
    depth, found = 0, [node.start]
    for kind, at in inner:
        depth += (kind in "[{") - (kind in "]}")
        if kind == "," and depth == 0:
            found.append(at)
    return found + [node.end - 1] if inner else []


def parts(text, start, node, count):
    """Of each part that is not empty where it begins and ends, and its first child and the one behind its last."""
    places = edges(text, start, node)
    found = {}
    for child, before in enumerate(places[:-1]):
        found.setdefault((before - node.start) * count // (node.end - node.start), []).append(child)
    return [(places[own[0]] + 1, places[own[-1] + 1], own[0], own[-1] + 1) for _, own in sorted(found.items())]


def right(case, pointer, count):
    """What is written, what is told, and the status."""
    words = by_index.answer(case.root, pointer)
    if not words.startswith("found "):
        return "", "jx: text: %s: %s\n" % (shown(pointer), words), 1
    span = tuple(int(offset) for offset in words.split()[2].split(".."))
    node = next(node for node in nodes(case.root) if (node.start, node.end) == span)
    if node.kind not in ("array", "object"):
        return "", "jx: text: %s: not a container at token %d\n" % (shown(pointer), pointer.count("/")), 1
    return "".join("%d..%d %d..%d\n" % part for part in parts(case.text, case.start, node, count)), "", 0


def nodes(node):
    yield node
    for _, child in node.children:
        yield from nodes(child)


def children_of(text):
    """The elements, or the members with their names, of which names may be repeated."""
    read = json.loads(text.decode("utf-8", "surrogatepass"), object_pairs_hook=lambda pairs: ("object", pairs), strict=False)
    return read[1] if isinstance(read, tuple) else read


# ---- the program

def split(index, text, pointer, count):
    pathlib.Path("text.jxi").write_bytes(index)
    pathlib.Path("text").write_bytes(text)
    command = [PROGRAM, "split", "--index", "text.jxi", "--file", "text", "--parts", str(count), "--", pointer.encode()]
    done = subprocess.run(command, capture_output=True)
    return done.stdout.decode(), done.stderr.decode(), done.returncode


def counts(rng, node):
    most = len(node.children)
    return rng.choice((1, 2, 3, rng.randint(1, most + 1), most + rng.randint(1, 9), rng.randint(1, MOST), MOST))


class Case(by_index.Case):
    """A random text, its index, a pointer into it and a number of parts."""

    def __init__(self, rng):
        super().__init__(rng)
        self.start = 3 if self.text.startswith(saved.MARK) else 0
        every = [pointer for pointer in by_index.all_pointers(self.root) if by_index.can_be_a_word(pointer)]
        holders = [pointer for pointer in every if by_index.answer(self.root, pointer).split()[1:2] in (["array"], ["object"])]
        self.pointer = rng.choice(self.pointers if rng.random() < 0.2 else holders or every)
        self.count = counts(rng, self.root)
        self.right = right(self, self.pointer, self.count)


def as_it_is(rng, case):
    got = split(case.index, case.text, case.pointer, case.count)
    same("%d parts of %r in %r, chunks of %d" % (case.count, case.pointer, case.text, case.chunk), [case.right], got)
    if got[2] == 0 and got == case.right:
        brackets_around(case, got[0])
    if rng.random() < 0.2:
        chunk = rng.choice((64, 128, 4096))
        other = split(saved.index(case.text, 512, case.ignores, chunk), case.text, case.pointer, case.count)
        same("chunks of %d in place of %d change no part" % (chunk, case.chunk), [case.right], other)


def brackets_around(case, lines):
    """The bytes of a part between brackets are a text of its children, and all parts have all children."""
    words = by_index.answer(case.root, case.pointer)
    low, high = (int(offset) for offset in words.split()[2].split(".."))
    wanted, got = children_of(case.text[low:high]), []
    for line in lines.splitlines():
        span, numbers = ([int(number) for number in pair.split("..")] for pair in line.split())
        own = children_of(case.text[low:low + 1] + case.text[span[0]:span[1]] + case.text[high - 1:high])
        same("as many children as %r says" % line, [numbers[1] - numbers[0]], len(own))
        got += own
    same("all children of %r in %r" % (case.pointer, case.text), [wanted], got)


def of_another_text(rng, case):
    """A byte of the text is another, or some are gone or more than there were."""
    at = rng.randrange(len(case.text))
    flipped = case.text[:at] + bytes([case.text[at] ^ 1 << rng.randrange(8)]) + case.text[at + 1:]
    same("the byte %d of %r is another" % (at, case.text), [case.right, *case.changed(flipped)], split(case.index, flipped, case.pointer, case.count))
    other = rng.choice((case.text[:at], case.text + b" ", b"", case.text * 2))
    words = "text: %d bytes, and the index is of %d" % (len(other), len(case.text))
    same("%r in place of %r" % (other, case.text), [by_index.fault(words)], split(case.index, other, case.pointer, case.count))


def of_another_index(rng, case):
    """Bytes of the index are others, or some are gone or more than there were: a fault of it is told, or the parts are right."""
    index = saved.changed(rng, case.index)
    out, told, status = split(index, case.text, case.pointer, case.count)
    if (out, told, status) != case.right:
        same("nothing is written, and one line told, by %r of %r" % (index, case.text), [("", 1, 2)], (out, told.count("\n"), status))


def few_chunks_are_read():
    """Of a long array those chunks alone are looked at in which the array or a part begins or ends: all others may have changed."""
    text = b"[" + b",".join(b'{"number":%d,"list":[1,2]}' % number for number in range(20000)) + b"]"
    case = Case.__new__(Case)
    case.text, case.start, case.root = text, 0, by_index.tree(text, 0)
    index = saved.index(text, 512, False, 64)
    wanted = right(case, "", 4)
    kept = {0, (len(text) - 1) // 64}
    for line in wanted[0].splitlines():
        start, end = (int(offset) for offset in line.split()[0].split(".."))
        kept |= {place // 64 + more for place in (start - 1, end) for more in (-1, 0, 1)}
    other = b"".join(text[at:at + 64] if at // 64 in kept else b"x" * len(text[at:at + 64]) for at in range(0, len(text), 64))
    same("four parts of a long array by its index", [wanted], split(index, text, "", 4))
    same("the same where other chunks have changed", [wanted], split(index, other, "", 4))


def main():
    rng = random.Random(int(sys.argv[1]))
    for _ in range(int(sys.argv[2])):
        case = Case(rng)
        as_it_is(rng, case)
        of_another_text(rng, case)
        of_another_index(rng, case)
    few_chunks_are_read()
    print("%d passed, %d failed" % (passed, failed))


if __name__ == "__main__":
    main()
