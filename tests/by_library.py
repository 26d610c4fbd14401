"""Pointers and parts by saved indexes, through the library: what `jx.open` of the package for Python answers is what a plain reader does that is
written from RFC 8259 and RFC 6901 alone. Each random text has two indexes, one of them with tables of names, in chunks from 64 bytes. Then bytes
of the text or of an index are others, are cut off, or are those of another text: the answer is that on the text that was indexed, or the fault
is told by its name. `json` reads each text too, and its values are those of the plain reader. Views of containers are mappings and sequences of
these values, whatever counts as few bytes. The last line is `N passed, M failed`.

    by_library.py SEED COUNT    so many random texts
"""
import io
import json
import random
import re
import struct
import sys

import jx
import saved
from jx import _children, _views
from jx._saved import SavedText, _index_of
from jx._library import settings

TOKEN = re.compile(rb'[\[\]{}:,]|"(?:[^"\\]|\\.)*"|[^ \t\n\r\[\]{}:,"]+', re.S)
KINDS = {b"{": 0, b"[": 1, b'"': 2, b"t": 4, b"f": 5, b"n": 6}
FOUND, NO_SUCH_MEMBER, NAME_REPEATED, NOT_AN_INDEX, PAST_END, AFTER_LAST, NOT_A_CONTAINER, NO_SLASH, BAD_ESCAPE = range(9)
OBJECT, ARRAY = 0, 1
INDEX_FAULTS = ("not a saved index", "another version", "cut short", "damaged", "malformed", "more bytes than an index has")
MOST_PARTS = 65536
failed = passed = 0


def holds(what, name, *details):
    """Counts what holds."""
    global failed, passed
    if what:
        passed += 1
        return
    failed += 1
    if failed <= 20:
        print("by_library.py: FAILED: %s: %s" % (name, ", ".join(repr(one)[:1500] for one in details)))


# ---- the plain reader

class Node:
    __slots__ = ("kind", "start", "end", "children", "by_name")

    def __init__(self, kind, start, end):
        # Of each child its name or None, what it is, and where the bracket or the comma before it stands.
        self.kind, self.start, self.end, self.children, self.by_name = kind, start, end, [], None


def name_of(token):
    return json.loads(token) if b"\\" in token else token[1:-1].decode()


def tree(text):
    """The value of an accepted text."""
    root, open_ones, name, before = None, [], None, 0
    found = list(TOKEN.finditer(text, 3 if text.startswith(saved.MARK) else 0))
    last = len(found) - 1
    for place, match in enumerate(found):
        start, end = match.span()
        first = text[start:start + 1]
        if first == b",":
            before = start
        elif first in b"]}":
            open_ones.pop().end = end
        elif first == b'"' and place < last and text[found[place + 1].start()] == 0x3A:
            name = name_of(match.group())
        elif first != b":":
            node = Node(KINDS.get(first, 3), start, end)
            if open_ones:
                open_ones[-1].children.append((name, node, before))
            else:
                root = node
            name = None
            if first in b"[{":
                open_ones.append(node)
                before = start
    return root


def value(text, node):
    """The value as `json` reads it, an object as the list of its pairs."""
    if node.kind == OBJECT:
        return "object", [(name, value(text, child)) for name, child, _ in node.children]
    if node.kind == ARRAY:
        return [value(text, child) for _, child, _ in node.children]
    return json.loads(text[node.start:node.end])


def read(text):
    return json.loads(text.decode("utf-8-sig"), object_pairs_hook=lambda pairs: ("object", pairs))


def step(node, token):
    """What a token leads to: an outcome, and the value where there is one."""
    if node.kind == ARRAY:
        if token == "-":
            return AFTER_LAST, None
        if not (token == "0" or token.isascii() and token.isdigit() and token[0] != "0"):
            return NOT_AN_INDEX, None
        return (FOUND, node.children[int(token)][1]) if int(token) < len(node.children) else (PAST_END, None)
    if node.kind != OBJECT:
        return NOT_A_CONTAINER, None
    if node.by_name is None:
        node.by_name = {}
        for name, child, _ in node.children:
            node.by_name.setdefault(name, []).append(child)
    named = node.by_name.get(token, ())
    return (FOUND, named[0]) if len(named) == 1 else (NAME_REPEATED if named else NO_SUCH_MEMBER, None)


def answer(root, pointer):
    """The outcome, the number that goes with it, and kind, start and end of the value."""
    if pointer and not pointer.startswith("/"):
        return NO_SLASH, 0, 0, 0, 0
    spelt = pointer.encode()
    for at, byte in enumerate(spelt):
        if byte == 0x7E and spelt[at + 1:at + 2] not in (b"0", b"1"):
            return BAD_ESCAPE, at, 0, 0, 0
    node = root
    for number, token in enumerate(pointer.split("/")[1:]):
        outcome, node = step(node, token.replace("~1", "/").replace("~0", "~"))
        if outcome != FOUND:
            return outcome, number, 0, 0, 0
    return FOUND, 0, node.kind, node.start, node.end


def parts(node, count):
    """The parts that have a child: number, start, end, first child and the one behind its last."""
    edges = [before for _, _, before in node.children] + [node.end - 1]
    found = {}
    for child, before in enumerate(edges[:-1]):
        found.setdefault((before - node.start) * count // (node.end - node.start), []).append(child)
    return [(number, edges[own[0]] + 1, edges[own[-1] + 1], own[0], own[-1] + 1) for number, own in sorted(found.items())]


# ---- random texts and pointers

def text_of(rng):
    """A text: mostly of a few chunks of 64 bytes, now and then of many."""
    way = rng.random()
    if way < 0.03:
        return saved.text_of_names(rng)
    if way < 0.06:
        return saved.text_of(rng)
    if way < 0.35:
        members = ",".join("%s:%s" % (rng.choice(saved.NAMES + ['"%d"' % rng.randrange(40)] * 20), saved.value(rng, rng.choice((0, 0, 0, 1)))) for _ in range(rng.randrange(60)))
        front, behind = rng.choice((("{", "}"), ('[0,{"m":{', "}},[1]]"), (' {"":{', '},"z":[{}]}')))
        return (front + members + behind).encode("utf-8", "surrogatepass")
    front, behind = rng.choice((("", ""), ("", ""), ("[" * 3, "]" * 3), ("\n" * 70, " ")))
    for _ in range(rng.choice((1, 5, 5))):
        whole = (front + saved.value(rng, rng.choice((0, 1, 2, 3, 3, 4))) + behind).encode("utf-8", "surrogatepass")
        if len(whole) > 64:
            break
    return whole


def can_be_asked_for(token):
    return token is None or not any(0xD800 <= ord(c) < 0xE000 for c in token)


def walked(rng, root):
    """A pointer to a value, by a random way."""
    node, pointer = root, ""
    while node.children and rng.random() < 0.85:
        place = rng.randrange(len(node.children))
        name, node, _ = node.children[place]
        if not can_be_asked_for(name):
            break
        pointer += "/" + (str(place) if name is None else name.replace("~", "~0").replace("/", "~1"))
    return pointer


def some_pointers(rng, root):
    chosen = [walked(rng, root) for _ in range(rng.choice((1, 1, 2, 4, 9)))]
    for _ in range(rng.choice((0, 1, 2))):
        chosen.append(walked(rng, root) + rng.choice(("/", "/0", "/1", "/a", "/-", "/01", "/999999999999999999999", "~", "x", "/~2", "/name", "/7")))
    if rng.random() < 0.1:
        chosen.append(rng.choice(("x", "~", "a/b")))
    return chosen


# ---- the library

def index_of(rng, text, ignores, chunk, names):
    """The bytes of an index, of slices of any length."""
    step_ = rng.choice((len(text), len(text), 1 + rng.randrange(len(text))))
    return _index_of(iter([text[at:at + step_] for at in range(0, len(text), step_)]), settings(512, ignores, False), chunk, names)


def told_by(index, text, work):
    """What some work by an index comes to, or the fault that is told."""
    try:
        opened = SavedText(io.BytesIO(text), index)
    except (jx.BadIndex, jx.Stale) as fault:
        return fault
    try:
        return work(opened)
    except (jx.BadIndex, jx.Stale) as fault:
        return fault
    finally:
        opened.close()


def flipped(rng, data):
    at = rng.randrange(len(data))
    return at, data[:at] + bytes([data[at] ^ 1 << rng.randrange(8)]) + data[at + 1:]


class Case:
    """A random text, its two indexes, pointers into it, and a container to be split."""

    def __init__(self, rng):
        self.text = text_of(rng)
        self.ignores = rng.random() < 0.2
        if self.ignores and rng.random() < 0.5:
            self.text = saved.MARK + self.text
        self.chunk = rng.choice((64, 64, 64, 64, 128, 256, 1024))
        self.root = tree(self.text)
        self.pointers = some_pointers(rng, self.root)
        self.right = [answer(self.root, pointer) for pointer in self.pointers]
        self.indexes = [index_of(rng, self.text, self.ignores, self.chunk, names) for names in (False, True)]
        holders = [node for _, node in sorted(nodes(self.root, self.right), key=lambda pair: pair[0])]
        self.holder = rng.choice(holders) if holders else None
        self.count = rng.choice((1, 2, 3, 5, 40, MOST_PARTS))

    def answers(self, opened):
        return opened.answers(self.pointers)

    def parts(self, opened):
        return [tuple(part) for part in opened.parts(self.holder.start, self.holder.end, self.count)]

    def is_right_or_changed(self, told, other):
        """The answers are right, or a chunk is told in which the other text differs."""
        if isinstance(told, jx.Changed):
            low, high = told.start, told.end
            return low % self.chunk == 0 and high == min(low + self.chunk, len(self.text)) and self.text[low:high] != other[low:high]
        return told == self.right


def nodes(root, found):
    """The containers among the root and the values that pointers lead to."""
    spans = {(start, end) for outcome, _, kind, start, end in found if outcome == FOUND and kind in (OBJECT, ARRAY)}
    waiting = [root]
    while waiting:
        node = waiting.pop()
        if node.kind in (OBJECT, ARRAY):
            if node is root or (node.start, node.end) in spans:
                yield node.start, node
            waiting += [child for _, child, _ in node.children if any(child.start <= start and end <= child.end for start, end in spans)]


def as_it_is(rng, case):
    for index in case.indexes:
        with_names = index is case.indexes[1]
        told = told_by(index, case.text, case.answers)
        holds(told == case.right, "pointers", case.pointers, case.text, case.chunk, with_names, case.right, told)
        if case.holder is not None:
            told, wanted = told_by(index, case.text, case.parts), parts(case.holder, case.count)
            holds(told == wanted, "%d parts" % case.count, case.holder.start, case.text, case.chunk, with_names, wanted, told)
    holds(case.indexes[1].startswith(case.indexes[0]) and len(case.indexes[1]) > len(case.indexes[0]), "tables stand behind the index", case.text)


def json_reads_the_same(rng, case):
    """The values of the plain reader are those of `json`, and so are the children of all parts between brackets."""
    whole = read(case.text)
    holds(value(case.text, case.root) == whole, "json reads", case.text)
    if case.holder is not None:
        own = [child for _, start, end, _, _ in parts(case.holder, case.count) for child in children(case, start, end)]
        wanted = value(case.text, case.holder)
        holds(own == (wanted if case.holder.kind == ARRAY else wanted[1]), "json reads parts", case.text, case.holder.start, case.count)


def children(case, start, end):
    front, behind = (b"[", b"]") if case.holder.kind == ARRAY else (b"{", b"}")
    found = read(front + case.text[start:end] + behind)
    return found if case.holder.kind == ARRAY else found[1]


def of_a_changed_text(rng, case, index):
    at, other = flipped(rng, case.text)
    told = told_by(index, other, case.answers)
    holds(case.is_right_or_changed(told, other), "a byte of the text is another", at, case.text, case.pointers, case.chunk, told)
    if case.holder is not None:
        told = told_by(index, other, case.parts)
        is_changed = isinstance(told, jx.Changed) and told.start <= at < told.end
        holds(is_changed or told == parts(case.holder, case.count), "parts, and a byte of the text is another", at, case.text, case.chunk, told)


def of_a_text_of_another_size(rng, case, index):
    at = rng.randrange(len(case.text))
    other = rng.choice((case.text[:at], case.text + b" ", b"", case.text * 2))
    told = told_by(index, other, case.answers)
    holds(type(told) is jx.Stale, "a text of another size", case.text, other, told)


def of_another_text(rng, case, index, last):
    """The text is another one, which is made as long: by blanks, or cut."""
    other = (last.text + b" " * len(case.text))[:len(case.text)]
    told = told_by(index, other, case.answers)
    holds(case.is_right_or_changed(told, other), "another text of that size", case.text, other, case.pointers, told)


def of_the_index_of_another(rng, case, last):
    index = rng.choice(last.indexes)
    told = told_by(index, case.text, case.answers)
    if len(case.text) != len(last.text):
        holds(type(told) is jx.Stale, "the index of a text of another size", case.text, last.text, told)
    else:
        wanted = [answer(last.root, pointer) for pointer in case.pointers]
        holds(isinstance(told, jx.Changed) or told == wanted, "the index of another text of that size", case.text, last.text, told)


def of_a_changed_index(rng, case, index, last):
    way = rng.randrange(4)
    if way == 0:
        _, other = flipped(rng, index)
    elif way == 1:
        other = index[:rng.randrange(len(index))]
    elif way == 2:
        other = index + bytes(rng.randrange(1, 30))
    else:
        # The tables are those of another text, with the digest that they had.
        other = case.indexes[0] + last.indexes[1][len(last.indexes[0]):]
    told = told_by(other, case.text, case.answers)
    is_named = type(told) is jx.BadIndex and str(told) in INDEX_FAULTS
    holds(is_named or other in case.indexes and told == case.right, "an index that is changed", way, case.text, other, told)
    if rng.random() < 0.02 and len(other) < 3000:
        wanted = saved.load_all(other)
        holds(str(told) == wanted or other in case.indexes, "the fault that the format's page says", wanted, other, told)


def of_a_damaged_index(rng, case):
    """The size that the head tells is another, with a digest made anew."""
    index = case.indexes[1]
    head = index[:8] + struct.pack("<Q", struct.unpack_from("<Q", index, 8)[0] + rng.choice((1, 63, 64, 1 << 40))) + index[16:56]
    told = told_by(head + struct.pack("<Q", saved.xxh64(head)) + index[64:], case.text, case.answers)
    holds(isinstance(told, (jx.BadIndex, jx.Stale)), "another size in the head", case.text, told)


# What counts as small, near and large, and by how many elements and bytes arrays are looked up.
USUAL = (_views._SMALL, _views._NEAR, _views.LARGE, _views._FEW, _views._RUN)
LIMITS = (USUAL, (16, 16, 64, 2, 60), (1, 1, 1, 1, 20), (10, 40, 1000, 3, 200), (1, 30, 100, 16, 4000))
FAULTS = {NO_SUCH_MEMBER: jx.NoSuchMember, NAME_REPEATED: jx.NameRepeated}


def limit(small, near, large, few, run):
    _views._SMALL, _views._NEAR, _views._FEW, _views._RUN = small, near, few, run
    _views.LARGE = _children.LARGE = large


def shown(value):
    """A value that a view gave: the span of a container."""
    return (value.span, int(value.kind)) if isinstance(value, jx.View) else value


def wanted_of(case, node):
    return ((node.start, node.end), node.kind) if node.kind in (OBJECT, ARRAY) else json.loads(case.text[node.start:node.end])


def tried(call):
    """What a call gives, or the kind of what it raises."""
    try:
        return shown(call())
    except jx.NotFound as fault:
        return type(fault)


def by_views(rng, case):
    """Views of all containers, from the root down, each by the view of what it stands in."""
    limit(*rng.choice(LIMITS))
    try:
        with jx.open(io.BytesIO(case.text), rng.choice(case.indexes)) as root:
            waiting = [(root, case.root)]
            while waiting:
                view, node = waiting.pop()
                given = of_object(rng, case, view, node) if node.kind == OBJECT else of_array(rng, case, view, node)
                waiting += [(one, child) for one, (_, child, _) in zip(given, node.children) if child.kind in (OBJECT, ARRAY)]
    finally:
        limit(*USUAL)


def of_object(rng, case, view, node):
    """Looks whether a view is the mapping that an object is, and gives its values."""
    if node.kind != OBJECT:
        holds(view.load() == wanted_of(case, node), "a scalar", case.text)
        return []
    names = [name for name, _, _ in node.children]
    right = [wanted_of(case, child) for _, child, _ in node.children]
    holds((list(view), len(view)) == (names, len(names)), "names of an object", case.text, node.start, names)
    given = list(view.values())
    holds([shown(one) for one in given] == right, "values of an object", case.text, node.start, right)
    for name in rng.sample(names, min(len(names), 8)) + [rng.choice(("", "a", "\ud800", "\udc00b", "none", "/", "~0"))]:
        outcome, child = step(node, name)
        wanted = wanted_of(case, child) if outcome == FOUND else FAULTS[outcome]
        told = tried(lambda: view[name])
        holds(told == wanted, "a member", case.text, node.start, name, wanted, told)
        holds((name in view) == (outcome != NO_SUCH_MEMBER), "whether there is a member", case.text, node.start, name)
    if len(set(names)) == len(names):
        holds({name: shown(one) for name, one in dict(view).items()} == dict(zip(names, right)), "a dict of it", case.text, node.start)
    return given


def of_array(rng, case, view, node):
    """Looks whether a view is the sequence that an array is, and gives its elements."""
    if node.kind != ARRAY:
        return of_object(rng, case, view, node)
    right = [wanted_of(case, child) for _, child, _ in node.children]
    given = list(view)
    holds([shown(one) for one in given] == right, "elements of an array", case.text, node.start, right)
    holds(len(view) == len(right), "how many elements", case.text, node.start, len(right))
    places = slice(*(rng.choice((None, rng.randrange(-9, 9), rng.randrange(-60, 60))) for _ in range(2)), rng.choice((None, 1, 2, 7, 9, -1, -3, -20)))
    holds([shown(one) for one in view[places]] == right[places], "a slice", case.text, node.start, places, right)
    for place in rng.choice((range(len(right)), rng.sample(range(len(right)), min(len(right), 5)))):
        told = tried(lambda: view[place])
        holds(told == right[place], "an element", case.text, node.start, place, right[place], told)
    holds(tried(lambda: view[len(right)]) is jx.PastEnd, "past the end", case.text, node.start)
    return given


def in_one_text(rng, case, last):
    as_it_is(rng, case)
    if rng.random() < 0.05:
        by_views(rng, case)
    if rng.random() < 0.1:
        json_reads_the_same(rng, case)
        of_a_damaged_index(rng, case)
    for index in case.indexes:
        of_a_changed_text(rng, case, index)
        way = rng.randrange(3)
        if way == 0:
            of_a_text_of_another_size(rng, case, index)
        elif way == 1:
            of_another_text(rng, case, index, last)
        else:
            of_the_index_of_another(rng, case, last)
        of_a_changed_index(rng, case, index, last)


def main():
    rng = random.Random(int(sys.argv[1]))
    last = Case(rng)
    for _ in range(int(sys.argv[2])):
        case = Case(rng)
        in_one_text(rng, case, last)
        last = case
    print("%d passed, %d failed" % (passed, failed))


if __name__ == "__main__":
    main()
