"""Writes values: those of the pointers that stand in `pointers` beside this file, and those of random texts. What a random text has at each pointer is
known by how it is made, and Python's json reads the same there. The last line is `N passed, M failed`."""
import json
import pathlib
import random
import re
import subprocess

import counts
from counts import HERE, PROGRAM, same
from shown import shown_bytes

TEXTS = 1500


def spelt(line):
    return re.sub(rb"\\x(..)", lambda byte: bytes.fromhex(byte[1].decode()), line)


def shown_pointer(pointer):
    """A pointer as messages show it: the one to the whole text has no byte."""
    return shown_bytes(pointer) or b"''"


def written(text, words, pointers):
    pathlib.Path("text").write_bytes(text)
    done = subprocess.run([PROGRAM, "get", "--file", "text", *words, "--", *pointers], capture_output=True)
    return done.stdout, done.stderr, done.returncode


def of_answers(lines, value_of):
    """What is written and told for answers to pointers, and the status."""
    output = told = b""
    for answer, pointer in lines:
        found = re.fullmatch(rb"found ([a-z]+) (\d+)\.\.(\d+)", answer)
        if found:
            output += value_of(found[1], int(found[2]), int(found[3]))
        else:
            told += b"jx: text: %s: %s\n" % (shown_pointer(pointer), answer)
        output += b"\n"
    return output, told, int(told != b"")


# ---- the table of pointers


def is_misspelt(line):
    return line[0].startswith((b"no slash", b"bad escape"))


def of_text(settings, repeated, text, lines):
    for answer, pointer in filter(is_misspelt, lines):
        told = b"jx: %s: %s%s\n" % (shown_bytes(pointer), answer, b": a FILE stands behind --file" if answer == b"no slash" else b"")
        same("a word %r that is no pointer" % pointer, (b"", told, 2), written(text, [], [b"", pointer]))
    lines = [line for line in lines if not is_misspelt(line)]
    words = ["--ignore-bom"] if settings == b"b" else []
    pointers = [pointer for _, pointer in lines]
    wanted = of_answers(lines, lambda kind, start, end: text[start:end])
    same("values of %r" % text, wanted, written(text, words, pointers))
    unique = wanted if repeated == b"-" else (b"", b"jx: text: repeated name at %s\n" % repeated, 1)
    same("values of %r with unique names" % text, unique, written(text, [*words, "--unique-names"], pointers))
    for line in lines:
        wanted = of_answers([line], lambda kind, start, end: text[start:end])
        same("the value of %r in %r" % (line[1], text), wanted, written(text, words, [line[1]]))


def table():
    texts = []
    for line in (HERE / "pointers").read_bytes().splitlines():
        if line.startswith(b"text "):
            _, settings, repeated, text = line.split(b" ", 3)
            texts.append((settings, repeated, spelt(text), []))
        elif line.startswith(b"refused "):
            answer, _, text = line.removeprefix(b"refused ").partition(b":")
            same("no value of %r" % text, (b"", b"jx: text: %s\n" % answer, 1), written(spelt(text), [], [b"", b"/x", b"/0"]))
        elif line and not line.startswith(b"#"):
            answer, _, pointer = line.partition(b":")
            texts[-1][3].append((answer, spelt(pointer)))
    for one in texts:
        of_text(*one)


# ---- random texts


class Spelling:
    """A random text, with the bytes that it has at each pointer, these without blanks between tokens, and their value."""

    def __init__(self, chance):
        self.chance = chance
        self.nodes = []
        self.text = self.blanks() + self.value(b"", 0)[0] + self.blanks()

    def blanks(self):
        return bytes(self.chance.choice(b" \t\n\r") for _ in range(self.chance.choice([0, 0, 0, 1, 3])))

    def value(self, pointer, depth):
        place = len(self.nodes)
        self.nodes.append(None)
        kinds = [self.number, self.string, self.literal] + ([] if depth > 4 else [self.array, self.object] * 2)
        made = self.chance.choice(kinds)(pointer, depth)
        self.nodes[place] = (pointer, *made, json.loads(made[0]))
        return made

    def number(self, pointer, depth):
        text = self.chance.choice(["0", "-0", "12", "-3.50", "1e2", "0.10E-3", "7" * 30])
        return text.encode(), text.encode()

    def literal(self, pointer, depth):
        text = self.chance.choice(["true", "false", "null"])
        return text.encode(), text.encode()

    def string(self, pointer, depth):
        parts = ["a", " ", "b  c", '\\"', "\\\\", "\\n", "\\/", "\\u00e9", "\u00e9", "\u20ac", "\U0001f600", "\\ud83d\\ude00", "\\ud83d", "\\uDE00", "\\u0000", "\\t", "[1, 2]", "\\\\\\\"", "{", ","]
        text = '"' + "".join(self.chance.choice(parts) for _ in range(self.chance.randrange(6))) + '"'
        return text.encode(), text.encode()

    def array(self, pointer, depth):
        values = [self.value(b"%s/%d" % (pointer, place), depth + 1) for place in range(self.chance.randrange(4))]
        texts = [self.blanks() + text + self.blanks() for text, _ in values]
        return b"[" + (b",".join(texts) or self.blanks()) + b"]", b"[" + b",".join(compact for _, compact in values) + b"]"

    def object(self, pointer, depth):
        names = [('"k%d"', "k%d"), ('"\\u006b %d"', "k %d"), ('"a/b~%d"', "a~1b~0%d"), ('"\u00e9\\"%d"', '\u00e9"%d')]
        texts, compacts = [], []
        for place in range(self.chance.randrange(4)):
            name, token = (form % place for form in self.chance.choice(names))
            text, compact = self.value(b"%s/%s" % (pointer, token.encode()), depth + 1)
            texts.append(self.blanks() + name.encode() + self.blanks() + b":" + self.blanks() + text + self.blanks())
            compacts.append(name.encode() + b":" + compact)
        return b"{" + (b",".join(texts) or self.blanks()) + b"}", b"{" + b",".join(compacts) + b"}"


class LongSpelling(Spelling):
    """The same, with blanks and strings that are longer than what the program looks at at a time."""

    def blanks(self):
        length = self.chance.choice([0] * 9 + [1, 1, 1, 2, 15, 63, 64, 65, 130])
        return bytes(self.chance.choice(b" \t\n\r") for _ in range(length))

    def string(self, pointer, depth):
        parts = ["a", "abcdefgh", " ", "[1, 2]", "{", "}", '\\"', "\\\\", "\\\\" * 7, "\\u00e9", "\u20ac", "\\n" * 9, "    ", ":,"]
        text = '"' + "".join(self.chance.choice(parts) for _ in range(self.chance.choice([0, 1, 2, 3, 9, 40]))) + '"'
        return text.encode(), text.encode()


def lost(text):
    """Why the pointer /no leads to no value in a random text."""
    first = text.strip()[:1]
    return {b"{": b"no such member at token 0", b"[": b"not an index at token 0"}.get(first, b"not a container at token 0")


def of_raw_values(asked, text):
    """What is written and told where texts of strings are asked for, and other values compact, and the status."""
    output = told = b""
    for pointer, _, compact, value in asked:
        if pointer == b"/no":
            told += b"jx: text: /no: %s\n" % lost(text)
        elif isinstance(value, str):
            try:
                output += value.encode()
            except UnicodeEncodeError:
                told += b"jx: text: %s: half a surrogate pair\n" % shown_pointer(pointer)
        else:
            output += compact
        output += b"\n"
    return output, told, int(told != b"")


def random_texts():
    chance = random.Random(57)
    for number in range(TEXTS):
        made = Spelling(chance)
        asked = [chance.choice(made.nodes + [(b"/no", b"", b"", None)]) for _ in range(chance.randrange(1, 6))]
        words = ["--workers", str(number % 3 + 1), "--piece", str(number % 7 + 1)]
        told = b"".join(b"jx: text: /no: %s\n" % lost(made.text) for pointer, *_ in asked if pointer == b"/no")
        pointers = [pointer for pointer, *_ in asked]
        wanted = b"".join(text + b"\n" for _, text, _, _ in asked), told, int(told != b"")
        same("random text %d" % number, wanted, written(made.text, words, pointers))
        wanted = b"".join(compact + b"\n" for _, _, compact, _ in asked), told, int(told != b"")
        same("random text %d, compact" % number, wanted, written(made.text, ["-c", *words], pointers))
        wanted = of_raw_values(asked, made.text)
        same("random text %d, raw" % number, wanted, written(made.text, ["-rc", *words], pointers))
        pointer, _, _, value = made.nodes[number % len(made.nodes)]
        same("what is read of random text %d" % number, value, json.loads(written(made.text, words, [pointer])[0]))


# ---- values of texts that are read piece by piece


class WideSpelling(Spelling):
    """The same, with blanks and strings of which a few are as long as what the program reads at a time."""

    def blanks(self):
        return b" " * self.chance.choice([0] * 90 + [1, 3, 100000, 262144])

    def string(self, pointer, depth):
        text = b'"' + b"x" * self.chance.choice([0, 1, 5, 40, 150000]) + b'"'
        return text, text


def piped(text, pieces, pointers):
    done = subprocess.Popen([PROGRAM, "get", "--", *pointers], stdin=subprocess.PIPE, stdout=subprocess.PIPE, stderr=subprocess.PIPE)
    for start in range(0, len(text), pieces):
        done.stdin.write(text[start : start + pieces])
        done.stdin.flush()
    output, told = done.communicate()
    return output, told, done.returncode


def values_of_pieces(spelling, chance, count, lengths):
    for number in range(count):
        made = spelling(chance)
        asked = [chance.choice(made.nodes + [(b"/no", b"", b"", None)]) for _ in range(chance.choice([2, 5, 9, 64, 65]))]
        told = b"".join(b"jx: -: /no: %s\n" % lost(made.text) for pointer, *_ in asked if pointer == b"/no")
        wanted = b"".join(text + b"\n" for _, text, _, _ in asked), told, int(told != b"")
        same("values of pieces %d of %s" % (number, spelling.__name__), wanted, piped(made.text, chance.choice(lengths), [pointer for pointer, *_ in asked]))


def values_of_small_pieces():
    values_of_pieces(Spelling, random.Random(64), 200, [1, 2, 3, 7, 50])


def values_of_wide_texts():
    values_of_pieces(WideSpelling, random.Random(65), 60, [65536, 262144, 1 << 30])


# ---- elements


def each_of(text, pieces, words=(), command="each"):
    """What `each` writes and tells of a text that comes in pieces."""
    done = subprocess.Popen([PROGRAM, command, *words], stdin=subprocess.PIPE, stdout=subprocess.PIPE, stderr=subprocess.PIPE)
    for start in range(0, len(text), pieces):
        done.stdin.write(text[start : start + pieces])
        done.stdin.flush()
    output, told = done.communicate()
    return output, told, done.returncode


def ends_of_elements(text):
    """The offsets of the commas and of the bracket that stand behind the elements of the root, which is a container."""
    tokens = re.compile(rb'"(?:[^"\\]|\\.)*"|[][{}:,]|[^][{}:,"]+', re.S)
    ends, depth = [], 0
    for token in tokens.finditer(text):
        byte = token[0]
        if byte in b"[{":
            depth += 1
        if (byte == b"," and depth == 1) or (byte in b"]}" and depth == 1):
            ends.append(token.start())
        if byte in b"]}":
            depth -= 1
    return ends


def elements_of_texts(spelling, chance, count):
    for number in range(count):
        made = spelling(chance)
        lines = [compact + b"\n" for pointer, _, compact, _ in made.nodes if pointer.count(b"/") == 1]
        pieces = chance.choice([1, 2, 3, 7, 50, 65536])
        is_container = made.text.strip()[:1] in (b"[", b"{")
        told = b"" if is_container else b"jx: -: '': not a container at token 0\n"
        same("elements of random text %d" % number, (b"".join(lines), told, int(not is_container)), each_of(made.text, pieces))
        if not is_container:
            continue
        ends = ends_of_elements(made.text)
        same("the ends of random text %d" % number, max(len(lines), 1), len(ends))
        cut = chance.randrange(len(made.text))
        due = b"".join(line for line, end in zip(lines, ends) if end < cut)
        told = b"" if ends[-1] < cut else b"jx: -: truncated\n"
        same("elements of random text %d, cut at %d" % (number, cut), (due, told, int(told != b"")), each_of(made.text[:cut], pieces))
        faulty = made.text[:cut] + b"\0" + made.text[cut:]
        same("elements of random text %d, a fault at %d" % (number, cut), (due, b"jx: -: stopped at %d\n" % cut, 1), each_of(faulty, pieces))


def elements_of_random_texts():
    elements_of_texts(Spelling, random.Random(58), TEXTS)


def elements_of_long_texts():
    elements_of_texts(LongSpelling, random.Random(61), 2 * TEXTS)


# ---- elements of what a pointer leads to


class Node:
    """A value of an accepted text: where it stands, its children with their names, these as they are spelt, and where the comma or the bracket behind each
    child stands."""

    def __init__(self, text, start):
        self.text, self.start, self.children, self.spelt, self.ends = text, start, [], [], []
        self.kind = {b"{": "object", b"[": "array"}.get(text[start : start + 1], "scalar")
        self.end = self.scalar_end() if self.kind == "scalar" else self.container_end()

    def past_blanks(self, at):
        while self.text[at : at + 1] in (b" ", b"\t", b"\n", b"\r"):
            at += 1
        return at

    def scalar_end(self):
        return re.compile(rb'"(?:[^"\\]|\\.)*"|[^][{}:,"\s]+', re.S).match(self.text, self.start).end()

    def container_end(self):
        at = self.past_blanks(self.start + 1)
        while self.text[at : at + 1] not in (b"]", b"}"):
            name = None
            if self.kind == "object":
                name = Node(self.text, at)
                at = self.past_blanks(self.past_blanks(name.end) + 1)
            child = Node(self.text, at)
            self.children.append((name and json.loads(self.text[name.start : name.end]), child))
            self.spelt.append(name and self.text[name.start : name.end])
            at = self.past_blanks(child.end)
            self.ends.append(at)
            if self.text[at : at + 1] == b",":
                at = self.past_blanks(at + 1)
        return at + 1


def without_blanks(text):
    """A text's tokens, one behind another."""
    return b"".join(token[0] for token in re.finditer(rb'"(?:[^"\\]|\\.)*"|[^\s"]+', text, re.S))


def step(node, token, number):
    """The children that a token names, and what is told where it names none."""
    if node.kind == "object":
        return [child for name, child in node.children if name == token], b"no such member at token %d" % number
    if node.kind == "scalar":
        return [], b"not a container at token %d" % number
    if token == "-":
        return [], b"after last at token %d" % number
    if not re.fullmatch("0|[1-9][0-9]*", token):
        return [], b"not an index at token %d" % number
    return [child for place, (_, child) in enumerate(node.children) if str(place) == token], b"past end at token %d" % number


def reached(root, tokens, named=False):
    """The value that tokens lead to by the first member of each name, if there is one, and what is told of the pointer."""
    node, told = root, b""
    for number, token in enumerate(tokens):
        found, words = step(node, token, number)
        if not found:
            return None, told or words
        if len(found) > 1:
            told = told or b"name repeated at token %d" % number
        node = found[0]
    if named and node.kind != "object":
        told = told or b"not an object at token %d" % len(tokens)
    elif node.kind == "scalar":
        told = told or b"not a container at token %d" % len(tokens)
    return node, told


def text_with_names(chance, depth=0):
    """A text whose names come again, and are spelt in several ways."""
    blank = lambda: chance.choice([b"", b"", b"", b" ", b"\n\t"])
    kind = chance.choice(["scalar", "array", "object", "object", "object"]) if depth < 4 else "scalar"
    if kind == "scalar":
        return chance.choice([b"1", b"-2.5e3", b"null", b'"a"', b'"{\\"b\\": [1, 2]}"', b'"\\\\"', b"[]", b"{}", b"[ ]"])
    parts = []
    for _ in range(chance.randrange(4)):
        name = chance.choice([b'"a"', b'"a"', b'"b"', b'"\\u0061"', b'"\\u0062"', b'"a/b~c"', b'"a\\/b\\u007ec"', b'""', b'"\xc3\xa9"', b'"\\u00E9"', b'"aa"', b'"0"', b'"a\\""', b'"\\ud83d\\ude00"', b'"a\\n\\udc00"'])
        value = text_with_names(chance, depth + 1)
        parts.append(blank() + (name + blank() + b":" + blank() if kind == "object" else b"") + value + blank())
    inside = b",".join(parts) or blank()
    return b"{" + inside + b"}" if kind == "object" else b"[" + inside + b"]"


def lines_of(node, named):
    """The line of each element of a value, with the offset of the comma or the bracket behind it."""
    if node is None or (named and node.kind != "object"):
        return []
    values = [without_blanks(child.text[child.start : child.end]) for _, child in node.children]
    if named:
        values = [b'{"name":%s,"value":%s}' % pair for pair in zip(node.spelt, values)]
    return [(value + b"\n", end) for value, end in zip(values, node.ends)]


def a_pointer(chance):
    """Random tokens, and the pointer that they are spelt by."""
    tokens = [chance.choice(["a", "a", "b", "a/b~c", "", "\u00e9", "0", "1", "2", "-", "01", "aa", 'a"']) for _ in range(chance.randrange(4))]
    return tokens, "".join("/" + token.replace("~", "~0").replace("/", "~1") for token in tokens)


def elements_by_pointers(named=False):
    chance = random.Random(60 if named else 59)
    for number in range(2 * TEXTS):
        text = text_with_names(chance)
        text = chance.choice([b"", b" "]) + text + chance.choice([b"", b"\n"])
        root = Node(text, len(text) - len(text.lstrip()))
        tokens, pointer = a_pointer(chance)
        node, words = reached(root, tokens, named)
        lines = lines_of(node, named)
        pieces = chance.choice([1, 2, 3, 7, 65536])
        told = b"jx: -: %s: %s\n" % (shown_pointer(pointer.encode()), words) if words else b""
        asked = ["--names"] * named + ([] if pointer == "" and chance.randrange(2) else [pointer])
        same("elements at %r of %r" % (pointer, text), (b"".join(line for line, _ in lines), told, int(told != b"")), each_of(text, pieces, asked))
        if named:
            spelt = node.spelt if lines else []
            names = b"".join(name + b"\n" for name in spelt)
            same("names at %r of %r" % (pointer, text), (names, told, int(told != b"")), each_of(text, pieces, [pointer], "keys"))
            texts = [json.loads(name) for name in spelt]
            alone = [text_of_name for text_of_name in texts if any(0xD800 <= ord(one) < 0xE000 for one in text_of_name)]
            texts = b"".join((b"" if one in alone else one.encode()) + b"\n" for one in texts)
            told = (b"jx: -: %s: half a surrogate pair in a name\n" % shown_pointer(pointer.encode()) if alone else b"") + told
            same("texts of names at %r of %r" % (pointer, text), (texts, told, int(told != b"")), each_of(text, pieces, [pointer, "--raw"], "keys"))
        else:
            number = b"" if told else b"%d\n" % len(lines)
            same("number at %r of %r" % (pointer, text), (number, told, int(told != b"")), each_of(text, pieces, [pointer], "count"))
        for line, pair in zip(lines, (node.children if named and lines else [])):
            same("what a line of %r says" % text, {"name": pair[0], "value": json.loads(text[pair[1].start : pair[1].end])}, json.loads(line[0]))
        cut = chance.randrange(len(text))
        due = b"".join(line for line, end in lines if end < cut)
        same("elements at %r of %r, a fault at %d" % (pointer, text, cut), (due, b"jx: -: stopped at %d\n" % cut, 1), each_of(text[:cut] + b"\0" + text[cut:], pieces, asked))


def members_by_pointers():
    elements_by_pointers(named=True)


for test in (table, random_texts, values_of_small_pieces, values_of_wide_texts, elements_of_random_texts, elements_of_long_texts, elements_by_pointers, members_by_pointers):
    test()
counts.ended()
