"""Values of lines: what `get --lines` writes and tells of random JSON Lines, by random pointers, settings and cuts of a pipe, is what the reader below
has for each line. It is written from RFC 8259, RFC 6901 and RFC 7464 alone, and Python's json has to accept what it accepts. Rows of `--format`
are read back too, by Python's csv and by the escapes of PostgreSQL's text format. The last line is `N passed, M failed`."""
import csv
import io
import json
import os
import pathlib
import random
import re
import subprocess
import sys
import tempfile
import threading
import time
from dataclasses import dataclass

import counts
from counts import HERE, PROGRAM, same
from shown import shown_bytes

INPUTS = int(os.environ.get("JX_LINE_VALUES", "1000"))
BLANKS = b" \t\n\r"
MARK = b"\xef\xbb\xbf"
sys.setrecursionlimit(10000)


# ---- one line


class Refused(Exception):
    pass


class Node:
    def __init__(self, kind, start):
        self.kind, self.start, self.end, self.names, self.children = kind, start, start, [], []




class Line:
    """Reads a line as a text by the grammar, byte after byte, and ends at the first byte with which no text begins."""

    def __init__(self, text, depth):
        self.text, self.depth, self.at = text, depth, 0

    def here(self):
        return self.text[self.at : self.at + 1]

    def stop(self):
        raise Refused("truncated" if self.at >= len(self.text) else "stopped at %d" % self.at)

    def blanks(self):
        while self.here() and self.here() in BLANKS:
            self.at += 1

    def byte(self, allowed):
        if not self.here() or self.here() not in allowed:
            self.stop()
        self.at += 1
        return self.text[self.at - 1 : self.at]

    def word(self, word):
        for byte in word:
            self.byte(bytes([byte]))

    def digits(self):
        self.byte(b"0123456789")
        while self.here() and self.here() in b"0123456789":
            self.at += 1

    def number(self):
        if self.here() == b"-":
            self.at += 1
        if self.here() == b"0":
            self.at += 1
        else:
            self.digits()
        if self.here() == b".":
            self.at += 1
            self.digits()
        if self.here() and self.here() in b"eE":
            self.at += 1
            if self.here() and self.here() in b"+-":
                self.at += 1
            self.digits()

    def string(self):
        self.byte(b'"')
        while self.byte(bytes(byte for byte in range(256) if byte >= 0x20)) != b'"':
            last = self.text[self.at - 1]
            if last == 0x5C and self.byte(b'"\\/bfnrtu') == b"u":
                for _ in range(4):
                    self.byte(b"0123456789abcdefABCDEF")
            elif last >= 0x80:
                self.character(last)

    def character(self, first):
        """The rest of a character in UTF-8 (RFC 3629, section 4)."""
        count = 1 if 0xC2 <= first <= 0xDF else 2 if 0xE0 <= first <= 0xEF else 3 if 0xF0 <= first <= 0xF4 else 0
        if count == 0:
            self.at -= 1
            self.stop()
        low, high = {0xE0: (0xA0, 0xBF), 0xED: (0x80, 0x9F), 0xF0: (0x90, 0xBF), 0xF4: (0x80, 0x8F)}.get(first, (0x80, 0xBF))
        for _ in range(count):
            self.byte(bytes(range(low, high + 1)))
            low, high = 0x80, 0xBF

    def value(self, height):
        first = self.here()
        node = Node({b"{": "object", b"[": "array"}.get(first, "scalar"), self.at)
        if first in (b"{", b"["):
            if height == self.depth:
                raise Refused("too deep at %d" % self.at)
            self.at += 1
            self.inside(node, height + 1, b"}" if first == b"{" else b"]")
        elif first == b'"':
            self.string()
        elif first and first in b"-0123456789":
            self.number()
        else:
            words = {b"t": b"true", b"f": b"false", b"n": b"null"}
            if first not in words:
                self.stop()
            self.word(words[first])
        node.end = self.at
        return node

    def inside(self, node, height, close):
        self.blanks()
        if self.here() == close:
            self.at += 1
            return
        while True:
            self.blanks()
            if node.kind == "object":
                start = self.at
                if self.here() != b'"':
                    self.stop()
                self.string()
                node.names.append(json.loads(self.text[start : self.at].decode()))
                self.blanks()
                self.byte(b":")
                self.blanks()
            node.children.append(self.value(height))
            self.blanks()
            if self.byte(b"," + close) == close:
                return

    def whole(self):
        """The root, and whether its end would show only in what follows."""
        self.blanks()
        root = self.value(0)
        closed = self.at < len(self.text)
        self.blanks()
        if self.at < len(self.text):
            self.stop()
        is_open = root.kind == "scalar" and self.text[root.end - 1 : root.end] != b'"' and not closed
        return root, is_open


def led(root, tokens):
    """The value that tokens lead to (RFC 6901, section 4), and what is told where there is none."""
    node = root
    for number, token in enumerate(tokens):
        if node.kind == "scalar":
            return None, "not a container at token %d" % number
        if node.kind == "object":
            found = [child for name, child in zip(node.names, node.children) if name == token]
            if len(found) != 1:
                return None, ("name repeated at token %d" if found else "no such member at token %d") % number
            node = found[0]
        elif token == "-":
            return None, "after last at token %d" % number
        elif not re.fullmatch("0|[1-9][0-9]*", token):
            return None, "not an index at token %d" % number
        elif int(token) >= len(node.children):
            return None, "past end at token %d" % number
        else:
            node = node.children[int(token)]
    return node, ""


def compact(value):
    return re.sub(rb'("(?:[^"\\]|\\.)*")|[ \t\r\n]+', lambda found: found[1] or b"", value, flags=re.DOTALL)


def refuse_part_of_mark(line):
    """A line that begins with a part of a byte order mark, which is ignored."""
    count = len(os.path.commonprefix([line, MARK]))
    if count == len(line):
        raise Refused("truncated")
    if count:
        raise Refused("stopped at %d" % count)


# ---- one row


@dataclass
class Form:
    """How values stand in a row: as json, tsv or csv."""

    name: str
    null: bytes = b""
    header: bool = False

    def between(self):
        return b"," if self.name == "csv" else b"\t"

    def text_cell(self, text):
        if self.name == "tsv":
            return re.sub(rb"[\t\n\r\\]", lambda found: {b"\t": b"\\t", b"\n": b"\\n", b"\r": b"\\r", b"\\": b"\\\\"}[found[0]], text)
        if self.name == "csv" and (not text or text == self.null or re.search(rb'[,"\n\r\\]', text)):
            return b'"' + text.replace(b'"', b'""') + b'"'
        return text

    def cell(self, value):
        """What stands for a value, and what is told of it."""
        if self.name == "json":
            return compact(value), ""
        if value == b"null":
            return self.null, ""
        text = json.loads(value.decode()) if value[:1] == b'"' else compact(value).decode()
        try:
            return self.text_cell(text.encode()), ""
        except UnicodeEncodeError:
            return self.null, "half a surrogate pair"

    def row(self, cells):
        return self.between().join(cells) + b"\n"

    def words(self, chance):
        """Words that ask for it. The word that COPY takes for no value may be left out."""
        if self.name == "json":
            return []
        is_default = self.null == {"tsv": b"\\N", "csv": b""}[self.name]
        word = [] if is_default and chance.random() < 0.7 else ["--null=" + self.null.decode()]
        return ["--format", self.name, *word] + ["--header"] * self.header


JSON = Form("json")


def a_form(chance):
    name = chance.choice(["json", "json", "tsv", "csv"])
    if name == "json":
        return JSON
    null = b"\\N" if name == "tsv" else b""
    return Form(name, chance.choice([null, null, b"", b"\\N", b"-", b"NULL", b"1", "\u00e9".encode()]), chance.random() < 0.3)


def read_back(form, output):
    """The texts of the cells of all rows, as another reader has them."""
    if form.name == "csv":
        return [row or [""] for row in csv.reader(io.StringIO(output.decode(), newline=""), strict=True)]
    unescaped = lambda cell: re.sub(r"\\([tnr\\])", lambda found: {"t": "\t", "n": "\n", "r": "\r", "\\": "\\"}[found[1]], cell)
    return [[unescaped(cell) for cell in row.split("\t")] for row in output.decode().split("\n")[:-1]]


def of_line(number, line, ended, pointers, depth, skips, is_bare, form):
    """The cells of a line, and what is told of it behind the name of the input."""
    none = [form.null] * len(pointers)
    if not line.strip(BLANKS):
        return none, b"" if skips else b"line %d: blank\n" % number
    try:
        if is_bare:
            refuse_part_of_mark(line)
        root, is_open = Line(line, depth).whole()
        json.loads(line.decode())
    except Refused as refused:
        return none, b"line %d: %s\n" % (number, str(refused).encode())
    if is_open and not ended:
        return none, b"line %d: may be cut\n" % number
    cells, told = [], b""
    for tokens, pointer in pointers:
        node, why = led(root, tokens)
        cell, lacking = form.cell(line[node.start : node.end]) if node else (form.null, why)
        cells.append(cell)
        told += b"line %d: %s: %s\n" % (number, shown_bytes(pointer.encode()), lacking.encode()) if lacking else b""
    return cells, told


# ---- all lines


def wanted_of(text, pointers, depth, skips, ignores, form=JSON, name=b"-"):
    marked = ignores and text.startswith(MARK)
    parts = text[3 if marked else 0 :].split(b"\n")
    output = form.row([form.text_cell(pointer.encode()) for _, pointer in pointers]) if form.header else b""
    told = b""
    for place, part in enumerate(parts):
        ended = place + 1 < len(parts)
        if ended or part:
            cells, words = of_line(place + 1, part, ended, pointers, depth, skips, ignores and not marked and place == 0, form)
            output += form.row(cells)
            told += re.sub(rb"^(?=.)", b"jx: %s: " % name, words, flags=re.M) if words else b""
    return output, told, int(told != b"")


def written(words, text, cuts, chance):
    """What the program writes and tells of a pipe that gives the text by cuts."""
    child = subprocess.Popen([PROGRAM, "get", "--lines", *words], stdin=subprocess.PIPE, stdout=subprocess.PIPE, stderr=subprocess.PIPE)
    got = {}
    ends = [threading.Thread(target=lambda end=end, pipe=pipe: got.update({end: pipe.read()})) for end, pipe in (("out", child.stdout), ("err", child.stderr))]
    for end in ends:
        end.start()
    start = 0
    for cut in [*cuts, len(text)]:
        child.stdin.write(text[start:cut])
        child.stdin.flush()
        if chance.random() < 0.2:
            time.sleep(0.005)
        start = cut
    child.stdin.close()
    for end in ends:
        end.join()
    return got["out"], got["err"], child.wait()


TOKENS = ["a", "a", "b", "a/b~c", "", "\u00e9", "0", "1", "2", "-", "01", "aa", 'a"']


def a_pointer(chance):
    tokens = [chance.choice(TOKENS) for _ in range(chance.choice([0, 1, 1, 1, 2, 3]))]
    return tokens, "".join("/" + token.replace("~", "~0").replace("/", "~1") for token in tokens)


def a_value(chance, depth=0):
    """A value whose names come again, and are spelt in several ways."""
    blank = lambda: chance.choice([b"", b"", b"", b" ", b"\t", b"\r"])
    kind = chance.choice(["scalar", "array", "object", "object"]) if depth < 3 else "scalar"
    if kind == "scalar":
        return chance.choice([b"1", b"-2.5e3", b"null", b"true", b'"a\\tb"', b'"{\\"b\\": [1, 2]}"', b'"\\\\"', b"[ ]", b"{ }", b'"\xf0\x9f\x98\x80\\ud83d"', b'"\\n"', b'""', b'"a"', b'"\\."', b'"\\u002c\\"\\r\\/"', b'"NULL"', b'"\\ud83d\\ude00, \xc3\xa9"', b'"\\u0000\x7f"'])
    parts = []
    for _ in range(chance.randrange(4)):
        name = chance.choice([b'"a"', b'"a"', b'"b"', b'"\\u0061"', b'"a/b~c"', b'"a\\/b\\u007ec"', b'""', b'"\xc3\xa9"', b'"aa"', b'"0"', b'"a\\""'])
        parts.append(blank() + (name + blank() + b":" + blank() if kind == "object" else b"") + a_value(chance, depth + 1) + blank())
    inside = b",".join(parts) or blank()
    return b"{" + inside + b"}" if kind == "object" else b"[" + inside + b"]"


PIECES = [b"nul", b"-", b"1.", b"01", b'"x', b"[1,", b'{"a":[[[1]]]}', b"[[[]]]", b"", b" ", b"\t \r", b"\xef\xbb\xbf", b"\xef\xbb", b'"\xed\xa0\x80"', b'"\x1f"', b"[1] 2", b"\x1e1", b"1\x00", b"12", b"true"]


def random_text(chance):
    lines = []
    for _ in range(chance.randrange(8)):
        line = a_value(chance) if chance.random() < 0.7 else chance.choice(PIECES)
        lines.append(chance.choice([b"", b"", b" "]) + line + chance.choice([b"", b"", b"\r", b" "]))
    text = b"\n".join(lines) + chance.choice([b"", b"\n", b"\n\n"])
    text = chance.choice([b"", b"", b"", MARK, MARK + MARK, b"\xef\xbb"]) + text
    if text and chance.random() < 0.2:
        place = chance.randrange(len(text))
        text = text[:place] + bytes([chance.randrange(256)]) + text[place + chance.randrange(2) :]
    return text


def asked(chance, pointers, settings):
    """Words for pointers: some stand in a file."""
    depth, skips, ignores = settings
    words = ["--depth", str(depth)] * (depth != 512) + ["--skip-blank"] * skips + ["--ignore-bom"] * ignores + ["-c"] * (chance.random() < 0.2)
    words += ["--workers", str(chance.choice([1, 2, 64])), "--piece", str(chance.choice([1, 7]))] * (chance.random() < 0.2)
    count = len(pointers) if chance.random() < 0.7 else chance.randrange(len(pointers) + 1)
    if count < len(pointers):
        pathlib.Path("list").write_text("".join(pointer + "\n" for _, pointer in pointers[count:]))
        words += ["--pointers", "list"]
    return words + (["--"] if chance.random() < 0.5 else []) + [pointer for _, pointer in pointers[:count]]


def randomly():
    chance = random.Random(6901)
    for _ in range(INPUTS):
        text = random_text(chance)
        pointers = [a_pointer(chance) for _ in range(chance.choice([1, 1, 2, 3, 5]))]
        settings = chance.choice([512, 512, 512, 1, 2, 0]), chance.random() < 0.4, chance.random() < 0.5
        form = a_form(chance)
        words = form.words(chance) + asked(chance, pointers, settings)
        wanted = wanted_of(text, pointers, *settings, form)
        cuts = sorted(chance.randrange(len(text) + 1) for _ in range(chance.randrange(6)))
        same("%s of %r" % (words, text), wanted, written(words, text, cuts, chance))
        if chance.random() < 0.3:
            pathlib.Path("text").write_bytes(text)
            done = subprocess.run([PROGRAM, "get", "--lines", "--file", "text", *words], capture_output=True)
            same("%s of a file, %r" % (words, text), wanted_of(text, pointers, *settings, form, b"text"), (done.stdout, done.stderr, done.returncode))


def read_again():
    """Rows are read back as the texts of the values, row by row."""
    chance = random.Random(4180)
    strings = ["", "a", ",", '"', "\n", "\r\n", "\t", "\\", "\\.", "\\N", "NULL", "\u00e9", "\U0001f600", "\x00", " b "]
    for _ in range(INPUTS):
        count = chance.choice([1, 2, 3])
        values = [[chance.choice(["".join(chance.choices(strings, k=chance.randrange(4))), None, 12, True, [1, "a\n"], {"b": '"'}]) for _ in range(count)] for _ in range(chance.randrange(5))]
        text = "".join(json.dumps(row, ensure_ascii=chance.random() < 0.5) + "\n" for row in values).encode()
        texts = [["\x01" if cell is None else cell if isinstance(cell, str) else json.dumps(cell, separators=(",", ":")) for cell in row] for row in values]
        for name in ("csv", "tsv"):
            words = ["--format", name, "--null", "\x01", *["/%d" % place for place in range(count)]]
            output, told, status = written(words, text, [], chance)
            same("%s of %r" % (words, text), (texts, b"", 0), (read_back(Form(name), output), told, status))


def each_line_alone():
    """What is told of a line that is no text is what `check` says of the line alone."""
    chance = random.Random(12)
    for _ in range(INPUTS // 10):
        text = random_text(chance).replace(MARK, b"")
        told = written(["/a"], text + b"\n", [], chance)[1]
        for number, line in enumerate((text + b"\n").split(b"\n")[:-1], 1):
            done = subprocess.run([PROGRAM, "check"], input=line, capture_output=True)
            if line.strip(BLANKS) and done.returncode == 1:
                words = b"jx: -: line %d: %s" % (number, done.stdout)
                same("line %d of %r alone" % (number, text), True, words in told)


def in_slices():
    """Each cut of a text in two, and single bytes, each of which the program reads by itself."""
    chance = random.Random(7)
    text = MARK + b'{"a": 12}\r\n\n{"a":"a\xc3\xa9"}\n[1,x\n{"b":1 }\n{"a":[1 ,2]}'
    pointers = [(["a"], "/a"), (["b"], "/b")]
    wanted = wanted_of(text, pointers, 512, False, True)
    for cuts in [[cut] for cut in range(len(text))] + [list(range(len(text)))]:
        chance.seed(len(cuts))
        same("cut at %s" % cuts, wanted, written(["--ignore-bom", "/a", "/b"], text, cuts, chance))


def long_lines():
    """Lines longer than what is read at a time, and many short ones."""
    chance = random.Random(9)
    long = b'{"a":[' + b"1 , " * 100000 + b'2],"b":"' + b"x\\t" * 100000 + b'"}\n'
    text = long * 2 + b"".join(b'{"a":%d,"b":[ %d ]}\n' % (n, -n) for n in range(1, 40000)) + b"x\n" * 20000 + b"[" * 600 + b'\n{"a":3'
    pointers = [(["b"], "/b"), (["a"], "/a"), ([], "")]
    same("long lines", wanted_of(text, pointers, 512, False, False), written(["/b", "/a", ""], text, [], chance))


with tempfile.TemporaryDirectory() as folder:
    os.chdir(folder)
    for test in (randomly, read_again, each_line_alone, in_slices, long_lines):
        test()
    os.chdir(HERE)
counts.ended()
