"""JSON Lines, text sequences and streams of texts: what the program tells of random inputs, by random settings and cuts of a pipe, is what the
reader below says of each line, element or text. The reader is written from RFC 8259 and RFC 7464 alone, and Python's json has to accept what it accepts. The last line
is `N passed, M failed`."""
import json
import os
import pathlib
import random
import subprocess
import sys
import threading
import time

import counts
from counts import PROGRAM, same

INPUTS = int(os.environ.get("JX_LINES", "1200"))
SHARED = int(os.environ.get("JX_SHARED_LINES", "8"))
BLANKS = b" \t\n\r"
MARK = b"\xef\xbb\xbf"
sys.setrecursionlimit(10000)


# ---- one text


class Refused(Exception):
    pass


class Text:
    """Reads one text by the grammar, byte after byte, and ends at the first byte with which no text begins."""

    def __init__(self, text, at, depth):
        self.text, self.at, self.depth, self.here = text, at, depth, 0

    def peek(self):
        if self.here == len(self.text):
            raise Refused("truncated")
        return self.text[self.here]

    def stop(self):
        self.peek()
        raise Refused("stopped at %d" % (self.at + self.here))

    def take(self, allowed):
        if self.peek() not in allowed:
            self.stop()
        self.here += 1
        return self.text[self.here - 1]

    def ends(self):
        return self.here == len(self.text)

    def blanks(self):
        while not self.ends() and self.text[self.here] in BLANKS:
            self.here += 1

    def whole(self):
        self.blanks()
        kind = self.value(0)
        closed = self.here < len(self.text)
        self.blanks()
        if not self.ends():
            self.stop()
        return kind == "scalar" and not closed

    def value(self, height):
        first = self.peek()
        if first in b"[{":
            if height == self.depth:
                raise Refused("too deep at %d" % (self.at + self.here))
            self.here += 1
            self.items(height + 1, first == 0x7B)
            return "container"
        if first == 0x22:
            self.string()
            return "string"
        if first in b"-0123456789":
            self.number()
        else:
            words = {0x74: b"true", 0x66: b"false", 0x6E: b"null"}
            if first not in words:
                self.stop()
            for byte in words[first]:
                self.take(bytes([byte]))
        return "scalar"

    def items(self, height, is_object):
        close = b"}" if is_object else b"]"
        self.blanks()
        if self.peek() in close:
            self.here += 1
            return
        while True:
            self.blanks()
            if is_object:
                if self.peek() != 0x22:
                    self.stop()
                self.string()
                self.blanks()
                self.take(b":")
                self.blanks()
            self.value(height)
            self.blanks()
            if self.take(b"," + close) in close:
                return

    def digits(self):
        self.take(b"0123456789")
        while not self.ends() and self.text[self.here] in b"0123456789":
            self.here += 1

    def number(self):
        if self.peek() == 0x2D:
            self.here += 1
        if self.peek() == 0x30:
            self.here += 1
        else:
            self.digits()
        if not self.ends() and self.text[self.here] == 0x2E:
            self.here += 1
            self.digits()
        if not self.ends() and self.text[self.here] in b"eE":
            self.here += 1
            if self.peek() in b"+-":
                self.here += 1
            self.digits()

    def string(self):
        self.take(b'"')
        while True:
            byte = self.peek()
            if byte == 0x22:
                self.here += 1
                return
            if byte == 0x5C:
                self.here += 1
                if self.take(b'"\\/bfnrtu') == 0x75:
                    for _ in range(4):
                        self.take(b"0123456789abcdefABCDEF")
            elif byte < 0x20:
                self.stop()
            else:
                self.character(byte)

    def character(self, byte):
        """A character in UTF-8 (RFC 3629, section 4)."""
        tails = {0xE0: (0xA0, 0xBF), 0xED: (0x80, 0x9F), 0xF0: (0x90, 0xBF), 0xF4: (0x80, 0x8F)}
        if byte < 0x80:
            count = 0
        elif 0xC2 <= byte <= 0xDF:
            count = 1
        elif 0xE0 <= byte <= 0xEF:
            count = 2
        elif 0xF0 <= byte <= 0xF4:
            count = 3
        else:
            self.stop()
        self.here += 1
        low, high = tails.get(byte, (0x80, 0xBF))
        for _ in range(count):
            self.take(bytes(range(low, high + 1)))
            low, high = 0x80, 0xBF


def refuse_part_of_mark(line, at):
    """A line that begins with a part of a byte order mark, which is ignored."""
    count = len(os.path.commonprefix([line, MARK]))
    if count == len(line):
        raise Refused("truncated")
    if count:
        raise Refused("stopped at %d" % (at + count))


def verdict(line, at, depth, ended, ignores):
    if not line.strip(BLANKS):
        return "blank"
    try:
        if ignores and at == 0:
            refuse_part_of_mark(line, at)
        unclosed = Text(line, at, depth).whole()
    except Refused as refused:
        return str(refused)
    json.loads(line.decode())
    return "may be cut" if unclosed and not ended else "accepted"


# ---- all lines


def wanted_of(text, depth, skips, ignores):
    at = 3 if ignores and text.startswith(MARK) else 0
    parts = text[at:].split(b"\n")
    output, good, bad = "", 0, 0
    for place, part in enumerate(parts):
        ended = place + 1 < len(parts)
        if ended or part:
            told = verdict(part, at, depth, ended, ignores)
            if told == "accepted":
                good += 1
            elif told != "blank" or not skips:
                bad += 1
                output += "%d %d..%d %s\n" % (place + 1, at, at + len(part), told)
        at += len(part) + 1
    return output + "accepted %d, refused %d\n" % (good, bad), int(bad > 0)


def passed_of(text, depth, ignores):
    """The accepted lines as they stand there, each with the line feed that ends it."""
    at = 3 if ignores and text.startswith(MARK) else 0
    parts = text[at:].split(b"\n")
    passed = b""
    for place, part in enumerate(parts):
        ended = place + 1 < len(parts)
        if verdict(part, at, depth, ended, ignores) == "accepted":
            passed += part + b"\n" * ended
        at += len(part) + 1
    return passed


def first_of(output, text, most):
    """What `--max` leaves of an output: the first refused lines, where a line feed ends so many, and else all of it."""
    ended = [line for line in output.splitlines(True)[:-1] if int(line.split()[0]) <= text.count(b"\n")]
    return "".join(ended[:most]) if len(ended) >= most else output


def wanted_of_sequence(text, depth, ignores):
    """The lines for the elements of a text sequence (RFC 7464, section 2)."""
    output, status, at = "", 0, 0
    for place, part in enumerate(text.split(b"\x1e")):
        if part and not (ignores and place == 0 and part == MARK):
            told = "unmarked"
            if place > 0:
                try:
                    told = "may be cut" if Text(part, at, depth).whole() else "accepted"
                    json.loads(part.decode())
                except Refused as refused:
                    told = str(refused)
            status = max(status, int(told != "accepted"))
            output += "%d..%d %s\n" % (at, at + len(part), told)
        at += len(part) + 1
    return output, status


def wanted_of_texts(text, depth):
    """The lines for texts one behind another: behind a number or a literal stands white space, the beginning of another text, or the end."""
    output, at = "", 0
    while text[at:].strip(BLANKS):
        at += len(text[at:]) - len(text[at:].lstrip(BLANKS))
        reader = Text(text[at:], at, depth)
        try:
            kind = reader.value(0)
            if kind == "scalar" and not reader.ends() and reader.peek() not in BLANKS + b'[{"':
                reader.stop()
        except Refused as refused:
            told = str(refused)
            end = len(text) if told == "truncated" else int(told.split()[-1])
            return output + "%d..%d %s\n" % (at, end, told), 1
        json.loads(text[at:at + reader.here].decode())
        output += "%d..%d accepted\n" % (at, at + reader.here)
        at += reader.here
    return output, 0


def told_of(words, text, chance, command="lines"):
    """What the program tells of a file, or of a pipe that gives the text by random cuts."""
    if chance.random() < 0.3:
        pathlib.Path("text").write_bytes(text)
        done = subprocess.run([PROGRAM, command, *words, "text"], capture_output=True)
        return done.stdout, done.stderr, done.returncode
    cuts = sorted(chance.randrange(len(text) + 1) for _ in range(chance.randrange(6)))
    child = subprocess.Popen([PROGRAM, command, *words], stdin=subprocess.PIPE, stdout=subprocess.PIPE, stderr=subprocess.PIPE)
    # What is told may fill its pipe before all is written.
    told = []
    reading = threading.Thread(target=lambda: told.append(child.stdout.read()))
    reading.start()
    start = 0
    for cut in [*cuts, len(text)]:
        child.stdin.write(text[start:cut])
        child.stdin.flush()
        if chance.random() < 0.2:
            time.sleep(0.01)
        start = cut
    child.stdin.close()
    errors = child.stderr.read()
    reading.join()
    return told[0], errors, child.wait()


PIECES = [b"[1,2]", b'{"a":"\xc3\xa9"}', b"true", b"nul", b"null", b"12", b"-", b"1.", b"1e5", b"01", b'"x"', b'"x', b'"\\ud83d"', b"[[[]]]", b'{"a":[{"b":1}]}', b"[1,", b"{}",
    b"", b" ", b"\t \r", b"\r", b"\xef\xbb\xbf", b"\xef\xbb", b"\xf0\x9f\x98\x80", b'"\xf0\x9f\x98\x80"', b'"\xed\xa0\x80"', b'"\x1f"', b"[1] 2", b"\x1e1", b"1\x00"]


def random_text(chance, separator=b"\n"):
    lines = []
    for _ in range(chance.randrange(8)):
        line = b"".join(chance.choice(PIECES) for _ in range(chance.choice([1, 1, 1, 2])))
        lines.append(chance.choice([b"", b"", b" "]) + line + chance.choice([b"", b"", b"\r", b" "]))
    text = separator.join(lines) + chance.choice([b"", separator, separator * 2])
    text = chance.choice([b"", b"", b"", MARK, MARK + MARK, b"\xef\xbb"]) + text
    if text and chance.random() < 0.3:
        place = chance.randrange(len(text))
        text = text[:place] + bytes([chance.randrange(256)]) + text[place + chance.randrange(2):]
    return text


def randomly():
    chance = random.Random(58)
    for _ in range(INPUTS):
        text = random_text(chance)
        depth, skips, ignores = chance.choice([512, 512, 1, 2, 0]), chance.random() < 0.4, chance.random() < 0.5
        words = ["--depth", str(depth)] * (depth != 512) + ["--skip-blank"] * skips + ["--ignore-bom"] * ignores
        words += ["--workers", str(chance.choice([1, 2, 64]))] * (chance.random() < 0.3) + ["--piece", str(chance.choice([1, 7]))] * (chance.random() < 0.3)
        output, status = wanted_of(text, depth, skips, ignores)
        same("%s of %r" % (words, text), (output.encode(), b"", status), told_of(words, text, chance))
        if chance.random() < 0.2:
            same("-q %s of %r" % (words, text), (b"", b"", status), told_of([*words, "-q"], text, chance))
        most = 1 + len(text) % 3
        done = subprocess.run([PROGRAM, "lines", *words, "--max", str(most)], input=text, capture_output=True)
        same("--max %d %s of %r" % (most, words, text), (first_of(output, text, most).encode(), b"", status), (done.stdout, done.stderr, done.returncode))
        if chance.random() < 0.5:
            passed = passed_of(text, depth, ignores)
            same("--pass %s of %r" % (words, text), (passed, output.encode(), status), told_of([*words, "--pass"], text, chance))


def random_sequences():
    """Elements that are told as they end, and at once: the lines are the same."""
    chance = random.Random(7464)
    for _ in range(INPUTS):
        text = random_text(chance, b"\x1e")
        if chance.random() < 0.7:
            text = b"\x1e" + text
        depth, ignores = chance.choice([512, 512, 1, 2, 0]), chance.random() < 0.5
        words = ["--depth", str(depth)] * (depth != 512) + ["--ignore-bom"] * ignores
        output, status = wanted_of_sequence(text, depth, ignores)
        same("--live %s of %r" % (words, text), (output.encode(), b"", status), told_of([*words, "--live"], text, chance, "seq"))
        if chance.random() < 0.3:
            same("seq %s of %r" % (words, text), (output.encode(), b"", status), told_of(words, text, chance, "seq"))
        if chance.random() < 0.2:
            same("--live -q %s of %r" % (words, text), (b"", b"", status), told_of([*words, "--live", "-q"], text, chance, "seq"))


def random_streams():
    """Texts one behind another, of which each is told as it ends."""
    chance = random.Random(8259)
    for _ in range(INPUTS):
        text = random_text(chance, chance.choice([b"", b" ", b"\n"]))
        depth = chance.choice([512, 512, 1, 2, 0])
        words = ["--depth", str(depth)] * (depth != 512)
        output, status = wanted_of_texts(text, depth)
        same("texts %s of %r" % (words, text), (output.encode(), b"", status), told_of(words, text, chance, "texts"))
        if chance.random() < 0.2:
            same("texts -q %s of %r" % (words, text), (b"", b"", status), told_of([*words, "-q"], text, chance, "texts"))


def in_slices():
    """Each cut of a text in two, and single bytes, each of which the program reads by itself."""
    chance = random.Random(7)
    text = MARK + b'12\r\n\n"a\xc3\xa9"\n[1,x\ntrue \nnull'
    output, status = wanted_of(text, 512, False, True)
    for cuts in [[cut] for cut in range(len(text))] + [list(range(len(text)))]:
        child = subprocess.Popen([PROGRAM, "lines", "--ignore-bom"], stdin=subprocess.PIPE, stdout=subprocess.PIPE)
        start = 0
        for cut in [*cuts, len(text)]:
            child.stdin.write(text[start:cut])
            child.stdin.flush()
            time.sleep(0.005 if len(cuts) == 1 else 0.002)
            start = cut
        got, _ = child.communicate()
        same("cut at %s" % cuts, (output.encode(), status), (got, child.returncode))


def passed_in_slices():
    """The same of what passes."""
    text = MARK + b'12\r\n\n"a\xc3\xa9"\n[1,x\ntrue \n[null]'
    output, status = wanted_of(text, 512, False, True)
    for cuts in [[cut] for cut in range(len(text))] + [list(range(len(text)))]:
        child = subprocess.Popen([PROGRAM, "lines", "--pass", "--ignore-bom"], stdin=subprocess.PIPE, stdout=subprocess.PIPE, stderr=subprocess.PIPE)
        start = 0
        for cut in [*cuts, len(text)]:
            child.stdin.write(text[start:cut])
            child.stdin.flush()
            time.sleep(0.005 if len(cuts) == 1 else 0.002)
            start = cut
        got, told = child.communicate()
        same("passed, cut at %s" % cuts, (b'12\r\n"a\xc3\xa9"\ntrue \n[null]', output.encode(), status), (got, told, child.returncode))


def sequences_in_slices():
    """The same of a sequence."""
    text = MARK + b'\x1e12\n\x1e\x1e"a\xc3\xa9"\n\x1e[1,x\x1etrue \x1enull'
    output, status = wanted_of_sequence(text, 512, True)
    for cuts in [[cut] for cut in range(len(text))] + [list(range(len(text)))]:
        child = subprocess.Popen([PROGRAM, "seq", "--live", "--ignore-bom"], stdin=subprocess.PIPE, stdout=subprocess.PIPE)
        start = 0
        for cut in [*cuts, len(text)]:
            child.stdin.write(text[start:cut])
            child.stdin.flush()
            time.sleep(0.005 if len(cuts) == 1 else 0.002)
            start = cut
        got, _ = child.communicate()
        same("a sequence cut at %s" % cuts, (output.encode(), status), (got, child.returncode))


def long_lines():
    """Lines longer than what is read at a time, and many short ones."""
    chance = random.Random(9)
    text = b"[" + b"1 , " * 100000 + b"2]\n" + b'"' + b"x" * 200000 + b"\n" + b"".join(b"%d\n" % n for n in range(40000)) + b"x\n" * 40000 + b"[" * 600 + b"\n3"
    output, status = wanted_of(text, 512, False, False)
    same("long lines", (output.encode(), b"", status), told_of([], text, chance))
    pathlib.Path("report").unlink(missing_ok=True)
    same("long lines pass", (passed_of(text, 512, False), b"", status), told_of(["--pass", "--bad", "report"], text, chance))
    same("the report on long lines", output.encode(), pathlib.Path("report").read_bytes())
    text = text.replace(b"\n", b"\x1e")
    output, status = wanted_of_sequence(text, 512, False)
    same("long elements", (output.encode(), b"", status), told_of(["--live"], text, chance, "seq"))


def by_workers():
    """Inputs that several workers share, by any number of them and any piece: what is told is what one worker tells, and the reader here."""
    chance = random.Random(23)
    for _ in range(SHARED):
        kinds = chance.choice([[b"[1,2]"], [b'{"a":"\xc3\xa9"}', b"[1,", b"", b"1e5"], [b"x"], [b"1"], PIECES, [b'["%s"]' % (b"y" * 70000), b"[1,2,3]", b"[1,,2]"]])
        lines, size = [], 0
        most = chance.choice([1100000, 2200000, 4500000]) if len(kinds) > 1 or len(kinds[0]) > 1 else 1100000
        while size < most:
            lines.append(chance.choice(kinds) + chance.choice([b"", b"", b"\r", b" "]))
            size += len(lines[-1]) + 1
        text = chance.choice([b"", MARK]) + b"\n".join(lines) + chance.choice([b"", b"\n", b"\n[1"])
        skips, ignores = chance.random() < 0.4, chance.random() < 0.5
        words = ["--skip-blank"] * skips + ["--ignore-bom"] * ignores
        output, status = wanted_of(text, 512, skips, ignores)
        pathlib.Path("text").write_bytes(text)
        for workers in (1, chance.choice([2, 3, 4]), chance.choice([5, 16, 64])):
            piece = chance.choice([4096, 65536, 65537, 300000, 10000000])
            more = ["--workers", str(workers), "--piece", str(piece)]
            done = subprocess.run([PROGRAM, "lines", *words, *more, "text"], capture_output=True)
            same("%s of %d bytes, %s" % (words + more, len(text), kinds[:2]), (output.encode(), b"", status), (done.stdout, done.stderr, done.returncode))
            quiet = subprocess.run([PROGRAM, "lines", "-q", *words, *more, "text"], capture_output=True)
            same("-q %s of %d bytes" % (words + more, len(text)), (b"", b"", status), (quiet.stdout, quiet.stderr, quiet.returncode))


randomly()
by_workers()
random_sequences()
random_streams()
in_slices()
passed_in_slices()
sequences_in_slices()
long_lines()
counts.ended()
