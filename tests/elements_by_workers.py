"""Writes the elements of texts of some MB by several workers: what is written and told is what one worker writes and tells, and what the text was made of."""
import json
import os
import pathlib
import random
import re
import subprocess
import sys

PROGRAM = os.environ["JX_PROGRAM"]
TEXTS = int(os.environ.get("JX_SHARED", "12"))
passed = failed = 0


def shown(got):
    output, told, status = got
    return "%d bytes %r.. %r, told %r, status %d" % (len(output), output[:60], output[-60:], told, status)


def same(name, wanted, got):
    global passed, failed
    if wanted == got:
        passed += 1
        return
    failed += 1
    print("FAILED %s\n  wanted %s\n  got    %s" % (name, shown(wanted), shown(got)))


def each_of(words, text, command="each"):
    pathlib.Path("shared").write_bytes(text)
    done = subprocess.run([PROGRAM, command, *words, "--file", "shared"], capture_output=True)
    return done.stdout, done.stderr, done.returncode


# ---- values, as they are spelt and without blanks

STRINGS = [b'""', b'"a"', b'","', b'"],["', b'"\\""', b'"\\\\"', b'"{\\"a\\":[1,2]},"', b'"\xc3\xa9 \xf0\x9f\x98\x80"', b'":"', b'"\\\\\\","', b'"[[[["']
SCALARS = [b"0", b"-1.5e+3", b"true", b"null", b"false", b"12345678901234567890"] + STRINGS


class Maker:
    """Values by a chance, with blanks of one of several kinds."""

    def __init__(self, chance):
        self.chance = chance
        self.blanks = chance.choice([[b""], [b"", b"", b" "], [b"", b"\n  ", b"\t", b" \r\n"], [b"\n" + b" " * 8]])
        self.scalars = chance.choice([SCALARS, STRINGS, [b"1", b"22"], [b'"%s"' % (b"x," * 200)]])
        self.depth = chance.choice([0, 1, 3])

    def blank(self):
        return self.chance.choice(self.blanks)

    def value(self, depth):
        kind = self.chance.choice(["scalar", "array", "object"]) if depth > 0 else "scalar"
        if kind == "scalar":
            scalar = self.chance.choice(self.scalars)
            return scalar, scalar
        spelt, compact = [], []
        for _ in range(self.chance.randrange(5)):
            name = self.chance.choice(STRINGS)
            value, without = self.value(depth - 1)
            if kind == "object":
                spelt.append(self.blank() + name + self.blank() + b":" + self.blank() + value + self.blank())
                compact.append(name + b":" + without)
            else:
                spelt.append(self.blank() + value + self.blank())
                compact.append(without)
        opens, closes = (b"{", b"}") if kind == "object" else (b"[", b"]")
        return opens + (b",".join(spelt) or self.blank()) + closes, opens + b",".join(compact) + closes


def long_value(chance, maker):
    """One of many values, some of which are longer than what one worker is given."""
    many = [maker.value(2) for _ in range(50)]
    count = chance.choice([3000, 30000, 120000])
    return b"[" + b",".join(many[k % 50][0] for k in range(count)) + b"]", b"[" + b",".join(many[k % 50][1] for k in range(count)) + b"]"


def elements(chance, maker, most):
    """Elements until they have so many bytes. Most are taken again and again, so that this takes little time."""
    few = [maker.value(maker.depth) for _ in range(400)]
    if chance.random() < 0.3:
        few.append(long_value(chance, maker))
    made, size = [], 0
    while size < most:
        part = [chance.choice(few) for _ in range(200)]
        made += part
        size += sum(len(spelt) + 1 for spelt, _ in part)
    return made


def container(chance, maker, made, named):
    """The container's bytes, and the line of each of its elements with the offset of what stands behind it."""
    is_object = named or chance.random() < 0.4
    parts, lines, at = [b"{" if is_object else b"["], [], 1
    alone = chance.randrange(2 * len(made))
    for number, (spelt, compact) in enumerate(made):
        front = maker.blank()
        name = b'"\\ud800"' if number == alone else (b'"\\u00e9%d\\/"' if number % 7 == 3 else b'"%d,"') % number
        if is_object:
            front += name + maker.blank() + b":" + maker.blank()
        part = front + spelt + maker.blank()
        at += len(part)
        line = b'{"name":%s,"value":%s}\n' % (name, compact) if named else compact + b"\n"
        lines.append((line, at))
        at += 1
        parts += [part, b","]
    parts[-1] = b"}" if is_object else b"]"
    return b"".join(parts), lines


def names_in(lines):
    """The names in lines of members, each on a line."""
    return b"".join(name + b"\n" for name in re.findall(rb'^\{"name":("(?:[^"\\]|\\.)*"),', lines, re.M))


def texts_of(names):
    """The UTF-8 of the names that stand on lines; none for one with half of a surrogate pair alone."""
    texts = [json.loads(name) for name in names.splitlines()]
    return [None if any(0xD800 <= ord(one) < 0xE000 for one in text) else text.encode() for text in texts]


# A pointer, what stands in front of the container that it leads to, and what stands behind it.
PLACES = [
    ([], b"", b""),
    ([], b" \n", b"\t\n"),
    (["/a/1"], b'{"b":[[1],[2]],"a":[{"x":"[,"},', b',[3,4],"z"],"c":{"a":[1,2]}}'),
    (["/a"], b'{"a":', b',"a":[7]}'),
    (["/a"], b'{"\\u0061":', b"}"),
]


def by_workers():
    chance = random.Random(67)
    for number in range(TEXTS):
        maker = Maker(chance)
        named = chance.random() < 0.3
        made = elements(chance, maker, chance.choice([1100000, 2300000, 4300000, 9000000]))
        inside, lines = container(chance, maker, made, named)
        words, front, behind = chance.choice(PLACES)
        text = front + inside + behind
        told = b"jx: shared: /a: name repeated at token 0\n" if behind.startswith(b',"a":') else b""
        whole = b"".join(line for line, _ in lines)
        cut = len(front) + chance.randrange(len(inside))
        due = b"".join(line for line, at in lines if len(front) + at < cut)
        inputs = [("", text, (whole, told, int(told != b"")))]
        inputs.append((", cut at %d" % cut, text[:cut], (due, b"jx: shared: truncated\n", 1)))
        inputs.append((", a fault at %d" % cut, text[:cut] + b"\0" + text[cut:], (due, b"jx: shared: stopped at %d\n" % cut, 1)))
        for more, given, wanted in inputs:
            for workers in [1, *chance.sample(range(2, 9), 2), 64][: 3 + (number == 0)]:
                piece = chance.choice([chance.randrange(1, 65537), chance.randrange(1000, 65537), 65536, 300000, 1048576])
                asked = words + ["--workers", str(workers), "--piece", str(piece)]
                name = "text %d of %d bytes by %s%s" % (number, len(given), asked, more)
                output, told, status = wanted
                same(name, wanted, each_of(asked + ["--names"] * named, given))
                if named:
                    same("names of " + name, (names_in(output), told, status), each_of(asked, given, "keys"))
                    texts = texts_of(names_in(output))
                    told_of_texts = b"" if None not in texts else b"jx: shared: %s: half a surrogate pair in a name\n" % (words[0].encode() if words else b"''")
                    told_of_texts += told
                    same("texts of names of " + name, (b"".join((text or b"") + b"\n" for text in texts), told_of_texts, int(told_of_texts != b"")), each_of(asked + ["-r"], given, "keys"))
                same("number of " + name, (b"" if told else b"%d\n" % len(lines), told, status), each_of(asked, given, "count"))


by_workers()
print("%d passed, %d failed" % (passed, failed))
sys.exit(failed > 0)
