#!/usr/bin/env python3
"""Holds answers of the program to the plain readers: program.py PROGRAM READERS SEED ANSWERS

Texts are made by dice. Each command reads them by settings, numbers of workers and sizes of pieces, from files, many in one process, and
from a pipe that is cut anywhere. Prints what differs, with the seed of its batch and the text, and then how many answers were right.
"""
import fcntl
import json
import os
import pathlib
import random
import re
import struct
import subprocess
import sys
import tempfile
import termios
import time

import plain
import texts

sys.path.insert(0, str(pathlib.Path(__file__).resolve().parent.parent / "tests"))
import saved  # noqa: E402, which makes indexes by docs/FORMAT.md and RFC 8259 alone

BATCH, SECONDS = 100, 60
LARGE = 1 << 20  # Below that one thread reads all.


class Run:
    """What the program wrote."""

    def __init__(self, output, errors, status):
        self.output, self.errors, self.status = output, errors, status


def run(program, words, given=b""):
    done = subprocess.run([program, *words], input=given, capture_output=True, timeout=SECONDS)
    return Run(done.stdout, done.stderr, done.returncode)


def wait_until_read(pipe):
    """Whether all that was written to a pipe is read, in good time."""
    for _ in range(2000):
        if struct.unpack("i", fcntl.ioctl(pipe, termios.FIONREAD, b"\0\0\0\0"))[0] == 0:
            return
        time.sleep(0.0005)


def run_on_slices(program, words, slices):
    """The same over a pipe, where each slice is read before the next one is written."""
    started = subprocess.Popen([program, *words], stdin=subprocess.PIPE, stdout=subprocess.PIPE, stderr=subprocess.PIPE, bufsize=0)
    try:
        for part in slices:
            started.stdin.write(part)
            wait_until_read(started.stdin)
    except BrokenPipeError:
        pass  # It ended early: its answer will tell.
    output, errors = started.communicate(timeout=SECONDS)
    return Run(output, errors, started.returncode)


def cut(dice, text, most):
    """Some slices of a text, which may be empty."""
    places = sorted(dice.randrange(len(text) + 1) for _ in range(dice.randrange(most)))
    return [text[a:b] for a, b in zip([0, *places], [*places, len(text)])]


def compact(value):
    """A value without the blanks between its tokens."""
    return re.sub(rb'("(?:[^"\\]|\\.)*")|[ \t\r\n]+', lambda found: found[1] or b"", value, flags=re.DOTALL)


def text_of(string):
    """The UTF-8 of a string's characters; none where half of a surrogate pair stands alone."""
    try:
        return json.loads(string.decode()).encode()
    except UnicodeEncodeError:
        return None


TOKEN = re.compile(rb'"(?:[^"\\]|\\.)*(?:"|\\?\Z)|[\[\]{}:,]|[^ \t\r\n\[\]{}:,"]+', re.DOTALL)


def pointer_at(text, at):
    """The pointer of the value that is begun or may begin at an offset, else of the container around it; none where no text is its name.

    The bytes before the offset begin a text.
    """
    steps, is_value = [], True
    for found in TOKEN.finditer(text, 0, at):
        token = found[0]
        is_name = bool(steps) and steps[-1] == b"" and token[:1] == b'"'
        if token == b"[":
            steps.append(0)
        elif token == b"{":
            steps.append(b"")
        elif token in b"]}":
            steps.pop()
        elif token == b",":
            steps[-1] = b"" if isinstance(steps[-1], bytes) else steps[-1] + 1
        elif is_name:
            steps[-1] = token
        is_begun = found.end() == at and token not in (b"true", b"false", b"null")
        if token[:1] == b'"':
            is_begun = not re.fullmatch(rb'"(?:[^"\\]|\\.)*"', token, re.DOTALL)
        if token in b"[]{}:,":
            is_value = token in b"[:" or (token == b"," and isinstance(steps[-1], int))
        else:
            is_value = is_begun and not is_name
    if steps and not is_value:
        steps.pop()
    names = [str(step).encode() if isinstance(step, int) else text_of(step) for step in steps]
    if None in names:
        return None
    return "".join("/" + name.replace(b"~", b"~0").replace(b"/", b"~1").decode() for name in names)


class Batch:
    """Some texts in files, and settings by which they are read."""

    def __init__(self, program, readers, seed, folder):
        self.program, self.readers, self.seed = program, readers, seed
        self.folder, self.dice = pathlib.Path(folder), random.Random(seed)
        self.right, self.wrong = 0, []

    def settings(self):
        """Words of the command line that an answer depends on, and the settings for the plain readers."""
        dice = self.dice
        depth = dice.choice([512, 512, 512, 0, 1, 2, 3, 64, plain.DEPTH_MAX])
        flags = dice.randrange(4)
        words = ["--depth", str(depth)] * (depth != 512 or dice.random() < 0.5)
        words += ["--ignore-bom"] * (flags & plain.IGNORE_MARK > 0) + ["--unique-names"] * (flags & plain.UNIQUE_NAMES > 0)
        return words, plain.Settings(depth, flags)

    def ways(self):
        """Words that no answer depends on."""
        return ["--workers", str(self.dice.randint(1, 8)), "--piece", str(int(2 ** self.dice.uniform(0, 16)))]

    def reading(self):
        words, settings = self.settings()
        return [*self.ways(), *words], settings

    def held(self, what, text, got, output, is_accepted, answers=1, told=b""):
        """Counts whether a run wrote this, told this on standard error, and nothing else."""
        output = output if isinstance(output, bytes) else output.encode()
        wanted = Run(output, told, 0 if is_accepted else 1)
        if (got.output, got.errors, got.status) == (wanted.output, wanted.errors, wanted.status):
            self.right += answers
            return
        self.wrong.append("seed %d: %s, text of %d bytes %r\nwanted %d %r %r\ngot    %d %r %r" % (
            self.seed, what, len(text), text[:300], wanted.status, wanted.output[:600], told[:600], got.status, got.output[:600], got.errors[:600]))

    def check_files(self, files):
        """Many texts in one process, each held by itself."""
        words, settings = self.reading()
        got = run(self.program, ["check", *words, *(name for name, _ in files)])
        lines = got.output.decode().splitlines(keepends=True)
        accepted = [self.readers.read(text, settings)[0] for _, text in files]
        if len(lines) != len(files):
            self.held(" ".join(["check", *words]), b"", got, "%d lines" % len(files), all(it.kind == 0 for it in accepted))
            return
        status = max(it.kind != 0 for it in accepted)
        for (name, text), verdict, line in zip(files, accepted, lines):
            one = Run(line.encode(), got.errors, got.status)
            self.held(" ".join(["check", *words]), text, one, "%s: %s\n" % (name, verdict), status == 0)

    def list_elements(self, files):
        words, settings = self.reading()
        got = run(self.program, ["seq", *words, *(name for name, _ in files)])
        wanted, is_accepted = [], True
        for name, text in files:
            for element in self.readers.elements(text, settings):
                wanted.append("%s: %s %s\n" % (name, element.span, element.verdict))
                is_accepted &= element.verdict.kind == 0
        self.held(" ".join(["seq", *words]), b"\0".join(text for _, text in files), got, "".join(wanted), is_accepted, len(files))

    def index(self, name, text):
        words, settings = self.reading()
        verdict, rows = self.readers.read(text, settings)
        lines = ["%s\n" % verdict]
        for number, row in enumerate(rows.all[: rows.count]):
            parent = "-" if row.parent == 2**64 - 1 else row.parent
            span = row.name if row.name.end else "-"
            lines.append("%d %s %s %s %d %s\n" % (number, plain.KINDS[row.kind], row.span, parent, row.place, span))
        self.held(" ".join(["index", *words]), text, run(self.program, ["index", *words, name]), "".join(lines), verdict.kind == 0)

    def pointers(self, text, rows):
        """Paths to values, some with a token more or less, and words that are none. Each is a line of UTF-8."""
        dice, made = self.dice, []
        for _ in range(dice.choice([1, 2, 5, 20])):
            pointer = b""
            if rows.count and rows.deepest < 900 and dice.random() < 0.8:
                pointer = self.readers.path(text, rows, dice.randrange(rows.count))
            if dice.random() < 0.4:
                pointer += dice.choice(["/", "/-", "/0", "/01", "/1", "/a", "~", "/~0", "/~1", "/~2", "/é", "/18446744073709551616", "//", "x"]).encode()
            if not {0, 10, 13} & {*pointer} and len(pointer) < 4096:
                made.append(pointer)
        return made or [b""]

    def look_up(self, name, text):
        words, settings = self.reading()
        verdict, rows = self.readers.read(text, settings)
        pointers = self.pointers(text, rows)
        answers = [self.readers.find(text, rows, verdict, it) for it in pointers]
        wanted = "".join("%s\n" % it for it in answers) if verdict.kind == 0 else "%s\n" % verdict
        is_found = verdict.kind == 0 and all(it.outcome == 0 for it in answers)
        got = run(self.program, ["at", "--file", name, *words, *self.spelt(pointers)])
        self.held("at %s %r" % (" ".join(words), pointers), text, got, wanted, is_found)

    def spelt(self, pointers):
        """Pointers as words, or as lines of a file. A word that is no pointer is refused, and a line is answered."""
        are_pointers = all(re.match(rb"/|$", it) and not re.search(rb"~(?![01])", it) for it in pointers)
        if are_pointers and self.dice.random() < 0.5:
            return ["--", *pointers]
        lines = self.folder / "pointers"
        lines.write_bytes(b"".join(it + b"\n" for it in pointers))
        return ["--pointers", str(lines)]

    def get_values(self, name, text):
        """The bytes of each value, and what is told where there is none."""
        words, settings = self.reading()
        verdict, rows = self.readers.read(text, settings)
        pointers = self.pointers(text, rows)
        is_compact, is_raw = self.dice.random() < 0.5, self.dice.random() < 0.5
        output, told = b"", b"" if verdict.kind == 0 else b"jx: %s: %s\n" % (name.encode(), str(verdict).encode())
        for pointer in pointers if verdict.kind == 0 else []:
            answer = self.readers.find(text, rows, verdict, pointer)
            value = text[answer.span.start : answer.span.end]
            written = text_of(value) if is_raw and value[:1] == b'"' else compact(value) if is_compact else value
            output += (written or b"") + b"\n"
            if answer.outcome != 0 or written is None:
                told += b"jx: %s: %s: %s\n" % (name.encode(), pointer or b"''", str(answer).encode() if answer.outcome != 0 else b"half a surrogate pair")
        words += ["-c"] * is_compact + ["-r"] * is_raw
        got = run(self.program, ["get", "--file", name, *words, *self.spelt(pointers)])
        self.held("get %s %r" % (" ".join(words), pointers), text, got, output, told == b"", told=told)

    def read_pipe(self, text):
        """A command over a pipe, whose reads end where the slices do."""
        words, settings = self.reading()
        slices = cut(self.dice, text, 8)
        verdict, _ = self.readers.read(text, settings)
        got = run_on_slices(self.program, ["check", *words], slices)
        self.held("check %s over slices %r" % (" ".join(words), [len(it) for it in slices]), text, got, "%s\n" % verdict, verdict.kind == 0)

    def save(self, name, text):
        """The index of a text byte by byte, of a file and over a pipe."""
        words, settings = self.settings()
        chunk = self.dice.choice([64, 64, 128, 4096, 32768])
        verdict, _ = self.readers.read(text, settings)
        output, told = b"", b"%s\n" % str(verdict).encode()
        if verdict.kind == 0:
            ignores, unique = settings.flags & plain.IGNORE_MARK > 0, settings.flags & plain.UNIQUE_NAMES > 0
            output, told = saved.index(text, settings.depth, ignores, chunk, unique), b""
        words += ["--chunk", str(chunk)]
        slices = cut(self.dice, text, 8)
        for of, got in (name, run(self.program, ["save", *words, name])), ("-", run_on_slices(self.program, ["save", *words], slices)):
            self.held("save %s" % " ".join(words), text, got, output, verdict.kind == 0, told=told and b"jx: %s: %s" % (of.encode(), told))

    def explain(self, name, text):
        """The place alone is held: sentences are for people."""
        words, settings = self.settings()
        # One input that is accepted is told of by this option alone.
        told = self.dice.choice([[], ["-v"]])
        verdict, _ = self.readers.read(text, settings)
        got = run(self.program, ["explain", *told, *words, name])
        at = verdict.offset if verdict.has_offset() else len(text)
        start = text.rfind(b"\n", 0, at) + 1
        column = at - start + 1 if text[start:at].isascii() else None
        wanted = "%s: accepted\n" % name if told else ""
        if verdict.kind != 0:
            found = re.match(rb"%s:(\d+):(\d+): .+\n" % re.escape(name.encode()), got.output)
            place = (text.count(b"\n", 0, at) + 1, column or (int(found[2]) if found else 0))
            is_right = found is not None and (int(found[1]), int(found[2])) == place
            wanted = got.output.decode("utf-8", "replace") if is_right else "%s:%d:%d: .." % (name, *place)
        self.held(" ".join(["explain", *told, *words]), text, got, wanted, verdict.kind == 0)

    def object_of(self, name, text, settings):
        """The members that machines are told of a file, but for the sentence."""
        verdict, _ = self.readers.read(text, settings)
        if verdict.kind == 0:
            return {"name": name, "verdict": "accepted"}
        at = verdict.offset if verdict.has_offset() else len(text)
        front = 3 * (settings.flags & plain.IGNORE_MARK > 0 and text.startswith(b"\xef\xbb\xbf"))
        start = text.rfind(b"\n", 0, at) + 1
        column = 1 + sum(not 0x80 <= byte <= 0xBF for byte in text[start:at])
        pointer = pointer_at(text[front:], at - front) if at >= front and not text[:at] in (b"\xef", b"\xef\xbb") else ""
        place = {"offset": at, "line": text.count(b"\n", 0, at) + 1, "column": column, "pointer": pointer}
        return {"name": name, "verdict": str(verdict).partition(" at ")[0], **place}

    def tell_of_files(self, files):
        """What machines, editors and scripts are told of many files. The sentences alone are not held."""
        words, settings = self.reading()
        names, many = [name for name, _ in files], b"".join(text for _, text in files)
        wanted = [self.object_of(name, text, settings) for name, text in files]
        refused = [it["name"] for it in wanted if it["verdict"] != "accepted"]
        got = run(self.program, ["check", "--format", "json", *words, *names])
        told = [json.loads(line) for line in got.output.decode().splitlines()]
        sentences = [it.pop("sentence", None) for it in told]
        for (name, text), object, line in zip(files, wanted, told + [None] * len(files)):
            self.held("check --format json %s %s" % (" ".join(words), name), text, Run(repr(line).encode(), got.errors, got.status), repr({key: object[key] for key in line or object}), not refused)
        marks = []
        for (name, text), it, sentence in zip(files, told, sentences):
            if sentence:
                column = it["offset"] - text.rfind(b"\n", 0, it["offset"])
                marks.append("%s:%d:%d: %s (byte %d)\n" % (name, it["line"], column, sentence, it["offset"]))
        got = run(self.program, ["check", "--format", "gnu", *words, *names])
        self.held("check --format gnu %s" % " ".join(words), many, got, "".join(marks), not refused)
        got = run(self.program, ["check", "-l", *words, *names])
        self.held("check -l %s" % " ".join(words), many, got, "".join(name + "\n" for name in refused), not refused)

    def join_parts(self, text):
        """Parts that are cut anywhere, joined in some order or not at all, come to the verdict on the whole."""
        dice = self.dice
        depth = dice.choice([512, 2, 64])
        verdict, _ = self.readers.read(text, plain.Settings(depth, 0))
        words = ["--depth", str(depth)]
        base, tells = dice.choice([0, 0, 7, 1 << 40]), dice.random() < 0.7
        if not tells:
            base = 0
        runs, at = [], base
        for part in cut(dice, text, 5):
            runs.append(run(self.program, ["part", *words, *["--from", str(at)] * tells], part).output)
            at += len(part)
        while len(runs) > 1 and dice.random() < 0.7:
            k = dice.randrange(len(runs) - 1)
            runs[k : k + 2] = [run(self.program, ["join", *words], runs[k] + runs[k + 1]).output]
        if verdict.has_offset():
            verdict.offset += base
        got = run(self.program, ["whole", *words, "--from", str(base), "--to", str(at)], b"".join(runs))
        self.held("part and whole %s from %d" % (" ".join(words), base), text, got, "%s\n" % verdict, verdict.kind == 0)

    def files_of(self, kind, made):
        found = []
        for number, text in enumerate(made):
            path = self.folder / ("%s%d" % (kind, number))
            path.write_bytes(text)
            found.append((str(path), text))
        return found

    def play(self):
        dice = self.dice
        small = self.files_of("t", [texts.any_text(dice) for _ in range(BATCH)])
        self.check_files(small)
        self.check_files(small)
        self.tell_of_files(small)
        self.list_elements(self.files_of("s", [texts.sequence(dice) for _ in range(BATCH)]))
        for name, text in dice.sample(small, 20):
            self.index(name, text)
            self.look_up(name, text)
            self.get_values(name, text)
        for name, text in dice.sample(small, 8):
            self.read_pipe(text)
            self.explain(name, text)
            self.save(name, text)
            self.join_parts(text)

    def play_large(self):
        """Texts that several workers read."""
        dice = self.dice
        large = self.files_of("l", [texts.long(dice, int(LARGE * dice.uniform(0.5, 7))) for _ in range(3)])
        for _ in range(4):
            self.check_files(large)
        name, text = dice.choice(large)
        self.look_up(name, text)
        self.read_pipe(text)
        self.join_parts(text)
        self.list_elements([(name, text), *self.files_of("q", [texts.sequence(dice) * dice.randrange(1, 20000)])])


def main():
    program, readers, seed, answers = sys.argv[1], plain.Readers(sys.argv[2]), int(sys.argv[3]), int(sys.argv[4])
    right = batches = 0
    wrong = []
    began = time.monotonic()
    with tempfile.TemporaryDirectory() as folder:
        while right + len(wrong) < answers:
            batch = Batch(program, readers, seed + batches, folder)
            batch.play()
            if batches % 4 == 0:
                batch.play_large()
            right += batch.right
            wrong += batch.wrong
            batches += 1
            if len(wrong) > 10:
                break
        for line in wrong[:10]:
            print(line)
    print("program.py: seed %d, %d batches in %d s: %d answers are right, %d wrong" % (seed, batches, time.monotonic() - began, right, len(wrong)))
    return wrong != []


if __name__ == "__main__":
    sys.exit(main())
