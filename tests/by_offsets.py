"""by_offsets.py PROGRAM COMMAND: makes the texts, the sequences or the JSON Lines that lines on standard input name, and compares what `check`,
`seq`, `lines` or `get --lines` by several workers answers to them with what is known of each by how it was made, and with what one worker answers. Prints each
difference, and how many answers were right."""
import pathlib
import random
import subprocess
import sys

FRONT_MARK = b"\xef\xbb\xbf"
STEP = 262144  # what a worker reads where no size of a piece is asked for


def filled(front, unit, pad, end, size):
    """Of so many bytes: as many whole units as there is room for."""
    room = size - len(front) - len(end)
    return front + unit * (room // len(unit)) + pad * (room % len(unit)) + end


TEXTS = {
    "list": lambda size: filled(b"[1", ',"\u00e9\\n\\u00e9",{"k":[-1.5e3,null]}'.encode(), b" ", b"]", size),
    "ones": lambda size: filled(b"[1", b",1", b" ", b"]", size),
    "string": lambda size: filled(b'"', "a\u20ac\\\\\\u20ac".encode(), b"a", b'"', size),
    "slashes": lambda size: filled(b'"', b"\\\\", b"/", b'"', size),
    "blanks": lambda size: filled(b"[", b" \n", b"\t", b"]", size),
    "deep": lambda size: b"[" * (size // 2) + b" " * (size % 2) + b"]" * (size // 2),
}


def offsets_of(word, size, step):
    """Where a word says that a text is cut or damaged."""
    if word == "each":
        return range(size)
    if word == "ends":
        return sorted({0, 1, size // 2, size - 2, size - 1})
    borders = range(step, size, step * max(1, size // step // 12))
    return sorted({at + by for at in borders for by in (-1, 0, 1) if at + by < size} | {0, size - 1})


def made(kind, size, step, words):
    """Texts with the line that each is answered with."""
    text = TEXTS[kind](size)
    for word in words.split():
        what, _, where = word.partition(":")
        if what == "whole":
            yield text, "accepted"
            yield FRONT_MARK + text, "stopped at 0"
        elif what == "marked":
            yield text, "accepted"
            yield FRONT_MARK + text, "accepted"
            yield FRONT_MARK[:2] + text, f"stopped at 2"
            yield FRONT_MARK + FRONT_MARK + text, "stopped at 3"
            yield FRONT_MARK + text[:-1], "truncated"
        elif what == "limit":
            deepest = size // 2
            yield text, f"too deep at {where}" if deepest > int(where) else "accepted"
        elif what == "cut":
            for at in offsets_of(where, size, step):
                yield text[:at], "truncated"
        elif what == "damaged":
            for at in offsets_of(where, size, step):
                yield text[:at] + b"\x01" + text[at + 1 :], f"stopped at {at}"


def texts_of(step, counts, kinds, words):
    for kind in kinds.split():
        for count in counts.split():
            for by in (-1, 0, 1):
                size = int(count) * step + by
                if size >= 4:
                    yield from made(kind, size, step, words)


def said(program, options, paths):
    done = subprocess.run([program, "check", *options, "--", *paths], stdin=subprocess.DEVNULL, capture_output=True, text=True)
    return done.returncode, done.stdout, done.stderr


def compare(program, room, line):
    """How many answers of a line are right, and which are wrong."""
    piece, counts, kinds, words, options = (part.strip() for part in line.split("|"))
    step = STEP if piece == "-" else int(piece)
    texts = list(texts_of(step, counts, kinds, words))
    paths = []
    for number, (text, _) in enumerate(texts):
        path = room / str(number)
        path.write_bytes(text)
        paths.append(str(path))
    settings = options.split() + ([] if piece == "-" else ["--piece", piece])
    wanted = "".join(f"{path}: {words}\n" for path, (_, words) in zip(paths, texts))
    status = 0 if all(words == "accepted" for _, words in texts) else 1
    right, wrong = 0, []
    answers = [(workers, said(program, [*settings, "--workers", workers], paths)) for workers in ("1", "2", "3", "8")]
    for workers, answer in answers:
        lines = list(zip(wanted.splitlines(), answer[1].splitlines()))
        if answer == (status, wanted, ""):
            right += len(texts)
        else:
            wrong += [f"{line}, {workers} workers: wanted {a}, got {b}" for a, b in lines if a != b][:3]
            wrong += [f"{line}, {workers} workers: status {answer[0]}, {len(lines)} lines; {answer[2][:300]}"]
    # One file alone is answered without its name, and another call of the program answers it.
    for path, (_, words) in [*zip(paths, texts)][:: max(1, len(texts) // 6)]:
        answer = said(program, [*settings, "--workers", "4"], [path])
        if answer == (0 if words == "accepted" else 1, words + "\n", ""):
            right += 1
        else:
            wrong.append(f"{line}, alone: wanted {words}, got {answer}")
    return right, wrong


# The bytes of an element, and its verdict, behind which its offset stands where it has one. A depth of 2 is the limit of `deep` alone.
ELEMENTS = {
    "object": ('{"a":[1,"\u00e9"]}\n'.encode(), "accepted", None),
    "number": (b"12", "may be cut", None),
    "ended": (b"12\n", "accepted", None),
    "cut": (b"[1,2", "truncated", None),
    "bad": (b"[1,}", "stopped at", 3),
    "blank": (b" \n", "truncated", None),
    "deep": (b"[[[1]]]", "too deep at", 2),
    "nothing": (b"", None, None),
    "long": (b'"' + b"x" * 300000 + b'"', "accepted", None),
    "feeds": (b"[1,\n2,\n3]\n", "accepted", None),
}


def sequence(size, front, names):
    """A sequence of some such size, and the lines of its elements."""
    text, lines = bytearray(front), []
    if front:
        lines.append(f"0..{len(front)} unmarked")
    while len(text) < size and names:
        for name in names:
            element, verdict, at = ELEMENTS[name]
            text += b"\x1e"
            start = len(text)
            text += element
            if verdict:
                lines.append(f"{start}..{len(text)} {verdict}" + ("" if at is None else f" {start + at}"))
    return bytes(text), lines


def compare_sequences(program, room, line):
    """How many answers to the sequence of a line are right, and which are wrong."""
    piece, size, front, names, options = (part.strip() for part in line.split("|"))
    text, lines = sequence(int(size), b"" if front == "-" else front.encode(), names.split())
    words = "".join(f"{line}\n" for line in lines)
    status = 0 if all(line.endswith("accepted") for line in lines) else 1
    path = room / "sequence"
    path.write_bytes(text)
    settings = ["seq", *options.split(), *([] if piece == "-" else ["--piece", piece])]
    right, wrong = 0, []

    def look(wanted, *more):
        nonlocal right
        done = subprocess.run([program, *settings, *more, path], stdin=subprocess.DEVNULL, capture_output=True, text=True)
        if (done.returncode, done.stdout, done.stderr) == wanted:
            right += 1
        else:
            wrong.append(f"{line}, {more}: status {done.returncode}, {len(done.stdout)} bytes for {len(wanted[1])}; {done.stderr[:300]}")

    # Short pieces start many threads, so they are looked at less often.
    is_short = piece != "-" and int(piece) < 64
    for workers in ("1", "2") if is_short else ("1", "2", "3", "8"):
        look((status, words, ""), "--workers", workers)
    look((status, "", ""), "--workers", "3", "-q")
    # The end, cut at each of its last bytes: what one worker answers is what several do.
    for by in (3,) if is_short else range(1, 30):
        path.write_bytes(text[:-by])
        done = subprocess.run([program, "seq", *options.split(), "--workers", "1", path], capture_output=True, text=True)
        look((done.returncode, done.stdout, ""), "--workers", "4")
    return right, wrong


# The bytes of a line, and its verdict where it is refused, behind which its offset stands where it has one. A depth of 2 is the limit of `deep`
# alone.
LINES = {
    "object": ('{"a":[1,"\u00e9"]}'.encode(), None, None),
    "number": (b"12", None, None),
    "cut": (b"[1,2", "truncated", None),
    "bad": (b"[1,}", "stopped at", 3),
    "control": (b'"\x01"', "stopped at", 1),
    "blank": (b" \r", "blank", None),
    "nothing": (b"", "blank", None),
    "deep": (b"[[[1]]]", "too deep at", 2),
    "long": (b'"' + b"x" * 300000 + b'"', None, None),
    "huge": (b'"' + b"x" * 3000000 + b'"', None, None),
}


def json_lines(size, front, names, is_ended, options):
    """JSON Lines of some such size, and the output for them. A byte order mark in front is ignored or refused."""
    text, told, good, bad, number = bytearray(), [], 0, 0, 0
    while len(text) < size:
        for name in names:
            line, verdict, at = LINES[name]
            if front and not text:
                text += FRONT_MARK
                if "--ignore-bom" not in options:
                    line, verdict, at = FRONT_MARK + line, "stopped at", 0
                    del text[:]
            start, number = len(text), number + 1
            text += line + b"\n"
            if verdict == "blank" and "--skip-blank" in options:
                continue
            good, bad = good + (verdict is None), bad + (verdict is not None)
            if verdict:
                told.append(f"{number} {start}..{start + len(line)} {verdict}" + ("" if at is None else f" {start + at}"))
    if not is_ended:
        start = len(text)
        text, number, bad = text + b"12", number + 1, bad + 1
        told.append(f"{number} {start}..{start + 2} may be cut")
    return bytes(text), "".join(f"{line}\n" for line in [*told, f"accepted {good}, refused {bad}"]), int(bad > 0)


def compare_lines(program, room, line):
    """How many answers to the JSON Lines of a line are right, and which are wrong."""
    piece, size, front, names, end, options = (part.strip() for part in line.split("|"))
    path = room / "lines"
    settings = ["lines", *options.split()]
    pieces = [] if piece == "-" else ["--piece", piece]
    is_short = piece != "-" and int(piece) < 64
    right, wrong = 0, []

    def said(*more):
        done = subprocess.run([program, *settings, *more, path], stdin=subprocess.DEVNULL, capture_output=True)
        return done.returncode, done.stdout, done.stderr

    def look(wanted, *more):
        nonlocal right
        got = said(*pieces, *more)
        if got == wanted:
            right += 1
        else:
            wrong.append(f"{line}, {more}: status {got[0]}, {len(got[1])} bytes for {len(wanted[1])}; {got[2][:300]}")

    if names == "random":
        # Made of few bytes, so that lines are texts, refused, blank and cut in all places.
        many = random.Random(line)
        text = b"".join(many.choices([b"\n", b"1", b"[1]", b" ", b'"', b"{}", b"[", b"\\", b'{"a":2}\n', b"1\n"], k=int(size) // 2))
        path.write_bytes((FRONT_MARK if front == "mark" else b"") + text)
        whole = said("--workers", "1")
    else:
        text, words, status = json_lines(int(size), front == "mark", names.split(), end == "ended", options.split())
        path.write_bytes(text)
        whole = (status, words.encode(), b"")
    for workers in ("1", "2") if is_short else ("1", "2", "3", "4", "8"):
        look(whole, "--workers", workers)
    look((whole[0], b"", b""), "--workers", "3", "-q")
    for more in ([],) if is_short else ([], ["--format", "gnu"], ["--format", "json"], ["-l"], ["-H"], ["--skip-blank"]):
        look(said("--workers", "1", *more), "--workers", "4", *more)
    # The end, cut at each of its last bytes: what one worker answers is what several do.
    text = path.read_bytes()
    for by in (3,) if is_short else range(1, 12):
        path.write_bytes(text[:-by])
        look(said("--workers", "1"), "--workers", "4")
    return right, wrong


# Of these are lines of values: some lack a member or a text, are blank, refused or cut, or end with a carriage return.
VALUES = [b"\n", b"1", b" ", b'"', b"[", b"\r\n", b'{"a":2}\n', b'{"a":[1, "\xc3\xa9"],"b":null}\n', b'{"b":"\\t\\u0041"}\n', b'{"a":"\\ud800"}\r\n']


def compare_values(program, room, line):
    """How many answers to pointers into the lines of a line are right, and which are wrong."""
    piece, size, front, names, end, options = (part.strip() for part in line.split("|"))
    path = room / "values"
    pieces = [] if piece == "-" else ["--piece", piece]
    right, wrong = 0, []

    def said(*more):
        words = [program, "get", "--lines", "/a", "", "--file", path, *options.split(), *more]
        done = subprocess.run(words, stdin=subprocess.DEVNULL, capture_output=True)
        return done.returncode, done.stdout, done.stderr

    def look(wanted, *more):
        nonlocal right
        got = said(*pieces, *more)
        if got == wanted:
            right += 1
        else:
            at = next((at for at, (a, b) in enumerate(zip(got[1], wanted[1])) if a != b), min(len(got[1]), len(wanted[1])))
            wrong.append(f"{line}, {more}: status {got[0]}, {len(got[1])} bytes for {len(wanted[1])}, another at {at}; {len(got[2])} of {len(wanted[2])}")

    if names == "random":
        many = random.Random(line)
        text = b"".join(many.choices(VALUES, weights=[1, 1, 1, 1, 1, 1, 9, 9, 9, 1], k=int(size) // 12))
        text = (FRONT_MARK if front == "mark" else b"") + text
    else:
        text, _, _ = json_lines(int(size), front == "mark", names.split(), end == "ended", options.split())
    path.write_bytes(text)
    whole = said("--workers", "1")
    rows = text.count(b"\n") + (0 if text.endswith(b"\n") else 1) + options.count("--header")
    if whole[1].count(b"\n") != rows:
        wrong.append(f"{line}: {whole[1].count(10)} rows for {rows}")
    for workers in ("2", "3", "8"):
        look(whole, "--workers", workers)
    # The end, cut at some of its last bytes.
    for by in (1, 3, 7):
        path.write_bytes(text[:-by])
        look(said("--workers", "1"), "--workers", "4")
    return right, wrong


def main():
    room = pathlib.Path("texts")
    room.mkdir(exist_ok=True)
    right, wrong = 0, []
    for line in sys.stdin.read().splitlines():
        more, differences = {"check": compare, "seq": compare_sequences, "lines": compare_lines, "values": compare_values}[sys.argv[2]](sys.argv[1], room, line)
        right += more
        wrong += differences
    print(*wrong, sep="\n", end="\n" if wrong else "")
    print(f"{right} right, {len(wrong)} wrong")


main()
