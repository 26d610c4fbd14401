"""Looks up lists of 1, 2, 8, 9, 16 and 17 pointers, and of one less than are looked up in an index, and of as many. Each list has the answers that
stand in `pointers` beside this file, with unique names too. Then long pointers, a list of a million, and the memory of a look-up in what comes
through a pipe. The last line is `N passed, M failed`."""
import os
import pathlib
import re
import subprocess

HERE = pathlib.Path(__file__).resolve().parent
PROGRAM = os.environ.get("JX_PROGRAM", HERE.parent / "crates" / "jx" / "out" / "jx")
COUNTS = [1, 2, 8, 9, 16, 17]
# From so many on, an index is made.
MANY = 10000
DEEP = 65535
failed = passed = 0


def spelt(line):
    return re.sub(rb"\\x(..)", lambda byte: bytes.fromhex(byte[1].decode()), line)


def same(name, wanted, got):
    global failed, passed
    if wanted == got:
        passed += 1
        return
    failed += 1
    print("pointers.py: FAILED: %s\n--- wanted\n%s\n--- got\n%s" % (name, repr(wanted)[:2000], repr(got)[:2000]))


def looked_up(text, words, pointers):
    pathlib.Path("text").write_bytes(text)
    done = subprocess.run([PROGRAM, "at", "--file", "text", *words, "--", *pointers], capture_output=True)
    return done.stdout, done.returncode


def of_lines(answers):
    """What is written for these answers, and the status."""
    return b"".join(answer + b"\n" for answer in answers), int(any(not answer.startswith(b"found ") for answer in answers))


def lists(lines, count):
    """Lists of so many lines, which begin at different ones, so that each line is in one."""
    return [[lines[(first + place) % len(lines)] for place in range(count)] for first in range(0, len(lines), count)]


def is_misspelt(line):
    return line[0].startswith((b"no slash", b"bad escape"))


def of_text(settings, repeated, text, lines):
    for _, pointer in filter(is_misspelt, lines):
        same("a word %r that is no pointer" % pointer, (b"", 2), looked_up(text, [], [b"", pointer]))
    lines = [line for line in lines if not is_misspelt(line)]
    for count in COUNTS:
        for part in lists(lines, count):
            words = ["--ignore-bom"] if settings == b"b" else []
            pointers = [pointer for _, pointer in part]
            wanted = of_lines([answer for answer, _ in part])
            name = "%d pointers from %r on into %r" % (count, pointers[0], text)
            same(name, wanted, looked_up(text, words, pointers))
            same(name + " by one worker", wanted, looked_up(text, [*words, "--workers", "1"], pointers))
            unique = wanted if repeated == b"-" else (b"repeated name at %s\n" % repeated, 1)
            same(name + " with unique names", unique, looked_up(text, [*words, "--unique-names"], pointers))


def of_many(settings, repeated, text, lines):
    """In a file, where a pointer with a line feed would be two."""
    lines = [line for line in lines if b"\n" not in line[1]]
    words = ["--ignore-bom"] if settings == b"b" else []
    for count in (MANY - 1, MANY):
        part = [lines[place % len(lines)] for place in range(count)]
        name = "%d pointers into %r" % (count, text)
        for workers in ("1", "4"):
            of_a_list(name + " by workers: " + workers, text, [*words, "--workers", workers], part)
        unique = part if repeated == b"-" else [(b"repeated name at %s" % repeated, part[0][1])]
        of_a_list(name + " with unique names", text, [*words, "--unique-names"], unique, part)


def of_refused(answer, text):
    for count in COUNTS:
        for words in ([], ["--unique-names"]):
            same("%d pointers into %r" % (count, text), (answer + b"\n", 1), looked_up(text, words, [b"", b"/x", b"/a", b"/~0", b"/0"] * 3 + [b"/b"] * 2))
    for words in ([], ["--unique-names"]):
        of_a_list("%d pointers into %r" % (MANY, text), text, words, [(answer, b"")], [(b"", b"/a")] * MANY)


def tables():
    texts = []
    for line in (HERE / "pointers").read_bytes().splitlines():
        if line.startswith(b"text "):
            _, settings, repeated, text = line.split(b" ", 3)
            texts.append((settings, repeated, spelt(text), []))
        elif line.startswith(b"refused "):
            answer, _, text = line.removeprefix(b"refused ").partition(b":")
            of_refused(answer, spelt(text))
        elif line and not line.startswith(b"#"):
            answer, _, pointer = line.partition(b":")
            texts[-1][3].append((answer, spelt(pointer)))
    for one in texts:
        of_text(*one)
        of_many(*one)


def of_a_list(name, text, words, lines, asked=None):
    """The pointers are lines of a file, as some are longer than a word may be. What is asked for may be more than what is answered."""
    pathlib.Path("list").write_bytes(b"".join(pointer + b"\n" for _, pointer in asked or lines))
    same(name, of_lines([answer for answer, _ in lines]), looked_up(text, [*words, "--pointers", "list"], []))


def long_pointers():
    """As many tokens as containers may be open, one less and one more, and one that leaves the way at its last token."""
    shapes = [(b"[", b"]", b"/0", b"/1", b"past end"), (b'{"a":', b"}", b"/a", b"/b", b"no such member")]
    for opened, closed, token, other, why in shapes:
        text = opened * DEEP + b"7" + closed * DEEP
        middle = len(opened) * DEEP
        lines = [
            (b"found number %d..%d" % (middle, middle + 1), token * DEEP),
            (b"found %s %d..%d" % (b"array" if opened == b"[" else b"object", middle - len(opened), middle + 2), token * (DEEP - 1)),
            (b"not a container at token %d" % DEEP, token * (DEEP + 1)),
            (b"%s at token %d" % (why, DEEP - 1), token * (DEEP - 1) + other),
            (b"%s at token 0" % why, other * DEEP),
        ]
        for count in COUNTS:
            of_a_list("%d pointers of %d tokens" % (count, DEEP), text, ["--depth", str(DEEP)], lists(lines, count)[0])


def a_million_pointers():
    text, lines = b"[", []
    for number in range(1000):
        text += b'{"n":%d},' % number
        end = len(text) - 2
        lines.append((b"found number %d..%d" % (end - len(str(number)), end), b"/%d/n" % number))
    text = text[:-1] + b"]"
    lines += [(b"past end at token 0", b"/1000/n"), (b"no slash", b"n"), (b"no such member at token 1", b"/7/m")]
    of_a_list("a million pointers", text, [], [lines[place * 7 % len(lines)] for place in range(1000000)])


def most_memory(process):
    """The most memory that the process had at once so far, in bytes."""
    status = pathlib.Path("/proc/%d/status" % process.pid).read_text()
    return int(re.search(r"VmHWM:\s*(\d+) kB", status)[1]) * 1024


def a_long_text_from_a_pipe():
    """Of 64 MB one worker holds a batch of 256 KiB, several two of 8 MiB, also where names have to be unique. Its memory is asked for before
    the last bytes are written. Then a name is repeated behind what was found."""
    record = b'{"name":"\\u0061","values":[10,20,30,true,null]},'
    part = record * (1000000 // len(record))
    start = 1 + 7 * len(record)
    number = start + record.index(b"20")
    lines = [
        (b"found object %d..%d" % (start, start + len(record) - 1), b"/7"),
        (b"found number %d..%d" % (number, number + 2), b"/7/values/1"),
        (b"not an index at token 0", b"/values"),
        (b"no such member at token 1", b"/9/b"),
    ]
    one, all_of_them = (of_lines([answer for answer, _ in part_of_lines]) for part_of_lines in (lines[:1], lines))
    unique, twice = ["--unique-names"], b'{"a":1,"a":2}]'
    repeated = b"repeated name at %d\n" % (1 + 64 * len(part) + twice.rindex(b'"a"'))
    cases = [
        (1, [], b"0]", one),
        (1, unique, b"0]", one),
        (len(lines), [], twice, all_of_them),
        (len(lines), unique, b"0]", all_of_them),
        (len(lines), unique, twice, (repeated, 1)),
    ]
    for count, options, end, wanted in cases:
        for workers, most in (("1", 8000000), ("4", 32000000)):
            name = "%d pointers %s into 64 MB from a pipe that ends with %r by workers: %s" % (count, options, end, workers)
            words = [PROGRAM, "at", *options, "--workers", workers, *(pointer for _, pointer in lines[:count])]
            with subprocess.Popen(words, stdin=subprocess.PIPE, stdout=subprocess.PIPE) as process:
                process.stdin.write(b"[")
                for _ in range(64):
                    process.stdin.write(part)
                process.stdin.flush()
                held = most_memory(process)
                process.stdin.write(end)
                process.stdin.close()
                out = process.stdout.read()
            same(name, wanted, (out, process.returncode))
            same(name + ": memory", "at most %d bytes" % most, "at most %d bytes" % most if held <= most else "%d bytes" % held)


for test in (tables, long_pointers, a_million_pointers, a_long_text_from_a_pipe):
    test()
print("%d passed, %d failed" % (passed, failed))
