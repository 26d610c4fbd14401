#!/usr/bin/env python3
"""Streams of records that were changed or cut, with digests that are right: `jx join` and `jx whole` say what the page has for them.

    hostile.py PROGRAM

What is wanted comes from record.py, which reads docs/FORMAT.md alone. The program may take 256 MiB of addresses and a minute. Prints what
differs, and the line of tests/*.sh.
"""
import concurrent.futures
import hashlib
import itertools
import os
import random
import resource
import subprocess
import sys

import golden
import record
from machine import EXPECTATIONS, STATES

PROGRAM = sys.argv[1]
ADDRESSES = 256 << 20
# What the program takes where a record is small.
PROGRAM_ALONE = 8 << 20
SECONDS = 60
HEAD, DIGEST = 24, 32
WHOLE_TOKENS = ("Gap", "Zero", "Int", "Frac", "Exp")
VALUES = (lambda byte: byte ^ 1, lambda byte: byte ^ 0x80, lambda byte: 0, lambda byte: 0xFF)
COUNTS = (2**32 - 1, 2**63, 2**64 - 1)
TEXTS = ((b'[1,{"a":true},2]', 0, 512), (b'"]}],{"b":[[-0', 2**63 - 1, 512), (b"]]}[[{", None, 2), (b'"\\ud8', 9, 0))


# ---- what is wanted


class Refused(Exception):
    """A stream that is not taken, by the line that tells why."""


def take(stream, number, depth):
    """The run of the first record of a stream, and the bytes behind it."""
    run = "run %d: " % number
    try:
        size, found = head_of(stream)
        if found != depth:
            raise Refused(run + "read with depth %d" % found)
        if not HEAD <= size < 4097 + 1120 * depth:
            raise record.NoRecord("size")
        record.need(size <= len(stream), "cut short")
        return record.decode(stream[:size]), stream[size:]
    except record.NoRecord as fault:
        words = {"not a run": "not a run", "other version": "of another version", "cut short": "cut short", "damaged": "damaged"}
        raise Refused(run + words.get(str(fault), "not well formed")) from None


def head_of(stream):
    record.need(stream[:7] == record.TAG[:7] and len(stream) >= 8, "not a run")
    record.need(stream[7] == 1, "other version")
    head = record.Cursor(stream)
    head.at = 8
    size, depth = head.number(), head.number()
    record.need(depth <= 65535, "depth")
    return size, depth


def meet(start, end, run, number):
    """Refuses a run that does not stand behind bytes from an offset up to another."""
    if (start is None) != (run["from"] is None):
        raise Refused("run %d: has no --from, as others have" % (0 if start is None else number))
    if start is not None and run["from"] != end:
        raise Refused("run %d: begins at %d, where %d was due" % (number, run["from"], end))
    if end + run["length"] >= 1 << 64:
        raise Refused("out of memory")


def joined(stream, depth):
    """The runs of a stream, and the offsets of their first and last byte."""
    runs = []
    while stream:
        run, stream = take(stream, len(runs), depth)
        if runs:
            meet(runs[0]["from"], end, run, len(runs))
            end += run["length"]
        else:
            end = (run["from"] or 0) + run["length"]
        runs.append(run)
    if not runs:
        raise Refused("no runs")
    return runs, runs[0]["from"] or 0, end


def through(runs, base, state, expect, holders):
    """What reading comes to by one run after the other."""
    for run in runs:
        outcome = record.answer(run, state, expect, holders)
        if outcome[0] != "went":
            # Where a way of a forged record ends is not looked at.
            return outcome[0], min(outcome[1] + base, 2**64 - 1)
        _, state, expect, holders = outcome
        base += run["length"]
    return "went", state, expect, holders


def line(runs, start):
    """The line of the verdict on the text of these runs."""
    outcome = through(runs, start, "Gap", "Value", ())
    if outcome[0] != "went":
        return "%s at %d\n" % outcome
    return "accepted\n" if outcome[1] in WHOLE_TOKENS and outcome[2:] == ("After", ()) else "truncated\n"


def is_joined(runs, out, depth, start, end):
    """Whether the output is a record whose answers are those of the runs one after the other."""
    try:
        run = record.decode(out)
    except record.NoRecord:
        return False
    if (run["depth"], run["from"], run["length"]) != (depth, runs[0]["from"], end - start):
        return False
    lists = [()] + [(holder,) for holder in "AO" if depth]
    return all(through([run], 0, *asked) == through(runs, 0, *asked) for asked in itertools.product(STATES, EXPECTATIONS, lists))


def fault_in(command, stream, depth):
    """What is wrong with what the program says of a stream, or nothing."""
    to = 0
    try:
        runs, start, end = joined(stream, depth)
        to, wanted = end, (0, None, b"")
        if command == "whole":
            said = line(runs, start)
            wanted = (0 if said == "accepted\n" else 1, said.encode(), b"")
    except Refused as why:
        of = "" if str(why) == "out of memory" else "-: "
        wanted, start = (2, b"", b"jx: %s%s\n" % (of.encode(), str(why).encode())), 0
    words = ["whole", "--from", str(start), "--to", str(to)] if command == "whole" else ["join"]
    done = subprocess.run([PROGRAM, *words, "--depth", str(depth)], input=stream, capture_output=True, timeout=SECONDS, close_fds=False)
    got = (done.returncode, done.stdout, done.stderr)
    if wanted[1] is None and got[0] == 0 and not got[2] and is_joined(runs, got[1], depth, start, end):
        return None
    return None if got == wanted else "%r and not %r" % (got, wanted)


# ---- streams


def sealed(data):
    """The bytes with the digest made anew."""
    return data[:-DIGEST] + hashlib.sha256(data[:-DIGEST]).digest()


def put(data, at, other):
    return data[:at] + other + data[at + len(other):]


def numbers_in(data):
    """The offsets of the numbers of a record."""
    class Noting(record.Cursor):
        found = []

        def number(self):
            self.found.append(self.at)
            return super().number()

    kept, record.Cursor = record.Cursor, Noting
    try:
        record.decode(data)
    finally:
        record.Cursor = kept
    # The head's are counted from the front, and the others from behind it.
    return [8, 16] + [at + HEAD for at in Noting.found[2:]]


def made(text, start, depth):
    words = [] if start is None else ["--from", str(start)]
    return subprocess.run([PROGRAM, "part", "--depth", str(depth), *words], input=text, capture_output=True, check=True).stdout


def records():
    """Records, each with its depth."""
    return [(data, 512) for data in golden.records()] + [(made(*row), row[2]) for row in TEXTS]


def changes(all_records):
    """Each record with each byte changed, and with each number as large as may be."""
    dice = random.Random(8259)
    for place, (data, depth) in enumerate(all_records):
        for at, value in itertools.product(range(len(data) - DIGEST), VALUES):
            changed = put(data, at, bytes([value(data[at])]))
            # Two of the values on average in the records of the page, and one in each second byte of the others.
            if changed != data and dice.randrange(2 if place < 3 else 8) == 0:
                yield dice.choice(("join", "whole")), sealed(changed), depth
        for at, count in itertools.product(numbers_in(data), COUNTS):
            yield "join", sealed(put(data, at, count.to_bytes(8, "big"))), depth


def cuts(all_records):
    """Each beginning of two records one behind another, and of a record and a changed one."""
    for left, right in ((0, 0), (0, 2), (2, 0)):
        stream = all_records[left][0] + all_records[right][0]
        for end in range(len(stream) + 1):
            yield "join", stream[:end], 512


def others(all_records):
    """Records in which one has a fault that no byte has alone, and streams of other bytes."""
    data, depth = all_records[0]
    for more in (b"\0", data[:HEAD], bytes(DIGEST)):
        longer = data[:-DIGEST] + more
        for size in (len(data), len(longer) + DIGEST):
            yield "join", put(sealed(longer + bytes(DIGEST)), 8, size.to_bytes(8, "big")), depth
            yield "join", sealed(put(longer + bytes(DIGEST), 8, size.to_bytes(8, "big"))), depth
    for other in (b"", b"\n", b"[1]", b"\x1f\x8b\x08" + bytes(40), record.TAG, record.TAG * 9, bytes(1000), b"\xff" * 1000):
        yield "join", other, 512
        yield "whole", other, 512


def limited():
    resource.setrlimit(resource.RLIMIT_AS, (ADDRESSES, ADDRESSES))


def tried(rows):
    """What is wrong with what the program says of streams."""
    found = []
    for command, stream, depth in rows:
        try:
            fault = fault_in(command, stream, depth)
        except subprocess.TimeoutExpired:
            fault = "no end"
        found.append(fault and "%s of %s: %s" % (command, stream.hex(), fault))
    return found


# ---- memory


def number(count):
    return count.to_bytes(8, "big")


def forged(depth, structures):
    """A record of no bytes with these structures."""
    body = b"\0" + number(0) + number(32) + b"".join(b"\0" + bytes([state]) + number(0) for state in range(32)) + structures
    return sealed(record.TAG + number(HEAD + len(body) + DIGEST) + number(depth) + body + bytes(DIGEST))


def largest(depth):
    """Records that are about as large as they may be with a depth, of the parts that take the most memory for their bytes."""
    room = 4096 + 1120 * depth - 600
    mark, leave = b"\0\1\0" + number(0), b"\1\0"
    yield "structures", forged(depth, number(room // 2) + bytes(room // 2 * 2))
    yield "ended levels", forged(depth, number(1) + mark + number(room // 10) + bytes(room // 10 * 10) + bytes(3) + number(0) + leave + number(0))
    yield "open containers", forged(depth, number(1) + mark + number(0) + bytes(3) + number(room) + bytes(room) + leave + number(0))
    yield "heights", forged(depth, number(1) + mark + number(0) + bytes(3) + number(0) + leave + number(room // 8) + bytes(room // 8 * 8))
    yield "brackets", made(b"]" * depth + b"[" * depth, None, depth)
    yield "containers", made(b'"],"' + b"]}" * (depth // 2) + b'[{"a":' * (depth // 2), None, depth)


def answers(stream, limit, *words):
    """What the program says of a stream within so many bytes of addresses."""
    def within():
        resource.setrlimit(resource.RLIMIT_AS, (limit, limit))

    done = subprocess.run([PROGRAM, *words], input=stream, capture_output=True, preexec_fn=within)
    return done.returncode, done.stdout, done.stderr


def memory_is_bounded():
    """Ten times the bytes of a record are enough to answer, whether it is taken or refused, beside those that the program takes anyway."""
    depth, found = 16384, []
    for name, data in largest(depth):
        for words in (["join"], ["whole", "--to", "0"]):
            words += ["--depth", str(depth)]
            wanted = answers(data, 32 << 30, *words)
            if wanted[0] == 2 and wanted[2] == b"jx: out of memory\n":
                found.append("%s: 32 GiB are not enough" % name)
                continue
            got = answers(data, PROGRAM_ALONE + 10 * len(data), *words)
            found.append(None if got == wanted else "%s, %d bytes: %r and not %r" % (name, len(data), got[2], wanted[2]))
    return found


def main():
    all_records = records()
    rows = [*changes(all_records), *cuts(all_records), *others(all_records)]
    with concurrent.futures.ProcessPoolExecutor(os.cpu_count(), initializer=limited) as pool:
        found = list(itertools.chain(*pool.map(tried, (rows[at : at + 100] for at in range(0, len(rows), 100)))))
    found += memory_is_bounded()
    faults = [fault for fault in found if fault]
    for fault in faults[:5]:
        print("hostile.py: FAILED: " + fault)
    print("hostile.py: %d passed, %d failed" % (len(found) - len(faults), len(faults)))


if __name__ == "__main__":
    main()
