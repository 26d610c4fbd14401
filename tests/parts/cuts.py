#!/usr/bin/env python3
"""Cuts each text of tests/verdicts in two at every byte and in three at random bytes, and holds what `jx whole` says of the runs to the
table. Prints what differs, and then how many verdicts were as they have to be. Its words are the program and the table."""
import concurrent.futures
import os
import random
import re
import subprocess
import sys

PROGRAM, TABLE = sys.argv[1:]
LINES = {"accepted": "accepted", "stopped": "stopped at %s", "truncated": "truncated", "too_deep": "too deep at %s", "repeated_name": "accepted"}


def texts():
    """The texts of the table, each with its depth and the line that `jx check` has for it."""
    for line in open(TABLE, "rb").read().split(b"\n"):
        if line and not line.startswith(b"#"):
            verdict, offset, depth, text = line.split(b" ", 3)
            text = re.sub(rb"\\x(..)", lambda hit: bytes([int(hit[1], 16)]), text)
            said = LINES[verdict.decode()]
            yield text, depth.decode(), said % offset.decode() if "%" in said else said


def jx(given, *words):
    """What the program writes for an input, and its status."""
    done = subprocess.run([PROGRAM, *words], input=given, capture_output=True)
    return done.stdout, done.returncode, done.stderr


class Runs:
    """The runs of the parts of a text."""

    def __init__(self, text, depth, told):
        self.text, self.depth, self.told, self.kept = text, depth, told, {}

    def of(self, start, end):
        if (start, end) not in self.kept:
            words = ["--from", str(start)] if self.told else []
            self.kept[start, end] = jx(self.text[start:end], "part", "--depth", self.depth, *words)[0]
        return self.kept[start, end]

    def join(self, *runs):
        return jx(b"".join(runs), "join", "--depth", self.depth)[0]

    def whole(self, *runs):
        out, status, err = jx(b"".join(runs), "whole", "--depth", self.depth, "--to", str(len(self.text)))
        return (out + err).decode(), status


def cut(text, depth, said, seed):
    """How many cuts of a text give the verdict of the table, and what those give that do not."""
    right, wrong = 0, []
    wanted = (said + "\n", 0 if said == "accepted" else 1)
    size, chance = len(text), random.Random(seed)

    def held(got, name):
        nonlocal right
        if got == wanted:
            right += 1
        else:
            wrong.append("%r at %s: %r, and not %r" % (text, name, got, wanted))

    runs = Runs(text, depth, True)
    out, status, _ = jx(text, "check", "--depth", depth)
    held((out.decode(), status), "jx check")
    held(runs.whole(runs.of(0, size)), "no cut")
    for at in range(size + 1):
        held(runs.whole(runs.of(0, at), runs.of(at, size)), at)
    for told in True, False:
        runs = Runs(text, depth, told)
        first, second = sorted(chance.randint(0, size) for _ in range(2))
        a, b, c = runs.of(0, first), runs.of(first, second), runs.of(second, size)
        name = "%d, %d" % (first, second)
        held(runs.whole(a, b, c), name)
        held(runs.whole(runs.join(a, b), c), name + ", the first two joined")
        held(runs.whole(a, runs.join(b, c)), name + ", the last two joined")
        held(runs.whole(runs.join(runs.join(a, b), c)), name + ", all joined from the left")
        held(runs.whole(runs.join(a, runs.join(b, c))), name + ", all joined from the right")
    return right, wrong


def main():
    right = 0
    with concurrent.futures.ThreadPoolExecutor(os.cpu_count()) as pool:
        for count, wrong in pool.map(lambda row: cut(*row[1], row[0]), enumerate(texts())):
            right += count
            for line in wrong[:3]:
                print(line)
    print("%d verdicts are right" % right)


main()
