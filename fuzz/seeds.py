#!/usr/bin/env python3
"""Writes first inputs of the fuzzer into a folder: seeds.py FOLDER [SEED]

They are made of the project's own texts: the tables tests/verdicts and tests/pointers, the words of calls in crates/*/stdin, the runs that
docs/FORMAT.md shows. Beside them stand small texts by dice, long objects and arrays, and deep ones.
"""
import hashlib
import pathlib
import random
import re
import sys

import texts

ROOT = pathlib.Path(__file__).resolve().parent.parent
# The targets, in the order of fuzz.c.
TARGETS = ["check", "feed", "forged reader", "rows", "pointers", "index", "elements", "document", "joins", "forged runs", "any runs", "compact", "lines", "values", "saved", "forged saved", "explain"]
ANY_RUNS = TARGETS.index("any runs")
# Bits of the byte of settings (input.h).
SHORT_OF_MEMORY, REPEATS, LARGE = 0x20, 0xC0, 0x10
# Texts, and the part of each that comes many times, with other capital letters.
REPEATED = [
    (b'{"ABCDE":1,"x":0}', b'"ABCDE":1,'),
    (b'[{"A":1,"B":[]},0]', b'{"A":1,"B":[]},'),
    (b'{"ABCDEFGHIJKL":{"A":0},"x":0}', b'"ABCDEFGHIJKL":{"A":0},'),
    (b'\x1e{"AB":1,"x":0}', b'"AB":1,'),
    (b'{"\\u00e9A\xc3\xa9B":"X","x":0}', b'"\\u00e9A\xc3\xa9B":"X",'),
]


def spelt(text):
    """The bytes of a text in which a byte may be spelt \\xHH."""
    return re.sub(rb"\\x([0-9A-Fa-f]{2})", lambda found: bytes([int(found[1], 16)]), text)


def texts_of_tables():
    for line in (ROOT / "tests/verdicts").read_bytes().splitlines():
        if line and not line.startswith(b"#"):
            yield spelt(line.split(b" ", 3)[3])
    for line in (ROOT / "tests/pointers").read_bytes().splitlines():
        if line.startswith(b"text "):
            yield spelt(line.split(b" ", 3)[3])
        elif line and not line.startswith(b"#"):
            yield spelt(line.partition(b":")[2])


def texts_of_calls():
    """Each word of a call: most are texts, or say what texts come to."""
    for path in sorted(ROOT.glob("crates/test_calls*/stdin")):
        for line in path.read_bytes().splitlines():
            if not line.startswith(b"#"):
                yield from (spelt(word) for word in line.split(b" ")[1:])


def runs_of_the_page():
    shown = (ROOT / "docs/FORMAT.md").read_text().partition("\n## Three run files")[2].partition("\n# ")[0]
    return [bytes.fromhex("".join(block.split())) for block in re.findall(r"\n\n((?:    [0-9a-f]+\n)+)", shown)]


class Seeds:
    def __init__(self, folder, seed):
        self.folder, self.dice = pathlib.Path(folder), random.Random(seed)
        self.folder.mkdir(parents=True, exist_ok=True)

    def put(self, target, text, settings=None, choices=None):
        dice = self.dice
        if choices is None:
            choices = dice.randbytes(dice.choice([0, 4, 16, 60]))
        if settings is None:
            # Few inputs are short of memory or repeated: those that are take long.
            depth = 0 if dice.random() < 0.6 else dice.randrange(8)
            settings = dice.randrange(4) | depth << 2 | (dice.random() < 0.2) * SHORT_OF_MEMORY | (dice.random() < 0.1) * REPEATS
        data = bytes([target, settings, len(choices)]) + choices + text
        (self.folder / hashlib.sha1(data).hexdigest()).write_bytes(data)

    def put_own_texts(self):
        for text in {*texts_of_tables(), *texts_of_calls()}:
            for target in self.dice.sample(range(len(TARGETS)), 3):
                self.put(target, text)

    def put_runs(self):
        runs = runs_of_the_page()
        for left in runs:
            for right in runs:
                # Two bytes of choices say where the right one begins; the third says that none is sealed anew.
                self.put(ANY_RUNS, left + right, 0, len(left).to_bytes(2, "big") + b"\0")

    def put_long_texts(self):
        """The choices say which part comes how often: 1 to 8,192 times."""
        for target in range(len(TARGETS)):
            for text, part in REPEATED:
                for times in range(14):
                    how = next(it for it in range(0x80, 0x100) if it % 14 == times)
                    is_short = self.dice.random() < 0.3
                    choices = bytes([self.dice.randrange(64)]) * is_short + bytes([0, text.index(part), len(part), how]) + self.dice.randbytes(60)
                    large = LARGE * (self.dice.random() < 0.5)
                    self.put(target, text, REPEATS | is_short * SHORT_OF_MEMORY | large | self.dice.randrange(4), choices)

    def put_deep_texts(self):
        for target in range(len(TARGETS)):
            for opens, closes in (("[", "]"), ('{"a":', "}"), ('{"a":[', "]}")):
                for count in (1, 2, 3, 64, 65, 511, 512, 513, 600):
                    lost = 0 if opens.endswith(":") else count // 9
                    self.put(target, (opens * count + "1" * (lost == 0 or count % 2) + closes * (count - lost)).encode())

    def put_random_texts(self, count):
        for _ in range(count):
            self.put(self.dice.randrange(len(TARGETS)), texts.small(self.dice))


def main():
    seeds = Seeds(sys.argv[1], int(sys.argv[2]) if len(sys.argv) > 2 else 0)
    seeds.put_own_texts()
    seeds.put_runs()
    seeds.put_long_texts()
    seeds.put_deep_texts()
    seeds.put_random_texts(3000)


if __name__ == "__main__":
    main()
