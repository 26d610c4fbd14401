"""Reads records of parts of texts, from docs/FORMAT.md alone, and holds them to a plain reading of the bytes.

    record.py RECORD BYTES    refuses what is no record; else says how many answers of the record equal the plain reading's
"""
import hashlib
import itertools
import sys

from machine import ENTRIES, EXPECTATIONS, KINDS, STATES, act, read, top

TAG = b"\x89jxrun\n\x01"


class NoRecord(Exception):
    pass


def need(holds, words):
    if not holds:
        raise NoRecord(words)


class Cursor:
    def __init__(self, data):
        self.data, self.at = data, 0

    def byte(self):
        need(self.at < len(self.data), "cut short")
        self.at += 1
        return self.data[self.at - 1]

    def number(self):
        need(self.at + 8 <= len(self.data), "cut short")
        self.at += 8
        return int.from_bytes(self.data[self.at - 8:self.at], "big")

    def one_of(self, things, what):
        place = self.byte()
        need(place < len(things), what)
        return things[place]

    def flag(self):
        return self.one_of([False, True], "flag")

    def optional(self, what):
        return what() if self.flag() else None

    def several(self, what, most=1 << 64):
        count = self.number()
        need(count <= most, "parts")
        return [what() for _ in range(count)]

    def way(self):
        end = ("fault", self.number()) if self.flag() else ("state", self.one_of(STATES, "state"))
        return end, self.number()

    def form(self):
        ended = self.several(lambda: (self.optional(self.number), self.optional(self.number), self.number()))
        last = tuple(self.optional(self.number) for _ in range(3))
        opens = self.several(lambda: self.one_of("AO-", "container"))
        leave = self.optional(lambda: self.one_of(ENTRIES, "entry"))
        return {"ended": ended, "last": last, "opens": tuple(opens), "exit": leave, "heights": self.several(self.number)}

    def structure(self):
        string = self.optional(self.number)
        rest = self.optional(lambda: ((self.one_of(KINDS, "mark"), self.number()), self.form()))
        marks = ([('"', string)] if string is not None else []) + ([rest[0]] if rest else [])
        return {"marks": marks, "form": rest[1] if rest else None}


def offsets(form):
    found = [at for level in form["ended"] + [form["last"]] for at in level if at is not None]
    return found + form["heights"]


def check_form(depth, form):
    ended, opens, heights = len(form["ended"]), len(form["opens"]), len(form["heights"])
    need(ended <= depth and opens <= depth and heights <= depth + 1 and opens <= ended + heights, "parts")
    faulted = all(at is not None for at in form["last"])
    if form["exit"] is None:
        need(faulted or depth < ended + heights, "parts")
    else:
        need(not faulted, "parts")


def check_structure(depth, length, structure):
    least = 0
    for _, at in structure["marks"]:
        need(least <= at < length, "parts")
        least = at + 1
    if structure["form"]:
        check_form(depth, structure["form"])
        need(all(least <= at < length for at in offsets(structure["form"])), "parts")


def decode(data):
    need(data[:7] == TAG[:7] and len(data) >= 8, "not a run")
    need(data[7] == 1, "other version")
    head = Cursor(data)
    head.at = 8
    size, depth = head.number(), head.number()
    need(depth <= 65535, "depth")
    need(len(data) >= size, "cut short")
    need(len(data) == size, "rest")
    need(len(data) >= 56, "size")
    need(hashlib.sha256(data[:-32]).digest() == data[-32:], "damaged")
    body = Cursor(data[24:-32])
    run = {"depth": depth, "from": body.optional(body.number), "length": body.number()}
    run["ways"], run["structures"] = body.several(body.way), body.several(body.structure, 32)
    need(body.at == len(body.data), "rest")
    need((run["from"] or 0) + run["length"] < 1 << 64, "parts")
    need(len(run["ways"]) == 32, "parts")
    need(all(place < len(run["structures"]) for _, place in run["ways"]), "parts")
    for structure in run["structures"]:
        check_structure(depth, run["length"], structure)
    return run


def expected(entry, holders):
    """What an expectation is in the innermost container."""
    inside = top(holders) == "O"
    if entry == "ValueOrName":
        return "Name" if inside else "Value"
    if entry == "AfterOrColon":
        return "Colon" if inside else "After"
    return entry


def form_acts(depth, form, holders):
    deep = dict(enumerate(form["heights"])).get(depth - len(holders))
    at = None
    for level in form["ended"] + [form["last"]]:
        at = level["AO-".index(top(holders))]
        if at is not None:
            break
        if level is not form["last"]:
            holders = holders[:-1]
    if deep is not None and (at is None or deep < at):
        return ("too deep", deep)
    if at is not None:
        return ("stopped", at)
    holders = holders + form["opens"]
    return ("went", expected(form["exit"], holders), holders)


def answer(run, state, expect, holders):
    end, place = run["ways"][STATES.index(state)]
    structure = run["structures"][place]
    for kind, at in structure["marks"]:
        outcome = act(run["depth"], kind, at, expect, holders)
        if outcome[0] != "went":
            return outcome
        _, expect, holders = outcome
    if structure["form"]:
        outcome = form_acts(run["depth"], structure["form"], holders)
        if outcome[0] != "went":
            return outcome
        _, expect, holders = outcome
    return ("stopped", end[1]) if end[0] == "fault" else ("went", end[1], expect, holders)


def hold(run, data, most=3):
    """Holds all answers over lists of up to `most` open containers to the plain reading; says how many."""
    held = 0
    for state, expect in itertools.product(STATES, EXPECTATIONS):
        for count in range(min(run["depth"], most) + 1):
            for holders in itertools.product("AO", repeat=count):
                wanted = read(run["depth"], data, state, expect, holders)
                found = answer(run, state, expect, holders)
                assert found == wanted, (state, expect, holders, found, wanted)
                held += 1
    return held


def main():
    with open(sys.argv[1], "rb") as record, open(sys.argv[2], "rb") as data:
        run, data = decode(record.read()), data.read()
    assert run["length"] == len(data)
    print(hold(run, data))


if __name__ == "__main__":
    main()
