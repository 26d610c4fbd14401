#!/usr/bin/env python3
"""Runs the parts of the gate, prints how far they are, and counts what passed and what failed.

The parts' own lines go through as they are, those of parts that run side by side once each has ended. A line that begins with
`gate: ` gives the time since the start. At the end stand two tables, of the parts and of each crate's checks, and the longest chain of
proofs, which bounds the elapsed time. After them each failure of a test is printed again, since it is far up by then. Then comes when
the wrong bodies beside the gate last passed. The last line is `N passed, M failed`.
"""
import collections
import os
import pathlib
import queue
import re
import subprocess
import sys
import threading
import time

sys.dont_write_bytecode = True
import schedule  # noqa: E402

ROOT = schedule.ROOT
PROOFS = ("proofs, wrong bodies, proved tests, programs", ["rt", "ci"])
# What runs over the programs that these built: the lists side by side, the parts of each one after another. Fuzzing keeps few processors busy.
BEHIND = (
    (("tests of the program", ["tests/run"]),),
    (("fuzzing of the library", ["fuzz/run", "60"]), ("refused memory, failing reads and writes", ["tests/refusals/run"])),
)
COUNTS = re.compile(r"(\d+) passed, (\d+) failed$")
# Lines of `rt ci` that end a step of a crate.
STEP = re.compile(r"^rt: ((\w+)(: its tests)? (proved|NOT PROVED|is kept\b.*|ran\b.*)|(\w+): its tests (passed|FAILED))$")
# `rt ci` counts a wrong body that it cannot read as no failure: it says nothing of a contract.
BAD_EDIT = "BAD EDIT"
# A line that reports a failure, and how many lines from it on say what was wanted and what came.
FAILURE = re.compile(r": (FAILED|BAD EDIT)\b|^(must-fail|rt): .*\b(NOT TRIED|NOT REFUSED|NOT PROVED|FAILED)\b")
LINES_OF_A_FAILURE = 12
# A line that belongs to no failure before it.
OTHER = re.compile(r"^(rt: |gate: |== |\S+\.sh: \d+ passed)")
# Why a crate is not proved is printed before the line that says so, in its last lines.
NOT_PROVED = re.compile(r"^rt: \w+(: its tests)? NOT PROVED$")
LINES_IN_FRONT = 6
SAMPLE_SECONDS = 2.0


def clock(seconds):
    return "%d:%02d" % divmod(int(seconds), 60)


# What a check is for, in the order of the table.
KINDS = ("proof", "tests", "wrong bodies", "builds")


def kind_of(words):
    """What a check is for. `rt ci` looks for empty contracts in the crate's own proof and in that of its tests, and not with a wrong body."""
    if b"--test" in words:
        return "tests"
    if b"--empty-contracts" in words:
        return "proof"
    return "wrong bodies" if b"check" in words[:2] else "builds"


class Sampler(threading.Thread):
    """Adds up the processor time of each check, by the crate that its command line names and by what it is for."""

    def __init__(self):
        super().__init__(daemon=True)
        self.seen = {}

    def run(self):
        while True:
            for folder in pathlib.Path("/proc").glob("[0-9]*"):
                try:
                    self.look(folder)
                except (OSError, ValueError, IndexError):
                    pass  # It ended meanwhile.
            time.sleep(SAMPLE_SECONDS)

    def look(self, folder):
        words = (folder / "cmdline").read_bytes().split(b"\0")
        if b"--crate-name" not in words:
            return
        crate = words[words.index(b"--crate-name") + 1].decode()
        if not self.is_below(int(folder.name)):
            return  # Somebody else's check.
        fields = (folder / "stat").read_text().rpartition(")")[2].split()
        ticks = int(fields[11]) + int(fields[12])
        self.seen[folder.name, fields[19]] = crate, kind_of(words), ticks / os.sysconf("SC_CLK_TCK")

    def is_below(self, process):
        """Whether this process or one that it started has started that one."""
        while process > 1 and process != os.getpid():
            stat = pathlib.Path("/proc/%d/stat" % process).read_text()
            process = int(stat.rpartition(")")[2].split()[1])
        return process == os.getpid()

    def by_crate(self):
        sums = collections.defaultdict(collections.Counter)
        for crate, kind, seconds in list(self.seen.values()):
            sums[crate][kind] += seconds
        return sums


def longest_chain(seconds):
    """The crates that wait for one another whose proofs take longest together, from the lowest one up."""
    known, best = schedule.read_crates(), {}

    def chain(crate):
        if crate.name not in best:
            below = max((chain(it) for it in crate.below), default=(0, []), key=lambda it: it[0])
            best[crate.name] = below[0] + seconds.get(crate.name, 0), [*below[1], crate.name]
        return best[crate.name]

    return max((chain(it) for it in known.values()), key=lambda it: it[0])


class Part(threading.Thread):
    """Parts that run one after another. Each line of theirs, and the end of each, goes into a queue."""

    def __init__(self, parts, into):
        super().__init__(daemon=True)
        self.parts, self.into = parts, into

    def run(self):
        for name, command in self.parts:
            began = time.monotonic()
            self.into.put(("begins", name, None))
            # Else a part after this one would build anew what the first has built.
            environment = dict(os.environ, CI="true", JX_PROGRAM=str(ROOT / "crates/jx/out/jx"), JX_LIBRARIES_ARE_BUILT="yes")
            started = subprocess.Popen(command, cwd=ROOT, env=environment, stdout=subprocess.PIPE, stderr=subprocess.STDOUT, text=True, errors="replace")
            for line in started.stdout:
                self.into.put(("line", name, line.rstrip("\n")))
            _, status, usage = os.wait4(started.pid, 0)
            started.returncode = os.WEXITSTATUS(status) if os.WIFEXITED(status) else -os.WTERMSIG(status)
            self.into.put(("ended", name, (started.returncode, time.monotonic() - began, usage.ru_utime + usage.ru_stime)))
        self.into.put(("done", None, None))


class Gate:
    def __init__(self):
        self.began = time.monotonic()
        self.passed = self.failed = self.bad = 0
        self.elapsed = []
        self.failures = []
        self.is_failing = False
        self.before = collections.deque(maxlen=LINES_IN_FRONT)

    def say(self, text):
        print("gate: %s %s" % (clock(time.monotonic() - self.began), text), flush=True)

    def parts(self, *lists):
        """Runs lists of parts side by side, prints their lines, and counts what the last line of each says."""
        said = queue.SimpleQueue()
        for each in lists:
            Part(each, said).start()
        is_alone, running, lines = len(lists) == 1, len(lists), collections.defaultdict(list)
        while running:
            what, name, told = said.get()
            if what == "begins":
                self.say("begins: " + name)
            elif what == "line":
                lines[name].append(told)
                if is_alone:
                    self.line(told)
            elif what == "ended":
                for line in [] if is_alone else lines[name]:
                    self.line(line)
                self.end(name, (lines[name] or [""])[-1], *told)
            else:
                running -= 1

    def line(self, line):
        print(line, flush=True)
        self.bad += ": " + BAD_EDIT in line
        self.note(line)
        if STEP.match(line):
            self.say(line.removeprefix("rt: "))

    def end(self, name, last, status, elapsed, spent):
        self.count(name, last, status, self.bad)
        self.bad, self.is_failing = 0, False
        self.before.clear()
        self.elapsed.append((name, elapsed, spent))
        self.say("ended: %s, in %s" % (name, clock(elapsed)))

    def note(self, line):
        """Keeps the lines of a failure, each failure's by themselves."""
        if FAILURE.search(line):
            self.failures.append([*self.before, line] if NOT_PROVED.match(line) else [line])
            self.is_failing = True
        elif OTHER.match(line):
            self.is_failing = False
        elif self.is_failing and len(self.failures[-1]) < LINES_OF_A_FAILURE:
            self.failures[-1].append(line)
        self.before.append(line)

    def tell_failures(self):
        for lines in self.failures:
            print("\nfailed:", *lines, sep="\n")

    def count(self, name, last, status, bad):
        """A part that fails and counts no failure counts as one."""
        found = COUNTS.search(last)
        passed, failed = (int(found[1]), int(found[2])) if found else (0, 0)
        failed += bad
        if not found or status and not failed:
            failed = max(failed, 1)
            self.failures.append(["%s: FAILED: it ended with status %d and counted no failure" % (name, status), *self.before])
        self.passed += passed
        self.failed += failed

    def tables(self, by_crate):
        print("\nelapsed  processor s   part")
        for name, seconds, spent in self.elapsed:
            print("%7s %12d   %s" % (clock(seconds), spent, name))
        print("%7s %12d   all, on %d processors" % (clock(time.monotonic() - self.began), sum(it[2] for it in self.elapsed), os.cpu_count()))
        print("\nprocessor seconds (sampled) of checks, by what they are for\n" + "%13s" * len(KINDS) % KINDS + "   crate, the dearest first")
        for crate, seconds in sorted(by_crate.items(), key=lambda it: -sum(it[1].values())):
            print("".join("%13d" % seconds[kind] for kind in KINDS) + "   " + crate)
        print("".join("%13d" % sum(it[kind] for it in by_crate.values()) for kind in KINDS) + "   all")
        proofs = {crate: seconds["proof"] for crate, seconds in by_crate.items()}
        total, names = longest_chain(proofs)
        print("\nthe longest chain of proofs, %d of %d processor seconds:" % (total, sum(proofs.values())))
        print(", ".join("%s %d" % (name, proofs.get(name, 0)) for name in names))


def main():
    sampler = Sampler()
    sampler.start()
    gate = Gate()
    gate.parts([PROOFS])
    gate.parts(*BEHIND)
    gate.tables(sampler.by_crate())
    gate.tell_failures()
    print(flush=True)
    subprocess.run([ROOT / "tools/wrong_bodies", "--passed"])
    subprocess.run([ROOT / "tools/plant", "--passed"])
    print("%d passed, %d failed" % (gate.passed, gate.failed))
    return 1 if gate.failed else 0


if __name__ == "__main__":
    sys.exit(main())
