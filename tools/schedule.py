#!/usr/bin/env python3
"""Proves crates side by side, the longest chain of them first, and builds the programs and libraries that stand on them.

    schedule.py TOP..       TOP is jx, jx_c or jx_lsp; all that these stand on is proved first
    schedule.py --weigh     writes what builds here measured into tools/weights.txt

tools/build calls this and holds the lock. It is a program of its own in Python, and no part of that script: `rt` is a Python program too,
so whoever can prove has Python.

The toolchain works on one crate of a repository at a time where two stand on a third. So each crate is proved in a room: a folder with
the crate, and with what is proved below it, by hard links. What is kept for the next check is then moved back.
"""
import os
import pathlib
import queue
import re
import shutil
import signal
import subprocess
import sys
import threading
import time

ROOT = pathlib.Path(__file__).resolve().parent.parent
ROOMS = ROOT / "jx.rooms"
# A file that is as old as the build, and the sources of its crates as they were then.
BEGAN, TEXTS = ROOMS / "began", ROOMS / "sources"
WEIGHTS = ROOT / "tools/weights.txt"
# How long the last build took, and over what: seconds, crates proved, processors. Then processor time of each crate, as measured here.
LAST = ROOT / "jx.last"
SOURCES = ("src", "specs", "proofs")
# What a program that was built is tried with, and its stamp; a stamp's time is that when the build began.
TOPS = {"jx": (["check"], ROOT / "jx.stamp"), "jx_lsp": (["--version"], ROOT / "jx.server.stamp"), "jx_c": ([], ROOT / "crates/jx_c/out/proved")}
NAMES = {"jx": "the program", "jx_c": "the library for C", "jx_lsp": "the language server"}
# Seconds of a crate that has no weight.
USUAL = 60
# A crate is on the longest chain if what waits for it is at most so much shorter than what waits for any other.
SLACK = 0.1
# More jobs than this gain nothing.
MOST_JOBS = 4
# Bytes that a check may take, and each of its jobs.
OF_A_CHECK, OF_A_JOB = 4_000_000_000, 1_000_000_000
# So many checks at once, whatever processors and memory there are.
MOST_CHECKS = int(os.environ.get("JX_CHECKS") or 0)
# Of checks off the longest chain. They get what the chain leaves, and other programs of the machine do not wait for them.
NICE = 5
# The lock that tools/build holds: checks hold it too, so that no second build begins while those of a killed one run.
LOCK = 9


def say(text):
    print("jx: " + text, file=sys.stderr, flush=True)


def read_numbers(file):
    """The lines `NAME NUMBER` of a file."""
    lines = file.read_text().splitlines() if file.exists() else []
    return {found[1]: int(found[2]) for found in (re.fullmatch(r"([a-z_0-9]+) (\d+)", line) for line in lines) if found}


class Crate:
    def __init__(self, name, line, words):
        self.name, self.line, self.words = name, line, words
        self.folder = ROOT / "crates" / name
        self.below = []

    def all_below(self):
        found = {}
        for one in self.below:
            found.update({it.name: it for it in one.all_below()})
            found[one.name] = one
        return list(found.values())

    def stamp(self):
        return TOPS[self.name][1] if self.name in TOPS else self.folder / "out/rlib/stamp"

    def made(self):
        """What is there once the crate is built."""
        if self.name == "jx_c":
            return self.folder / "out/libjx_c.a"
        return self.folder / "out" / self.name if self.name in TOPS else self.stamp()

    def is_older(self, time_of_stamp):
        for part in SOURCES:
            for at, _, names in os.walk(self.folder / part):
                if any(os.stat(it).st_mtime_ns > time_of_stamp for it in [at, *(os.path.join(at, name) for name in names)]):
                    return False
        return True

    def is_kept(self):
        """Whether the crate is proved, and neither it nor what it stands on has changed since."""
        if not self.made().exists() or not self.stamp().exists():
            return False
        kept = self.stamp().stat().st_mtime_ns
        if (ROOT / "crates.txt").stat().st_mtime_ns > kept or not self.is_older(kept):
            return False
        if self.name in TOPS:
            return all(it.is_older(kept) for it in self.all_below())
        return all(it.stamp().exists() and it.stamp().stat().st_mtime_ns <= kept for it in self.below)

    def command(self, jobs):
        words = [*TOPS.get(self.name, ([], None))[0]]
        return ["rt", *(["run", "--jobs", str(jobs), "--", *words] if words else ["lib", "--jobs", str(jobs)])]


def read_crates():
    found = {}
    for line in (ROOT / "crates.txt").read_text().splitlines():
        name, colon, words = line.partition("#")[0].partition(":")
        if colon and (ROOT / "crates" / name.split()[0]).is_dir():
            found[name.split()[0]] = Crate(name.split()[0], line, words.replace(",", " ").split())
    for crate in found.values():
        crate.below = [found[it] for it in crate.words if it in found]
    return found


def link(one, other):
    try:
        os.link(one, other)
    except OSError:
        shutil.copy2(one, other)


def set_stamp(file):
    """Gives a stamp the time when the build began: a source that is newer was not read. As a new file, since other checkouts may have links
    to the one that is there."""
    began = BEGAN.stat().st_mtime_ns
    new = file.with_name(file.name + ".new")
    new.write_bytes(file.read_bytes() if file.exists() else b"")
    os.utime(new, ns=(began, began))
    new.replace(file)


def copy_sources(crates):
    """Copies the sources as they are now. So a build proves one text, whatever is changed while it runs."""
    BEGAN.touch()
    for one in crates:
        (TEXTS / one.name).mkdir(parents=True)
        for part in SOURCES:
            if (one.folder / part).is_dir():
                shutil.copytree(one.folder / part, TEXTS / one.name / part, copy_function=shutil.copyfile)


def link_proofs(one, other):
    """A check replaces a module that was proved, and may write into the files beside these."""
    (link if one.endswith(".oantt") else shutil.copy2)(one, other)


class Room:
    """A folder in which one crate is proved."""

    def __init__(self, crate):
        self.crate, self.at = crate, ROOMS / crate.name
        self.own = self.at / "crates" / crate.name
        self.log = ROOMS / (crate.name + ".log")

    def furnish(self):
        """Gives the room what a check of the crate reads: sources, the libraries below, and what is left of earlier checks."""
        names = [*self.crate.all_below(), self.crate]
        (self.at / "crates").mkdir(parents=True)
        (self.at / "crates.txt").write_text("".join(it.line + "\n" for it in names))
        for one in names:
            inside = self.at / "crates" / one.name
            shutil.copytree(TEXTS / one.name, inside, copy_function=link)
            (inside / "out").mkdir()
            if (one.folder / "out/rlib").is_dir():
                # The toolchain makes a library's files anew, and writes into none.
                shutil.copytree(one.folder / "out/rlib", inside / "out/rlib", copy_function=link)
        was = self.crate.folder / "out"
        if (was / "incremental").is_dir():
            shutil.copytree(was / "incremental", self.own / "out/incremental", copy_function=link_proofs)
        # A program that is as it was is only run again.
        for name in (self.crate.name, self.crate.name + ".stamp"):
            if (was / name).is_file():
                shutil.copy2(was / name, self.own / "out" / name)

    def keep(self):
        """Moves what the check left into the crate's own folder."""
        self.move(*[it.name for it in (self.own / "out").iterdir()])
        if self.crate.name not in TOPS:
            set_stamp(self.crate.stamp())

    def keep_work(self):
        """The same of a check that failed or was stopped: what it proved until then."""
        if (self.own / "out/incremental").is_dir():
            self.move("incremental")

    def move(self, *names):
        out = self.crate.folder / "out"
        out.mkdir(exist_ok=True)
        for name in names:
            to = out / name
            if to.is_dir():
                shutil.rmtree(to)
            os.rename(self.own / "out" / name, to)

    def clear(self):
        shutil.rmtree(self.at, ignore_errors=True)


class Check(threading.Thread):
    """One crate's check, in a room of its own. When it has ended it stands in the build's queue."""

    def __init__(self, build, crate, jobs, niceness):
        super().__init__(daemon=True)
        self.build, self.crate, self.jobs, self.niceness = build, crate, jobs, niceness
        self.room, self.process, self.fault = Room(crate), None, None
        self.began, self.seconds, self.spent, self.is_proved = time.monotonic(), 0, 0.0, False
        self.starts = threading.Lock()
        self.is_stopped = False

    def run(self):
        try:
            is_first = not (self.crate.folder / "out/incremental").is_dir()
            self.room.furnish()
            self.is_proved = self.prove()
            self.seconds = round(time.monotonic() - self.began)
            said = self.room.log.read_text(errors="replace") if self.room.log.exists() else ""
            if self.is_proved:
                self.room.keep()
                # What a check took that had nothing to begin with.
                if is_first and "logic=proved" in said and "begins with what a check kept" not in said:
                    self.build.weighed[self.crate.name] = max(1, round(self.spent))
            else:
                self.room.keep_work()
        except OSError as error:
            self.is_proved, self.fault = False, error
        # What waits for this crate need not wait until the room is cleared.
        self.build.ended.put(self)
        self.room.clear()

    def prove(self):
        words = self.crate.command(self.jobs)
        if self.niceness:
            words = ["nice", "-n", str(self.niceness), *words]
        with open(ROOMS / "text") as text, open(self.room.log, "w") as log:
            with self.starts:
                if self.is_stopped:
                    return False
                how = {"stdin": text, "stdout": log, "stderr": subprocess.STDOUT}
                self.process = subprocess.Popen(words, cwd=self.room.own, pass_fds=self.build.held, **how)
            os.waitid(os.P_PID, self.process.pid, os.WEXITED | os.WNOWAIT)
            with self.starts:
                _, status, usage = os.wait4(self.process.pid, 0)
                self.process.returncode = status
        self.spent = usage.ru_utime + usage.ru_stime
        return status == 0

    def stop(self):
        with self.starts:
            self.is_stopped = True
            if self.process and self.process.returncode is None:
                os.kill(self.process.pid, signal.SIGTERM)

    def memory(self):
        return OF_A_CHECK + self.jobs * OF_A_JOB


class Stopped(Exception):
    pass


def processors():
    return len(os.sched_getaffinity(0))


def free_memory():
    if MOST_CHECKS:
        return MOST_CHECKS * (OF_A_CHECK + MOST_JOBS * OF_A_JOB)
    with open("/proc/meminfo") as lines:
        return next(int(line.split()[1]) * 1000 for line in lines if line.startswith("MemAvailable:"))


def held_lock():
    try:
        os.fstat(LOCK)
        return (LOCK,)
    except OSError:
        return ()


class Build:
    def __init__(self, tops):
        self.tops = tops
        self.crates = list(dict.fromkeys(it for top in tops for it in [*top.all_below(), top]))
        self.weights = read_numbers(WEIGHTS)
        self.above = {it.name: [other for other in self.crates if it in other.below] for it in self.crates}
        self.rests = {}
        # (a signal's handler may put into it at any time)
        self.ended = queue.SimpleQueue()
        self.weighed, self.held = {}, held_lock()
        self.waiting, self.begun, self.running, self.done = [*self.crates], [], [], {}
        self.failed = []
        self.memory = free_memory()
        self.began = time.monotonic()

    def weight(self, crate):
        return self.weights.get(crate.name, USUAL)

    def rest(self, crate):
        """Seconds of the longest chain of crates that begins with this one."""
        if crate.name not in self.rests:
            self.rests[crate.name] = self.weight(crate) + max((self.rest(it) for it in self.above[crate.name]), default=0)
        return self.rests[crate.name]

    def longest(self):
        """The longest chain that is still to be proved."""
        begun = [self.rest(it.crate) - min(self.weight(it.crate), time.monotonic() - it.began) for it in self.running]
        return max([*begun, *(self.rest(it) for it in self.waiting)], default=0)

    def next_one(self):
        """What to begin now, if there is a processor and memory for it: a crate, its jobs, how nice it is."""
        ready = [it for it in self.waiting if all(below.name in self.done for below in it.below)]
        count = processors()
        if not ready or len(self.running) >= (MOST_CHECKS or count):
            return None
        crate = max(ready, key=self.rest)
        is_on_chain = self.rest(crate) >= (1 - SLACK) * self.longest()
        jobs = min(MOST_JOBS, count if is_on_chain else max(1, count // (len(self.running) + len(ready))))
        left = self.memory - sum(it.memory() for it in self.running) - OF_A_CHECK
        if self.running and left < OF_A_JOB:
            return None
        return crate, int(max(1, min(jobs, left // OF_A_JOB))), 0 if is_on_chain else NICE

    def begin_more(self):
        for crate in [*self.waiting]:
            if all(it.name in self.done for it in crate.below) and crate.is_kept():
                self.waiting.remove(crate)
                self.done[crate.name] = None
        while not self.failed:
            chosen = self.next_one()
            if not chosen:
                return
            check = Check(self, *chosen)
            self.waiting.remove(check.crate)
            self.running.append(check)
            self.begun.append(check)
            check.start()

    def behind(self, crate):
        """Which crate below was proved last, of those that this build proved."""
        proved = [it.name for it in crate.below if self.done.get(it.name)]
        return max(proved, key=lambda it: self.done[it][0], default=None)

    def note(self, check):
        self.running.remove(check)
        crate = check.crate
        if not check.is_proved:
            self.failed.append(check)
            if self.running:
                names = ", ".join(it.crate.name for it in self.running)
                say("%s is not proved; what was begun goes on, to keep what it proves: %s" % (crate.name, names))
            return
        behind = self.behind(crate)
        self.done[crate.name] = (time.monotonic(), check.seconds, behind)
        proved = "proved and built" if crate.name in TOPS else "proved"
        of_all = "%d of %d" % (len(self.done), len(self.crates))
        say("%s %s in %d s, from %d s on%s; %s" % (proved, crate.name, check.seconds, check.began - self.began, ", behind " + behind if behind else "", of_all))

    def run(self):
        """Proves all, and returns whether it could."""
        try:
            copy_sources(self.crates)
            self.begin_more()
            while self.running:
                check = self.ended.get()
                if check is None:
                    self.stop()
                    raise Stopped
                self.note(check)
                self.begin_more()
        finally:
            self.write_last()
            for check in self.begun:
                check.join()
        return not self.failed

    def stop(self):
        for check in self.running:
            check.stop()

    def chain(self):
        """The crates that waited for one another, from the lowest one up to the one that was proved last, each with its seconds."""
        one = max((it for it in self.done if self.done[it]), key=lambda it: self.done[it][0], default=None)
        found = []
        while one:
            found.insert(0, "%s %d s" % (one, self.done[one][1]))
            one = self.done[one][2]
        return ", ".join(found)

    def write_last(self):
        was = LAST.read_text().splitlines()[:1] if LAST.exists() else [""]
        if not self.waiting and not self.failed:
            proved = sum(it is not None for it in self.done.values())
            was = ["%d %d %d" % (time.monotonic() - self.began, proved, processors())]
        seconds = {**read_numbers(LAST), **self.weighed}
        LAST.write_text("\n".join([*was, *("%s %d" % it for it in sorted(seconds.items()))]) + "\n")


def announce(tops):
    what = [NAMES[it.name] for it in tops]
    what = " and ".join([", ".join(what[:-1]), what[-1]] if len(what) > 1 else what)
    last = re.match(r"(\d+) (\d+) (\d+)$", LAST.read_text().partition("\n")[0] if LAST.exists() else "")
    if last:
        say("proves and builds %s; the last build took %s s for %s crates on %s processors" % (what, *last.groups()))
    else:
        say('proves and builds %s for the first time here, which takes minutes (README.md, "Build and test")' % what)


def weigh():
    """Writes what builds here measured into the file of the repository. Other crates keep their weights."""
    head = [line for line in WEIGHTS.read_text().splitlines() if line.startswith("#")]
    seconds = {**read_numbers(WEIGHTS), **read_numbers(LAST)}
    names = [it for it in read_crates() if it in seconds]
    WEIGHTS.write_text("\n".join([*head, *("%s %d" % (it, seconds[it]) for it in names)]) + "\n")


def main(words):
    if words == ["--weigh"]:
        weigh()
        return 0
    known = read_crates()
    tops = [it for it in (known[word] for word in words) if not it.is_kept()]
    if not tops:
        return 0
    announce(tops)
    shutil.rmtree(ROOMS, ignore_errors=True)
    try:
        ROOMS.mkdir()
        (ROOMS / "text").write_text("null")
        build = Build(tops)
        for each in (signal.SIGINT, signal.SIGTERM, signal.SIGHUP):
            signal.signal(each, lambda *_: build.ended.put(None))
        if not build.run():
            for check in build.failed:
                sys.stderr.write(check.room.log.read_text(errors="replace") if check.room.log.exists() else "")
                say("cannot build: " + ("%s: %s" % (check.crate.name, check.fault) if check.fault else check.crate.name + " is not proved"))
            return 2
        if sum(it is not None for it in build.done.values()) > 1:
            say("the longest chain: " + build.chain())
        for top in tops:
            set_stamp(top.stamp())
    except Stopped:
        say("stopped; what is proved until now is kept")
        return 2
    finally:
        shutil.rmtree(ROOMS, ignore_errors=True)
    return 0


if __name__ == "__main__":
    sys.exit(main(sys.argv[1:]))
