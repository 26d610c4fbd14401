#!/usr/bin/env python3
"""Holds the program to the cases of a public corpus: cases.py PROGRAM READERS CORPUS FOLDER

CORPUS is one of those below, and FOLDER where its package was unpacked. A case is accepted or refused as its corpus has it, or left open: then
the table `open` beside this file says what jx says. The plain readers say at which byte. Prints what differs, and a line of counts.
"""
import ast
import json
import pathlib
import re
import subprocess
import sys
import tempfile

HERE = pathlib.Path(__file__).resolve().parent
sys.path.insert(0, str(HERE.parent.parent / "fuzz"))
import plain  # noqa: E402

ACCEPTED, REFUSED, OPEN = "accepted", "refused", "open"


def jsontestsuite(folder):
    """Accepted, refused or left open by the first letter of a file's name."""
    for path in sorted(folder.rglob("test_parsing/*.json")):
        yield path.stem, path.read_bytes(), {"y": ACCEPTED, "n": REFUSED, "i": OPEN}[path.name[0]]
    for path in sorted(folder.rglob("test_transform/*.json")):
        # These are about values: a string's bytes may be no UTF-8.
        if "invalid_codepoint" not in path.name or "escaped" in path.name:
            yield path.stem, path.read_bytes(), ACCEPTED


def json_checker(folder):
    """The lists that Python's tests have of it."""
    for number in 1, 2, 3:
        tree = ast.parse(next(folder.rglob("test_json/test_pass%d.py" % number)).read_text())
        (text,) = [ast.literal_eval(it.value) for it in tree.body if isinstance(it, ast.Assign) and it.targets[0].id == "JSON"]
        yield "pass%d" % number, text.encode(), ACCEPTED
    tree = ast.parse(next(folder.rglob("test_json/test_fail.py")).read_text())
    (texts,) = [ast.literal_eval(it.value) for it in tree.body if isinstance(it, ast.Assign) and it.targets[0].id == "JSONDOCS"]
    for number, text in enumerate(texts, 1):
        yield "fail%d" % number, text.encode(), REFUSED


def jansson(folder):
    """A folder for each case. Its `strip` says that blanks are taken off before it is read, which changes no verdict."""
    for kind in "valid", "invalid", "invalid-unicode":
        for path in sorted(folder.rglob("test/suites/%s/*/input" % kind)):
            yield "%s/%s" % (kind, path.parent.name), path.read_bytes(), ACCEPTED if kind == "valid" else REFUSED


def schemas(folder):
    """Each file of the suite is a text."""
    for path in sorted(folder.rglob("json-schema-test-suite/**/*.json")):
        yield str(path.relative_to(folder)), path.read_bytes(), ACCEPTED


def pointers(folder):
    """What JSON Schema calls a JSON pointer, as a string; jx tells those that are none from others by a text that has no such value."""
    for group in json.loads(next(folder.rglob("format/json-pointer.json")).read_text()):
        for test in group["tests"]:
            if isinstance(test["data"], str):
                yield test["description"], test["data"].encode(), ACCEPTED if test["valid"] else REFUSED


class Cases:
    def __init__(self, program, readers, corpus):
        self.program, self.readers, self.corpus = program, readers, corpus
        self.counts = dict.fromkeys((ACCEPTED, REFUSED, OPEN), 0)
        self.wrong = 0
        lines = [line.split() for line in (HERE / "open").read_text().splitlines() if line and line[0] != "#"]
        self.open = {name: said for named, name, said in lines if named == corpus}

    def judge(self, name, wanted, said, is_accepted):
        """`said` is whether the line of the program is that of the plain readers."""
        due = self.open.get(name, wanted)
        holds = said and due in (ACCEPTED, REFUSED) and (due == ACCEPTED) == is_accepted
        self.counts[OPEN if name in self.open else wanted] += holds
        self.wrong += not holds
        if not holds:
            print("%s: %s: jx %s it, the line is %sthat of the plain reader" % (self.corpus, name, "accepts" if is_accepted else "refuses", "" if said else "not "))

    def texts(self, cases):
        """All in one process."""
        settings = plain.Settings(512, 0)
        with tempfile.TemporaryDirectory() as folder:
            paths = [pathlib.Path(folder, str(number)) for number in range(len(cases))]
            for path, (_, text, _) in zip(paths, cases):
                path.write_bytes(text)
            run = subprocess.run([self.program, "check", *paths], capture_output=True)
            lines = run.stdout.decode().splitlines()
        assert len(lines) == len(cases) > 1, run.stderr
        for path, (name, text, wanted), line in zip(paths, cases, lines):
            verdict, _ = self.readers.read(text, settings)
            self.judge(name, wanted, line == "%s: %s" % (path, verdict), line.endswith(": accepted"))

    def pointers(self, cases):
        settings, text = plain.Settings(512, 0), b"{}"
        for name, pointer, wanted in cases:
            run = subprocess.run([self.program, "at", "--", pointer], input=text, capture_output=True)
            verdict, rows = self.readers.read(text, settings)
            answer = self.readers.find(text, rows, verdict, pointer)
            # A word that is no pointer is a fault of the call.
            line = run.stdout.decode().rstrip("\n")
            if run.returncode == 2:
                line = re.search(r"(no slash|bad escape at \d+)(: a FILE stands behind --file)?\n$", run.stderr.decode(errors="replace"))[1]
            self.judge(name, wanted, line == str(answer), not line.startswith(("no slash", "bad escape")))


def main():
    program, readers, corpus, folder = sys.argv[1], plain.Readers(sys.argv[2]), sys.argv[3], pathlib.Path(sys.argv[4])
    found = {"jsontestsuite": jsontestsuite, "json_checker": json_checker, "jansson": jansson, "schemas": schemas, "pointers": pointers}
    cases = Cases(program, readers, corpus)
    (cases.pointers if corpus == "pointers" else cases.texts)(list(found[corpus](folder)))
    print("%d accepted, %d refused, %d open, %d wrong" % (*cases.counts.values(), cases.wrong))


if __name__ == "__main__":
    main()
