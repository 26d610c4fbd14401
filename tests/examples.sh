#!/usr/bin/env bash
# The functions that docs/CALLING.md quotes stand word for word in the examples, and each public one is quoted. A `main` is a program's
# of its own, and stands in none.
. "$(dirname "$0")/lib.sh"

# unlike: tells each function that is quoted and stands in no example, and each public one that is not quoted.
unlike() {
    python3 - "$root" <<'PYTHON'
import pathlib
import re
import sys

root = pathlib.Path(sys.argv[1])
sources = [path.read_text() for path in sorted(root.glob("crates/test_examples/src/*.rt"))]
page = (root / "docs" / "CALLING.md").read_text()
# An indented part that begins with a function, up to the next line that is not indented.
parts = re.findall(r"^    (?:pub )?fn .*(?:\n    .*|\n(?=\n*    (?! *$)))*", page, re.M)
functions = {}
for part in parts:
    text = re.sub(r"^    ", "", part, flags=re.M)
    for found in re.finditer(r"^(?:pub )?fn (\w+).*?^}$", text, re.S | re.M):
        if found.group(1) != "main":
            functions[found.group(1)] = found.group(0)
for name, text in functions.items():
    if not any("\n" + text + "\n" in "\n" + source for source in sources):
        print("not as it stands:", name)
for source in sources:
    for name in re.findall(r"^pub fn (\w+)", source, re.M):
        if name not in functions:
            print("not quoted:", name)
if not functions:
    print("no function is quoted")
PYTHON
}

the_examples_are_quoted_as_they_stand() {
    same 'docs/CALLING.md: the examples that it quotes' '' "$(unlike)"
}

tests the_examples_are_quoted_as_they_stand
