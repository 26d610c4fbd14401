"""What each name means: names.py QUESTION [ROOT] prints what is wrong, a line each.

    parts       crates.txt has its parts, a crate stands on crates above it, and each has one layer of docs/ARCHITECTURE.md, not below those
                that it stands on
    words       the glossary of docs/ARCHITECTURE.md has each word once, 30 at most, and each stands in the code or the docs
    types       no public type of the product has the name of another crate's
    format      the words of docs/FORMAT.md's tables are those of the definitions
"""

import pathlib
import re
import sys

ROOT = pathlib.Path(sys.argv[2] if sys.argv[2:] else __file__).resolve()
if ROOT.is_file():
    ROOT = ROOT.parent.parent

PARTS = ["the product, from the lowest layer up", "for callers with threads of their own", "programs, and the library for C", "tests", "tools"]
# What no crate but these tests and tools may stand on.
APART = PARTS[3:]
# Names that several crates give to a public type: each is another thing, and no file takes two of them.
SHARED = {
    "Entry": ("jx_file_index jx_reduce", "what may stand in front of marks; what is kept of a chunk"),
    "Form": ("jx_explain jx_values", "how a verdict is told; how a value is written"),
    "Held": ("jx_book jx_serve", "a run with the text that it is of; a document that a client has open"),
    "Mark": ("jx_lex jx_serve", "the mark of a token; what an editor underlines"),
    "Place": ("jx_compact jx_sentence jx_wire", "outside of strings or in one; a line and a column; a position as a client sends it"),
    "Request": ("jx_command jx_wire", "what words ask for; what a client asks for"),
    "Step": ("jx_lex jx_ndjson", "what reading one byte does; what a reader of lines did with a slice"),
}


def text_of(path):
    return (ROOT / path).read_text()


def crates():
    """The crates of each part of crates.txt, in order, each with what it stands on."""
    found, part = {}, None
    for line in text_of("crates.txt").splitlines():
        if line.startswith("# "):
            part = found.setdefault(line[2:], {})
        elif line:
            name, _, below = line.partition(":")
            part[name.split()[0]] = below.split()
    return found


def wrong_parts():
    found = crates()
    if list(found) != PARTS:
        yield "crates.txt has the parts %s" % ", ".join(found)
    above, apart = [], []
    for part, listed in found.items():
        for name, below in listed.items():
            yield from ("%s stands on %s, which is no crate above it" % (name, it) for it in below if it.startswith(("jx", "test_")) and it not in above)
            yield from ("%s of %s stands on %s" % (name, part, it) for it in below if it in apart and part not in APART)
            above.append(name)
            apart += [name] if part in APART else []
    yield from wrong_layers(found)


def wrong_layers(found):
    table = re.search(r"^\| Layer \|.*\n.*\n((?:\|.*\n)+)", text_of("docs/ARCHITECTURE.md"), re.M)
    rows = table.group(1).splitlines() if table else []
    layers = {}
    for height, cells in enumerate(row.split("|") for row in rows):
        for name in re.findall(r"`(\w+)`", cells[2]):
            yield from ["ARCHITECTURE.md has %s twice" % name] if name in layers else []
            layers[name] = height
    listed = {name: below for part in found.values() for name, below in part.items()}
    yield from ("ARCHITECTURE.md has no layer of %s" % name for name in listed if name not in layers)
    yield from ("ARCHITECTURE.md has %s, which is not in crates.txt" % name for name in layers if name not in listed)
    for name, below in listed.items():
        yield from ("%s stands on %s of a higher layer" % (name, it) for it in below if layers.get(it, -1) > layers.get(name, len(rows)))


def wrong_words():
    page = text_of("docs/ARCHITECTURE.md")
    front, glossary, behind = re.split(r"^## (?=Words$|Conventions$)", page, flags=re.M)
    words = re.findall(r"^\| ([a-z].*?) \|", glossary, re.M)
    if not 20 <= len(words) <= 30:
        yield "the glossary has %d words" % len(words)
    yield from ("the glossary has %s twice" % word for word in sorted(set(words)) if words.count(word) > 1)
    paths = [path for folder in ("src", "specs") for path in (ROOT / "crates").glob("*/%s/**/*" % folder) if path.is_file()]
    paths += [path for path in (ROOT / "docs").glob("*.md") if path.name != "ARCHITECTURE.md"]
    said = front + behind + "".join(path.read_text() for path in sorted(paths))
    yield from ("nothing else has the word %s" % word for word in words if not re.search(r"\b%ss?\b" % word, said, re.I))


def public_types(crate):
    """The types of its own that a library hands out."""
    path = ROOT / "crates" / crate / "src"
    if not (path / "lib.rt").exists():
        return set()
    own = re.findall(
        r"^pub (?:struct|enum|trait|union|type) (\w+)", "\n".join(one.read_text() for one in sorted(path.rglob("*.rt"))), re.M
    )
    lib = (path / "lib.rt").read_text()
    handed = set(re.findall(r"\w+", " ".join(re.findall(r"^pub use ([^;]+);", lib, re.M))))
    at_top = set(re.findall(r"^pub (?:struct|enum|trait|union|type) (\w+)", lib, re.M))
    return {name for name in own if name in handed | at_top}


def wrong_types():
    owners = {}
    for part in PARTS[:3]:
        for crate in crates()[part]:
            for name in public_types(crate):
                owners.setdefault(name, []).append(crate)
    shared = {name: " ".join(sorted(crates_of)) for name, crates_of in owners.items() if len(crates_of) > 1}
    allowed = {name: crates_of for name, (crates_of, _) in SHARED.items()}
    yield from ("%s is a public type of %s" % (name, shared[name]) for name in sorted(shared) if shared[name] != allowed.get(name))
    yield from ("%s is shared no longer by %s" % (name, allowed[name]) for name in sorted(allowed) if shared.get(name) != allowed[name])


def wrong_format():
    page = text_of("docs/FORMAT.md")
    folders = [ROOT / "crates" / crate / "specs" for crate in ("jx_portion", "jx_file_index")]
    specs = "".join(path.read_text() for folder in folders for path in sorted(folder.glob("*.antt")))
    rows = [row for row in page.splitlines() if row.startswith("|")]
    words = [word for row in rows for word in re.findall(r"`([a-z_]\w*)`", row)]
    yield from ("no definition has the word %s" % word for word in sorted(set(words)) if not re.search(r"\b%s\b" % word, specs))
    # The fields that follow one another stand in this order.
    for record, fields in re.findall(r"^pub record (\w+Fields) : .*\n((?:  pub .*\n)+)", specs, re.M):
        names = re.findall(r"pub (\w+) :", fields)
        if [word for word in dict.fromkeys(words) if word in names] != names:
            yield "%s has the fields %s" % (record, " ".join(names))
    states = re.search(r"^- States: `(.*?)`", page, re.M | re.S).group(1).split()
    numbers = re.findall(r"^ordinal state\.(\w+) = (\d+)", text_of("crates/jx_lex/specs/Ordinal.antt"), re.M)
    if [(name, int(number)) for name, number in numbers] != [(name, number) for number, name in enumerate(states)]:
        yield "the states are not those of jx_lex, in their order"


if __name__ == "__main__":
    questions = {"parts": wrong_parts, "words": wrong_words, "types": wrong_types, "format": wrong_format}
    if sys.argv[1:2] == [] or sys.argv[1] not in questions:
        raise SystemExit(__doc__)
    print("\n".join(questions[sys.argv[1]]()))
