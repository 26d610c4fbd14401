"""What docs/PROVED.md and the README of each crate say of the sources: proved.py QUESTION [ROOT] prints what is wrong, a line each. proved.py renew
writes the table of docs/PROVED.md from the first sentences of the READMEs.

    headings    docs/PROVED.md has each heading once and links the README of each crate that is no test, with its first sentence, and each
                README has its three parts, in 10 to 60 lines
    names       each name that a crate hands out stands in its README, and each call that a README or docs/PROVED.md names is there
    promises    each call at the front of a promise has a clause, and each clause in brackets is one of a call that stands before it;
                where none is in brackets, the call has one alone
    paths       each file that is named is there
"""

import re
import sys

from names import PARTS, ROOT, crates, text_of

SECTIONS = ["What is here", "What is proved", "What no clause says"]
NAMES = re.compile(r"`((?:\w+::)*\w+)`")
GROUP = re.compile(r"\((`[\w/]+`(?:, `[\w/]+`)*)\)")


def products():
    """The crates that have a README, each with what it stands on."""
    return {name: below for part in PARTS[:3] for name, below in crates()[part].items()}


def readme_of(crate):
    path = ROOT / "crates" / crate / "README.md"
    return path.read_text() if path.is_file() else ""


def section_of(page, heading):
    found = re.search(r"^## %s\n(.*?)(?=^## |\Z)" % re.escape(heading), page, re.M | re.S)
    return found.group(1) if found else ""


# ---- what the sources have


def without_generics(words):
    before = None
    while before != words:
        before, words = words, re.sub(r"<[^<>]*>", "", words.replace("->", "  "))
    return words


def owner_of(header):
    """The trait and the type of an `impl`, or the type alone; a trait is the type of its own calls."""
    plain = without_generics(header)
    path = r"(?:\w+::)*(\w+)"
    return re.match(r"(?:impl|pub trait)\s+(?:%s\s+for\s+)?%s" % (path, path), plain).groups()


class Source:
    """The public calls of a crate with their clauses, its types, and what its lib hands out."""

    def __init__(self, crate):
        self.calls, self.types, self.handed = {}, set(), set()
        folder = ROOT / "crates" / crate / "src"
        for path in sorted(folder.rglob("*.rt")):
            self.read(path.read_text().splitlines())
        lib = folder / "lib.rt"
        handed = re.sub(r"\w+::", "", " ".join(re.findall(r"^pub use ([^;]+);", lib.read_text(), re.M)) if lib.is_file() else "")
        self.aliases = {new: old for old, new in re.findall(r"(\w+) as (\w+)", handed)}
        self.handed.update(re.findall(r"\w+", re.sub(r"\w+ as ", "", handed)))

    def read(self, lines):
        trait = kind = None
        for at, line in enumerate(lines):
            self.types.update(re.findall(r"^pub (?:struct|enum|trait|type|const) (\w+)", line))
            if re.match(r"impl\b|pub trait ", line):
                trait, kind = owner_of(" ".join(lines[at : at + 10]))
            elif line == "}":
                trait = kind = None
            found = re.match(r"\s*(pub )?(?:extern \"C\" )?fn (\w+)", line)
            if found and "extern" in line:
                self.handed.add(found.group(2).removesuffix("_non_null"))
            if found and (found.group(1) or kind):
                call = (bool(found.group(1)), trait, clauses_from(lines, at))
                self.calls.setdefault((kind, found.group(2)), []).append(call)


def clauses_from(lines, at):
    """The names of the clauses of the call that begins in this line, up to its body or its end; one without a name is the empty one."""
    found = set()
    for line in lines[at:]:
        clause = re.match(r"\s*(requires|ensures) (\w*) ?\{", line)
        if clause and clause.group(1) == "ensures":
            found.add(clause.group(2))
        if line.endswith(";") or line.strip().startswith("{") or (not clause and line.endswith(("{", "{}"))):
            break
    return found


def clauses_of(sources, crate, name):
    """The clauses of a public call, those without a name as the empty one; None where there is no such call."""
    source = sources[crate]
    *front, last = name.split("::")
    kind, last = front[-1] if front else None, source.aliases.get(last, last)
    found = None
    for spelt in (last, last + "_non_null"):
        for is_public, trait, own in source.calls.get((kind, spelt), []):
            if is_public or trait or kind in source.types:
                found = (found or set()) | own
                for other in sources.values() if trait else ():
                    for _, _, theirs in other.calls.get((trait, spelt), []):
                        found |= theirs
    return found


def is_named(sources, crate, name):
    return name in sources[crate].types or clauses_of(sources, crate, name) is not None


def points_of(section):
    """The points of a part, each in one line."""
    return [" ".join(one.split()) for one in re.findall(r"^- (.*?)(?=^- |^\S|\Z|^\n)", section, re.M | re.S)]


def heads_of(section):
    return [point.partition(": ")[0] for point in points_of(section)]


# ---- questions


def wrong_headings(_):
    page = text_of("docs/PROVED.md")
    headings = re.findall(r"^#+ (.*)", page, re.M)
    yield from ("PROVED.md has the heading %s twice" % one for one in sorted(set(headings)) if headings.count(one) > 1)
    linked = re.findall(r"^\| \[`(\w+)`\]\(\.\./crates/(\w+)/README\.md\) \|", page, re.M)
    yield from ("PROVED.md links %s for %s" % (one, name) for name, one in linked if one != name)
    if [name for name, _ in linked] != list(products()):
        yield "PROVED.md links %s" % " ".join(name for name, _ in linked)
    for crate in products():
        readme = readme_of(crate)
        lines = readme.count("\n")
        headings = re.findall(r"^#+ (.*)", readme, re.M)
        if headings != ["`%s`" % crate] + SECTIONS:
            yield "%s/README.md has the headings %s" % (crate, ", ".join(headings))
        if not 10 <= lines <= 60:
            yield "%s/README.md has %d lines" % (crate, lines)
        if row_of(crate) not in page:
            yield "PROVED.md has no row %s" % row_of(crate)


def row_of(crate):
    """The row of a crate in docs/PROVED.md: its link, and the first sentence of its README."""
    head = " ".join(readme_of(crate).partition("## ")[0].partition("\n")[2].split())
    sentence = re.match(r".*?[.](?= [A-Z]|$)", head)
    said = re.sub(r"\]\(\.\./\.\./(?:docs/)?", lambda link: "](" if "docs/" in link.group(0) else "](../", sentence.group(0) if sentence else "")
    return "| [`%s`](../crates/%s/README.md) | %s |" % (crate, crate, said)


def renew():
    page = text_of("docs/PROVED.md")
    rows = "\n".join(row_of(crate) for crate in products())
    table = re.compile(r"^\| Crate \| What it is \|\n\|---\|---\|\n(?:\|.*\n)*", re.M)
    (ROOT / "docs/PROVED.md").write_text(table.sub(lambda _: "| Crate | What it is |\n|---|---|\n%s\n" % rows, page))


def wrong_names(sources):
    for crate in products():
        readme = readme_of(crate)
        spelt = {word for code in re.findall(r"`([^`]+)`", readme) for word in re.findall(r"\w+", code)}
        yield from ("%s/README.md does not name %s" % (crate, name) for name in sorted(sources[crate].handed - spelt))
        heads = [head for head in heads_of(section_of(readme, SECTIONS[0])) if head.startswith("`")]
        for name in sorted({name for name in NAMES.findall(readme) if "::" in name} | set(NAMES.findall(" ".join(heads)))):
            if not is_named(sources, crate, name) and name not in sources[crate].handed:
                yield "%s/README.md names %s, which is not there" % (crate, name)
    page = text_of("docs/PROVED.md")
    known = {name for part in crates().values() for crate, below in part.items() for name in [crate, *below]}
    for name in sorted({name for name in NAMES.findall(page) if re.search("_|::", name)} - known):
        if not any(is_named(sources, crate, name) for crate in sources):
            yield "PROVED.md names %s, which is not there" % name


def wrong_promises(sources):
    for crate in products():
        for promise in points_of(section_of(readme_of(crate), SECTIONS[1])):
            yield from wrong_promise(sources, crate, promise)


def wrong_promise(sources, crate, promise):
    head = promise.partition(": ")[0]
    for name in NAMES.findall(head):
        clauses = clauses_of(sources, crate, name)
        if clauses is None:
            yield "%s: no call has the name %s" % (crate, name)
        elif not clauses:
            yield "%s: %s has no clause" % (crate, name)
        elif len(clauses) > 1 and not GROUP.search(promise):
            yield "%s: which clause of %s carries it is not said" % (crate, name)
    for odd in re.findall(r"\([^()]*`\w+`[^()]*\)", promise):
        if not GROUP.fullmatch(odd) and "` of `" not in odd:
            yield "%s: not clauses alone stand in %s" % (crate, odd)
    for group in GROUP.finditer(promise):
        calls = [clauses_of(sources, crate, name) for name in NAMES.findall(promise[: group.start()])]
        there = set().union(*(clauses for clauses in calls if clauses))
        for clause in NAMES.findall(group.group(1)):
            if clause not in there:
                yield "%s: %s is no clause of %s" % (crate, clause, head)


def wrong_paths(_):
    for crate in products():
        for path in re.findall(r"`(\w+(?:/[\w.]+)+)`", readme_of(crate)):
            of_specs = re.match(r"(?:(jx\w*)/)?specs/", path)
            place = ROOT / path
            if of_specs:
                place = ROOT / "crates" / (path if of_specs.group(1) else "%s/%s" % (crate, path))
                place = place.with_name(place.name + ".antt")
            if not place.exists():
                yield "%s/README.md names %s, which is not there" % (crate, path)


if __name__ == "__main__":
    questions = {"headings": wrong_headings, "names": wrong_names, "promises": wrong_promises, "paths": wrong_paths}
    if sys.argv[1:] == ["renew"]:
        raise SystemExit(renew())
    if sys.argv[1:2] == [] or sys.argv[1] not in questions:
        raise SystemExit(__doc__)
    print("\n".join(questions[sys.argv[1]]({crate: Source(crate) for crate in products()})))
