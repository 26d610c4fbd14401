"""What has to be read to believe an answer: the definitions that the contract of a call cites, itself or by what these cite.

    trust.py rows           the rows of docs/TRUST.md as the sources have them now, behind the heading of each part
    trust.py compare [PAGE].. where the page differs from that, a line each; of several pages, behind the name of each
    trust.py definitions [CRATE]  what each file of definitions says in its head comment
    trust.py renew          puts counts, and the rows of further commands, into the page; what is missing of the first part is told

A definition is a function, a record or a data type of a file of crates/*/specs. From each clause of a contract the names are followed that
its file imports or defines. Of a definition by cases, a command has those that are about it: COMMANDS names the others. A type of the code
counts where a definition, a clause or a field of such a type names it, and a trait where a clause uses what it claims. Where contracts
see a type by a model, the model counts in place of its fields. Of a file of definitions all lines count; of a file of code, the contracts
and declarations that are reached.
"""

import functools
import pathlib
import re
import sys

ROOT = pathlib.Path(__file__).resolve().parent.parent
CRATES = ROOT / "crates"
PAGE = ROOT / "docs" / "TRUST.md"

REPORT = {"jx_report/src/reporting": ["report"]}
OUTPUT = ("jx_report/specs/Output", "Output")
NAMES = ("jx_index/specs/ByNames", "RefusesName")


def without(tasks, names="Unique"):
    """The cases that a report leaves out, by the first pattern: other tasks, and another rule on names."""
    return {OUTPUT: set(tasks.split()), NAMES: {names}}


ALL = without("", "")
# Each part of the page: its heading, the calls that it is about, and the cases that are left out.
COMMANDS = {
    "`jx check`": (REPORT, without("Index At Seq")),
    "`check` or `seq` of a file by several workers": ({"jx_parallel_report/src/reporting": ["report_at"]}, without("Index At")),
    "`--unique-names`": (REPORT, without("Index At Seq", "Any")),
    "`index`": (REPORT, without("Check At Seq")),
    "`at`": (REPORT, without("Check Index Seq")),
    "`seq`": (REPORT, without("Check Index At")),
    "`get`": ({"jx_values/src/reporting": ["report_values"]}, without("Check Index Seq")),
    "`each`, `keys`": ({"jx_values/src/elements": ["report_elements", "report_name_texts"]}, without("Index At Seq")),
    "`count`": ({"jx_values/src/counting": ["report_count"]}, without("Index At Seq")),
    "`lines`": ({"jx_ndjson_report/src/reporting": ["report_lines"]}, without("Index At Seq")),
    "`lines` of a file by several workers": ({"jx_parallel_report/src/lines_report": ["report_lines_at"]}, without("Index At Seq")),
    "`lines --max`": ({"jx_ndjson_report/src/first_lines": ["report_first_lines"]}, without("Index At Seq")),
    "`lines --pass`": ({"jx_ndjson_report/src/passing": ["pass_lines"]}, without("Index At Seq")),
    "`get --lines`": (
        {"jx_line_values/src/reporting": ["report_line_values"], "jx_line_values/src/reporting_at": ["report_line_values_at"]},
        without("Index At Seq"),
    ),
    "`seq --live`": ({"jx_ndjson_report/src/reporting": ["report_sequence"]}, without("Index At Seq")),
    "`texts`": ({"jx_texts/src/reporting": ["report_texts"]}, without("Index At Seq")),
    "`at --index`": ({"jx_cmd_index/src/places_reporting": ["report_places"]}, without("Check Index Seq")),
    "`get --index`": ({"jx_cmd_index/src/values_reporting": ["report_values_by_index"]}, without("Check Index Seq")),
    "`split`": ({"jx_cmd_index/src/parts_reporting": ["report_parts"]}, without("Check Index Seq")),
    "`save`": (
        {"jx_cmd_index/src/index_reporting": ["report_index"], "jx_cmd_index/src/index_at": ["report_index_at"]},
        without("Index At Seq"),
    ),
    "`explain`": (
        {
            "jx_explain/src/first_pass": ["exit_of_input"],
            "jx_explain/src/position": ["behind"],
            "jx_explain/src/reached": ["read", "take_standing"],
            "jx_explain/src/reporting": ["report_explained"],
            "jx_sentence/src/place": ["place_of"],
            "jx_sentence/src/standing": ["standing_behind", "choices_at"],
            "jx_sentence/src/whole": ["push_sentence"],
        },
        without("Index At Seq"),
    ),
    "Several files": ({"jx_files/src/reports": ["report_on_each"]}, without("Index At Seq")),
    "`part`, `join`, `whole`": ({"jx_parts/src/reporting": ["report_part", "report_joined", "report_whole"]}, without("Index At Seq")),
    "`jx_check` in C": ({"jx_c/src/texts/check": ["jx_check_non_null"]}, without("Index At Seq")),
    "Documents": ({"jx_edit/src/document": None}, without("Index At Seq")),
    "The language server": ({"jx_lsp/src/serve": ["serve"]}, without("Index At Seq")),
}
FIRST = "`jx check`"
# The parts that a part counts as read, beside the first one.
BEYOND = {
    "`seq`": ["`check` or `seq` of a file by several workers"],
    "`get`": ["`at`"],
    "`each`, `keys`": ["`get`"],
    "`count`": ["`each`, `keys`"],
    "`lines` of a file by several workers": ["`lines`"],
    "`lines --max`": ["`lines`"],
    "`lines --pass`": ["`lines`"],
    "`get --lines`": ["`lines`", "`lines` of a file by several workers", "`get`"],
    "`seq --live`": ["`seq`"],
    "`at --index`": ["`at`", "`save`"],
    "`get --index`": ["`at --index`", "`get`"],
    "`split`": ["`at --index`", "`each`, `keys`"],
    "`part`, `join`, `whole`": ["`save`"],
    "Documents": ["`save`"],
    "The language server": ["`at`", "`lines`", "Documents"],
}
# What crates.txt names of the library.
LIBRARY = {"core", "std_alloc"}

TOKEN = re.compile(r"[^\s(){}\[\];,.]+(?:\.[^\s(){}\[\];,.]+)*")
HEAD = re.compile(r"^(?:(?:abbrev|unfoldable|pub|private)\s+)*(?:(data|record)\s+)?(\S+)")
IMPORT = re.compile(r"^\s*(?:ghost )?use\s+([\w.\-]+?)(?:\.\{([^}]*)\}|\s+as\s+(\w+))\s*;?\s*$", re.M)
# A public call with its comment: all up to its body, its name, and what follows that.
CALL = re.compile(r"((?:^ *(?:///|#\[).*\n)*^ *pub (?:extern \S+ )?fn (\w+)((?:.*\n)*?)^ *\{$)", re.M)


@functools.cache
def text_of(path):
    return (CRATES / path).read_text()


def tokens(said):
    return TOKEN.findall(said)


@functools.cache
def imports_of(text):
    """The module and the name there of each name that a file imports, and the modules that have another name in it."""
    names, aliases = {}, {}
    for module, listed, alias in IMPORT.findall(text):
        if alias:
            aliases[alias] = module
        for item in listed.split(","):
            name, _, other = item.strip().partition(" as ")
            # An operator is used by what stands between its places.
            for used in (other or name, name.replace("◌", "")):
                names[used] = (module, name)
    return names, aliases


def binders_of(said):
    """The names that a text binds itself, which so mean no definition."""
    bound = set()
    for group in re.findall(r"[({]([^(){}:=;]+?)\s:\s", said):
        bound.update(group.split())
    for group in re.findall(r"λ\s+([^.:]+)(?:\.|\s:\s)", said):
        bound.update(tokens(group))
    return bound


# ---- files of definitions


class Specs:
    """The definitions of a file: for each what is said of it, and its cases; and which one a name of the file belongs to."""

    def __init__(self, path):
        self.path = path
        text = re.sub(r"(^|\s)--( .*)?$", r"\1", text_of(path + ".antt"), flags=re.M)
        self.names, self.aliases = imports_of(text)
        self.said, self.cases, self.owner = {}, {}, {}
        self.read(IMPORT.sub("", text).split("\n"))

    def read(self, lines):
        while lines:
            count = 1
            while count < len(lines) and not re.match(r"\S", lines[count]):
                count += 1
            block, lines = lines[:count], lines[count:]
            if re.match(r"(abbrev )?mutual\b|module _ ", block[0]):
                self.read([line[2:] for line in block[1:]])
            elif block[0].strip() and not re.match(r"(pub )?mod |infix", block[0]):
                self.add(block)

    def add(self, block):
        kind, name = HEAD.match(block[0]).groups()
        if name in self.said:
            self.cases[name].append("\n".join(block))
            return
        self.said[name], self.cases[name] = "\n".join(block), []
        self.owner[name] = name
        for line in block[1:] if kind == "data" else []:
            made = re.match(r"  (\S+) : ", line)
            if made:
                self.owner[made.group(1)] = name

    def words_of(self, name, left_out):
        """What is said of a definition, and each of its cases but those whose first pattern is left out."""
        yield self.said[name]
        for case in self.cases[name]:
            patterns = tokens(case)[1:]
            if not patterns or patterns[0] not in left_out:
                yield case


@functools.cache
def specs_at(path):
    return Specs(path)


# ---- files of code


@functools.cache
def declaration_of(path, name):
    """The declaration of a type, a trait or a constant, with its comment."""
    found = re.search(
        r"(^ *(?:///|#\[).*\n)*^(?:pub(?:\(crate\))? )?(?:struct|enum|trait|const) %s\b(?:.*;|[^{;]*\{[^}\n]*\}|(?:.*\n)*?^\})\n" % name,
        text_of(path + ".rt"),
        re.M,
    )
    return found and found.group(0)


@functools.cache
def model_of(path, name):
    """What contracts see of a type in place of its fields, or none."""
    found = re.search(r"^impl(?:<.*>)? Model for %s\b(?:.*\n)*?^\}\n" % name, text_of(path + ".rt"), re.M)
    return found and found.group(0)


def file_of(crate, module):
    """The file of a module, whose items may stand in the module above it."""
    for depth in range(len(module), 0, -1):
        path = "/".join([crate, "src", *module[:depth]])
        if (CRATES / (path + ".rt")).exists():
            return path
    return None


@functools.cache
def uses_of(path):
    """The crate and the module of each type that a file of code takes from the repository, or hands on of its own modules."""
    found, own = {}, path.split("/")[0]
    for public, first, listed in re.findall(r"^ *(pub )?use (\w+)::([^;]+);", text_of(path + ".rt"), re.M):
        inner = re.match(r"(?:\w+::)*", listed).group(0)
        module = inner.split("::")[:-1]
        if first == "crate":
            crate = own
        elif (CRATES / first).is_dir():
            crate = first
        elif public:
            above = path.split("/")[2:]
            crate, module = own, [*(above if above != ["lib"] else []), first, *module]
        else:
            continue
        for name in re.findall(r"\b[A-Z]\w*", listed[len(inner) :]):
            found[name] = (crate, module)
    return found


def declared(crate, module, name):
    """The file that declares a type which a module has, or hands on."""
    path = file_of(crate, module) if module else crate + "/src/lib"
    if path and declaration_of(path, name):
        return path
    crate, module = uses_of(path or crate + "/src/lib").get(name, (None, None))
    return declared(crate, module, name) if crate else None


# ---- what is reached


class Reach:
    """What is reached from the contracts of some calls."""

    def __init__(self, calls, left_out):
        self.left_out = left_out
        self.definitions, self.types, self.contracts, self.library, self.cited = set(), set(), {}, set(), set()
        self.waiting = []
        for path, names in calls.items():
            self.begin(path, names)
        while self.waiting:
            self.waiting.pop()()

    def begin(self, path, names):
        """The contracts of these public calls of a file, or of all."""
        text = text_of(path + ".rt")
        for margin, name, said in CALL.findall(text):
            if names is None or name in names:
                self.contracts.setdefault(path, []).append((name, len(margin.split("\n")) - 1))
                signature, clauses = re.match(r"((?:(?! *(?:ensures|requires) ).*\n)*)((?:.*\n)*)", said).groups()
                self.follow_code(path, re.sub(r"//.*", "", clauses), signature)
        if names and {name for name, _ in self.contracts[path]} != set(names):
            raise SystemExit("trust.py: %s has not all of %s" % (path, names))
        for name in re.findall(r"^impl Model for (\w+)", text, re.M) if names is None else []:
            self.add_type(path, name, path)

    def follow_code(self, path, clauses, signature):
        """What clauses name: definitions, types by their names in the code, and what traits claim of their parameters."""
        names, aliases = imports_of(text_of(path + ".rt"))
        self.follow(clauses, names, aliases, None, path)
        uses = uses_of(path)
        for name in {token.split(".")[0] for token in tokens(clauses)}:
            if name in uses and name not in names:
                self.add_type(declared(*uses[name], name), name, path)
        for parameter, bounds in re.findall(r"\b([A-Z]): ([\w +<>]+)", signature):
            for trait in re.findall(r"\w+", bounds) if re.search(r"\b%s\." % parameter, clauses) else []:
                if trait in uses:
                    self.add_type(declared(*uses[trait], trait), trait, path)

    def follow(self, said, names, aliases, own, by):
        """What a text names, in a file with these imports."""
        bound = binders_of(said)
        for token in tokens(said):
            first, _, rest = token.partition(".")
            if first in aliases and rest:
                self.meet(aliases[first], rest.split(".")[0], by)
            elif first in names and first not in bound:
                self.meet(*names[first], by)
            elif own and first in own.owner and first not in bound:
                self.add(own.path, own.owner[first], by)

    def meet(self, module, name, by):
        parts = module.split(".")
        if parts[0] != "Rattle" or not (CRATES / parts[1]).is_dir():
            self.library.add(module)
        elif parts[2:4] == ["specs", "declared"]:
            *path, kind = [part for part in parts[4:] if part != "TheVariants"]
            self.add_type(declared(parts[1], path, kind), kind, by)
        else:
            path = "/".join(parts[1:])
            self.add(path, specs_at(path).owner[name], by)

    def add(self, path, name, by):
        self.cited.add((by, path))
        if (path, name) not in self.definitions:
            self.definitions.add((path, name))
            self.waiting.append(lambda: self.go_on(path, name))

    def go_on(self, path, name):
        specs = specs_at(path)
        for said in specs.words_of(name, self.left_out.get((path, name), ())):
            self.follow(said, specs.names, specs.aliases, specs, path)

    def add_type(self, path, name, by):
        self.cited.add((by, path))
        if (path, name) not in self.types:
            self.types.add((path, name))
            self.waiting.append(lambda: self.go_into(path, name))

    def go_into(self, path, name):
        """What a type has: its model, what it claims where it is a trait, or the types of its fields."""
        model, fields = model_of(path, name), declaration_of(path, name)
        if model or " trait " in fields:
            names, aliases = imports_of(text_of(path + ".rt"))
            said = " ".join(re.findall(r"(?:ensures|requires|ghost Value|ghost \w+:) .*", model or fields))
            self.follow(said, names, aliases, None, path)
            return
        uses = uses_of(path)
        # What a variant is called is no type.
        said = re.sub(r"//.*|#\[.*|^    [A-Z]\w*", "", fields, flags=re.M)
        for other in set(re.findall(r"\b[A-Z]\w*", said)) - {name}:
            if declaration_of(path, other):
                self.add_type(path, other, path)
            elif other in uses and declared(*uses[other], other):
                self.add_type(declared(*uses[other], other), other, path)

    def rows(self):
        """Each file that is reached: its path, what is needed of it where it is code, and how many lines that is."""
        found = {path + ".antt": ([], len(text_of(path + ".antt").splitlines())) for path, _ in self.definitions}
        for path, name in sorted(self.types):
            needed, count = found.get(path + ".rt", ([], 0))
            lines = (declaration_of(path, name) + (model_of(path, name) or "")).splitlines()
            found[path + ".rt"] = (needed + [name], count + len(lines))
        for path, contracts in self.contracts.items():
            needed, count = found.get(path + ".rt", ([], 0))
            found[path + ".rt"] = ([name for name, _ in contracts] + needed, count + sum(lines for _, lines in contracts))
        return found


# ---- the page


def file_cell(path, needed):
    return "`%s`" % path if not needed else "%s of `%s`" % (", ".join("`%s`" % name for name in needed), path)


def first_rows(reach):
    return ["| %s | %d |" % (file_cell(path, needed), count) for path, (needed, count) in sorted(reach.rows().items())]


def further_rows(rows, library):
    """A row for each crate, of files that are needed beyond those of the first part."""
    crates = {}
    for path, (needed, count) in sorted(rows.items()):
        crate, _, rest = path.partition("/")
        crates.setdefault(crate, []).append("%s %d" % (file_cell(rest.removesuffix(".antt"), needed), count))
    found = ["| `%s` | %s |" % (crate, ", ".join(cells)) for crate, cells in crates.items()]
    if library:
        found.append("| the library | %s |" % ", ".join("`%s`" % name for name in library))
    return found


def counted(rows, ending, what):
    counts = [count for path, (_, count) in rows.items() if path.endswith(ending)]
    return "%d lines of %s in %d file%s" % (sum(counts), what, len(counts), "" if len(counts) == 1 else "s")


def sum_of(rows):
    """How much there is to read."""
    code = counted(rows, ".rt", "contracts and types")
    return counted(rows, ".antt", "definitions") + ("" if code.startswith("0 ") else ", and " + code)


def short(modules):
    return sorted(module.replace("Rattle.std.specs.", "").replace("Rattle.", "") for module in modules)


@functools.cache
def parts():
    """For each heading of the page, its rows and its sentences."""
    reaches = {heading: Reach(*calls) for heading, calls in COMMANDS.items()}
    first = reaches[FIRST]
    found = {FIRST: (first_rows(first), [sum_of(first.rows()), ", ".join("`%s`" % name for name in short(first.library))])}
    for heading, reach in reaches.items():
        if heading != FIRST:
            read = [reaches[one] for one in [FIRST, *all_beyond(heading)]]
            # What is needed of a file of code counts where more of it is needed than there.
            rows = {path: row for path, row in reach.rows().items() if row not in [other.rows().get(path) for other in read]}
            library = reach.library.difference(*(other.library for other in read))
            beyond = " beyond " + ", ".join(BEYOND[heading]) if heading in BEYOND else ""
            found[heading] = (further_rows(rows, short(library)), [sum_of(rows) + beyond])
    return found, reaches


def all_beyond(heading):
    """The parts that count as read before this one, and before those."""
    for one in BEYOND.get(heading, []):
        yield one
        yield from all_beyond(one)


def page_parts(page):
    """The words behind each heading of the page, up to the next one."""
    pieces = re.split(r"^##+ (.*)\n", page, flags=re.M)
    return dict(zip(pieces[1::2], pieces[2::2]))


def table_rows(words, cells):
    """The rows of a part's table, their first cells alone, without the two lines of its head."""
    rows = [line for line in words.split("\n") if line.startswith("| ")][1:]
    return [re.match(r"((?:\| [^|]* ){%d}\|)" % cells, row).group(1) for row in rows]


def in_order(rows, reach):
    """Each row whose file no file above it cites."""
    seen, wrong = set(), []
    for row in rows:
        path = re.search(r"`(\w+/[\w/]+)\.(?:antt|rt)`", row).group(1)
        if seen and not any((above, path) in reach.cited for above in seen | {path}):
            wrong.append(row)
        seen.add(path)
    return wrong


def ported():
    """The ported crates that the product and the programs stand on, by crates.txt."""
    listed = re.sub(r"#.*", "", (ROOT / "crates.txt").read_text().partition("\n# tests\n")[0])
    named = {name for line in listed.splitlines() for name in line.partition(":")[2].split()}
    return {name for name in named if not (CRATES / name).is_dir()} - LIBRARY


def wrong_ported(page):
    """Where the crates that are trusted are named, and are not these."""
    row = re.search(r"^\| ported crates \|.*", page, re.M)
    trusted = (ROOT / "docs" / "PROVED.md").read_text().partition("\n## Trusted\n")[2]
    for name, words in (("TRUST.md", row.group(0) if row else ""), ("PROVED.md", trusted)):
        for crate in sorted(ported() ^ set(re.findall(r"`(\w+)`", words))):
            yield "%s: the ported crate %s is named in one of %s and crates.txt" % (name, crate, name)


@functools.cache
def left_over():
    """What is needed of a report on some task, or of any command with unique names, and of none of the parts that are about these."""
    _, reaches = parts()
    unique = reaches["`--unique-names`"].definitions
    found = Reach(REPORT, ALL).definitions.difference(*(reaches[part].definitions for part, (calls, _) in COMMANDS.items() if calls is REPORT))
    for part, (calls, left_out) in COMMANDS.items():
        found |= Reach(calls, {OUTPUT: left_out[OUTPUT]}).definitions - reaches[part].definitions - unique
    return found


def differences(page):
    found, reaches = parts()
    on_page = page_parts(page)
    told = list(wrong_ported(page))
    for heading, (rows, sentences) in found.items():
        words = on_page.get(heading, "")
        shown = table_rows(words, 2)
        told += ["%s: is left out: %s" % (heading, row) for row in rows if row not in shown]
        told += ["%s: is not so: %s" % (heading, row) for row in shown if row not in rows]
        told += ["%s: stands twice: %s" % (heading, row) for row in set(shown) if shown.count(row) > 1]
        told += ["%s: is not said: %s" % (heading, said) for said in sentences if said not in " ".join(words.split())]
    told += ["nothing above cites it: " + row for row in in_order(table_rows(on_page.get(FIRST, ""), 2), reaches[FIRST])]
    return told + ["no part has what is needed of %s in %s" % (name, path) for path, name in sorted(left_over())]


def renewed(heading, words, rows, total):
    """The words of a part with its rows. What the page says of a file of the first part stays."""
    words = re.sub(r"^    \d+ lines of .*$", "    " + total, words, flags=re.M)
    if heading != FIRST:
        return re.sub(r"(^\|---\|---\|\n)(?:\|.*\n)*", lambda head: head.group(1) + "\n".join(rows) + "\n", words, flags=re.M)
    for row in rows:
        path = re.escape(re.search(r"`(\w+/[^`]*)`", row).group(0))
        words = re.sub(r"^\| [^|]*%s \| \d+ \|" % path, lambda _, row=row: row, words, flags=re.M)
    return words


def renew():
    pieces = re.split(r"(^##+ .*\n)", PAGE.read_text(), flags=re.M)
    for heading, (rows, sentences) in parts()[0].items():
        for at, piece in enumerate(pieces[:-1]):
            if piece.lstrip("#").strip() == heading:
                pieces[at + 1] = renewed(heading, pieces[at + 1], rows, sentences[0])
    PAGE.write_text("".join(pieces))
    print("\n".join(differences(PAGE.read_text())))


def heads(crate="*"):
    """Each file of definitions that public contracts may cite, and its head comment."""
    for path in sorted(CRATES.glob(crate + "/specs/*.antt")):
        if path.stem not in ("Lib", "inside"):
            comment = re.match(r"(?:--.*\n)*", path.read_text()).group(0)
            yield str(path.relative_to(CRATES)), " ".join(line.lstrip("- ") for line in comment.splitlines())


def main(words):
    if words[:1] == ["rows"]:
        for heading, (rows, sentences) in parts()[0].items():
            print("\n".join(["## " + heading, *sentences, *rows, ""]))
    elif words[:1] == ["compare"]:
        for page in words[1:] or [PAGE]:
            if words[2:]:
                print("== %s" % page)
            print("\n".join(differences(pathlib.Path(page).read_text())))
    elif words[:1] == ["definitions"] and len(words) <= 2:
        print("\n".join("%s: %s" % one for one in heads(*words[1:])))
    elif words == ["renew"]:
        renew()
    else:
        raise SystemExit(__doc__)


if __name__ == "__main__":
    main(sys.argv[1:])
