"""Words and sentences that a stranger stumbles over: words.py QUESTION [ROOT] prints what is wrong, a line each.

    words       a file has more words of tools/words_to_avoid.txt than tests/words.txt records
    found FILE  which they are, a line each
    renew       records how many there are now
    sentences   sentences of more than 30 words in docs, READMEs, CHANGELOG.md and the comments of jx.h
    size        docs and the READMEs of crates have at most 300 KB, README.md 13,000 bytes, some pages less; an entry of CHANGELOG.md two
                lines, and the glossary thirty terms
    links       a link between documents leads to a file and to a heading
    comments    a comment of a crate or a binding that begins with `What`, and so does not name what a call gives

Of a document all words count but code. Of a crate the comments in src/ and specs/ count, all together, and of a binding its doc comments.
"""

import pathlib
import re
import sys

ROOT = pathlib.Path(__file__).resolve().parent.parent
if sys.argv[1:2] != ["found"] and sys.argv[2:]:
    ROOT = pathlib.Path(sys.argv[2]).resolve()
COUNTS = "tests/words.txt"
SENTENCE = 30
# The greatest size of pages, in bytes; of all of them in the last line.
SIZES = {"README.md": 13000, "docs/DECISIONS.md": 25000, "docs/LIMITS.md": 25000}
ALL = 300_000
TERMS = 30


def text_of(path):
    return (ROOT / path).read_text()


def documents():
    """Each page that people read, by its path."""
    found = ["README.md", "CHANGELOG.md", "jx.1", "jx-lsp.1", "include/jx.h", "fuzz/README.md"]
    found += sorted(str(path.relative_to(ROOT)) for path in ROOT.glob("docs/*.md"))
    found += sorted(str(path.relative_to(ROOT)) for path in ROOT.glob("crates/*/README.md"))
    return [path for path in found if (ROOT / path).is_file()]


def patterns():
    """Each pattern of the list, with what to say."""
    for line in text_of("tools/words_to_avoid.txt").splitlines():
        if line and not line.startswith("#"):
            pattern, _, say = line.partition(" = ")
            yield re.compile(r"\b(?:%s)\b" % pattern.strip(), re.I if pattern.strip().islower() else 0), say


# ---- what counts of a file


def prose_of(path):
    """The words of a page: no code, no addresses of links, no macros of a manual page. Of jx.h the comments."""
    text = text_of(path)
    if path.endswith(".h"):
        return "\n".join(re.findall(r"/\*(.*?)\*/", text, re.S) + re.findall(r"//(.*)", text))
    if path.endswith(".1"):
        return re.sub(r"^\.\S* ?|\\f.|\\", "", text, flags=re.M)
    text = re.sub(r"^```.*?^```|^    .*$", "", text, flags=re.M | re.S if "```" in text else re.M)
    return re.sub(r"\]\([^)]*\)", "]", re.sub(r"`[^`]*`", "`", text))


def comments_of(crate):
    """The comments of a crate's sources and definitions."""
    found = []
    for path in sorted(crate.glob("src/**/*.rt")) + sorted(crate.glob("specs/**/*.antt")):
        found += re.findall(r"^\s*(?://+|--) ?(.*)", path.read_text(), re.M)
    return re.sub(r"`[^`]*`", "`", "\n".join(found))


def bound_words(folder):
    """The doc comments of a binding."""
    found = []
    for path in sorted(folder.glob("*.py")):
        found += re.findall(r'"""(.*?)"""', path.read_text(), re.S)
    for path in sorted(folder.glob("*.rs")):
        found += re.findall(r"^\s*//[/!] ?(.*)", path.read_text(), re.M)
    return re.sub(r"`[^`]*`", "`", "\n".join(found))


def places():
    """Each page, and each crate by its sources, with the words that count."""
    for path in documents():
        yield path, prose_of(path)
    for crate in sorted(ROOT.glob("crates/*")):
        if (crate / "src").is_dir():
            yield "crates/%s/src" % crate.name, comments_of(crate)
    for binding in ("bindings/python/jx", "bindings/rust/src"):
        if (ROOT / binding).is_dir():
            yield binding, bound_words(ROOT / binding)


def found_in(words):
    return [(match.group(0), say) for pattern, say in patterns() for match in pattern.finditer(words)]


def recorded():
    return {line.rpartition(" ")[0]: int(line.rpartition(" ")[2]) for line in text_of(COUNTS).splitlines() if line and not line.startswith("#")}


# ---- questions


def wrong_words():
    known = recorded()
    for path, words in places():
        found = found_in(words)
        if len(found) > known.get(path, 0):
            said = sorted({"%s (%s)" % one for one in found})
            yield "%s has %d words to avoid, and had %d: %s" % (path, len(found), known.get(path, 0), "; ".join(said))


def renew():
    counts = [(path, len(found_in(words))) for path, words in places()]
    lines = ["%s %d" % one for one in counts if one[1]]
    (ROOT / COUNTS).write_text("# How many words of tools/words_to_avoid.txt a page or a crate has: tests/words.py renew.\n%s\n" % "\n".join(lines))


def found(path):
    for words in [words for name, words in places() if name == path]:
        for pattern, say in patterns():
            for match in pattern.finditer(words):
                around = " ".join(words[max(0, match.start() - 40) : match.end() + 30].split())
                yield "%s: .. %s .. (%s)" % (match.group(0), around, say)


def sentences_of(text):
    """The sentences of a page: without code, tables, headings and the clauses that a promise cites. A point of a list begins one, and code
    is one word."""
    text = re.sub(r"`(?:[^`\n]|\n(?!\n))*`", lambda code: "".join(code.group(0).split()), re.sub(r"^    .*$", "", text, flags=re.M))
    text = re.sub(r"\s\(`[\w/]+`(?:,\s`[\w/]+`)*\)", "", text)
    text = re.sub(r"^```.*?^```", "", text, flags=re.M | re.S)
    text = re.sub(r"^(?:\||#|<).*$", "", text, flags=re.M)
    text = re.sub(r"^\s*(?:[-*]|\d+\.) ", "\n\n", text, flags=re.M)
    for paragraph in re.split(r"\n\s*\n", text):
        yield from re.split(r"(?<=[.:?!;])(?:\*\*)? +(?=[\[(*`\"A-Z0-9])", " ".join(paragraph.split()))


def passages_of(path):
    """What is divided into sentences: a page, or each comment of jx.h."""
    if path.endswith(".md"):
        return [text_of(path)]
    if path.endswith(".h"):
        return [re.sub(r"^ \* ?", "", comment, flags=re.M) for comment in re.findall(r"/\*(.*?)\*/", text_of(path), re.S)]
    return []


def wrong_sentences():
    for path in documents():
        for sentence in (sentence for passage in passages_of(path) for sentence in sentences_of(passage)):
            if len(sentence.split()) > SENTENCE:
                yield "%s: %d words: %s" % (path, len(sentence.split()), sentence)


def wrong_size():
    sizes = {path: len((ROOT / path).read_bytes()) for path in documents()}
    yield from ("%s has %d bytes, more than %d" % (path, sizes[path], most) for path, most in SIZES.items() if sizes[path] > most)
    total = sum(size for path, size in sizes.items() if path.startswith(("docs/", "crates/")))
    if total > ALL:
        yield "docs and the READMEs of crates have %d bytes, more than %d" % (total, ALL)
    for entry in re.findall(r"^- .*(?:\n +.*){2,}", text_of("CHANGELOG.md"), re.M):
        yield "CHANGELOG.md: an entry of more than two lines: %s" % entry.splitlines()[0]
    terms = re.findall(r"^\| .*", text_of("docs/ARCHITECTURE.md").partition("\n## Words\n")[2].partition("\n## ")[0], re.M)[1:]
    if len(terms) > TERMS:
        yield "docs/ARCHITECTURE.md has a glossary of %d terms, more than %d" % (len(terms), TERMS)


def anchors_of(path):
    """The headings of a page as links name them."""
    headings = re.findall(r"^#+ (.*)", path.read_text(), re.M)
    return {re.sub(r"[^\w\- ]", "", heading.lower()).replace(" ", "-") for heading in headings}


def wrong_links():
    for path in [one for one in documents() if one.endswith(".md")]:
        plain = re.sub(r"^    .*$|`[^`]*`", "", text_of(path), flags=re.M)
        for link in re.findall(r"\]\(([^)\s]*)\)", plain):
            file, _, anchor = link.partition("#")
            place = ROOT / path if not file else (ROOT / path).parent / file
            if re.match(r"\w+:", link):
                continue
            if not place.exists():
                yield "%s: the link to %s leads nowhere" % (path, link)
            elif anchor and anchor not in anchors_of(place):
                yield "%s: %s has no such heading" % (path, link)


def begins_with_what(path, sign):
    """The comments of a file, by the pattern of their sign, whose first line begins with `What`, by the number of that line."""
    begun = re.compile(r"\s*(?:%s)" % sign)
    lines = path.read_text().splitlines()
    for number, line in enumerate(lines):
        found = begun.match(line)
        begins = found and not (number and lines[number - 1].strip().startswith(found.group(0).strip()))
        if begins and re.match(r" ?[Ww]hat\b", line[found.end() :]):
            yield "%s:%d: a comment begins with `What`: %s" % (path.relative_to(ROOT), number + 1, line.strip())


def wrong_comments():
    signs = {"crates/*/src/**/*.rt": "//[/!]?", "crates/*/specs/**/*.antt": "--", "bindings/**/*.rs": "//[/!]?"}
    signs.update({"bindings/**/*.py": '"""', "bindings/**/*.pyi": '"""'})
    for pattern, sign in signs.items():
        for path in sorted(ROOT.glob(pattern)):
            yield from begins_with_what(path, sign)


def main(words):
    questions = {"words": wrong_words, "sentences": wrong_sentences, "size": wrong_size, "links": wrong_links, "comments": wrong_comments}
    if words == ["renew"]:
        renew()
    elif words[:1] == ["found"] and words[1:]:
        print("\n".join(found(words[1])))
    elif words[:1] and words[0] in questions:
        print("\n".join(questions[words[0]]()))
    else:
        raise SystemExit(__doc__)


if __name__ == "__main__":
    main(sys.argv[1:])
