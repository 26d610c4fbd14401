"""Sessions of the language server by dice, as an editor sends them, with the answers that are due by the plain readers."""
import json

import plain
import texts
from positions import character_at, offset_of, position_of

PIECES = ["{", "}", "[", "]", ",", ":", '"', '"a"', '"é"', '"😀"', "\\u00e9", "\\", "1", "-0.5e3", "true", "null", " ", "\n", "\r\n", "\r", "\t", "€", "𝄞", '{"b":[1,2]}', "[[[", "]]]", "x", "\ufeff", '{"a":1,"a":{}}', '"\\ud800":0', "\0", "\x7f"]
URIS = ["file:///a.json", "file:///b.json", "untitled:é😀", "file:///c.jsonl", "file:///d.ndjson"]
# Which of these stand for JSON Lines; so do names with such an ending.
LANGUAGES = {"json": False, "jsonl": True, "ndjson": True, "jsonlines": True, "jsonc": False, None: False}
ENDINGS = (".jsonl", ".ndjson")
OPTIONS = [None, {"depth": 0}, {"depth": 2}, {"depth": 512}, {"depth": 65535}, {"ignoreBom": True}, {"uniqueNames": True}, {"depth": 3, "ignoreBom": True, "uniqueNames": True}]
FAR = 2**31 - 1
# So many lines of JSON Lines are marked, and so many ranges given around a place, at most.
MOST_MARKS, MOST_RANGES = 1000, 200
# What may end a token that was begun, and what may be due behind it, the shortest first.
ENDS = [b"", b" ", b"0 ", b'"', b'0"', b'00"', b'000"', b'0000"', b'n"', b"e", b"ue", b"rue", b"se", b"lse", b"alse", b"l", b"ll", b"ull"]
ENDS += [b'\x80"', b'\x80\x80"', b'\x80\x80\x80"', b'\xa0\x80"', b'\x90\x80\x80"']
DUE = [b"", b"0 ", b":0 ", b'"":0 ']
VERDICT_WORDS = [words.partition(" at ")[0] for words in plain.VERDICTS]


def frame(body):
    return b"Content-Length: %d\r\n\r\n" % len(body) + body


def spans_of(row):
    """The member that a row is the value of, the member's name, and the value."""
    name = [(row.name.start, row.span.end), (row.name.start, row.name.end)] if row.name.end else []
    return name + [(row.span.start, row.span.end)]


def start_of(row):
    """Where the member begins that a row is the value of, or the value."""
    return row.name.start if row.name.end else row.span.start


def closing(text):
    """The closing brackets of the containers that are open behind some bytes."""
    open_ones, inside, escaped = [], False, False
    for byte in text:
        if inside:
            inside, escaped = escaped or byte != 0x22, not escaped and byte == 0x5C
        elif byte == 0x22:
            inside = True
        elif byte in b"[{":
            open_ones.append(b"]" if byte == 0x5B else b"}")
        elif byte in b"]}" and open_ones:
            open_ones.pop()
    return b"".join(reversed(open_ones))


class Session:
    """The messages that are sent, and beside them what is due: `wanted` has a function for each answer, which tells whether it holds."""

    def __init__(self, readers, dice, encoding=None, options=None):
        self.readers, self.dice = readers, dice
        self.sent, self.wanted, self.documents, self.number = [], [], {}, 1
        self.of_lines = set()
        self.encoding = encoding or dice.choice(["utf-8", "utf-16"])
        said = options or {}
        flags = plain.IGNORE_MARK * said.get("ignoreBom", False) | plain.UNIQUE_NAMES * said.get("uniqueNames", False)
        self.settings = plain.Settings(said.get("depth", 512), flags)
        general = {"positionEncodings": ["utf-16", "utf-8"] if self.encoding == "utf-8" else ["utf-16"]}
        self.send({"id": 0, "method": "initialize", "params": {"capabilities": {"general": general}, "initializationOptions": options}})
        self.wanted.append(lambda got: got.get("id") == 0 and "result" in got)
        self.send({"method": "initialized", "params": {}})

    def send(self, message):
        body = json.dumps({"jsonrpc": "2.0", **message}, ensure_ascii=self.dice.random() < 0.3)
        self.sent.append(frame(body.encode()))

    def ask(self, method, uri, **params):
        self.number += 1
        self.send({"id": self.number, "method": "textDocument/" + method, "params": {"textDocument": {"uri": uri}, **params}})
        return self.number

    def position_of(self, text, at):
        return position_of(text, at, self.encoding)

    # ---- what is told of a text

    def publish(self, uri, version):
        """What is due behind a change: a message if the server lost the text, else its verdict."""
        text = self.documents[uri]
        if text is None:
            self.wanted.append(lambda got: got.get("method") == "window/logMessage")
            return
        if uri in self.of_lines:
            marks = self.marks_of(text)
            self.wanted.append(lambda got: self.are_told(got, uri, version, marks))
            return
        verdict, _ = self.readers.read(text, self.settings)
        start = self.position_of(text, character_at(text, verdict.offset)) if verdict.has_offset() else None
        self.wanted.append(lambda got: self.is_told(got, uri, version, str(verdict), start))

    def is_told(self, got, uri, version, word, start):
        params = got.get("params", {})
        if (got.get("method"), params.get("uri"), params.get("version")) != ("textDocument/publishDiagnostics", uri, version):
            return False
        marks = params.get("diagnostics")
        if word == "accepted":
            return marks == []
        kind, _, at = word.partition(" at ")
        said = all(it["code"] == kind and it["message"].endswith(" (byte %s)" % at if at else "") for it in marks)
        return len(marks) == 1 and said and (start is None or marks[0]["range"]["start"] == start)

    def bad_lines(self, text):
        """Of JSON Lines the lines that are no texts: where each stands, its verdict in words, and where it has a fault of one byte, where."""
        settings = plain.Settings(self.settings.depth, 0)
        of_first = plain.Settings(self.settings.depth, self.settings.flags & plain.IGNORE_MARK)
        at = 3 if self.settings.flags & plain.IGNORE_MARK and text.startswith(b"\xef\xbb\xbf") else 0
        lines = text[at:].split(b"\n")
        for number, line in enumerate(lines):
            # The first line may be a part of a mark that is ignored.
            verdict, rows = self.readers.read(line, of_first if at == 0 else settings)
            is_last = number == len(lines) - 1
            if not line.strip(b" \t\r\n"):
                if line or not is_last:
                    yield at, at + len(line), "blank", None
            elif verdict.kind != 0:
                yield at, at + len(line), VERDICT_WORDS[verdict.kind], at + verdict.offset if verdict.has_offset() else None
            elif is_last and rows.all[0].span.end == len(line) and plain.KINDS[rows.all[0].kind] in ("number", "true", "false", "null"):
                yield at, at + len(line), "may be cut", None
            at += len(line) + 1

    def marks_of(self, text):
        """The marks of the first bad lines, of blank ones of the first alone, and one that counts the others at the first of them."""
        bad, marked = list(self.bad_lines(text)), []
        for one in bad:
            if one[2] != "blank" or all(it[2] != "blank" for it in marked):
                marked.append(one)
        marks = [self.mark_of(text, *one) for one in marked[:MOST_MARKS]]
        more = len(bad) - len(marks)
        return marks + [("more", "more lines that are no JSON texts: %d" % more, marks[0][2], None)] if more else marks

    def mark_of(self, text, start, end, word, fault):
        """The code, the end of the message, and the range of a line's mark, of which only the start is known but where the line is blank."""
        if word == "blank":
            return word, "the line is blank", self.position_of(text, start), self.position_of(text, end)
        message = "" if fault is None else " (byte %d)" % fault
        first = max(start, character_at(text, end - 1 if fault is None else fault))
        return word, message, self.position_of(text, first), None

    def are_told(self, got, uri, version, wanted):
        params = got.get("params", {})
        if (got.get("method"), params.get("uri"), params.get("version")) != ("textDocument/publishDiagnostics", uri, version):
            return False
        marks = params.get("diagnostics", [])
        return len(marks) == len(wanted) and all(
            mark["code"] == word and mark["message"].endswith(message) and mark["range"]["start"] == start and end in (None, mark["range"]["end"])
            for mark, (word, message, start, end) in zip(marks, wanted)
        )

    def is_known_text(self, uri):
        """Whether what a document has is known, and one text: of JSON Lines no value is shown."""
        return self.documents[uri] is not None and uri not in self.of_lines

    def ended(self, text):
        """A text that begins with the bytes before the fault, found by trying, its verdict and rows, and how many bytes that are. None where
        they begin a byte order mark and no more. Names are of no account."""
        settings = plain.Settings(self.settings.depth, self.settings.flags & ~plain.UNIQUE_NAMES)
        verdict, rows = self.readers.read(text, settings)
        if verdict.kind == 0:
            return text, verdict, rows, len(text)
        kept = verdict.offset if verdict.has_offset() else len(text)
        before = text[:kept]
        if settings.flags & plain.IGNORE_MARK and before in (b"", b"\xef", b"\xef\xbb"):
            return None
        for end in ENDS:
            for due in DUE:
                whole = before + end + due + closing(before)
                verdict, rows = self.readers.read(whole, settings)
                if verdict.kind == 0:
                    return whole, verdict, rows, kept
        raise AssertionError(text)

    def shown(self, text, position):
        """What a hover shows: the innermost value there before the fault, or the one whose name or colon is there, and its pointer."""
        at = offset_of(text, position["line"], position["character"], self.encoding)
        ended = self.ended(text)
        if ended is None or ended[3] <= at:
            return None
        whole, verdict, rows, kept = ended
        there = [k for k in range(rows.count) if start_of(rows.all[k]) <= at < rows.all[k].span.end]
        if not there or kept <= rows.all[there[-1]].span.start:
            return None
        row, path = rows.all[there[-1]], self.readers.path(whole, rows, there[-1])
        answer = self.readers.find(whole, rows, verdict, path)
        leads_there = answer.outcome == 0 and str(answer.span) == str(row.span)
        words = "no pointer" if not leads_there else "pointer " + path.decode() if path else "empty pointer"
        more = ", as far as the fault" if kept < row.span.end else ""
        value = "%s %d..%d%s\n%s" % (plain.KINDS[row.kind], row.span.start, min(row.span.end, kept), more, words)
        start = row.span.start if row.span.start <= at else start_of(row)
        return {"contents": {"kind": "plaintext", "value": value}, "range": self.range_to(text, start, row, kept)}

    def range_to(self, text, start, row, kept):
        """The range from there to the end of a value, as far as so many bytes go."""
        return {"start": self.position_of(text, start), "end": self.position_of(text, min(row.span.end, kept))}

    def listed(self, text):
        """The values that begin before the fault, and how many bytes stand before it."""
        ended = self.ended(text)
        if ended is None:
            return None, 0
        _, _, rows, kept = ended
        return [row for row in rows.all[: rows.count] if row.span.start < kept], kept

    def folded(self, text):
        """Of the containers among these values the lines that can be folded, of which one begins in a line."""
        rows, kept = self.listed(text)
        told = None if rows is None else []
        for row in rows or []:
            there = self.range_to(text, row.span.start, row, kept)
            first, last = there["start"]["line"], there["end"]["line"] - 1
            container = plain.KINDS[row.kind] in ("array", "object")
            if container and first < last and [first] != [fold["startLine"] for fold in told[-1:]]:
                told.append({"startLine": first, "endLine": last})
        return told

    def around(self, text, positions):
        """The values, names and members around each of some places, each in its parent; where there is none, an empty range there."""
        ended = self.ended(text)
        if ended is None:
            return None
        _, _, rows, kept = ended
        told = []
        for position in positions:
            at = offset_of(text, position["line"], position["character"], self.encoding)
            here = self.position_of(text, at)
            chain = [span for row in rows.all[: rows.count] for span in spans_of(row) if span[0] <= at < span[1] and at < kept]
            parent = None if chain else {"range": {"start": here, "end": here}}
            for start, end in chain[-MOST_RANGES:]:
                there = {"start": self.position_of(text, start), "end": self.position_of(text, min(end, kept))}
                parent = {"range": there, "parent": parent} if parent else {"range": there}
            told.append(parent)
        return told

    # ---- what an editor does

    def text(self):
        if self.dice.random() < 0.3:
            return texts.value(self.dice, 3)
        return "".join(self.dice.choice(PIECES) for _ in range(self.dice.choice([0, 1, 3, 12, 60])))

    def open(self, uri, text):
        self.open_as(self.dice.choice(["json", "json", "json"] + list(LANGUAGES)), uri, text)

    def open_as(self, language, uri, text):
        self.documents[uri] = text.encode()
        (self.of_lines.add if LANGUAGES[language] or uri.endswith(ENDINGS) else self.of_lines.discard)(uri)
        document = {"uri": uri, "version": 1, "text": text, **({"languageId": language} if language else {})}
        self.send({"method": "textDocument/didOpen", "params": {"textDocument": document}})
        self.publish(uri, 1)

    def position(self, text):
        """Also behind a line's end, and behind the text's."""
        line = self.dice.choice([0, self.dice.randrange(4), text.count(b"\n"), FAR])
        return {"line": line, "character": self.dice.choice([0, self.dice.randrange(8), self.dice.randrange(200), FAR])}

    def edit(self, text, changes):
        """One change of a text; None where the range ends before it starts, which loses the text."""
        new = self.text()
        if text is None or self.dice.random() < 0.1 or len(text) > 2000:
            changes.append({"text": new})
            return new.encode()
        start, end = self.position(text), self.position(text)
        if self.dice.random() < 0.5:
            end = start
        a, b = (offset_of(text, it["line"], it["character"], self.encoding) for it in (start, end))
        if a > b and self.dice.random() < 0.97:
            start, end, a, b = end, start, b, a
        changes.append({"range": {"start": start, "end": end}, "text": new})
        return None if a > b else text[:a] + new.encode() + text[b:]

    def change(self, uri):
        text, changes = self.documents[uri], []
        for _ in range(self.dice.choice([1, 1, 1, 2, 4, 0])):
            text = self.edit(text, changes)
            if text is None:
                break
        if changes or text is not None:
            self.send_changes(uri, changes, text)

    def send_changes(self, uri, changes, text):
        self.documents[uri] = text
        version = self.dice.randrange(1000)
        document = {"uri": uri, "version": version}
        self.send({"method": "textDocument/didChange", "params": {"textDocument": document, "contentChanges": changes}})
        self.publish(uri, version)

    def hover(self, uri):
        text = self.documents[uri]
        position = self.position(text or b"")
        number = self.ask("hover", uri, position=position)
        wanted = self.shown(text, position) if self.is_known_text(uri) else None
        self.wanted.append(lambda got: got.get("id") == number and got["result"] == wanted)

    def outline(self, uri):
        text, wanted = self.documents[uri], None
        number = self.ask("documentSymbol", uri)
        if self.is_known_text(uri):
            rows, kept = self.listed(text)
            wanted = None if rows is None else [self.range_to(text, start_of(row), row, kept) for row in rows]
        self.wanted.append(lambda got: got.get("id") == number and (got["result"] and [it["location"]["range"] for it in got["result"]]) == wanted)

    def folds(self, uri):
        text = self.documents[uri]
        number = self.ask("foldingRange", uri)
        wanted = self.folded(text) if self.is_known_text(uri) else None
        self.wanted.append(lambda got: got.get("id") == number and got["result"] == wanted)

    def select(self, uri):
        text = self.documents[uri]
        positions = [self.position(text or b"") for _ in range(self.dice.randrange(3))]
        number = self.ask("selectionRange", uri, positions=positions)
        wanted = self.around(text, positions) if self.is_known_text(uri) else None
        self.wanted.append(lambda got: got.get("id") == number and got["result"] == wanted)

    def close(self, uri):
        del self.documents[uri]
        self.send({"method": "textDocument/didClose", "params": {"textDocument": {"uri": uri}}})
        wanted = {"uri": uri, "diagnostics": []}
        self.wanted.append(lambda got: got.get("method") == "textDocument/publishDiagnostics" and got["params"] == wanted)

    def end(self):
        self.send({"id": "end", "method": "shutdown"})
        self.wanted.append(lambda got: got.get("id") == "end" and "result" in got)
        self.send({"method": "exit"})

    def play(self):
        for _ in range(self.dice.randrange(60)):
            uri = self.dice.choice(list(self.documents) or URIS)
            if not self.documents or self.dice.random() < 0.1:
                uri = self.dice.choice(URIS)
                if uri not in self.documents:
                    self.open(uri, self.text())
                continue
            rarely = self.close if self.dice.random() < 0.3 else self.hover
            self.dice.choice([self.change] * 6 + [self.hover] * 3 + [self.outline, self.folds, self.select, rarely])(uri)
        self.end()
        return b"".join(self.sent)
