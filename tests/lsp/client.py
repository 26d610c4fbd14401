"""A client of jx-lsp that knows nothing of jx but its command line: it keeps its own copy of each text, and asks jx check what to expect."""
import json
import os
import random
import re
import subprocess
import sys
import tempfile

SERVER = os.environ["JX_LSP_PROGRAM"]
JX = os.environ["JX_PROGRAM"]
URI = "file:///home/ann/text.json"
LINES_URI = "file:///home/ann/text.jsonl"


def frame(body):
    """A frame of a message, or of bytes as they are. Half of a surrogate pair alone is spelt by an escape."""
    if not isinstance(body, bytes):
        text = json.dumps(body, ensure_ascii=False)
        body = (json.dumps(body) if re.search("[\ud800-\udfff]", text) else text).encode()
    return b"Content-Length: %d\r\n\r\n" % len(body) + body


def request(number, method, params=None):
    return frame({"jsonrpc": "2.0", "id": number, "method": method, "params": params})


def notification(method, params=None):
    return frame({"jsonrpc": "2.0", "method": method, "params": params})


def opened(text, version=1, uri=URI, language="json"):
    document = {"uri": uri, "languageId": language, "version": version, "text": text}
    return notification("textDocument/didOpen", {"textDocument": document})


def changed(changes, version, uri=URI):
    return notification("textDocument/didChange", {"textDocument": {"uri": uri, "version": version}, "contentChanges": changes})


def bodies(stream):
    """The bodies of a stream of frames."""
    while stream:
        head, _, stream = stream.partition(b"\r\n\r\n")
        name, _, length = head.partition(b": ")
        assert name == b"Content-Length", head
        yield stream[: int(length)]
        stream = stream[int(length) :]


def served(stream):
    """What the server writes for a stream, what it tells on standard error, and its status."""
    run = subprocess.run([SERVER], input=stream, capture_output=True, timeout=300)
    return run.stdout, run.stderr, run.returncode


def greeting(options=None, encodings=None, nested=False):
    capabilities = {"general": {"positionEncodings": encodings} if encodings else {}}
    if nested:
        capabilities["textDocument"] = {"documentSymbol": {"hierarchicalDocumentSymbolSupport": True}}
    params = {"processId": None, "rootUri": None, "capabilities": capabilities, "initializationOptions": options}
    return request(0, "initialize", params) + notification("initialized", {})


def farewell():
    return request("end", "shutdown") + notification("exit")


def checked(texts, *words):
    """What jx check tells of each text, as objects."""
    told = []
    with tempfile.TemporaryDirectory() as folder:
        for start in range(0, len(texts), 500):
            names = []
            for number, text in enumerate(texts[start : start + 500]):
                name = os.path.join(folder, "%d.json" % number)
                with open(name, "wb") as file:
                    file.write(text.encode())
                names.append(name)
            run = subprocess.run([JX, "check", "--format", "json", *words, *names], capture_output=True)
            told += [json.loads(line) for line in run.stdout.decode().splitlines()]
    return told


# ---- positions, as the protocol has them


def units(text, encoding):
    return len(text.encode()) if encoding == "utf-8" else len(text.encode("utf-16-le")) // 2


def place(text, at, encoding):
    """The position of a character."""
    line = text.count("\n", 0, at)
    start = text.rfind("\n", 0, at) + 1
    return {"line": line, "character": units(text[start:at], encoding)}


def place_of_byte(text, at, encoding):
    return place(text, len(text.encode()[:at].decode()), encoding)


# ---- a replay of random changes

PIECES = ["{", "}", "[", "]", ",", ":", '"', '"a"', '"é"', '"😀"', "\\u00e9", "\\", "1", "-0.5e3", "true", "null", " ", "\n", "\r\n", "\t", "€", "𝄞", '{"b":[1,2]}', "[[[", "]]]", "x"]


def random_change(dice, text, encoding):
    """A change, and the text behind it."""
    if dice.random() < 0.02:
        text = "".join(dice.choice(PIECES) for _ in range(dice.randrange(30)))
        return {"text": text}, text
    start = dice.randint(0, len(text))
    end = min(len(text), start + (dice.randrange(6) if dice.random() < 0.4 else 0))
    # An end between CR and LF has no position of its own.
    while 0 < start < len(text) and text[start - 1 : start + 1] == "\r\n":
        start -= 1
    while 0 < end < len(text) and text[end - 1 : end + 1] == "\r\n":
        end += 1
    new = "".join(dice.choice(PIECES) for _ in range(dice.randrange(4)))
    change = {"range": {"start": place(text, start, encoding), "end": place(text, end, encoding)}, "text": new}
    return change, text[:start] + new + text[end:]


def diagnostics(stream):
    for body in bodies(stream):
        message = json.loads(body)
        if message.get("method") == "textDocument/publishDiagnostics":
            yield message["params"]
        elif "method" in message:
            raise AssertionError(message)


def sentence_of(text, said, encoding):
    """The message of a mark: the sentence, with the place of a string's beginning as an editor counts it, and the offset."""
    sentence = said["sentence"]
    string = re.fullmatch(r"(the text ends inside a string that began at) line (\d+), column (\d+)", sentence)
    if string:
        before = text.split("\n")[: int(string[2]) - 1]
        began = place(text, sum(len(line) + 1 for line in before) + int(string[3]) - 1, encoding)
        sentence = "%s line %d, column %d" % (string[1], began["line"] + 1, began["character"] + 1)
    return sentence if said["verdict"] == "truncated" else "%s (byte %d)" % (sentence, said["offset"])


def compare(text, version, said, published, encoding):
    """Whether what was published is what jx check said of the text."""
    assert published["version"] == version, (version, published)
    marks = published["diagnostics"]
    if said["verdict"] == "accepted":
        assert marks == [], (text, said, marks)
        return
    wanted = [(said["verdict"], sentence_of(text, said, encoding))]
    assert [(mark["code"], mark["message"]) for mark in marks] == wanted, (text, said, marks)
    if said["verdict"] != "truncated":
        assert marks[0]["range"]["start"] == place_of_byte(text, said["offset"], encoding), (text, said, marks)


def replay(seed, count, encoding, options, words):
    """Random changes, several in some messages; each verdict is compared with that on the client's own copy."""
    dice = random.Random(seed)
    text = '{"a": [1, "é😀"],\r\n "b": null}\n'
    stream = [greeting(options, ["utf-8", "utf-16"] if encoding == "utf-8" else None), opened(text, 0)]
    texts = [text]
    for version in range(1, count + 1):
        changes = []
        for _ in range(1 if dice.random() < 0.8 else dice.randrange(1, 4)):
            change, text = random_change(dice, text, encoding)
            changes.append(change)
        if len(text) > 400:
            text = "[]"
            changes.append({"text": text})
        stream.append(changed(changes, version))
        texts.append(text)
    out, err, status = served(b"".join(stream) + farewell())
    assert (err, status) == (b"", 0), (err, status)
    published = list(diagnostics(out))
    assert len(published) == len(texts), (len(published), len(texts))
    for version, (text, said, params) in enumerate(zip(texts, checked(texts, *words), published)):
        compare(text, version, said, params, encoding)
    return "%d changes are told as jx check tells them" % count


def replays(count):
    count = int(count)
    each = count // 4
    print(replay(1, count - 3 * each, "utf-16", None, []))
    print(replay(2, each, "utf-8", None, []))
    print(replay(3, each, "utf-16", {"uniqueNames": True}, ["--unique-names"]))
    print(replay(4, each, "utf-16", {"depth": 2, "ignoreBom": True}, ["--depth", "2", "--ignore-bom"]))


# ---- JSON Lines


def lines_told(texts, *words):
    """What jx lines tells of each text: for each bad line its number, its span and its verdict."""
    told = []
    with tempfile.TemporaryDirectory() as folder:
        for text in texts:
            with open(os.path.join(folder, "text.jsonl"), "wb") as file:
                file.write(text.encode())
            run = subprocess.run([JX, "lines", *words, file.name], capture_output=True)
            bad = [line.split(" ", 2) for line in run.stdout.decode().splitlines()[:-1]]
            told.append([(int(number), *map(int, span.split("..")), verdict) for number, span, verdict in bad])
    return told


def line_sentence(text, start, line, verdict, said, encoding):
    """The message of a line's mark: the sentence of jx explain on the line alone, with places and offsets of the whole text."""
    if verdict == "blank":
        return "the line is blank"
    if verdict == "may be cut":
        return "the value may be cut: nothing behind it ends it"
    sentence = said["sentence"]
    string = re.fullmatch(r"(the text ends inside a string that began at) line 1, column (\d+)", sentence)
    if string:
        column = units(line[: int(string[2]) - 1], encoding)
        sentence = "%s line %d, column %d" % (string[1], text.encode()[:start].count(b"\n") + 1, column + 1)
    return sentence if verdict == "truncated" else "%s (byte %d)" % (sentence, start + said["offset"])


def compare_lines(text, version, bad, said, published, encoding):
    """Whether what was published is what jx lines tells of the text, each line at its place."""
    assert published["version"] == version, (version, published)
    data = text.encode()
    wanted = []
    for number, start, end, verdict in bad:
        line = data[start:end].decode()
        word, _, at = verdict.partition(" at ")
        # Of blank lines the first alone has a mark.
        if word == "blank" and word in [told[0] for told in wanted]:
            continue
        message = line_sentence(text, start, line, verdict, said.get(line), encoding)
        first = start if word == "blank" else int(at) if at else len((data[:start].decode() + line[:-1]).encode())
        wanted.append((word, message, place_of_byte(text, first, encoding), number - 1))
    if len(wanted) < len(bad):
        wanted.append(("more", "more lines that are no JSON texts: %d" % (len(bad) - len(wanted)), *wanted[0][2:]))
    marks = published["diagnostics"]
    told = [(mark["code"], mark["message"], mark["range"]["start"], mark["range"]["end"]["line"]) for mark in marks]
    assert told == wanted, (text, wanted, told)


def short_changes(dice, text, encoding):
    """A change, and the text behind it, which stays short."""
    change, text = random_change(dice, text, encoding)
    return ([change], text) if len(text) <= 200 else ([{"text": "1\n2"}], "1\n2")


def long_change(dice, text, encoding):
    """A change of a long text, often at a line's end, and the text behind it."""
    start = dice.randint(0, len(text))
    if dice.random() < 0.7:
        start = max(0, text.find("\n", start) + dice.randrange(2))
    end = min(len(text), start + dice.choice([0, 0, 0, 1, 1, 2, 300, 20000]))
    new = dice.choice(["", "", "x", "\n", "{}\n", "\n\n", '"', " ", "[1]", "[1]\n" * 9000])
    change = {"range": {"start": place(text, start, encoding), "end": place(text, end, encoding)}, "text": new}
    return change, text[:start] + new + text[end:]


def long_changes(dice, text, encoding):
    """Up to three such changes, each of what the one before it left, and the text behind them."""
    changes = []
    for _ in range(dice.choice([1, 1, 1, 2, 3])):
        change, text = long_change(dice, text, encoding)
        changes.append(change)
    return changes, text


SHORT_LINES = '{"a": 1}\r\n[1, "é😀"]\n\n{"b": tru}\n'
LONG_LINES = "".join('{"id": %d, "é": "%s"}\n' % (number, "x" * (number * 37 % 300)) for number in range(600)) + "[2"


def replay_lines(seed, count, encoding, options, words, uri, language, text=SHORT_LINES, change=short_changes):
    """Random changes of JSON Lines; each message is compared with what jx lines tells of the client's own copy."""
    dice = random.Random(seed)
    stream = [greeting(options, ["utf-8", "utf-16"] if encoding == "utf-8" else None), opened(text, 0, uri, language)]
    texts = [text]
    for version in range(1, count + 1):
        changes, text = change(dice, text, encoding)
        stream.append(changed(changes, version, uri))
        texts.append(text)
    out, err, status = served(b"".join(stream) + farewell())
    assert (err, status) == (b"", 0), (err, status)
    published = list(diagnostics(out))
    assert len(published) == len(texts), (len(published), len(texts))
    told = lines_told(texts, *words)
    lines = sorted({text.encode()[bad[1] : bad[2]].decode() for text, all_bad in zip(texts, told) for bad in all_bad})
    said = dict(zip(lines, checked(lines, *[word for word in words if word != "--ignore-bom"])))
    for version, (text, bad, params) in enumerate(zip(texts, told, published)):
        compare_lines(text, version, bad, said, params, encoding)
    return "%d changes are told as jx lines tells them" % count


def replays_of_lines(count):
    each = int(count) // 4
    print(replay_lines(1, each, "utf-16", None, [], LINES_URI, "jsonl"))
    print(replay_lines(2, each, "utf-8", None, [], URI, "ndjson"))
    print(replay_lines(3, each, "utf-16", {"depth": 2}, ["--depth", "2"], URI, "jsonlines"))
    print(replay_lines(4, each, "utf-16", {"ignoreBom": True}, ["--ignore-bom"], LINES_URI, "json"))


def replays_of_long_lines(count):
    each = int(count) // 3
    print(replay_lines(5, each, "utf-16", None, [], LINES_URI, "jsonl", LONG_LINES, long_changes))
    print(replay_lines(6, each, "utf-8", {"ignoreBom": True}, ["--ignore-bom"], LINES_URI, "jsonl", LONG_LINES, long_changes))
    print(replay_lines(7, each, "utf-16", {"ignoreBom": True}, ["--ignore-bom"], LINES_URI, "jsonl", "\ufeff" + LONG_LINES, long_changes))


def content_of(language, name):
    """Prints how many diagnostics two texts in two lines have, by the language and the name of the document."""
    out, err, status = served(greeting() + opened("[1]\n[2]\n", 1, name, json.loads(language)) + farewell())
    assert (err, status) == (b"", 0), (err, status)
    print({0: "lines", 1: "one text"}[len(list(diagnostics(out))[0]["diagnostics"])])


def told_lines(options, text):
    """Prints what is published of JSON Lines by settings, each diagnostic with both ends of its range."""
    text = text.encode().decode("unicode_escape")
    out, err, status = served(greeting(json.loads(options)) + opened(text, 1, LINES_URI, "jsonl") + farewell())
    assert (err, status) == (b"", 0), (err, status)
    for params in diagnostics(out):
        for mark in params["diagnostics"]:
            print("%s: %s" % (mark["code"], mark["message"]), *("%d:%d" % (mark["range"][end]["line"], mark["range"][end]["character"]) for end in ("start", "end")), end="; ")
        print("%d" % len(params["diagnostics"]))


def bad_lines(count):
    """How many of many bad lines are marked one by one, and what is told of the others."""
    out, err, status = served(greeting() + opened("{\n" * int(count), 1, LINES_URI, "jsonl") + farewell())
    assert (err, status) == (b"", 0), (err, status)
    *marks, last = list(diagnostics(out))[0]["diagnostics"]
    assert [mark["range"]["start"] for mark in marks] == [{"line": line, "character": 0} for line in range(len(marks))]
    print("%d marks; %s" % (len(marks), last["message"]))


def told(options, text):
    """Prints what is published of a text by settings."""
    out, err, status = served(greeting(json.loads(options)) + opened(text.encode().decode("unicode_escape")) + farewell())
    assert (err, status) == (b"", 0), (err, status)
    for params in diagnostics(out):
        print(" ".join(mark["message"] for mark in params["diagnostics"]) or "accepted")


def cut_text(text, line, start, end):
    """Prints what is published, and where, once bytes of a line are deleted, which may be some of a character."""
    line, start, end = int(line), int(start), int(end)
    change = {"range": {"start": {"line": line, "character": start}, "end": {"line": line, "character": end}}, "text": ""}
    text = text.encode().decode("unicode_escape")
    out, err, status = served(greeting(None, ["utf-8"]) + opened(text) + changed([change], 2) + farewell())
    assert (err, status) == (b"", 0), (err, status)
    mark = list(diagnostics(out))[1]["diagnostics"][0]
    print(mark["message"], *("%d:%d" % (mark["range"][end]["line"], mark["range"][end]["character"]) for end in ("start", "end")))


# ---- values, by a parser of its own

BLANKS = ["", "", " ", "\n", "\r\n", "\t"]
SCALARS = {'"é😀"': "string", '"\\u00e9\\/"': "string", "-0.5e3": "number", "10": "number", "true": "true", "false": "false", "null": "null"}
NAMES = ['" "', '"\\t\\n"', '"\u2003"', '"\\ufeff\\u0020"', '"\\"\\udc00\\n"', '"a"', '"\\u0061"', '"b/c"', '"~"', '"~1"', '"é"', '"😀"', '"\\ud83d\\ude00"', '""', '"\\ud800"', '"\\n"', '"\\""', '"\\\\"', '"0"']
NUMBER = re.compile(r"-?(0|[1-9][0-9]*)(\.[0-9]+)?([eE][-+]?[0-9]+)?")
SYMBOL_KINDS = {"string": 15, "number": 16, "true": 17, "false": 17, "array": 18, "object": 19, "null": 21}


class Text:
    """A text that is made value by value, and its values in the order of their starts."""

    def __init__(self, dice, names=None):
        self.dice = dice
        self.names = names
        self.text = ""
        self.values = []
        self.value(None, None, 0, 4)
        self.blank()

    def blank(self):
        self.text += self.dice.choice(BLANKS)

    def value(self, parent, name, index, depth, named=None):
        self.blank()
        value = {"parent": parent, "name": name, "index": index, "named": named, "start": len(self.text)}
        self.values.append(value)
        value["kind"] = self.dice.choice(["array", "object", "scalar"] if depth else ["scalar"])
        if value["kind"] == "scalar":
            spelt = self.dice.choice(list(SCALARS))
            value["kind"] = SCALARS[spelt]
            self.text += spelt
        else:
            opens, closes = "[]" if value["kind"] == "array" else "{}"
            self.text += opens
            for index in range(self.dice.randrange(4)):
                self.text += "," if index else ""
                self.blank()
                name = named = None
                if value["kind"] == "object":
                    name = self.names[index] if self.names else self.dice.choice(NAMES)
                    named = len(self.text)
                    self.text += name
                    self.blank()
                    self.text += ":"
                self.value(value, name, index, depth - 1, named)
            self.blank()
            self.text += closes
        value["end"] = len(self.text)

    def pointer(self, value):
        """The pointer of a value, or none where no pointer leads to it alone."""
        tokens = []
        while value["parent"]:
            if value["name"] is None:
                tokens.append(str(value["index"]))
            else:
                name = json.loads(value["name"])
                others = [json.loads(other["name"]) for other in self.values if other["parent"] is value["parent"]]
                if others.count(name) > 1 or re.search("[\ud800-\udfff]", name):
                    return None
                tokens.append(name.replace("~", "~0").replace("/", "~1"))
            value = value["parent"]
        return "".join("/" + token for token in reversed(tokens))

    def end(self, value, cut):
        """Where a value ends, as far as it goes, and whether it goes on behind the cut."""
        text = self.text[value["start"] : cut]
        whole = value["end"] <= cut or value["kind"] == "number" and NUMBER.fullmatch(text)
        return min(value["end"], cut), not whole

    def outer(self, value):
        """Where a member begins, at its name, or a value that has none."""
        return value["start"] if value["name"] is None else value["named"]

    def range(self, start, value, encoding, cut):
        """A range from a character up to the end of a value."""
        end, _ = self.end(value, cut)
        return {"start": place(self.text, start, encoding), "end": place(self.text, end, encoding)}

    def label(self, value, encoding, cut):
        """The range of a member's name, or of a value that has none."""
        if value["name"] is None:
            return self.range(value["start"], value, encoding, cut)
        return {"start": place(self.text, value["named"], encoding), "end": place(self.text, value["named"] + len(value["name"]), encoding)}

    def hover(self, at, encoding, cut=None):
        """What is shown of the innermost value at a character, or of the member whose name is there."""
        cut = len(self.text) if cut is None else cut
        there = [value for value in self.values if self.outer(value) <= at < value["end"]]
        if not there or cut <= at or cut <= there[-1]["start"]:
            return None
        value = there[-1]
        pointer = self.pointer(value)
        words = "no pointer" if pointer is None else "pointer " + pointer if pointer else "empty pointer"
        end, more = self.end(value, cut)
        span = (len(self.text[:at].encode()) for at in (value["start"], end))
        shown = "%s %d..%d%s\n%s" % (value["kind"], *span, ", as far as the fault" if more else "", words)
        start = self.outer(value) if at < value["start"] else value["start"]
        return {"contents": {"kind": "plaintext", "value": shown}, "range": self.range(start, value, encoding, cut)}

    def around(self, at, here, encoding, cut):
        """The values, names and members around a character, each in its parent; where there is none, an empty range there."""
        spans = []
        for value in self.values:
            if value["name"] is not None:
                spans += [(value["named"], value["end"]), (value["named"], value["named"] + len(value["name"]))]
            spans.append((value["start"], value["end"]))
        told = {"range": {"start": here, "end": here}}
        outer = None
        for start, end in spans:
            if start <= at < end and at < cut:
                there = {"start": place(self.text, start, encoding), "end": place(self.text, min(end, cut), encoding)}
                told = {"range": there, "parent": outer} if outer else {"range": there}
                outer = told
        return told

    def before(self, cut):
        return [value for value in self.values if value["start"] < cut]

    def name(self, value):
        """A member's name, as it is spelt where it has half of a surrogate pair alone, or with its quotation marks where it is blank."""
        if value["parent"] is None or value["name"] is None:
            return "root" if value["parent"] is None else str(value["index"])
        name = json.loads(value["name"])
        if re.search("[\ud800-\udfff]", name):
            return value["name"][1:-1]
        return name if name.replace("\ufeff", "").strip() else value["name"]

    def symbol(self, value, encoding, cut):
        there = self.range(self.outer(value), value, encoding, cut)
        return {"name": self.name(value), "kind": SYMBOL_KINDS[value["kind"]], "location": {"uri": URI, "range": there}}

    def nested(self, value, encoding, cut):
        """A value, with those in it."""
        there = self.range(self.outer(value), value, encoding, cut)
        label = self.label(value, encoding, cut)
        inside = [self.nested(other, encoding, cut) for other in self.before(cut) if other["parent"] is value]
        return {"name": self.name(value), "kind": SYMBOL_KINDS[value["kind"]], "range": there, "selectionRange": label, "children": inside}

    def symbols(self, encoding, cut, nested):
        if nested:
            return [self.nested(value, encoding, cut) for value in self.before(cut)[:1]]
        return [self.symbol(value, encoding, cut) for value in self.before(cut)]

    def folds(self, cut):
        """The lines of containers, less that of the closing bracket, of which one begins in a line."""
        told = []
        for value in self.before(cut):
            first = self.text.count("\n", 0, value["start"])
            last = self.text.count("\n", 0, self.end(value, cut)[0]) - 1
            if value["kind"] in ("array", "object") and first < last and [first] != [fold["startLine"] for fold in told[-1:]]:
                told.append({"startLine": first, "endLine": last})
        return told


def about(number, method, **more):
    return request(number, "textDocument/" + method, {"textDocument": {"uri": URI}, **more})


def results(stream):
    for body in bodies(stream):
        message = json.loads(body)
        if "id" in message:
            yield message["result"]


def show(seed, count, encoding, faulty=False, nested=False):
    """Random texts, with hovers and ranges at several places of each, their outlines and folds. A faulty one has a control character somewhere."""
    dice = random.Random(seed)
    stream, wanted = [greeting(None, ["utf-8"] if encoding == "utf-8" else None, nested)], []
    for number in range(count):
        # A name that is cut short may be another one's: here none is.
        text = Text(dice, ['"k0"', '"k1"', '"k2"'] if faulty else None)
        cut = dice.randint(0, len(text.text)) if faulty else len(text.text)
        shown = text.text[:cut] + ("\x01" if faulty else "") + text.text[cut:]
        stream.append(opened(shown, number))
        places, chains = [], []
        for at in (dice.randint(0, len(shown)) for _ in range(6)):
            # A position between CR and LF is that before both.
            if shown[at - 1 : at + 1] == "\r\n":
                at -= 1
            here = place(shown, at, encoding)
            stream.append(about(number, "hover", position=here))
            wanted.append(text.hover(at, encoding, cut))
            places.append(here)
            chains.append(text.around(at, here, encoding, cut))
        for most in (6, 1, 0):
            stream.append(about(number, "selectionRange", positions=places[:most]))
            wanted.append(chains[:most])
        stream.append(about(number, "documentSymbol"))
        wanted.append(text.symbols(encoding, cut, nested))
        stream.append(about(number, "foldingRange"))
        wanted.append(text.folds(cut))
    out, err, status = served(b"".join(stream) + farewell())
    assert (err, status) == (b"", 0), (err, status)
    for want, got in zip(wanted, list(results(out))[1:-1], strict=True):
        assert want == got, (want, got)
    return "%d texts are shown as they are read by hand" % count


def shows(count):
    each = int(count) // 4
    print(show(5, each, "utf-16"))
    print(show(6, each, "utf-8", nested=True))
    print(show(7, each, "utf-16", faulty=True, nested=True))
    print(show(8, each, "utf-8", faulty=True))


def levels(count):
    """How deep arrays in each other are shown in each other."""
    text = "[" * int(count) + "]" * int(count)
    out, err, status = served(greeting(nested=True) + opened(text) + about(1, "documentSymbol") + farewell())
    inside, depth = list(results(out))[1], 0
    while inside:
        depth += 1
        inside = inside[0]["children"]
    print("%d levels" % depth)


def around_of(count):
    """How many arrays around a place are told."""
    text = "[" * int(count) + "]" * int(count)
    where = {"line": 0, "character": int(count) - 1}
    out, err, status = served(greeting() + opened(text) + about(1, "selectionRange", positions=[where]) + farewell())
    told, depth = list(results(out))[1][0], 0
    while told:
        assert told["range"] == {"start": {"line": 0, "character": int(count) - depth - 1}, "end": {"line": 0, "character": int(count) + depth + 1}}, told["range"]
        depth, told = depth + 1, told.get("parent")
    print("%d ranges" % depth)


def outline_of(count):
    text = "[" + ",".join("0" * int(count)) + "]"
    out, err, status = served(greeting() + opened(text) + about(1, "documentSymbol") + farewell())
    print("%d values" % len(list(results(out))[1]))


# ---- other sessions


def session(folder):
    """Plays the messages of a file, each line a body, and prints the bodies of what comes back."""
    with open(os.path.join(folder, "session.in"), "rb") as file:
        lines = [line.rstrip(b"\n") for line in file if not line.startswith(b"#")]
    out, err, status = served(b"".join(frame(line) for line in lines))
    with open(os.path.join(folder, "session.out"), "rb") as file:
        wanted = b"".join(frame(line.rstrip(b"\n")) for line in file)
    if out == wanted and (err, status) == (b"", 0):
        print("as recorded")
    else:
        print(out.decode(), err, status)


def framed(text):
    """Prints what is answered to bytes that are no frames, spelt as in a Python bytes literal."""
    stream = text.encode().decode("unicode_escape").encode("latin-1")
    out, err, status = served(stream)
    for body in bodies(out):
        print(body.decode())
    print("status %d%s" % (status, err.decode()))


def cut(folder):
    """Plays the recorded session byte by byte: the same bytes come back."""
    with open(os.path.join(folder, "session.in"), "rb") as file:
        stream = b"".join(frame(line.rstrip(b"\n")) for line in file if not line.startswith(b"#"))
    whole = served(stream)
    server = subprocess.Popen([SERVER], stdin=subprocess.PIPE, stdout=subprocess.PIPE, bufsize=0)
    for byte in stream:
        server.stdin.write(bytes([byte]))
    server.stdin.close()
    out = server.stdout.read()
    print("the same" if (out, server.wait(300)) == (whole[0], whole[2]) else "another")


def closed_pipe():
    """A client that reads nothing more: the server ends by itself."""
    server = subprocess.Popen([SERVER], stdin=subprocess.PIPE, stdout=subprocess.PIPE, stderr=subprocess.PIPE)
    server.stdout.close()
    # What is left to be written when the server ends is dropped here, and not when Python ends, which would tell of it.
    for write in (lambda: server.stdin.write(greeting() + b"".join(opened("[", number) for number in range(1000))), server.stdin.close):
        try:
            write()
        except BrokenPipeError:
            pass
    print("status %d" % server.wait(300))


def huge(count):
    """A text of many bytes, and a change in it."""
    text = "[" + ",".join('{"name":"é😀","value":%d}' % number for number in range(int(count))) + "]"
    change = {"range": {"start": {"line": 0, "character": 1}, "end": {"line": 0, "character": 1}}, "text": "x"}
    out, err, status = served(greeting() + opened(text) + changed([change], 2) + farewell())
    for params in diagnostics(out):
        print([mark["message"] for mark in params["diagnostics"]])
    print("status %d%s" % (status, err.decode()))


if __name__ == "__main__":
    globals()[sys.argv[1]](*sys.argv[2:])
