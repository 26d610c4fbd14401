"""Lines and characters of the Language Server Protocol 3.17 ("Position"), as docs/DOCUMENTS.md has them, by the bytes of a text."""


def is_inside(byte):
    """Whether a byte goes on with a character."""
    return 0x80 <= byte <= 0xBF


def units(text, encoding):
    """How many units of a line some bytes are."""
    return len(text) if encoding == "utf-8" else sum(0 if is_inside(byte) else 2 if byte >= 0xF0 else 1 for byte in text)


def line_at(text, line):
    """Where a line starts, and where it ends, its line feed left out; None where there is no such line."""
    start = 0
    for _ in range(line):
        start = text.find(b"\n", start) + 1
        if start == 0:
            return None
    end = text.find(b"\n", start)
    return start, len(text) if end < 0 else end


def offset_of(text, line, character, encoding):
    found = line_at(text, line)
    if found is None:
        return len(text)
    start, end = found
    if units(text[start:end], encoding) < character:
        return end - (end < len(text) and text[start:end].endswith(b"\r"))
    at = start
    while at < end and character > 0:
        step = 1
        while encoding != "utf-8" and at + step < end and is_inside(text[at + step]):
            step += 1
        size = units(text[at : at + step], encoding)
        if character < size:
            break
        character -= size
        at += step
    return at


def character_at(text, at):
    """Where the character begins that a byte is of. An edit may cut one: then no character has what is left of it, and it stands for itself."""
    start = at
    while start > 0 and at - start < 3 and is_inside(text[start]):
        start -= 1
    first = text[start] if start < len(text) else 0
    length = 2 if 0xC2 <= first <= 0xDF else 3 if 0xE0 <= first <= 0xEF else 4 if 0xF0 <= first <= 0xF4 else 1
    return start if at - start < length else at


def position_of(text, at, encoding):
    start = text.rfind(b"\n", 0, at) + 1
    return {"line": text.count(b"\n", 0, at), "character": units(text[start:at], encoding)}
