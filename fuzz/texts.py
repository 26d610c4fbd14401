"""Texts by dice: values, pieces of the grammar in any order, texts with a byte changed, long ones and deep ones."""

PIECES = ["{", "}", "[", "]", ",", ":", '"', '"a":1', '"\\u0061":', '"é"', '"😀"', "\\ud83d\\ude00", "\\", "0", "-1.5e3", "true", "false", "null", " ", "\n", "\x1e", "\ufeff", '"~/":', '"":']
NAMES = ['"a"', '"\\u0061"', '"b/c"', '"~"', '"é"', '"0"', '""', '"longer than eight"', '"longer than eighu"']
SCALARS = ["0", "-1.5E+3", "true", "false", "null", '""', '"a\\n"', '"\\u0061"', '"é😀"', '"\\ud800"']
BYTES = [b"\x00", b"\x1f", b"\x7f", b"\x80", b"\xc3", b"\xc0\x80", b"\xed\xa0\x80", b"\xf4\x90\x80\x80", b"\xff", b"\xef\xbb\xbf", b"0", b"]", b"}", b'"', b"\\", b",", b":", b"e", b"\x1e"]
# A value that is repeated, with what stands before, between and behind.
LONG = [(b"[", b",", b"]"), (b'{"x":[', b",", b"]}"), (b"", b"\n", b""), (b"[[", b",", b"]]")]


def value(dice, depth):
    kind = dice.randrange(8 if depth else 5)
    if kind < 5:
        return dice.choice(SCALARS)
    if kind == 5:
        return "[%s]" % ", ".join(value(dice, depth - 1) for _ in range(dice.randrange(5)))
    return "{%s}" % ",\n".join("%s:%s" % (dice.choice(NAMES), value(dice, depth - 1)) for _ in range(dice.randrange(5)))


def changed(dice, text):
    """The text with a few bytes put in, taken out or cut off."""
    for _ in range(dice.choice([1, 1, 2])):
        at = dice.randrange(len(text) + 1)
        how = dice.randrange(4)
        if how == 0:
            text = text[:at] + dice.choice(BYTES) + text[at:]
        elif how == 1:
            text = text[:at] + text[at + 1 :]
        elif how == 2:
            text = text[:at] + dice.choice(BYTES) + text[at + 1 :]
        else:
            text = text[:at]
    return text


def small(dice):
    """A text of up to some hundred bytes, which may be refused."""
    if dice.random() < 0.3:
        return "".join(dice.choice(PIECES) for _ in range(dice.randrange(40))).encode()
    text = value(dice, 5).encode()
    if dice.random() < 0.1:
        text = b"\xef\xbb\xbf" + text
    return changed(dice, text) if dice.random() < 0.4 else text


def deep(dice):
    """Nested to some depth around those that settings allow."""
    opens, closes = dice.choice([(b"[", b"]"), (b'{"a":', b"}"), (b'{"a":[', b"]}")])
    count = dice.choice([1, 2, 3, 63, 64, 65, 511, 512, 513, 600, 3000])
    lost = dice.choice([0, 0, 0, 1])
    return opens * count + b"1" + closes * (count - lost)


def long(dice, size):
    """A text of some bytes, which repeats a smaller one, and may be refused where a byte far behind is changed."""
    before, between, behind = dice.choice(LONG)
    part = value(dice, 4).encode() + dice.choice([b"", b" ", b"\n"])
    text = before + (part + between) * (size // len(part + between)) + part + behind
    return changed(dice, text) if dice.random() < 0.5 else text


def any_text(dice):
    kind = dice.random()
    return deep(dice) if kind < 0.03 else long(dice, dice.randrange(20000)) if kind < 0.06 else small(dice)


def sequence(dice):
    """Elements behind record separators, which may be missing or doubled."""
    marks = [b"\x1e", b"\x1e", b"\x1e", b"\x1e\x1e", b"\n\x1e", b"\n"]
    return b"".join(dice.choice(marks) + small(dice) for _ in range(dice.randrange(8))) + dice.choice([b"", b"\n", b"\x1e"])
