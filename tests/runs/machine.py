"""JSON as RFC 8259 and RFC 3629 have it: 32 lexical states, six expectations, and what a byte does to them."""

STATES = ("Gap Str Esc Hex4 Hex3 Hex2 Hex1 Tail1 Tail2 Tail3 AfterE0 AfterEd AfterF0 AfterF4 Minus Zero Int Dot Frac E ESign Exp "
          "T Tr Tru F Fa Fal Fals N Nu Nul").split()
KINDS = ["[", "]", "{", "}", ":", ",", '"', "number", "true", "false", "null"]
ENTRIES = "Value ArrayFirst ObjectFirst Name Colon After ValueOrName AfterOrColon".split()
EXPECTATIONS = ENTRIES[:6]

SPACE, DIGITS, HEX = b" \t\n\r", b"0123456789", b"0123456789abcdefABCDEF"
LITERALS = {"T": ("r", "Tr"), "Tr": ("u", "Tru"), "Tru": ("e", "Gap"), "F": ("a", "Fa"), "Fa": ("l", "Fal"), "Fal": ("s", "Fals"),
            "Fals": ("e", "Gap"), "N": ("u", "Nu"), "Nu": ("l", "Nul"), "Nul": ("l", "Gap")}
TAILS = {"Tail1": (0x80, 0xBF, "Str"), "Tail2": (0x80, 0xBF, "Tail1"), "Tail3": (0x80, 0xBF, "Tail2"), "AfterE0": (0xA0, 0xBF, "Tail1"),
         "AfterEd": (0x80, 0x9F, "Tail1"), "AfterF0": (0x90, 0xBF, "Tail2"), "AfterF4": (0x80, 0x8F, "Tail2")}
STARTS = {'"': ("Str", '"'), "-": ("Minus", "number"), "0": ("Zero", "number"), "t": ("T", "true"), "f": ("F", "false"), "n": ("N", "null")}


def between(byte):
    """A byte between tokens: the next state, and the kind of the mark that it is; or nothing."""
    if byte in SPACE:
        return "Gap", None
    if chr(byte) in "[]{}:,":
        return "Gap", chr(byte)
    if byte in b"123456789":
        return "Int", "number"
    return STARTS.get(chr(byte))


def in_string(byte):
    if byte == 0x22:
        return "Gap"
    if byte == 0x5C:
        return "Esc"
    if 0x20 <= byte < 0x80:
        return "Str"
    if 0xC2 <= byte <= 0xDF:
        return "Tail1"
    if 0xE1 <= byte <= 0xEF and byte != 0xED:
        return "Tail2"
    if 0xF1 <= byte <= 0xF3:
        return "Tail3"
    return {0xE0: "AfterE0", 0xED: "AfterEd", 0xF0: "AfterF0", 0xF4: "AfterF4"}.get(byte)


def in_number(state, byte):
    """A byte in a number: the next state; nothing; or "" where the number ends in front of it."""
    digit = byte in DIGITS
    exponent = byte in b"eE"
    if state == "Minus":
        return "Zero" if byte == 0x30 else "Int" if digit else None
    if state == "Zero":
        return "Dot" if byte == 0x2E else "E" if exponent else ""
    if state == "Int":
        return "Int" if digit else "Dot" if byte == 0x2E else "E" if exponent else ""
    if state == "Dot":
        return "Frac" if digit else None
    if state == "Frac":
        return "Frac" if digit else "E" if exponent else ""
    if state == "E":
        return "ESign" if byte in b"+-" else "Exp" if digit else None
    if state == "ESign":
        return "Exp" if digit else None
    return "Exp" if digit else ""


def step(state, byte):
    """The next state, and the kind of the mark that the byte is, if it is one; or nothing where no token goes on so."""
    if state == "Gap":
        return between(byte)
    if state == "Str":
        after = in_string(byte)
        return (after, None) if after else None
    if state == "Esc":
        return ("Str", None) if byte in b'"\\/bfnrt' else ("Hex4", None) if byte == 0x75 else None
    if state.startswith("Hex"):
        after = {"Hex4": "Hex3", "Hex3": "Hex2", "Hex2": "Hex1", "Hex1": "Str"}[state]
        return (after, None) if byte in HEX else None
    if state in TAILS:
        low, high, after = TAILS[state]
        return (after, None) if low <= byte <= high else None
    if state in LITERALS:
        letter, after = LITERALS[state]
        return (after, None) if byte == ord(letter) else None
    after = in_number(state, byte)
    if after == "":
        return between(byte)
    return (after, None) if after else None


TABLE = {state: [step(state, byte) for byte in range(256)] for state in STATES}


def move(kind, expect, holder):
    """What may stand behind a mark where this was expected in this container: "A", "O", or "-" for none; or nothing."""
    value = expect in ("Value", "ArrayFirst")
    if kind == "[":
        return "ArrayFirst" if value else None
    if kind == "{":
        return "ObjectFirst" if value else None
    if kind == "]":
        return "After" if expect in ("ArrayFirst", "After") and holder == "A" else None
    if kind == "}":
        return "After" if expect in ("ObjectFirst", "After") and holder == "O" else None
    if kind == ":":
        return "Value" if expect == "Colon" else None
    if kind == ",":
        return {"A": "Value", "O": "Name"}.get(holder) if expect == "After" else None
    if kind == '"':
        return "After" if value else "Colon" if expect in ("ObjectFirst", "Name") else None
    return "After" if value else None


def top(holders):
    """The innermost of open containers, which are listed outermost first."""
    return holders[-1] if holders else "-"


def act(depth, kind, at, expect, holders):
    """One mark over open containers: where it leads, or the fault."""
    after = move(kind, expect, top(holders))
    if after is None:
        return ("stopped", at)
    if kind in "[{":
        if len(holders) >= depth:
            return ("too deep", at)
        holders = holders + ("A" if kind == "[" else "O",)
    elif kind in "]}":
        holders = holders[:-1]
    return ("went", after, holders)


def read(depth, data, state, expect, holders):
    """The plain reading of bytes, one at a time."""
    for at, byte in enumerate(data):
        after = TABLE[state][byte]
        if after is None:
            return ("stopped", at)
        state, kind = after
        if kind:
            outcome = act(depth, kind, at, expect, holders)
            if outcome[0] != "went":
                return outcome
            _, expect, holders = outcome
    return ("went", state, expect, holders)
