"""Texts with one fault, or one repeated name, at each place of a block of 64 bytes, where tokens stand close together: whole, cut before it and behind it,
and with it on both sides of the cut between two batches. Where it stands is known by how a text is made: the same text mended begins with the same
bytes, and Python's json takes that one and refuses the other. The last line is `N passed, M failed`."""
import itertools
import json
import pathlib
import subprocess

import counts
from counts import PROGRAM, same

BLOCK, BATCH = 64, 256 * 1024


def refuse(word):
    raise ValueError(word)


def members_by_name(pairs):
    if len({name for name, _ in pairs}) < len(pairs):
        refuse("a name twice")
    return dict(pairs)


def is_loaded(kind, text):
    try:
        json.loads(text, parse_constant=refuse, object_pairs_hook=members_by_name if kind.is_of_names else None)
    except ValueError:
        return False
    return True


# ---- texts: a beginning, members of an array or an object up to a place, what has the fault, and more members


def of_array(length):
    """Elements of so many bytes, each with its comma."""
    longer = length % 3
    return b'"",' * ((length - 4 * longer) // 3) + b'"x",' * longer


def of_object(length):
    """Members of so many bytes, each with its comma."""
    longer = length % 7
    return b'"a":"",' * ((length - 8 * longer) // 7) + b'"a":"x",' * longer


def of_numbers(length):
    """Numbers and literals of so many bytes, each with its comma."""
    made = bytearray()
    for piece in itertools.cycle((b"1,", b"-0.5,", b"20e+3,", b"true,", b"7,")):
        if length - len(made) < 12:
            return bytes(made) + b"1" * (length - len(made) - 1) + b","
        made += piece


def of_digits(length):
    """Numbers of one digit, of so many bytes with their commas."""
    return b"10," * (length % 2) + b"1," * ((length - 3 * (length % 2)) // 2)


class Kind:
    """A fault: what stands in front of it, the bytes from it on, what they should be, and the depth."""

    def __init__(self, name, around, front, wrong, right, verdict="stopped at %d", depth=512):
        self.name, self.front, self.wrong, self.right, self.verdict, self.depth = name, front, wrong, right, verdict, depth
        self.begin, self.members, self.end = around
        self.is_of_names = verdict.startswith("repeated")

    def texts(self, place):
        """The wrong text, whose fault stands at this place, and the right one."""
        front = self.begin + self.members(place - len(self.begin) - len(self.front)) + self.front
        return [front + part + self.members(3 * BLOCK) + self.end for part in (self.wrong, self.right)]


ARRAY = (b"[", of_array, b'""]')
OBJECT = (b"{", of_object, b'"a":""}')
INNER = (b'{"b":[', of_array, b'""]}')
NUMBERS = (b"[", of_numbers, b"0]")
DIGITS = (b"[", of_digits, b"0]")
STRINGS_BY_NAME = (b'{"a":[', of_array, b'""]}')
NUMBERS_BY_NAME = (b'{"a":[', of_numbers, b"0]}")
DIGITS_BY_NAME = (b'[{"a":[[', of_digits, b"0]]}]")
AGAIN = "repeated name at %d"
KINDS = (
    # The quote behind the backslashes does not end the string: the next one does, and the one behind that is a fault.
    Kind("a quote behind one backslash", ARRAY, b'"\\","', b'"",', b","),
    Kind("a quote behind three backslashes", ARRAY, b'"\\\\\\","', b'"",', b","),
    Kind("a comma and the end of an object", OBJECT, b'"b":1,', b"},", b'"c":{},'),
    Kind("a comma in an object and a number", OBJECT, b'"b":1,', b'2:"",', b'"c":"",'),
    Kind("a comma in an object and a name without a colon", OBJECT, b'"b":1,"c"', b",", b":1,"),
    Kind("a zero and a digit", ARRAY, b"0", b"1,", b","),
    Kind("a minus, a zero and a digit", ARRAY, b"-0", b"1,", b".1,"),
    Kind("a zero and a digit in an object", OBJECT, b'"b":0', b"1,", b","),
    # Numbers among numbers (RFC 8259, section 6), and what stands beside them.
    Kind("a zero and a digit among numbers", NUMBERS, b"0", b"1,", b","),
    Kind("a zero and a digit among digits", DIGITS, b"0", b"1,", b","),
    Kind("a minus, a zero and a digit among digits", DIGITS, b"-0", b"1,", b","),
    Kind("a minus without a digit", NUMBERS, b"-", b",", b"1,"),
    Kind("two minuses", NUMBERS, b"-", b"-1,", b"1,"),
    Kind("a plus in front", NUMBERS, b"", b"+1,", b"1,"),
    Kind("a sign behind a digit", DIGITS, b"1", b"-1,", b",-1,"),
    Kind("a point in front", NUMBERS, b"", b".5,", b"5,"),
    Kind("a point without a digit", NUMBERS, b"1.", b",", b"0,"),
    Kind("a second point", DIGITS, b"1.5", b".5,", b"5,"),
    Kind("an exponent without a digit", NUMBERS, b"1e", b",", b"0,"),
    Kind("a signed exponent without a digit", NUMBERS, b"1.5E-", b"]", b"7,"),
    Kind("a sign behind that of an exponent", NUMBERS, b"1e+", b"+1,", b"1,"),
    Kind("a point in an exponent", NUMBERS, b"1e5", b".5,", b"5,"),
    Kind("a second exponent", DIGITS, b"1e5", b"e5,", b"5,"),
    Kind("a letter behind a digit", DIGITS, b"12", b"a,", b"3,"),
    Kind("a literal behind a digit", NUMBERS, b"1", b"true,", b",true,"),
    Kind("a digit behind a literal", NUMBERS, b"true", b"1,", b",1,"),
    Kind("a literal that ends as another one", NUMBERS, b"tru", b"l,", b"e,"),
    Kind("two numbers with a space between them", DIGITS, b"1 ", b"2,", b",2,"),
    Kind("a string behind a number", DIGITS, b"1", b'"",', b',"",'),
    # What is carried from one block to the next: that a string is open, that a comma or a colon asks for a value, what a bracket closes.
    Kind("a string that goes on, and two of them", ARRAY, b'"' + b"[,]:" * 12 + b'"', b'"",', b',"",'),
    Kind("a comma, many blanks and another one", ARRAY, b'"",' + b" " * 50, b',"",', b'"",'),
    Kind("a colon, many blanks and a comma", OBJECT, b'"b":' + b" " * 50, b",", b"1,"),
    Kind("a value, many blanks and another one", ARRAY, b'""' + b"\n" * 50, b'"",', b',"",'),
    Kind("an array that ends as an object", ARRAY, b'["",["",{"a":""}', b"},", b"]],"),
    Kind("an object that ends as an array", INNER, b'{"a":[],"b":{}', b"],", b"},"),
    # The depth is three: with the array around, and two more.
    Kind("an array too deep", ARRAY, b"[[", b"[]]],", b"]],", "too deep at %d", 3),
    Kind("an object too deep", ARRAY, b'[{"a":', b'{"a":1}}],', b"1}],", "too deep at %d", 3),
    Kind("an empty array too deep", OBJECT, b'"b":[[],[', b"[]]],", b"]],", "too deep at %d", 3),
    # A name again: behind an array longer than a block, and in an object behind some.
    Kind("a name behind an array of strings", STRINGS_BY_NAME, b'""],', b'"a":[', b'"b":[', AGAIN),
    Kind("a name behind an array of numbers", NUMBERS_BY_NAME, b"0],", b'"a":[', b'"A":[', AGAIN),
    Kind("a name behind two arrays of digits", DIGITS_BY_NAME, b'0]],"b":0,', b'"a":[[', b'"aa":[[', AGAIN),
    Kind("a name behind an array in an array", DIGITS_BY_NAME, b'0],{"a":[""]},[]],', b'"\\u0061":[[', b'"\\u0062":[[', AGAIN),
    Kind("a name in an object behind strings", ARRAY, b'{"a":0,', b'"a":1},', b'"b":1},', AGAIN),
    Kind("a name in an object behind numbers", NUMBERS, b'{"a":[0],"b":{"a":0},', b'"a":1},', b'"":1},', AGAIN),
    Kind("a name in an object behind digits", DIGITS, b'[{"long name that a block ends":0,', b'"long name that a block ends":1}],', b'"long name that a block end":1}],', AGAIN),
)


# ---- what the program says


def answers(kind, files):
    """The verdicts of texts by their names: one worker reads each from a file."""
    for name, text in files.items():
        pathlib.Path(name).write_bytes(text)
    words = ["check", "--workers", "1", "--depth", str(kind.depth)] + ["--unique-names"] * kind.is_of_names
    done = subprocess.run([PROGRAM, *words, *files], capture_output=True)
    same("%s: nothing is told" % kind.name, b"", done.stderr)
    for name in files:
        pathlib.Path(name).unlink()
    return dict(line.rsplit(": ", 1) for line in done.stdout.decode().splitlines())


def are_right(kind, wanted):
    """Holds the verdicts of texts to those that are wanted."""
    got = answers(kind, {name: text for name, (_, text) in wanted.items()})
    for name, (verdict, _) in wanted.items():
        same("%s: %s" % (kind.name, name), verdict, got.get(name))


def places_of_a_block(kind):
    """Each place of a block, behind some blocks without a fault."""
    wanted = {}
    for place in range(5 * BLOCK, 6 * BLOCK):
        wrong, right = kind.texts(place)
        same("%s at %d: as json has it" % (kind.name, place), (True, kind.depth < 512), (is_loaded(kind, right), is_loaded(kind, wrong)))
        same("%s at %d: one beginning" % (kind.name, place), right[:place], wrong[:place])
        wanted["%d.whole" % place] = kind.verdict % place, wrong
        wanted["%d.before" % place] = "truncated", wrong[:place]
        # Of a text that is cut short no name is told.
        wanted["%d.behind" % place] = "truncated" if kind.is_of_names else kind.verdict % place, wrong[:place + 1]
        wanted["%d.right" % place] = "accepted", right
    are_right(kind, wanted)


def places_at_the_end_of_a_batch(kind):
    """The 64 places around the end of what one worker reads at once."""
    wanted = {}
    for place in range(BATCH - BLOCK // 2, BATCH + BLOCK // 2):
        wrong, right = kind.texts(place)
        wanted["%d.wrong" % place] = kind.verdict % place, wrong
        wanted["%d.right" % place] = "accepted", right
    are_right(kind, wanted)


for one in KINDS:
    places_of_a_block(one)
    places_at_the_end_of_a_batch(one)
counts.ended()
