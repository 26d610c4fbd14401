#!/usr/bin/env python3
"""Holds the plain readers to examples of the standards themselves: examples.py READERS

Prints what differs, and a line of counts.
"""
import sys

import plain

# RFC 6901, section 5: the text, and what each pointer evaluates to.
TEXT = rb'{"foo": ["bar", "baz"], "": 0, "a/b": 1, "c%d": 2, "e^f": 3, "g|h": 4, "i\\j": 5, "k\"l": 6, " ": 7, "m~n": 8}'
POINTERS = {
    b"": TEXT, b"/foo": b'["bar", "baz"]', b"/foo/0": b'"bar"', b"/": b"0", b"/a~1b": b"1", b"/c%d": b"2", b"/e^f": b"3", b"/g|h": b"4", rb"/i\j": b"5",
    b'/k"l': b"6", b"/ ": b"7", b"/m~0n": b"8",
}
# RFC 8259, section 13, and what sections 2 to 8 call wrong.
TEXTS = {
    b'{"Image": {"Width": 800, "Animated" : false, "IDs": [116, 943, 234, 38793]}}': "accepted",
    b'"Hello world!"': "accepted", b"42": "accepted", b"true": "accepted", b'"\\uD834\\uDD1E"': "accepted", b'"\\uDEAD"': "accepted",
    b"01": "stopped at 1", b"True": "stopped at 0", b"[1,]": "stopped at 3", b"\xef\xbb\xbf1": "stopped at 0", b'"\x1f"': "stopped at 1", b"Infinity": "stopped at 0",
    b"": "truncated", b'{"a"': "truncated",
}
# RFC 7464, sections 2.1 and 2.4.
SEQUENCES = {
    b'\x1e{"a":1}\n\x1e\x1e[1]\n': ["1..9 accepted", "11..15 accepted"],
    b"\x1etrue\n\x1etrue": ["1..6 accepted", "7..11 may be cut"],
    b'1\x1e{"a":': ["0..1 unmarked", "2..7 truncated"],
}


def found(readers):
    """Each example: what was read, and what is due."""
    settings = plain.Settings(512, 0)
    for text, due in TEXTS.items():
        yield text, str(readers.read(text, settings)[0]), due
    for text, due in SEQUENCES.items():
        yield text, ["%s %s" % (it.span, it.verdict) for it in readers.elements(text, settings)], due
    verdict, rows = readers.read(TEXT, settings)
    for pointer, due in POINTERS.items():
        span = readers.find(TEXT, rows, verdict, pointer).span
        yield pointer, TEXT[span.start : span.end], due
        number = [k for k in range(rows.count) if str(rows.all[k].span) == str(span)][0]
        yield pointer, readers.path(TEXT, rows, number), pointer


def main():
    right = wrong = 0
    for example, got, due in found(plain.Readers(sys.argv[1])):
        right, wrong = right + (got == due), wrong + (got != due)
        if got != due:
            print("examples.py: %r: %r, and not %r" % (example, got, due))
    print("examples.py: %d examples are right, %d wrong" % (right, wrong))
    return wrong > 0


if __name__ == "__main__":
    sys.exit(main())
