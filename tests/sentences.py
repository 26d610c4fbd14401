"""The sentences of Python's `Refused` beside those of the program, on texts with a fault: sentences.py PROGRAM SEED COUNT.

The texts are made of a few that are valid, by cuts and by bytes in the place of others. Prints what differs, and counts.
"""
import json
import pathlib
import random
import subprocess
import sys
import tempfile

import jx

TEXTS = (
    b'{"a":[1,-2.5e+3,0,true,false,null],"b\\n\\u00e9":{"c":"d \xc3\xa9\xf0\x9f\x98\x80\xed\x9f\xbf\xe0\xa4\x84"}}',
    b'[ [ ] , { } ,\n "\\"\\\\\\/\\b\\f\\r\\t" , 0.10 , -0 , 1E5 , [[[]]] ]',
    b' nullx', b'"\xf4\x8f\xbf\xbf"', b'01', b'\xef\xbb\xbf[]', b'{"a":{"a":[{}]}}',
)
BYTES = b'[]{},:"\\0123456789.-+eEtrufalsnxAZ /\n\r\t\x00\x1f\x7f\x80\x8f\x90\x9f\xa0\xbf\xc2\xe0\xed\xf0\xf4\xff\''


def made(chance):
    """A text of the list that is cut, that has another byte, or both."""
    text = bytearray(chance.choice(TEXTS))
    for _ in range(chance.randint(0, 2)):
        text[chance.randrange(len(text))] = chance.choice(BYTES)
    return bytes(text[: chance.randint(0, len(text)) if chance.random() < 0.5 else None])


def said_of(text, depth):
    """What Python says: where and what, or None of a text that is accepted."""
    try:
        jx.check(text, depth=depth)
    except jx.Refused as refused:
        return refused.offset, refused.msg
    return None


def answers(program, folder, texts, depth):
    """What the program says of each text."""
    names = []
    for number, text in enumerate(texts):
        names.append(str(folder / str(number)))
        pathlib.Path(names[-1]).write_bytes(text)
    done = subprocess.run([program, "check", "--format", "json", "--depth", str(depth), "--", *names], capture_output=True, text=True)
    for line in done.stdout.splitlines():
        found = json.loads(line)
        yield None if found["verdict"] == "accepted" else (found["offset"], found["sentence"])


def main(program, seed, count):
    chance, depth = random.Random(int(seed)), 4
    texts = [made(chance) for _ in range(int(count))]
    passed = failed = 0
    with tempfile.TemporaryDirectory() as folder:
        for text, wanted in zip(texts, answers(program, pathlib.Path(folder), texts, depth), strict=True):
            if said_of(text, depth) == wanted:
                passed += 1
            else:
                failed += 1
                print("sentences.py: FAILED: %r: %r, and the program says %r" % (text, said_of(text, depth), wanted))
    print("%d passed, %d failed" % (passed, failed))


main(*sys.argv[1:])
