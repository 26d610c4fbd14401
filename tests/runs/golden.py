"""Holds the run files of docs/FORMAT.md to a plain reading of their bytes, and changes each of their bytes."""
import pathlib
import re

import record

PAGE = pathlib.Path(__file__).resolve().parents[2] / "docs" / "FORMAT.md"
PARTS = [(b"", None), (b'"a":1},{', 7), (b"]]", None)]


def records():
    lines = PAGE.read_text().split("## Three run files")[1].split("\n# ")[0]
    return [bytes.fromhex(re.sub(r"\s", "", block)) for block in re.findall(r"(?:^    [0-9a-f]+\n)+", lines, re.M)]


def is_refused(data):
    try:
        record.decode(data)
    except record.NoRecord:
        return True
    return False


def main():
    passed = failed = 0
    found = records()
    assert len(found) == len(PARTS)
    for data, (part, start) in zip(found, PARTS):
        run = record.decode(data)
        holds = run["from"] == start and run["length"] == len(part) and record.hold(run, part) == 32 * 6 * 15
        changed = all(is_refused(data[:at] + bytes([data[at] ^ 1]) + data[at + 1:]) for at in range(len(data)))
        cut = all(is_refused(data[:at]) for at in range(len(data)))
        for said, words in ((holds, "answers"), (changed, "changed bytes"), (cut, "prefixes")):
            passed, failed = passed + said, failed + (not said)
            if not said:
                print(f"golden.py: {part!r}: {words}: FAILED")
    print(f"{passed} passed, {failed} failed")


if __name__ == "__main__":
    main()
