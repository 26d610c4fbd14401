#!/usr/bin/env python3
"""Compares jx with json, and with orjson where it is installed: tools/compare_python.py [FILE]..

Prints, for each file, the speed of each call over that of json.loads, the best of five interleaved runs; and then microseconds of calls on a
small text and on an index of 60,000 records. JX_PYTHON=ctypes compares the calls by ctypes.
"""
import json
import pathlib
import sys
import time

sys.path.insert(0, str(pathlib.Path(__file__).resolve().parent.parent / "bindings" / "python"))
import jx  # noqa: E402

ROUNDS = 5
RECORDS = 60000
SMALL = b'{"id": 7, "name": "Ann", "b":0}'


def calls(data, path):
    found = {
        "json.loads": lambda: json.loads(data),
        "jx.check": lambda: jx.check(data),
        "jx.check_file": lambda: jx.check_file(path),
        "jx.get": lambda: jx.get(data, ""),
        "jx.Index": lambda: jx.Index(data),
    }
    try:
        import orjson

        found["orjson.loads"] = lambda: orjson.loads(data)
    except ImportError:
        pass
    return found


def small_calls():
    """Each call, a thousand times."""
    index = jx.Index(json.dumps({"rows": [{"id": at, "name": "n%d" % at} for at in range(RECORDS)]}).encode())
    rows = index["/rows"]
    some = rows[:: RECORDS // 1000]
    pointers = ["/rows/%d/id" % (at * 7919 % RECORDS) for at in range(1000)]
    return {
        "json.loads of %d bytes" % len(SMALL): lambda: [json.loads(SMALL) for _ in range(1000)],
        "jx.check": lambda: [jx.check(SMALL) for _ in range(1000)],
        "jx.verdict": lambda: [jx.verdict(SMALL) for _ in range(1000)],
        "jx.get": lambda: [jx.get(SMALL, "/name") for _ in range(1000)],
        "index[pointer]": lambda: [index[pointer] for pointer in pointers],
        "len(value)": lambda: [len(rows) for _ in range(1000)],
        "value[i]": lambda: [rows[at] for at in range(0, RECORDS, RECORDS // 1000)],
        "a step of iteration": lambda: [child for child, _ in zip(rows, range(1000))],
        "value['id']": lambda: [row["id"] for row in some],
    }


def least(each):
    """The least time of each call, of interleaved runs."""
    best = {}
    for _ in range(ROUNDS):
        for name, call in each.items():
            began = time.perf_counter()
            call()
            best[name] = min(best.get(name, 1e9), time.perf_counter() - began)
    return best


def main():
    if sys.argv[1:2] == ["--help"]:
        print(__doc__.strip())
        return 2
    for path in sys.argv[1:]:
        best = least(calls(pathlib.Path(path).read_bytes(), path))
        ratios = ", ".join("%s %.1f" % (name, best["json.loads"] / took) for name, took in best.items())
        print("%s: %s" % (pathlib.Path(path).name, ratios))
    for name, took in least(small_calls()).items():
        print("%s: %.2f microseconds" % (name, took * 1000))
    return 0


if __name__ == "__main__":
    sys.exit(main())
