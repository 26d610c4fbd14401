"""Loads the elements of an array into a table of PostgreSQL by Dask: eight tasks, each of which reads its own part of the dump.

    python3 dask_loader.py DUMP POINTER TABLE

DUMP has its index beside it, as `jx save DUMP > DUMP.jxi` or `jx.save` make it, and TABLE a column of type jsonb. PostgreSQL is found by
the variables of `psql`. No task holds more of the dump than a chunk and one element.
"""
import json
import subprocess
import sys

import dask

import jx

COPY = "copy %s from stdin with (format csv, quote e'\\x01', delimiter e'\\x02')"


@dask.delayed
def load(part, table):
    """Copies the elements of a part into the table, and tells how many they are."""
    with part, subprocess.Popen(["psql", "-qc", COPY % table], stdin=subprocess.PIPE) as psql:
        for element in part:
            psql.stdin.write(json.dumps(element).encode() + b"\n")
    if psql.returncode:
        raise OSError("psql ended with status %d: nothing of this part is kept" % psql.returncode)
    return len(part)


def main(dump, pointer, table, tasks=8):
    with jx.open(dump) as root:
        parts = root.find(pointer).split(tasks)
        counts = dask.compute(*[load(part, table) for part in parts], scheduler="processes", num_workers=tasks)
    print(sum(counts))


if __name__ == "__main__":
    main(*sys.argv[1:])
