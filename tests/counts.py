"""What tests in Python share: where the program is, and counts of what passed and what failed."""
import os
import pathlib
import sys

HERE = pathlib.Path(__file__).resolve().parent
PROGRAM = os.environ.get("JX_PROGRAM", HERE.parent / "crates" / "jx" / "out" / "jx")
NAME = pathlib.Path(sys.argv[0]).name
# So many failures are told; all are counted.
MOST_TOLD = 40
passed = failed = 0


def one_of(name, wanted, got):
    """Counts whether what was got is one of those that are right."""
    global passed, failed
    if got in wanted:
        passed += 1
        return
    failed += 1
    if failed <= MOST_TOLD:
        shown = " or ".join(str(one)[:2000] for one in wanted)
        print("%s: FAILED: %s\n--- wanted\n%s\n--- got\n%s" % (NAME, name, shown, str(got)[:2000]))


def same(name, wanted, got):
    """Counts whether what was got is right."""
    one_of(name, [wanted], got)


def ended():
    """Writes the last line."""
    print("%d passed, %d failed" % (passed, failed))
