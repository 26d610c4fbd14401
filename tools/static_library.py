#!/usr/bin/env python3
"""Proves jx_c over libraries that stand in crates/*/out/rlib, and builds out/libjx_c.a from it: static_library.py [TOOLCHAIN]

`rt lib` proves the libraries below anew where `rt ci` built them. This calls the prover itself, with the words that `rt` uses,
so the gate proves each crate once. TOOLCHAIN is the folder of the compiler, the toolchain's own if it is left out: fuzz/compiler makes
one that keeps the proved module. Ends with a status other than 0 where a library is missing or the toolchain refuses a word.
"""
import os
import pathlib
import re
import shutil
import subprocess
import sys

ROOT = pathlib.Path(__file__).resolve().parent.parent
CRATE = "jx_c"


def lines():
    """What each crate of crates.txt stands on, by its name."""
    found = {}
    for line in (ROOT / "crates.txt").read_text().splitlines():
        name, _, uses = line.partition("#")[0].partition(":")
        if name.strip():
            found[name.split()[0]] = re.split(r"[\s,]+", uses.strip()) if uses.strip() else []
    return found


def below(crate, uses):
    """The repository's own crates that a crate stands on, each once."""
    found = {}
    for name in uses[crate]:
        if name in uses:
            found[name] = None
            found.update(dict.fromkeys(below(name, uses)))
    return list(found)


def rlib(crate):
    return ROOT / "crates" / crate / "out" / "rlib" / (crate + ".rlib")


def main():
    rt = shutil.which("rt")
    if rt is None:
        return 2
    kit = pathlib.Path(rt).resolve().parent.parent
    uses = lines()
    own = below(CRATE, uses)
    if not all(rlib(name).is_dir() for name in own):
        return 2
    words = [kit / "bin" / "rattle", "build", "--crate-name", CRATE, "src/lib.rt"]
    for name in dict.fromkeys(["std", *[it for it in uses[CRATE] if it not in uses]]):
        words += ["--extern", "%s=%s" % (name, kit / "rlibs" / (name + ".rlib"))]
    words += ["-L", "dependency=%s" % (kit / "rlibs")]
    for name in uses[CRATE]:
        if name in uses:
            words += ["--extern", "%s=%s" % (name, rlib(name))]
    for name in own:
        words += ["-L", "dependency=%s" % rlib(name).parent]
    words += ["--antt-project", kit / "rattle" / "logic" / "antt-project.json", "--logic-built", kit / "logic_built"]
    words += ["--jobs", str(min(4, os.cpu_count() or 1)), "--links", CRATE + "=", "--crate-type", "staticlib"]
    toolchain = pathlib.Path(sys.argv[1]).resolve() if len(sys.argv) > 1 else kit / "toolchain"
    words += ["--toolchain", toolchain, "--backend", "llvm", "-o", "out/lib%s.a" % CRATE]
    return subprocess.run(words, cwd=ROOT / "crates" / CRATE).returncode


if __name__ == "__main__":
    sys.exit(main())
