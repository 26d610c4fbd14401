#!/usr/bin/env bash
# tools/dearest tells what took longest by when a check wrote the file of each function and lemma.
. "$(dirname "$0")/lib.sh"

# left CRATE SECONDS NAME: a file that a check wrote so many seconds after it began.
left() {
    local folder=clone/crates/$1/out/incremental/kept
    mkdir -p "$folder/records"
    touch -d "2026-01-01 00:00:00 UTC + $2 seconds" "$folder/$3.oantt"
}

what_took_longest_is_told_first() {
    left low 0 Rattle-low-specs.Sizes
    left low 3 Rattle-low-proofs.reading.read.Statement
    left low 10 Rattle-low-proofs.reading.read.Lts
    left low 11 Rattle-low-proofs.Sizes
    left low 15 records/Rattle-low-proofs.reading.read.Proof.decls
    left high 0 Rattle-high-proofs.Sums
    left high 20 Rattle-high-proofs.Sums.decls
    left high 9000 Rattle-high-proofs.late
    same 'of all crates' '  20.0 s  high Sums
  14.0 s  low reading.read
   1.0 s  low Sizes' "$(clone/tools/dearest)"
    same 'so many, of one crate' '  14.0 s  low reading.read' "$(clone/tools/dearest 1 low)"
    has 'a crate that was not checked' 'no check of other has left anything here' "$(clone/tools/dearest other 2>&1)"
}

mkdir clone
cp -R "$root/tools" clone
tests what_took_longest_is_told_first
