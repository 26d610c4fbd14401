#!/usr/bin/env bash
# The manual page: it is made from the help texts of this program, is laid out with no warning, and names each fault.
. "$(dirname "$0")/lib.sh"
page=$root/jx.1

# Leaves the words of the page in `text`.
the_page_is_laid_out_with_no_warning() {
    if command -v man >/dev/null; then
        LC_ALL=C.UTF-8 MANWIDTH=79 MAN_KEEP_FORMATTING= man --warnings -l "$page" >shown 2>warnings
        same 'man -l ends with status' 0 $?
        same 'man -l warns of nothing' '' "$(cat warnings)"
    else
        echo 'manual.sh: there is no man here: the page is read as it stands'
        sed -e '/^\.\\"/d; s/^\.\(SH\|SS\|B\|TH\) *//; /^\.[A-Za-z]/d; s/\\-/-/g; s/\\(aq/'"'"'/g' "$page" >shown
    fi
    text=$(col -bx <shown | sed "s/’/'/g; s/‘/'/g; s/−/-/g" | flat)
}

the_page_has_its_sections_and_the_version() {
    local section
    for section in NAME SYNOPSIS DESCRIPTION COMMANDS OPTIONS 'EXIT STATUS' DIAGNOSTICS EXAMPLES STANDARDS; do
        has "section $section" " $section " "$text"
    done
    has 'the version' "$("$program" --version)" "$text"
}

the_page_and_the_completions_are_made_from_the_help_texts() {
    same 'tools/words.py has nothing to write' '' "$(python3 "$root/tools/words.py" --check "$program" 2>&1)"
}

each_fault_stands_there() {
    local line
    for line in 'FILE: cannot open: REASON' 'FILE: is a directory' 'FILE: read failed: REASON' 'FILE: too many pieces' \
        'WORD: no slash: a FILE stands behind --file' 'WORD: bad escape at K' \
        "PATH: names a file: write '' FILE, or POINTER FILE" 'write failed: REASON' 'FILE: write failed: REASON' 'FILE: the input is an output, too' 'out of memory' 'FILE: no runs' 'FILE: the runs cover A..B and not C..D' \
        'a run is not written to a terminal: write it to a file or a pipe' 'an index is not written to a terminal: write it to a file or a pipe' \
        'WORD: FAULT: the first word is a pointer, and FILE the second' 'FILE: not a saved index' 'FILE: another version' 'FILE: cut short' \
        'FILE: damaged' 'FILE: malformed' 'FILE: more bytes than an index has' 'FILE: N bytes, and the index is of M' \
        'FILE: changed in S..E'; do
        has "the fault $line" "jx: $line" "$text"
    done
    for line in 'not a run' 'of another version' 'cut short' 'damaged' 'not well formed' 'read with depth D' \
        'begins at X, where Y was due' 'has no --from, as others have'; do
        has "the fault $line" "jx: FILE: run K: $line" "$text"
    done
}

tests the_page_is_laid_out_with_no_warning \
    the_page_has_its_sections_and_the_version \
    the_page_and_the_completions_are_made_from_the_help_texts \
    each_fault_stands_there
