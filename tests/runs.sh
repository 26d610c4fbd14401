#!/usr/bin/env bash
# Records of parts: those of docs/FORMAT.md, read by that page alone and held to a plain reading of their bytes; and what the program says
# of records that were changed or cut.
. "$(dirname "$0")/lib.sh"
export PYTHONDONTWRITEBYTECODE=1

# counts COMMAND..: adds what the last line of a test tells, and shows all lines where something failed.
counts() {
    local said
    said=$("$@" 2>&1)
    if [[ ${said##*$'\n'} =~ ([0-9]+)\ passed,\ ([0-9]+)\ failed ]]; then
        passed=$((passed + BASH_REMATCH[1]))
        failed=$((failed + BASH_REMATCH[2]))
    else
        failed=$((failed + 1))
        echo "${0##*/}: FAILED: no count by $*"
    fi
    if [[ ! ${said##*$'\n'} =~ ,\ 0\ failed$ ]]; then cut -c 1-4000 <<<"$said"; fi
}

records_of_the_page_are_those_of_their_bytes() { counts python3 "$root/tests/runs/golden.py"; }

records_that_were_changed_come_to_what_the_page_says() { counts python3 "$root/tests/runs/hostile.py" "$program"; }

if ! command -v python3 >/dev/null; then
    echo 'runs.sh: skipped: there is no python3'
    tests
    exit 0
fi
tests records_of_the_page_are_those_of_their_bytes \
    records_that_were_changed_come_to_what_the_page_says
