#!/usr/bin/env bash
# Public corpora of JSON texts, as packages of Debian have them: each case is accepted or refused as its corpus has it, and what the standards
# leave open is as tests/corpora/open says. Nothing of them is kept here. docs/EVIDENCE.md has the counts.
. "$(dirname "$0")/lib.sh"
readers=$room/readers.so

# source_of PACKAGE: the sources of a package of Debian, unpacked in a folder of its name. The lists that this needs are fetched from where
# the system's packages come from, and kept here alone.
source_of() {
    mkdir -p "$room/apt/lists/partial" "$room/apt/cache/archives/partial" "$room/apt/sources" "$room/$1" || return 1
    local each options=(-o "Dir::State::lists=$room/apt/lists" -o "Dir::Cache=$room/apt/cache" -o "Dir::Etc::sourcelist=$room/apt/list" -o "Dir::Etc::sourceparts=$room/apt/sources")
    if [ ! -e "$room/apt/list" ]; then
        grep '^deb .*debian' /etc/apt/sources.list 2>/dev/null | sed 's/^deb /deb-src /' >"$room/apt/list"
        for each in $(grep -ls 'debian-archive-keyring' /etc/apt/sources.list.d/*.sources); do sed 's/^Types:.*/Types: deb-src/' "$each" >"$room/apt/sources/${each##*/}"; done
        timeout 120 apt-get "${options[@]}" update >/dev/null 2>&1 || return 1
    fi
    (cd "$room/$1" && timeout 120 apt-get "${options[@]}" source --download-only "$1" && tar xf ./*.orig.tar.*) >/dev/null 2>&1
}

# A package's files may be another version's elsewhere: then the counts differ, and that is told.
# holds NAME COUNTS CORPUS FOLDER
holds() { same "$1" "$2, 0 wrong" "$(python3 "$root/tests/corpora/cases.py" "$program" "$readers" "$3" "$4" 2>&1)"; }

skipped() { echo "${0##*/}: skipped: $1 cannot be had from Debian here"; }

json_test_suite() {
    if source_of libcpanel-json-xs-perl; then
        holds 'JSONTestSuite with Cpanel::JSON::XS' '113 accepted, 195 refused, 25 open' jsontestsuite libcpanel-json-xs-perl
    else
        skipped 'the source of libcpanel-json-xs-perl'
    fi
    if source_of haskell-aeson; then
        holds 'JSONTestSuite with aeson' '113 accepted, 179 refused, 22 open' jsontestsuite haskell-aeson
    else
        skipped 'the source of haskell-aeson'
    fi
}

json_checker() {
    if unpacked python libpython3.11-testsuite; then
        holds 'JSON_checker with Python' '3 accepted, 32 refused, 2 open' json_checker python
    else
        skipped libpython3.11-testsuite
    fi
}

jansson() {
    if source_of jansson; then
        holds 'the suites of Jansson' '34 accepted, 58 refused, 10 open' jansson jansson
    else
        skipped 'the source of jansson'
    fi
}

json_schema_test_suite() {
    if unpacked schemas json-schema-test-suite; then
        holds 'JSON Schema Test Suite' '158 accepted, 0 refused, 0 open' schemas schemas
        holds 'its pointers' '20 accepted, 12 refused, 0 open' pointers schemas
    else
        skipped json-schema-test-suite
    fi
}

if ! command -v python3 >/dev/null || ! "$root/fuzz/build" "$room" READERS; then
    same 'python3 is there, and the plain readers are built' '' no
    tests
elif ! command -v apt-get >/dev/null; then
    skipped 'nothing: without apt-get a corpus'
    tests
else
    tests json_test_suite json_checker jansson json_schema_test_suite
fi
