#!/usr/bin/env bash
# The package for Python: its tests, by its extension and by ctypes, the samples of the pages, its types, and its wheel in a fresh
# environment.
. "$(dirname "$0")/lib.sh"

python=python3
if [ -x /usr/bin/python3 ] && /usr/bin/python3 -c 'import ctypes, venv, ensurepip' 2>/dev/null; then python=/usr/bin/python3; fi
export PYTHONPATH=$root/bindings/python PYTHONDONTWRITEBYTECODE=1 PYTHONFAULTHANDLER=1 MALLOC_PERTURB_=165

# tested WAY: the tests of the package, by this way to the library.
tested() {
    local said count
    said=$(cd "$root/bindings/python" && JX_PYTHON=$1 "$python" -W error -m unittest discover -t . -s tests 2>&1)
    same "by $1: unittest ends well" 0 $?
    count=$(sed -n 's/^Ran \([0-9]*\) tests.*/\1/p' <<<"$said")
    if [[ ${said##*$'\n'} =~ ^OK ]] && [ "${count:-0}" -ge 45 ]; then
        passed=$((passed + count))
    else
        same "by $1: the tests of the package" OK "${said: -3000}"
    fi
}

the_tests_of_the_package_pass() {
    tested ctypes
    if "$root/tools/extension" >extension 2>&1; then
        same 'the extension is loaded' True "$("$python" -c 'from jx import _engine; print(_engine.IS_NATIVE)' 2>&1)"
        tested extension
    else
        echo "python.sh: skipped: $(cat extension)"
    fi
}

# Another one each day; JX_SEED plays one again.
seed=${JX_SEED:-$(date +%Y%m%d)}

# all_right NAME SAID LEAST: counts what a script tells that it looked at, of which all is right.
all_right() {
    if [[ ${2##*$'\n'} =~ ^([0-9]+)\ passed,\ 0\ failed$ ]] && [ "${BASH_REMATCH[1]}" -ge "$3" ]; then
        passed=$((passed + BASH_REMATCH[1]))
    else
        same "$1 of seed $seed" 'all right' "${2: -3000}"
    fi
}

saved_texts_are_as_a_plain_reader_reads_them() {
    all_right 'random texts and their indexes' "$(JX_PYTHON=ctypes "$python" "$root/tests/by_library.py" "$seed" 10000 2>&1)" 110000
}

sentences_are_those_of_the_program() {
    if [ ! -x "$program" ]; then
        echo "python.sh: skipped: $program is not built"
        return
    fi
    all_right 'sentences of faults' "$("$python" "$root/tests/sentences.py" "$program" "$seed" 2000 2>&1)" 2000
}

# Else a wrong answer might pass too.
a_wrong_answer_by_an_index_is_told() {
    mkdir -p wrong
    cp -R "$root/bindings/python/jx" wrong
    sed -i 's/return \[(one.outcome, one.at, one.kind, one.span.start, one.span.end) for one in told\]/return [(one.outcome, one.at, one.kind, one.span.start, one.span.end + 1) for one in told]/' wrong/jx/_saved.py
    same 'the copy differs' yes "$(cmp -s wrong/jx/_saved.py "$root/bindings/python/jx/_saved.py" || echo yes)"
    has 'a wrong answer is told' 'by_library.py: FAILED: pointers: ' "$(JX_LIBRARY=${JX_LIBRARY:-$root/crates/jx_c/out/libjx.so.0} JX_PYTHON=ctypes PYTHONPATH=$room/wrong "$python" "$root/tests/by_library.py" 1 20 2>&1)"
}

a_wrong_value_of_a_view_is_told() {
    rm -rf wrong
    mkdir wrong
    cp -R "$root/bindings/python/jx" wrong
    sed -i 's/return (1, 0, 2)\[outcome\]/return (1, 0, 1)[outcome]/' wrong/jx/_children.py
    same 'the copy differs' yes "$(cmp -s wrong/jx/_children.py "$root/bindings/python/jx/_children.py" || echo yes)"
    has 'a wrong value is told' 'by_library.py: FAILED: a member: ' "$(JX_LIBRARY=${JX_LIBRARY:-$root/crates/jx_c/out/libjx.so.0} JX_PYTHON=ctypes PYTHONPATH=$room/wrong "$python" "$root/tests/by_library.py" 1 1000 2>&1)"
}

the_samples_of_the_pages_run() {
    local page
    for page in PYTHON RECIPES; do
        same "docs/$page.md: its samples" '' "$("$python" -m doctest "$root/docs/$page.md" 2>&1 | tail -n 40)"
    done
}

# The loader of docs/PYTHON.md, as it stands there.
the_loader_of_the_page_loads() {
    if ! command -v zstd >/dev/null; then
        echo 'python.sh: skipped: there is no zstd'
        return
    fi
    awk '/^## A loader/ { here = 1 } here && /^    / { print substr($0, 5) } here && /^$/ { print "" } /^## Types/ { exit }' "$root/docs/PYTHON.md" >loader.py
    printf '{"meta": {"version": 3}, "rows": [{"id": 7}, {"id": 8}]}' | zstd -qc >dump.zst
    printf '{"meta": {"version": 3}, "rows": [{"id": 7}, {"id": 8]}' | zstd -qc >bad.zst
    same 'a dump is loaded' "(3, [{'id': 7}, {'id': 8}])" "$("$python" -c 'import loader; print(loader.load("dump.zst"))' 2>&1)"
    has 'a dump with a fault is refused' 'jx._faults.Refused: No JSON text has this byte here: byte 53' "$("$python" -c 'import loader; loader.load("bad.zst")' 2>&1)"
}

the_types_are_accepted() {
    if ! command -v mypy >/dev/null; then
        echo 'python.sh: skipped: there is no mypy'
        return
    fi
    local version
    for version in 3.10 3.12; do
        has "mypy --strict, for $version" 'Success: no issues found' "$(cd "$root/bindings/python" && mypy --strict --cache-dir "$room/mypy" --python-version $version -p jx 2>&1)"
    done
    has 'mypy --strict of calls' 'Success: no issues found' \
        "$(MYPYPATH=$root/bindings/python mypy --strict --cache-dir "$room/mypy" --python-version 3.11 "$root/bindings/python/tests/typed.py" 2>&1)"
}

the_wheel_works_in_a_fresh_environment() {
    local wheel
    wheel=$("$root/tools/wheel" dist 2>&1 | tail -n 1)
    has 'the wheel is named by its platform' 'py3-none-manylinux_2_' "$wheel"
    "$python" -m venv fresh >venv.said 2>&1 || "$python" -m venv --without-pip fresh
    if [ -x fresh/bin/pip ]; then
        same 'pip installs the wheel' 0 "$(fresh/bin/pip install --no-index "$wheel" >pip.said 2>&1; echo $?)"
    else
        has 'the environment has pip' pip "$(cat venv.said)"
    fi
    same 'the package runs from it' 'STOPPED 3' \
        "$(cd / && PYTHONPATH='' "$room/fresh/bin/python" -c 'import jx; v = jx.verdict(b"nulx"); print(v.kind.name, v.offset)' 2>&1)"
    if [ -e "$root/bindings/python/jx/_native.abi3.so" ]; then
        same 'the wheel has the extension' True \
            "$(cd / && PYTHONPATH='' "$room/fresh/bin/python" -c 'from jx import _engine; print(_engine.IS_NATIVE)' 2>&1)"
    fi
    if command -v mypy >/dev/null; then
        printf 'import jx\nreveal_type(jx.get(b"[1]", "/0", None))\n' >user.py
        has 'the types of the wheel are found' 'Union[builtins.memoryview' \
            "$(env -u PYTHONPATH mypy --strict --cache-dir "$room/mypy" --python-executable fresh/bin/python user.py 2>&1)"
    fi
}

if "$root/tools/library" >built 2>&1; then
    tests the_tests_of_the_package_pass \
        saved_texts_are_as_a_plain_reader_reads_them \
        sentences_are_those_of_the_program \
        a_wrong_answer_by_an_index_is_told \
        a_wrong_value_of_a_view_is_told \
        the_samples_of_the_pages_run \
        the_loader_of_the_page_loads \
        the_types_are_accepted \
        the_wheel_works_in_a_fresh_environment
else
    same 'the library is built' '' "$(cat built)"
    tests
fi
