#!/usr/bin/env bash
# The hooks for the program pre-commit: what is staged is checked, and a commit of what is no JSON text is refused.
. "$(dirname "$0")/lib.sh"

# make_hooks: a repository with the hooks alone, as a clone of this one has them.
make_hooks() {
    git init -q "$room/hooks"
    cp "$root/.pre-commit-hooks.yaml" "$room/hooks"
    git -C "$room/hooks" add . && git -C "$room/hooks" commit -qm hooks
    mkdir "$room/bin"
    cp "$program" "$room/bin/jx"
    export PATH=$room/bin:$PATH PRE_COMMIT_HOME=$room/cache
    export GIT_AUTHOR_NAME=jx GIT_AUTHOR_EMAIL=jx@localhost GIT_COMMITTER_NAME=jx GIT_COMMITTER_EMAIL=jx@localhost
}

# make_checkout HOOK: a repository with this hook.
make_checkout() {
    git init -q "$room/$1"
    cd "$room/$1" || exit 1
    printf 'repos:\n- repo: %s\n  rev: %s\n  hooks:\n  - id: %s\n' "$room/hooks" "$(git -C "$room/hooks" rev-parse HEAD)" "$1" >.pre-commit-config.yaml
    git add .
    pre-commit install >/dev/null
}

texts_are_checked_before_a_commit() {
    local said
    make_checkout jx-check
    printf '{"a":1,"a":2}' >good.json
    printf '{"a":}' >'not good.json'
    printf '{' >no.text
    git add .
    said=$(git commit -m two 2>&1)
    same 'a commit of what is no text: status' 1 $?
    has 'it names the file and the place' 'not good.json:1:6: expected a value, found } (byte 5)' "$said"
    same 'nothing is told of the others' '' "$(grep accepted <<<"$said")"
    git rm -q --cached 'not good.json'
    git commit -qm one >/dev/null 2>&1
    same 'a commit of texts: status' 0 $?
    cd "$room" || exit 1
}

names_are_checked_where_that_is_asked_for() {
    local said
    make_checkout jx-check-unique-names
    printf '{"a":1,"a":2}' >repeated.json
    git add .
    said=$(git commit -m one 2>&1)
    same 'a commit of a repeated name: status' 1 $?
    has 'it says where' 'repeated.json:1:8: the name "a" was used at line 1, column 2 (byte 7)' "$said"
    cd "$room" || exit 1
}

lines_are_checked_before_a_commit() {
    local said
    make_checkout jx-lines
    printf '{"n":1}\n{"n":\n' >bad.jsonl
    printf '{"n":1}\n{"n":2}\n' >good.ndjson
    printf 'x' >no.text
    git add .
    said=$(git commit -m two 2>&1)
    same 'a commit of a line that is no text: status' 1 $?
    has 'it names the file and the line' 'bad.jsonl: 2 8..13 truncated' "$said"
    git rm -q --cached good.ndjson
    said=$(git commit -m bad 2>&1)
    has 'it names the file where one alone is staged' 'bad.jsonl: 2 8..13 truncated' "$said"
    git add good.ndjson
    git rm -q --cached bad.jsonl
    git commit -qm one >/dev/null 2>&1
    same 'a commit of lines that are texts: status' 0 $?
    cd "$room" || exit 1
}

# The lines that README prints, with its address led to this repository.
the_lines_of_readme_work() {
    local said
    if ! git -C "$root" rev-parse HEAD >/dev/null 2>&1; then
        echo 'pre_commit.sh: skipped: this is no repository of git'
        return
    fi
    git init -q "$room/printed"
    cd "$room/printed" || exit 1
    awk '/^    repos:/ { inside = 1 } /^$/ { inside = 0 } inside { print substr($0, 5) }' "$root/README.md" >.pre-commit-config.yaml
    has 'README: lines are printed' 'repo: https://example.org/jx ' "$(cat .pre-commit-config.yaml)"
    export GIT_CONFIG_COUNT=2 GIT_CONFIG_KEY_0=url.$root.insteadOf GIT_CONFIG_VALUE_0=https://example.org/jx \
        GIT_CONFIG_KEY_1=safe.directory GIT_CONFIG_VALUE_1='*'
    git add .
    pre-commit install >/dev/null
    printf '{"a":}' >bad.json
    git add .
    said=$(git commit -m bad 2>&1)
    same 'README: a commit of what is no text: status' 1 $?
    has 'README: it names the place' 'bad.json:1:6: expected a value, found } (byte 5)' "$said"
    printf '{"a":1}' >bad.json
    git add .
    said=$(git commit -m good 2>&1)
    same 'README: a commit of a text: status' 0 $?
    unset GIT_CONFIG_COUNT GIT_CONFIG_KEY_0 GIT_CONFIG_VALUE_0 GIT_CONFIG_KEY_1 GIT_CONFIG_VALUE_1
    cd "$room" || exit 1
}

if command -v pre-commit >/dev/null; then
    export GIT_AUTHOR_NAME=jx GIT_AUTHOR_EMAIL=jx@localhost GIT_COMMITTER_NAME=jx GIT_COMMITTER_EMAIL=jx@localhost
    make_hooks
    tests texts_are_checked_before_a_commit \
        lines_are_checked_before_a_commit \
        names_are_checked_where_that_is_asked_for \
        the_lines_of_readme_work
else
    echo 'pre_commit.sh: skipped: there is no pre-commit here'
    tests
fi
