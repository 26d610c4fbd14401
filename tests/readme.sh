#!/usr/bin/env bash
# README and the recipes: each session that they show is run, README stays short, and links lead to files that are there.
. "$(dirname "$0")/lib.sh"

# put_tools_on_the_path: the program, and zstd or another packer in its place.
put_tools_on_the_path() {
    mkdir bin
    ln -s "$program" bin/jx
    if ! command -v zstd >/dev/null; then
        # Where there is no zstd, another packer takes its place.
        printf '#!/bin/sh\ncase $1 in -dc) exec gzip -dc "$2" ;; *) exec gzip -c ;; esac\n' >bin/zstd
        chmod +x bin/zstd
    fi
    PATH=$room/bin:$PATH
    export HOME=$room GIT_CONFIG_NOSYSTEM=1 GIT_AUTHOR_NAME=a GIT_AUTHOR_EMAIL=a@example.org GIT_COMMITTER_NAME=a GIT_COMMITTER_EMAIL=a@example.org
}

each_session_prints_what_stands_below_it() {
    sessions_hold
    same 'there are sessions' yes "$([ "$sessions" -ge 12 ] && echo yes)"
}

the_recipes_are_among_the_sessions() {
    local recipe
    for recipe in 'tail -c +' 'head -c' 'pre-commit' 'jx seq' 'check -q' 'zstd -dc' 'case $? in'; do
        has "a recipe with $recipe" "$recipe" "$(cat script.*)"
    done
}

readme_is_short() {
    same 'README has at most 13,000 bytes' yes "$([ "$(wc -c <"$root/README.md")" -le 13000 ] && echo yes)"
}

links_lead_to_files() {
    local page link
    for page in "$root/README.md" "$root"/docs/*.md "$root"/crates/*/README.md; do
        while read -r link; do
            link=${link%%#*}
            if [ -n "$link" ]; then same "${page#"$root/"}: the link to $link" yes "$([ -e "${page%/*}/$link" ] && echo yes)"; fi
        done < <(grep -o '](\([^)]*\))' "$page" | sed 's/^](//; s/)$//' | grep -v '^https\?:')
    done
}

put_tools_on_the_path
write_sessions "$root/README.md" "$root/docs/RECIPES.md" "$root/docs/DISTRIBUTED.md"
tests readme_is_short \
    links_lead_to_files \
    each_session_prints_what_stands_below_it \
    the_recipes_are_among_the_sessions
