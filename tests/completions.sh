#!/usr/bin/env bash
# The completions: each shell reads its own, and bash offers what the help names. tests/manual.sh holds them to the help texts.
. "$(dirname "$0")/lib.sh"

# options_of COMMAND: the long options that the help on a command lists.
options_of() { "$program" $1 --help 2>&1 | grep -oE '^ {2,8}(-[a-zA-Z], )?--[a-z-]+' | grep -oE -- '--[a-z-]+' | sort -u; }

# offered WORD..: what bash offers for the last word.
offered() {
    COMP_WORDS=("$@")
    COMP_CWORD=$(($# - 1))
    COMPREPLY=()
    _jx
    printf '%s\n' "${COMPREPLY[@]}" | sort
}

bash_reads_its_file() {
    bash -n "$root/completions/jx.bash" || same 'bash reads its file' yes no
    . "$root/completions/jx.bash"
}

the_options_of_each_command_are_offered() {
    local command
    for command in $(offered jx help ''); do
        same "bash: the options of $command" "$(options_of $command)" "$(offered jx $command --)"
        has "bash: $command itself" "$command" "$(offered jx '')"
    done
}

bash_completes_what_is_begun() {
    local command
    same 'bash: the options of jx' "$(options_of '')" "$(offered jx --)"
    same 'bash: a command that is begun' check "$(offered jx ch)"
    same 'bash: an option that is begun' --depth "$(offered jx check --d)"
    printf x >text.json
    same 'bash: a file' text.json "$(offered jx check --file te)"
    for command in check explain index each keys count seq texts save; do
        same "bash: a file as a word of $command" text.json "$(offered jx $command te)"
    done
    same 'bash: no file as a word of at' '' "$(offered jx at te)"
    same 'bash: colors' "$(printf '%s\n' always auto never)" "$(offered jx explain --color '')"
    same 'bash: when progress is told' "$(printf '%s\n' always auto never)" "$(offered jx each --progress '')"
    same 'bash: sizes of chunks' '' "$(offered jx save --chunk '')"
    same 'bash: formats' "$(printf '%s\n' gnu json plain)" "$(offered jx check --format '')"
    same 'bash: a file of pointers' text.json "$(offered jx at --pointers te)"
    same 'bash: a file of an index' text.json "$(offered jx at --index te)"
    same 'bash: a file of pointers of get' text.json "$(offered jx get --pointers te)"
    same 'bash: no file as a word of get' '' "$(offered jx get te)"
    same 'bash: a number' '' "$(offered jx check --depth '')"
}

zsh_and_fish_read_their_files() {
    local shell file
    for file in _jx jx.fish; do
        same "each quotation mark of $file is closed on its line" '' "$(awk -F "'" 'NF && NF % 2 == 0' "$root/completions/$file")"
    done
    for shell in zsh fish; do
        if command -v $shell >/dev/null; then
            file=$root/completions/_jx
            if [ $shell = fish ]; then file=$root/completions/jx.fish; fi
            same "$shell reads its file" '' "$($shell -n "$file" 2>&1)"
        fi
    done
}

tests bash_reads_its_file \
    the_options_of_each_command_are_offered \
    bash_completes_what_is_begun \
    zsh_and_fish_read_their_files
