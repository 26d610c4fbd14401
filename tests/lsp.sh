#!/usr/bin/env bash
# The program jx-lsp from outside: a client in Python that keeps its own copy of each text, streams that are no frames, a session that is
# compared byte for byte, and editors where there are any.
. "$(dirname "$0")/lib.sh"
export JX_PROGRAM=$program
export JX_LSP_PROGRAM=${JX_LSP_PROGRAM:-$root/crates/jx_lsp/out/jx_lsp}
client=$root/tests/lsp/client.py

played() { python3 "$client" "$@" 2>&1; }

it_is_there() {
    if [ ! -x "$JX_LSP_PROGRAM" ] || ! command -v python3 >/dev/null; then
        echo "${0##*/}: skipped: there is no $JX_LSP_PROGRAM, or no python3"
        echo "${0##*/}: 0 passed, 0 failed"
        exit 0
    fi
}

words_are_read() {
    same 'the version' 'jx-lsp 0.3.0, status 0' "$("$JX_LSP_PROGRAM" --version), status $?"
    has 'help' 'Usage: jx-lsp [--stdio]' "$("$JX_LSP_PROGRAM" --help)"
    same 'wrong arguments' 'jx-lsp: wrong arguments; see jx-lsp --help, status 2' "$("$JX_LSP_PROGRAM" --port 1 2>&1 </dev/null), status $?"
    same 'exit without shutdown' 'status 1' "$(played framed 'Content-Length: 33\r\n\r\n{"jsonrpc":"2.0","method":"exit"}')"
    same 'no input, as an exit without shutdown' 'status 1' "$("$JX_LSP_PROGRAM" </dev/null; echo "status $?")"
}

# Each sentence of the help, but for the usage, stands in the manual page.
the_page_has_the_words_of_the_help() {
    local page sentence
    page=$(sed -e '/^\.\\"/d; s/^\.\(SH\|SS\|B\|BR\|TH\) *//; /^\.[A-Za-z]/d; s/\\-/-/g' "$root/jx-lsp.1" | flat)
    for sentence in 'shows an editor on each change where a JSON text (RFC 8259) stops being one, by the Language Server Protocol.' \
        'It reads messages on standard input and writes messages on standard output.' 'Speak on standard input and output, as it does anyway' \
        'Print help' 'Print version'; do
        has "the help has: $sentence" "$sentence" "$("$JX_LSP_PROGRAM" --help | flat)"
        has "the page has: $sentence" "$sentence" "$page"
    done
    if command -v man >/dev/null; then
        same 'man -l warns of nothing' '' "$(LC_ALL=C.UTF-8 MANWIDTH=79 man --warnings -l "$root/jx-lsp.1" 2>&1 >/dev/null)"
    fi
}

changes_are_followed() {
    local told='2500 changes are told as jx check tells them'
    same 'random changes, columns in UTF-16 and in bytes, by three settings' "$(printf '%s\n' "$told" "$told" "$told" "$told")" "$(played replays 10000)"
}

lines_are_told() {
    local told='500 changes are told as jx lines tells them' language name wanted options text count
    same 'random changes of JSON Lines' "$(printf '%s\n' "$told" "$told" "$told" "$told")" "$(played replays_of_lines 2000)"
    told='100 changes are told as jx lines tells them'
    same 'random changes of long JSON Lines' "$(printf '%s\n' "$told" "$told" "$told")" "$(played replays_of_long_lines 300)"
    while read -r language name wanted; do
        same "the language $language of $name" "$wanted" "$(played content_of "$language" "$name")"
    done <<'LANGUAGES'
"jsonl" file:///a lines
"ndjson" file:///a.json lines
"jsonlines" file:///a.json lines
"json" file:///a.json one text
"json" file:///a.jsonl lines
"json" file:///a.ndjson lines
"plaintext" untitled:a.jsonl lines
"json" file:///a.jsonl.json one text
"json" file:///jsonl one text
"JSONL" file:///a.json one text
"json" file:///a.JSONL one text
"jsonl2" file:///a.json one text
"" file:///a.json one text
"\ud800" file:///a.json one text
null file:///a.json one text
["jsonl"] file:///a.json one text
"\u006asonl" file:///a.json lines
LANGUAGES
    while IFS='|' read -r options text wanted; do
        same "the lines $text by the settings $options" "$wanted" "$(played told_lines "$options" "$text")"
    done <<'LINES'
null||0
null|{}\r\n[]\n"a"|0
null|\n|blank: the line is blank 0:0 0:0; 1
null|{}\n \r\n{}\n|blank: the line is blank 1:0 1:2; 1
null|\n{}\n\n \n|blank: the line is blank 0:0 0:0; more: more lines that are no JSON texts: 2 0:0 0:0; 2
null|[\n\n]\n\n|truncated: the text ends where a value or ] is expected 0:0 0:1; blank: the line is blank 1:0 1:0; stopped: expected a value, found ] (byte 3) 2:0 2:1; more: more lines that are no JSON texts: 1 0:0 0:1; 4
null|1\n1|may be cut: the value may be cut: nothing behind it ends it 1:0 1:1; 1
null|{}\ntrue |0
null|[\n]\n|truncated: the text ends where a value or ] is expected 0:0 0:1; stopped: expected a value, found ] (byte 2) 1:0 1:1; 2
null|{}\n{"a":"\u00e9|truncated: the text ends inside a string that began at line 2, column 6 1:6 1:7; 1
null|{}\n[\U0001f600]\n[tru\n|stopped: expected a value or ], found 😀 (byte 4) 1:1 1:3; truncated: the text ends where e, as in true, is expected 2:3 2:4; 2
{"depth":1}|[]\n[[]]\n|too deep: more than 1 containers open (byte 4) 1:1 1:2; 1
{"uniqueNames":true}|{"a":1,"a":2}\n|0
null|\ufeff{}\n{}\n|stopped: a byte order mark stands in front of the text (byte 0) 0:0 0:1; 1
{"ignoreBom":true}|\ufeff{}\n{}\n|0
{"ignoreBom":true}|\ufeff{\n{}\n|truncated: the text ends where a string or } is expected 0:1 0:2; 1
{"ignoreBom":true}|{}\n\ufeff{}\n|stopped: a byte order mark stands in front of the text (byte 3) 1:0 1:1; 1
LINES
    while IFS='|' read -r count wanted; do
        same "$count bad lines" "$wanted" "$(played bad_lines "$count")"
    done <<'COUNTS'
1001|1000 marks; more lines that are no JSON texts: 1
10001|1000 marks; more lines that are no JSON texts: 9001
COUNTS
}

settings_are_kept() {
    local options text wanted
    while IFS='|' read -r options text wanted; do
        same "a text by the settings $options" "$wanted" "$(played told "$options" "$text")"
    done <<'SETTINGS'
{"ignoreBom":true,"uniqueNames":true}|\ufeff{"a":1,"a":2}|the name "a" was used at line 1, column 3 (byte 10)
{"ignoreBom":true,"uniqueNames":true}|\ufeff[]|accepted
{"ignoreBom":true}|\ufeff{"a":1,"a":2}|accepted
{"uniqueNames":true}|\ufeff[]|a byte order mark stands in front of the text (byte 0)
{"uniqueNames":true}|[tru,|expected e, as in true, found a comma (byte 4)
{"ignoreBom":true}|\ufeff[1|the text ends where a digit, a decimal point, an exponent, a comma or ] is expected
{"depth":1,"ignoreBom":true,"uniqueNames":true}|\ufeff[{}]|more than 1 containers open (byte 4)
SETTINGS
}

# Columns in bytes: a deletion from one column of a line up to another may cut a character.
cut_characters_are_marked() {
    local text line start end wanted
    while IFS='|' read -r text line start end wanted; do
        same "$text less the bytes $line:$start to $line:$end" "$wanted" "$(played cut_text "$text" "$line" "$start" "$end")"
    done <<'CUTS'
\n\u20ac|1|0|1|expected a value, found \x82 (byte 1) 1:0 1:1
\n\u20ac|1|1|2|expected a value, found \xE2\xAC (byte 1) 1:0 1:2
"\u20ac"|0|1|2|expected a character in UTF-8, found \x82 (byte 1) 0:1 0:2
"\u20ac"|0|2|3|expected a byte from 80 to BF, found " (byte 3) 0:3 0:4
"\u20ac"|0|3|5|the text ends inside a string that began at line 1, column 1 0:1 0:3
"a\u00e9|0|1|2|the text ends inside a string that began at line 1, column 1 0:1 0:3
[1]\u20ac|0|0|1|expected a digit, a decimal point or an exponent, found ] (byte 1) 0:1 0:2
CUTS
}

values_are_shown() {
    local told='250 texts are shown as they are read by hand'
    same 'hovers, ranges, outlines and folds of random texts and of what stands before a fault, flat and nested, columns in UTF-16 and in bytes' \
        "$(printf '%s\n' "$told" "$told" "$told" "$told")" "$(played shows 1000)"
    same 'an outline ends' '10000 values' "$(played outline_of 20000)"
    same 'values are shown in each other down to a level' '100 levels' "$(played levels 200)"
    same 'ranges around a place, the innermost first' '200 ranges' "$(played around_of 300)"
}

sessions_are_as_recorded() {
    same 'a session' 'as recorded' "$(played session "$root/tests/lsp")"
    same 'a session, byte by byte' 'the same' "$(played cut "$root/tests/lsp")"
}

# broken STREAM MESSAGE: a stream that cannot be read on is told, and ends the server with status 1.
error='{"jsonrpc":"2.0","id":null,"error":{"code":-32700,"message":"no JSON text, or no frame"'

broken_streams_are_told() {
    local name stream
    while read -r name stream; do
        same "a stream: $name" "$error}}"$'\n''status 1' "$(played framed "$stream")"
    done <<'STREAMS'
no-length Content-Type: x\r\n\r\n
no-field Content-Length: 2\r\nnothing\r\n\r\n[]
no-number Content-Length: two\r\n\r\n[]
no-digit Content-Length: \r\n\r\n[]
a-sign Content-Length: +2\r\n\r\n[]
a-fraction Content-Length: 2.0\r\n\r\n[]
two-numbers Content-Length: 2 2\r\n\r\n[]
a-blank-before-the-colon Content-Length : 2\r\n\r\n[]
two-lengths Content-Length: 2\r\nContent-Length: 3\r\n\r\n[]
too-long Content-Length: 1073741825\r\n\r\n[]
far-too-long Content-Length: 99999999999999999999999999\r\n\r\n[]
no-carriage-return Content-Length: 2\n\n[]
no-header \r\n
STREAMS
    same 'a stream: a long line' "$error}}"$'\n''status 1' "$(played framed "X: $(head -c 1100 /dev/zero | tr '\0' x)\r\n")"
}

sound_frames_are_read() {
    local name stream
    while read -r name stream; do
        same "a frame: $name" "$error,\"data\":\"truncated\"}}"$'\n''status 1' "$(played framed "$stream")"
    done <<'STREAMS'
plain Content-Length: 1\r\n\r\n[
capitals CONTENT-LENGTH: 1\r\n\r\n[
no-blank Content-Length:1\r\n\r\n[
blanks-behind Content-Length: 1 \t \r\n\r\n[
blanks-round Content-Length:\t 1\t\r\n\r\n[
zeros Content-Length: 0001\r\n\r\n[
other-fields Content-Type: a; charset=utf-8\r\nContent-Length: 1\r\nX:\r\n\r\n[
twice Content-Length: 1\r\nContent-Length: 1\r\n\r\n[
empty Content-Length: 0\r\n\r\n
cut-behind Content-Length: 1\r\n\r\n[Content-Length: 7\r\n\r\n[
STREAMS
}

pipes_are_closed() {
    same 'a client that reads nothing' 'status 1' "$(played closed_pipe)"
    same 'a large text' "[]"$'\n'"['expected a value or ], found x (byte 1)']"$'\n''status 0' "$(played huge 100000)"
}

# Sets `nvim`: the editor on the PATH, or Debian's, unpacked here.
find_nvim() {
    nvim=(nvim)
    command -v nvim >/dev/null && return 0
    unpacked nvim neovim neovim-runtime libluajit-5.1-2 libluajit-5.1-common libmsgpackc2 libunibilium4 libtermkey1 libtree-sitter0 lua-luv \
        libvterm0 libuv1 || return 1
    local usr=$room/nvim/usr
    nvim=(env LD_LIBRARY_PATH="$usr/lib/x86_64-linux-gnu" VIMRUNTIME="$usr/share/nvim/runtime" "$usr/bin/nvim")
    "${nvim[@]}" --version >/dev/null 2>&1
}

# Sets `emacs`: the editor on the PATH if it has eglot, or Debian's with eglot, unpacked here.
find_emacs() {
    local usr lisp own
    emacs=(emacs)
    if command -v emacs >/dev/null && emacs --batch -Q --eval "(require 'eglot)" >/dev/null 2>&1; then return 0; fi
    unpacked emacs emacs-nox emacs-common emacs-bin-common emacs-el elpa-eglot libgccjit0 libasound2 libgpm2 libjansson4 liblcms2-2 libxml2 \
        libicu72 || return 1
    usr=$room/emacs/usr
    lisp=$(echo "$usr"/share/emacs/[0-9]*) own=$(echo "$usr"/libexec/emacs/*/*)
    emacs=(env LD_LIBRARY_PATH="$usr/lib/x86_64-linux-gnu" EMACSDATA="$lisp/etc" EMACSDOC="$lisp/etc" EMACSPATH="$own"
        EMACSLOADPATH="$(find "$lisp/lisp" "$usr"/share/emacs/site-lisp/elpa-src/eglot-* -type d | tr '\n' ':')"
        "$usr/bin/emacs-nox" "--dump-file=$own/emacs.pdmp")
    "${emacs[@]}" --batch -Q --eval "(require 'eglot)" >/dev/null 2>&1
}

# message_of FILE: what an editor shows of a file that jx refuses, or accepted: the sentence of jx explain, with the offset where there is one.
message_of() {
    local told
    told=$("$program" check --format gnu "$1" | sed -E 's/^[^:]*:[0-9]+:[0-9]+: //')
    case ${told:-accepted} in
    'the text ends'*) echo "${told% (byte *}" ;;
    *) echo "${told:-accepted}" ;;
    esac
}

# edited NAME: neovim edits a text; what it shows after each step is what jx says of the file that it then writes. Prints the steps that differ.
edited() {
    local step shown line column at bytes number=0
    JX_LSP_TEXT=$room/$1 timeout 900 "${nvim[@]}" --headless --clean -c "luafile $root/tests/lsp/nvim.lua" >"$1.steps" 2>"$1.told" </dev/null
    while IFS= read -r step; do
        number=$((number + 1))
        shown=${step#*: }
        said=$("$program" check "$1.$number")
        if [ "${shown#* }" != "$(message_of "$1.$number")" ]; then echo "$step, and jx says $(message_of "$1.$number")"; continue; fi
        if [ "$said" = accepted ] || [ "$said" = truncated ]; then continue; fi
        line=${shown%%:*} column=${shown#*:} column=${column%% *} at=${said##* }
        bytes=$(head -n "$line" "$1.$number" | wc -c)
        if [ $((bytes + column)) != "$at" ]; then echo "$step, which is not at $at"; fi
    done <"$1.steps"
    echo "$number steps"
}

neovim_shows_what_jx_says() {
    if ! find_nvim; then
        echo "${0##*/}: skipped: there is no neovim here, and it cannot be had from Debian"
        return
    fi
    printf '{"a": "é😀b",\n "c": [1, 2]}\n' >plain.json
    printf '{"a": "é😀b",\r\n "c": [1, 2]}\r\n' >returns.json
    printf '{"a": "é😀b",\n "c": [1,\r\n 2]}\n' >mixed.json
    printf '[1, "é😀"' >cut.json
    for name in plain.json returns.json mixed.json cut.json; do
        same "neovim edits $name" '15 steps' "$(edited "$name")"
    done
}

# Emacs does the same with eglot. It reads CR LF as LF, so the texts here have none at their lines' ends.
emacs_shows_what_jx_says() {
    local name step shown said number at
    if ! find_emacs; then
        echo "${0##*/}: skipped: there is no emacs with eglot here, and it cannot be had from Debian"
        return
    fi
    printf '{"a": "é😀b",\n "c": [1, 2]}\n' >lines.json
    printf '[1, "é😀"' >short.json
    for name in lines.json short.json; do
        JX_LSP_TEXT=$room/$name timeout 900 "${emacs[@]}" --batch -Q -l "$root/tests/lsp/eglot.el" >"$name.steps" 2>"$name.told" </dev/null
        same "emacs edits $name" 11 "$(wc -l <"$name.steps")"
        number=0
        while IFS= read -r step; do
            number=$((number + 1)) shown=${step#*: } said=$("$program" check "$name.$number")
            case $said in
            accepted) same "emacs: $name: $step" accepted "$shown" ;;
            truncated) same "emacs: $name: $step" "$(message_of "$name.$number")" "${shown#* }" ;;
            *) at=${said##* } && same "emacs: $name: $step" "$at $(message_of "$name.$number")" "$shown" ;;
            esac
        done <"$name.steps"
    done
}

tests it_is_there \
    words_are_read \
    the_page_has_the_words_of_the_help \
    changes_are_followed \
    lines_are_told \
    settings_are_kept \
    cut_characters_are_marked \
    values_are_shown \
    sessions_are_as_recorded \
    broken_streams_are_told \
    sound_frames_are_read \
    pipes_are_closed \
    neovim_shows_what_jx_says \
    emacs_shows_what_jx_says
