#!/usr/bin/env bash
# Editors in a terminal, set up with exactly the lines that docs/EDITORS.md prints, open files with faults: one server starts, each fault
# has one mark, also each bad line of JSON Lines, and a buffer that is saved under another name is told under that name.
. "$(dirname "$0")/lib.sh"

server=${JX_LSP_PROGRAM:-$root/crates/jx_lsp/out/jx_lsp}
screen=(tmux -L "jx.$$" -f /dev/null)

# printed WORDS: the indented lines behind the line of the page that begins with these words.
printed() {
    awk -v words="$1" '
        index($0, words) == 1 { inside = 1; next }
        inside && /^    / { print substr($0, 5); shown = 1; next }
        inside && shown && /^[^ ]/ { exit }
    ' "$root/docs/EDITORS.md"
}

# write_server FOLDER: a command jx-lsp that keeps what the editor says to each server.
write_server() {
    mkdir -p "$1/bin" "$1/said" "$1/home/.config/nvim" "$1/home/.emacs.d" "$1/texts"
    printf '#!/bin/sh\ntee -a "%s/said/$$" | "%s"\n' "$room/$1" "$server" >"$1/bin/jx-lsp"
    chmod +x "$1/bin/jx-lsp"
    printf '{"a":}\n' >"$1/texts/a.json"
    printf '[1,}\n' >"$1/texts/b.json"
    printf '{}\n{"a":}\n[]\n[1,}\n' >"$1/texts/d.jsonl"
}

# begin FOLDER COMMAND..: runs an editor in a terminal.
begin() {
    local folder=$1
    shift
    "${screen[@]}" new-session -d -x 120 -y 24 -c "$room/$folder/texts" \
        "env -u XDG_CONFIG_HOME LC_ALL=C.UTF-8 TMPDIR='$room' HOME='$room/$folder/home' PATH='$room/$folder/bin:$PATH' $*"
}

# press KEY..: one after another, as a person does.
press() {
    local key
    for key in "$@"; do
        "${screen[@]}" send-keys "$key"
        sleep 0.2
    done
}

shown() { "${screen[@]}" capture-pane -p; }

# until_it CONDITION..: waits until the command succeeds, 30 seconds at most.
until_it() {
    local turns=150
    until "$@" || [ $turns = 0 ]; do
        turns=$((turns - 1))
        sleep 0.2
    done
}

# told FOLDER METHOD NAME: how many times servers were told this of the file. A slash may be escaped, and a message may have lines.
told() {
    cat "$1"/said/* 2>/dev/null | tr -d '\\\r\n' | sed 's/Content-Length/\n&/g' | grep -a "textDocument/$2\"" | grep -ac "/texts/$3\""
}

is_told() { [ "$(told "$@")" -gt 0 ]; }

is_shown() { shown | grep -qF "$1"; }

servers() { find "$1/said" -type f | wc -l; }

neovim_has_one_server_and_one_mark() {
    local version form
    version=$(nvim --version | sed -n 's/^NVIM v0\.\([0-9]*\).*/\1/p')
    form='Neovim from 0.8 on'
    if [ "${version:-8}" -lt 8 ]; then form='Neovim 0.7'; fi
    write_server nvim
    printed "$form" >nvim/home/.config/nvim/init.lua
    same "$form: lines are printed" yes "$([ -s nvim/home/.config/nvim/init.lua ] && echo yes)"
    begin nvim nvim a.json
    until_it is_told nvim didOpen a.json
    until_it is_shown '■'
    press ':e b.json' Enter
    until_it is_told nvim didOpen b.json
    press ':e a.json' Enter ':set filetype=json' Enter ':set filetype=json' Enter
    press ':split b.json' Enter ':q' Enter
    sleep 1
    same 'neovim: a fault has one mark' 1 "$(shown | grep -o '■' | wc -l)"
    press ':saveas c.json' Enter
    until_it is_told nvim didOpen c.json
    press 'i' ' ' Escape
    until_it is_told nvim didChange c.json
    same 'neovim: the new name is told' '1 1' "$(told nvim didClose a.json) $(told nvim didOpen c.json)"
    same 'neovim: the old name is not told of again' 0 "$(told nvim didChange a.json)"
    press ':e! d.jsonl' Enter
    until_it is_told nvim didOpen d.jsonl
    sleep 1
    same 'neovim: each bad line of JSON Lines has one mark' 2 "$(shown | grep -o '■' | wc -l)"
    same 'neovim: one server' 1 "$(servers nvim)"
    press ':qa!' Enter
    "${screen[@]}" kill-server 2>/dev/null
}

emacs_has_one_server_and_one_mark() {
    write_server emacs
    printed 'Emacs with `eglot`' >emacs/home/.emacs.d/init.el
    same 'emacs: lines are printed' yes "$([ -s emacs/home/.emacs.d/init.el ] && echo yes)"
    begin emacs emacs -nw a.json
    until_it is_told emacs didOpen a.json
    until_it is_shown 'Flymake[1'
    has 'emacs: a fault has one mark' 'Flymake[1 0]' "$(shown)"
    press C-x C-f 'b.json' Enter
    until_it is_told emacs didOpen b.json
    press C-x C-f 'a.json' Enter C-x C-w 'c.json' Enter
    until_it is_told emacs didOpen c.json
    press ' '
    until_it is_told emacs didChange c.json
    same 'emacs: the new name is told' 1 "$(told emacs didOpen c.json)"
    has 'emacs: the mark is there' 'Flymake[1 0]' "$(shown)"
    press C-x C-f 'd.jsonl' Enter
    until_it is_told emacs didOpen d.jsonl
    until_it is_shown 'Flymake[2'
    has 'emacs: each bad line of JSON Lines has one mark' 'Flymake[2 0]' "$(shown)"
    same 'emacs: one server' 1 "$(servers emacs)"
    "${screen[@]}" kill-server 2>/dev/null
}

# The lines for lsp-mode stand on the mode that those for eglot make.
lsp_mode_has_one_server_and_one_mark() {
    write_server lspmode
    printed 'Emacs with `eglot`' | sed '/^(with-eval-after-load/,$d' >lspmode/home/.emacs.d/init.el
    printed 'Emacs with `lsp-mode`' >>lspmode/home/.emacs.d/init.el
    # What a person is asked at the first file of a project.
    printf "(setq lsp-auto-guess-root t lsp-enable-suggest-server-download nil)\n" >>lspmode/home/.emacs.d/init.el
    mkdir lspmode/texts/.git
    begin lspmode emacs -nw a.json
    until_it is_told lspmode didOpen a.json
    until_it is_shown 'Flymake[1'
    has 'lsp-mode: a fault has one mark' 'Flymake[1 0]' "$(shown)"
    press C-x C-f 'b.json' Enter
    until_it is_told lspmode didOpen b.json
    same 'lsp-mode: one server' 1 "$(servers lspmode)"
    "${screen[@]}" kill-server 2>/dev/null
}

# Kate without a screen. It takes the server as one that may be started.
kate_tells_the_server_of_a_file() {
    local page='Kate (tried'
    write_server kate
    mkdir -p kate/home/.config/kate/lspclient kate/run
    chmod 700 kate/run
    printed "$page" >kate/home/.config/kate/lspclient/settings.json
    same 'Kate: lines are printed' accepted "$("$program" check kate/home/.config/kate/lspclient/settings.json)"
    printf '[lspclient]\nAllowedServerCommandLines=%s/kate/bin/jx-lsp\n' "$room" >kate/home/.config/katerc
    env -u XDG_CONFIG_HOME HOME="$room/kate/home" PATH="$room/kate/bin:$PATH" QT_QPA_PLATFORM=offscreen XDG_RUNTIME_DIR="$room/kate/run" \
        timeout 60 dbus-run-session -- kate -b kate/texts/a.json >kate/log 2>&1 &
    until_it is_told kate didOpen a.json
    same 'Kate: the file is told' 1 "$(told kate didOpen a.json)"
    kill $!
    wait $!
}

# The extension of VS Code, over modules that only say what they are given.
the_extension_of_vs_code_starts_the_server() {
    mkdir -p code/node_modules/vscode-languageclient
    printed 'VS Code (not tried' >code/package.json
    printed 'Its `extension.js`:' >code/extension.js
    same 'VS Code: package.json' accepted "$("$program" check code/package.json)"
    same 'VS Code: what is run' '"./extension.js"' "$("$program" get -f code/package.json /main)"
    printf '%s\n' 'exports.LanguageClient = class {' \
        '    constructor(id, name, server, client) { console.log(server.command, ...client.documentSelector.map(it => it.language)); }' \
        '    start() { console.log("start"); }' '    stop() { console.log("stop"); }' '};' >code/node_modules/vscode-languageclient/node.js
    same 'VS Code: the extension' 'jx-lsp json jsonl start stop' \
        "$(node -e 'const it = require("./code/extension.js"); it.activate(); it.deactivate()' 2>&1 | flat)"
}

has_eglot() { emacs --batch --eval "(progn (package-initialize) (require 'eglot))" >/dev/null 2>&1; }

trap '"${screen[@]}" kill-server 2>/dev/null; rm -rf "$room"' EXIT
if [ ! -x "$server" ] || ! command -v tmux >/dev/null; then
    echo "${0##*/}: skipped: there is no $server, or no tmux"
    tests
    exit
fi
if command -v nvim >/dev/null; then neovim_has_one_server_and_one_mark; else echo "${0##*/}: skipped: there is no neovim"; fi
if command -v emacs >/dev/null && has_eglot; then
    emacs_has_one_server_and_one_mark
else
    echo "${0##*/}: skipped: there is no emacs with eglot"
fi
if command -v emacs >/dev/null && emacs --batch --eval "(require 'lsp-mode)" >/dev/null 2>&1; then
    lsp_mode_has_one_server_and_one_mark
else
    echo "${0##*/}: skipped: there is no emacs with lsp-mode"
fi
if command -v kate >/dev/null && command -v dbus-run-session >/dev/null; then
    kate_tells_the_server_of_a_file
else
    echo "${0##*/}: skipped: there is no kate"
fi
if command -v node >/dev/null; then the_extension_of_vs_code_starts_the_server; else echo "${0##*/}: skipped: there is no node"; fi
tests
