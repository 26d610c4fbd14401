# Read by the tests of the program as a whole. Each file of them runs in a folder of its own: it has the functions that help, then a function
# for each thing that holds, and ends by `tests` with the names of these.
root=$(cd "$(dirname "${BASH_SOURCE[0]}")/.." && pwd)
program=${JX_PROGRAM:-$root/crates/jx/out/jx}
room=$(mktemp -d)
trap 'rm -rf "$room"' EXIT
cd "$room" || exit 1
passed=0
failed=0

# same NAME WANTED GOT: counts whether what was got is what is wanted.
same() {
    if [ "$2" = "$3" ]; then
        passed=$((passed + 1))
    else
        failed=$((failed + 1))
        printf '%s: FAILED: %s\n--- wanted\n%s\n--- got\n%s\n' "${0##*/}" "$1" "$2" "$3"
    fi
}

# has NAME PART WHOLE: counts whether the part stands in the whole.
has() {
    case $3 in
    *"$2"*) passed=$((passed + 1)) ;;
    *)
        failed=$((failed + 1))
        printf '%s: FAILED: %s\n--- wanted a part\n%s\n--- got\n%s\n' "${0##*/}" "$1" "$2" "${3:0:2000}"
        ;;
    esac
}

# flat: the words of the input in a line, with one space between two.
flat() { tr -s ' \n' ' ' | sed 's/^ //; s/ $//'; }

# said INPUT WORD..: runs the program on the input, and prints its status, its output and what it told on standard error.
said() {
    local input=$1 status=0
    shift
    printf %b "$input" | "$program" "$@" >out 2>err || status=$?
    printf 'status %s\n' "$status"
    sed 's/^/out: /' out
    sed 's/^/err: /' err
}

# packaged COMMAND..: runs a command that fetches or installs Debian's packages. Tests run side by side, and these have one lock.
packaged() { flock "$root/jx.packages.lock" "$@"; }

# downloaded PACKAGE..: Debian's packages, in this folder. Where none are known their lists are fetched first.
downloaded() {
    packaged timeout 120 apt-get download "$@" || { packaged timeout 120 apt-get update && packaged timeout 120 apt-get download "$@"; }
}

# unpacked FOLDER PACKAGE..: Debian's packages, unpacked in a folder and not installed.
unpacked() {
    local folder=$1 package
    shift
    command -v apt-get >/dev/null && command -v dpkg >/dev/null || return 1
    mkdir -p "$folder" && (cd "$folder" && downloaded "$@") >/dev/null 2>&1 || return 1
    for package in "$folder"/*.deb; do dpkg -x "$package" "$folder" || return 1; done
}

# installed PACKAGE..: Debian's packages, installed, where that may be done.
installed() {
    [ "$(id -u)" = 0 ] && command -v apt-get >/dev/null || return 1
    echo "${0##*/}: installs $*"
    packaged sh -c 'timeout 600 apt-get update && DEBIAN_FRONTEND=noninteractive timeout 600 apt-get install -y --no-install-recommends "$@"' sh "$@" >/dev/null 2>&1
}

# write_sessions PAGE..: a session is an indented part of a page that begins with `$ `. Each is written as a script, which prints a line
# before each command, and as what that is to print.
write_sessions() {
    awk '
    function close_session() { inside = 0 }
    /^    \$ / {
        if (!inside) { inside = 1; session++; script = sprintf("script.%02d", session); wanted = sprintf("wanted.%02d", session); command = 0 }
        command++
        printf "echo @@%d\n%s\n", command, substr($0, 7) > script
        print "@@" command > wanted
        next
    }
    /^    > / && inside { print substr($0, 7) > script; next }
    /^    / && inside { print substr($0, 5) > wanted; next }
    { close_session() }
' "$@"
}

# sessions_hold: looks whether each session that was written prints what stands below it, in a folder of its own. Sets `sessions`, how many.
sessions_hold() {
    local script number got
    sessions=0
    for script in script.*; do
        number=${script#script.}
        mkdir "session.$number"
        ln -s "$program" "session.$number/jx"
        got=$(cd "session.$number" && bash "../$script" 2>&1)
        same "the session that begins $(sed -n 2p "$script")" "$(cat "wanted.$number")" "$got"
        sessions=$((sessions + 1))
    done
}

# tests NAME..: calls each of these functions, and tells how much of what they looked at holds.
tests() {
    local each
    for each in "$@"; do "$each"; done
    echo "${0##*/}: $passed passed, $failed failed"
    [ "$failed" = 0 ]
}
