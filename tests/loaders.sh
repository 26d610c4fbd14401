#!/usr/bin/env bash
# docs/LOADERS.md: each session that it shows is run by the real programs. Servers listen on sockets in this folder alone.
. "$(dirname "$0")/lib.sh"

# The programs of PostgreSQL's server, which Debian keeps off the PATH.
server_programs() { dirname "$(find /usr/lib/postgresql -name initdb 2>/dev/null | sort | tail -n 1)"; }

# as_owner COMMAND..: runs a command as who may run the server. Root may not.
as_owner() {
    if [ "$(id -u)" = 0 ]; then runuser -u postgres -- "$@"; else "$@"; fi
}

tools_are_there() {
    if ! command -v psql >/dev/null || ! find /usr/lib/postgresql -name initdb 2>/dev/null | grep -q .; then installed postgresql; fi
    if ! command -v sqlite3 >/dev/null; then installed sqlite3; fi
    if ! command -v parallel >/dev/null; then installed parallel; fi
    command -v psql >/dev/null && command -v sqlite3 >/dev/null && command -v parallel >/dev/null && [ -x "$(server_programs)/initdb" ]
}

start_server() {
    chmod 711 "$room"
    mkdir pg
    if [ "$(id -u)" = 0 ]; then chown postgres pg; fi
    as_owner "$(server_programs)/initdb" -D "$room/pg/data" -A trust -U loader -E UTF8 --no-sync >initdb.log 2>&1 || return 1
    as_owner "$(server_programs)/pg_ctl" -D "$room/pg/data" -o "-k $room/pg -c listen_addresses= -F" -w start >start.log 2>&1 || return 1
    trap 'stop_servers; rm -rf "$room"' EXIT
    export PGHOST=$room/pg PGUSER=loader PGDATABASE=dump PGCLIENTENCODING=UTF8
    createdb
}

# stop_servers: those that were started here
stop_servers() {
    as_owner "$(server_programs)/pg_ctl" -D "$room/pg/data" -m immediate stop >stop.log 2>&1
    if [ -n "${mariadb-}" ]; then
        kill -9 "$mariadb" 2>/dev/null
        wait "$mariadb" 2>/dev/null
    fi
}

# start_mariadb: a server for the client mysql, whose settings are those in the home folder.
start_mariadb() {
    local words=(--no-defaults "--datadir=$room/my/data" "--socket=$room/my/socket") turns=150
    command -v mariadbd >/dev/null && command -v mysql >/dev/null || return 1
    mkdir my
    if [ "$(id -u)" = 0 ]; then
        chown mysql my && words+=(--user=mysql)
    fi
    mariadb-install-db "${words[@]}" --auth-root-authentication-method=normal --skip-test-db >my.install 2>&1 || return 1
    mariadbd "${words[@]}" --skip-networking --local-infile=1 >my.log 2>&1 &
    mariadb=$!
    printf '[client]\nsocket=%s\nuser=root\ndefault-character-set=utf8mb4\n' "$room/my/socket" >.my.cnf
    until mysql -e 'create database dump' 2>my.told || [ $turns = 0 ]; do
        turns=$((turns - 1))
        sleep 0.2
    done
    mysql dump -e 'select 1' >/dev/null
}

# leave_out WORDS REASON: sessions that have these words are not run.
leave_out() {
    local script
    for script in $(grep -lE "$1" script.*); do
        echo "loaders.sh: skipped: $2"
        rm "$script" "wanted.${script#script.}"
    done
}

each_loader_does_what_stands_below_it() {
    if ! start_mariadb; then leave_out '(^|[ |])mysql ' 'no server of MariaDB with its client'; fi
    # The first Python that has pandas, if there is one.
    if /usr/bin/python3 -c 'import pandas' 2>/dev/null; then ln -s /usr/bin/python3 bin/python3; fi
    if ! python3 -c 'import pandas' 2>/dev/null; then leave_out 'import pandas' 'no pandas'; fi
    sessions_hold
    same 'there are sessions' yes "$([ "$sessions" -ge 6 ] && echo yes)"
}

if ! tools_are_there; then
    echo 'loaders.sh: skipped: no psql, PostgreSQL server, sqlite3 or GNU parallel'
    echo 'loaders.sh: 0 passed, 0 failed'
    exit 0
fi
mkdir bin
ln -s "$program" bin/jx
export PATH=$room/bin:$PATH HOME=$room
mkdir .parallel
touch .parallel/will-cite
if ! start_server; then
    same 'a server of PostgreSQL starts' yes "no: $(cat initdb.log start.log 2>/dev/null | tail -n 5)"
    tests
    exit
fi
# The package for Python stands on the library.
"$root/tools/library" >library.log 2>&1 || same 'the library is built' '' "$(cat library.log)"
export PYTHONPATH=$root/bindings/python PYTHONDONTWRITEBYTECODE=1
write_sessions "$root/docs/LOADERS.md"
tests each_loader_does_what_stands_below_it
