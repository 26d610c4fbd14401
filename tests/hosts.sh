#!/usr/bin/env bash
# Several machines: the lines of README.md for GNU parallel over ssh, and the recipe of docs/DISTRIBUTED.md for Dask with its scheduler on
# another host. The hosts are network namespaces of this machine with a server each; nothing is sent outside of them. One host is cut off in
# the middle.
. "$(dirname "$0")/lib.sh"

python=/usr/bin/python3
megabytes=40
name=jx$$

# in_host HOST COMMAND..: runs a command in a namespace, as it runs on a machine of that name.
in_host() {
    local host=$1
    shift
    ip netns exec "$name-$host" "$@"
}

# started_in LOG HOST COMMAND..: the same in the background, until the test ends.
started_in() {
    local log=$1 host=$2
    shift 2
    (exec ip netns exec "$name-$host" "$@") >"$log" 2>&1 &
}

# A namespace for each host, all at one switch, which stands in `home`.
make_hosts() {
    local host number=1
    ip netns add "$name-home" && in_host home ip link set lo up || return 1
    in_host home ip link add switch type bridge && in_host home ip addr add 10.77.0.1/24 dev switch && in_host home ip link set switch up || return 1
    for host in a b c; do
        number=$((number + 1))
        ip netns add "$name-$host" && in_host "$host" ip link set lo up || return 1
        in_host home ip link add "to-$host" type veth peer name wire netns "$name-$host" || return 1
        in_host home ip link set "to-$host" master switch up || return 1
        in_host "$host" ip addr add "10.77.0.$number/24" dev wire && in_host "$host" ip link set wire up || return 1
    done
}

# Ends what was started here and still runs.
remove_hosts() {
    local each running
    running=$(jobs -rp)
    # shellcheck disable=SC2086
    if [ -n "$running" ]; then kill $running 2>/dev/null; wait; fi
    for each in home a b c; do ip netns del "$name-$each" 2>/dev/null; done
    rm -rf "$room"
}

# Sets `sshd`: the server of this machine, or Debian's, unpacked here. It is not installed: then it would be started too.
find_server() {
    sshd=$(PATH=$PATH:/usr/sbin command -v sshd) && return 0
    unpacked server openssh-server libwrap0 || return 1
    sshd=$room/server/usr/sbin/sshd
    export LD_LIBRARY_PATH=$room/server/usr/lib/x86_64-linux-gnu
}

# A program `parallel` on the PATH, with no notice of what to cite.
find_parallel() {
    if ! command -v parallel >/dev/null; then
        unpacked gnu parallel || return 1
        PATH=$PATH:$room/gnu/usr/bin
    fi
    export PARALLEL_HOME=$room/parallel
    mkdir -p "$PARALLEL_HOME" && touch "$PARALLEL_HOME/will-cite"
    parallel --version >/dev/null 2>&1
}

# The keys, and what servers and clients read. A client gives a host up that is silent for three seconds.
settle_ssh() {
    ssh-keygen -q -t ed25519 -N '' -f key && ssh-keygen -q -t ed25519 -N '' -f host_key || return 1
    echo 'root:x:0:0:root:/root:/bin/sh
sshd:x:33333:65534::/run/sshd:/usr/sbin/nologin' >passwd
    echo 'root:*:19000::::::' >shadow
    cat >bin/ssh <<SSH
#!/bin/sh
exec /usr/bin/ssh -F "$room/config" "\$@"
SSH
    chmod +x bin/ssh
    cat >config <<CONFIG
Host a
    HostName 10.77.0.2
Host b
    HostName 10.77.0.3
Host c
    HostName 10.77.0.4
Host *
    User root
    IdentityFile $room/key
    IdentitiesOnly yes
    StrictHostKeyChecking no
    UserKnownHostsFile /dev/null
    LogLevel ERROR
    ConnectTimeout 3
    ServerAliveInterval 1
    ServerAliveCountMax 3
CONFIG
}

# serve HOST: a server that knows no user but root, by the key alone. The files that say so lie over the machine's own in its namespace alone.
serve() {
    started_in "server-$1.log" "$1" sh -c "mount --bind '$room/passwd' /etc/passwd && mount --bind '$room/shadow' /etc/shadow && mount -t tmpfs none /run &&
        mkdir -p /run/sshd && exec '$sshd' -D -e -f /dev/null -h '$room/host_key' -o PidFile=none -o UsePAM=no -o StrictModes=no \
        -o PermitRootLogin=prohibit-password -o AuthorizedKeysFile='$room/key.pub' -o MaxStartups=100 \
        -o SetEnv='PATH=$room/bin:/usr/bin:/bin JX_HOST=$1'"
}

answers() {
    local tries
    for tries in $(seq 100); do
        if in_host home timeout 10 bin/ssh "$1" true 2>/dev/null; then return 0; fi
        sleep 0.1
    done
    echo "hosts.sh: $1 does not answer: $tries tries; $(tail -n 3 "server-$1.log")"
    return 1
}

# The hosts' jx. On the host that the file `cut` names, a part waits: until then the host is cut off.
put_jx_on_the_path() {
    mkdir bin
    cat >bin/jx <<JX
#!/bin/sh
if [ -n "\$JX_HOST" ]; then touch "$room/served-\$JX_HOST"; fi
if [ "\$1" = part ] && [ "\$(cat "$room/cut" 2>/dev/null)" = "\$JX_HOST" ] && [ -n "\$JX_HOST" ]; then
    touch "$room/reached"
    sleep 30
fi
exec "$program" "\$@"
JX
    chmod +x bin/jx
    PATH=$room/bin:$PATH
}

make_texts() {
    local row='{"id":1234567,"name":"J\u00f6rg \"Ann\" Weiß","tags":["a",["b",{"c":[]}],null],"at":-12.75e-3,"on":true},'
    mkdir good bad
    { printf '['; yes "$row" | head -c $((megabytes * 1000000)) | head -n -1; printf '{}]'; } >good/text.json
    size=$(stat -c %s good/text.json)
    fault=$((size * 2 / 3))
    cp good/text.json bad/text.json
    printf '\001' | dd of=bad/text.json bs=1 seek=$fault conv=notrunc 2>/dev/null
    same 'the good text' accepted "$("$program" check good/text.json)"
    same 'the bad text' "stopped at $fault" "$("$program" check bad/text.json)"
}

# The five lines as README.md has them, with smaller parts.
take_lines() {
    sed -n '/^    size=\$(stat -c %s text.json)/,/^$/p' "$root/README.md" | sed 's/^    //; s/128 << 20/3 << 20/' >lines.sh
    same 'the lines are there' 5 "$(grep -c . lines.sh)"
    has 'they spread over hosts' '--sshlogin a,b,c' "$(cat lines.sh)"
}

# spread TEXT: what the lines print for a text.
spread() { in_host home sh -c "cd '$room/$1' && SHELL=/bin/sh timeout 300 bash '$room/lines.sh'" 2>told; }

the_lines_come_to_the_verdict() {
    same 'three hosts: a text' accepted "$(spread good)"
    same 'three hosts: another text' "stopped at $fault" "$(spread bad)"
    same 'each host has read a part' 'served-a served-b served-c' "$(echo served-*)"
}

a_host_that_is_cut_off_changes_nothing() {
    echo b >cut
    spread good >answer &
    local running=$! tries
    for tries in $(seq 600); do
        if [ -e reached ]; then break; fi
        sleep 0.1
    done
    same "a part came to b within $tries tries" yes "$([ -e reached ] && echo yes)"
    in_host home ip link set to-b down
    wait "$running"
    same 'a host is cut off in the middle' accepted "$(cat answer)"
    in_host home ip link set to-b up
    rm -f cut reached
}

# dask HOST WORD..: a part of Dask on a host.
dask() {
    local host=$1
    shift
    started_in "dask-$host.log" "$host" env "PATH=$PATH" "HOME=$room" "$python" -m "$@"
}

dask_comes_to_the_verdict() {
    "$python" -c 'import distributed' 2>/dev/null || installed python3-distributed
    if ! "$python" -c 'import distributed' 2>/dev/null; then
        echo 'hosts.sh: skipped: Dask is not here'
        return
    fi
    awk '/^```/ { if (inside && block ~ /dask_parts.py/) printf "%s", block; inside = !inside; block = ""; next } inside { block = block $0 "\n" }' \
        "$root/docs/DISTRIBUTED.md" >dask_parts.py
    dask a distributed.cli.dask_scheduler --host 10.77.0.2 --port 8786 --no-dashboard
    dask b distributed.cli.dask_worker tcp://10.77.0.2:8786 --nthreads 1 --no-dashboard --local-directory "$room"
    dask c distributed.cli.dask_worker tcp://10.77.0.2:8786 --nthreads 1 --no-dashboard --local-directory "$room"
    local text wanted
    for text in good bad; do
        wanted=$("$program" check "$text/text.json")
        same "dask, its scheduler on another host: $text" "$wanted" \
            "$(in_host home env "PATH=$PATH" "HOME=$room" timeout 300 "$python" dask_parts.py "$text/text.json" $((3 << 20)) tcp://10.77.0.2:8786 2>told)"
    done
}

skip() {
    echo "hosts.sh: skipped: $1"
    tests
    exit 0
}

if [ "$(id -u)" != 0 ] || ! command -v ip >/dev/null || ! command -v ssh-keygen >/dev/null; then skip 'it takes root, iproute2 and openssh-client'; fi
trap remove_hosts EXIT
if ! make_hosts >made 2>&1; then skip "no namespaces can be made here: $(head -n 1 made)"; fi
if ! find_server || ! find_parallel; then skip 'openssh-server or parallel cannot be had from Debian here'; fi
put_jx_on_the_path
settle_ssh || skip 'no keys can be made'
for host in a b c; do serve $host; done
for host in a b c; do answers $host || skip 'a server does not answer'; done
tests make_texts take_lines the_lines_come_to_the_verdict a_host_that_is_cut_off_changes_nothing dask_comes_to_the_verdict
