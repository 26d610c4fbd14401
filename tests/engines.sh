#!/usr/bin/env bash
# The recipes of docs/DISTRIBUTED.md by real engines: a text that is cut at random bytes, with a fault and without, with a task that is
# killed and tried again, and with runs that come out of order.
. "$(dirname "$0")/lib.sh"

recipes=$root/docs/DISTRIBUTED.md
megabytes=${JX_ENGINES_MB:-200}
python=/usr/bin/python3
# An engine that has not ended by then is ended, in seconds.
most=600

# Installs what is missing where that may be done, and tells what is skipped.
find_engines() {
    local missing=
    command -v parallel >/dev/null || missing="$missing parallel"
    "$python" -c 'import distributed' 2>/dev/null || missing="$missing python3-distributed"
    command -v mpirun >/dev/null || missing="$missing openmpi-bin"
    "$python" -c 'import mpi4py' 2>/dev/null || missing="$missing python3-mpi4py"
    # shellcheck disable=SC2086
    if [ -n "$missing" ]; then installed $missing; fi
}

# has_engine NAME COMMAND..: whether a command succeeds; else it is told that the engine is skipped.
has_engine() {
    local name=$1
    shift
    if "$@" >/dev/null 2>&1; then return 0; fi
    echo "engines.sh: skipped: $name is not here"
    return 1
}

# What the engines leave lies in the room, none reads the user's settings, and none gives a worker up since the machine is busy.
settle_engines() {
    mkdir home tmp
    export HOME=$room/home TMPDIR=$room/tmp SHELL=/bin/sh PARALLEL_HOME=$room/home/parallel
    export DASK_DISTRIBUTED__COMM__TIMEOUTS__CONNECT=300s DASK_DISTRIBUTED__COMM__TIMEOUTS__TCP=300s
    export OMPI_ALLOW_RUN_AS_ROOT=1 OMPI_ALLOW_RUN_AS_ROOT_CONFIRM=1 OMPI_MCA_rmaps_base_oversubscribe=1
    export OMPI_MCA_plm_rsh_agent=sh OMPI_MCA_btl_vader_backing_directory=$room/tmp
}

# engine STATUS COMMAND..: what an engine prints; and how it ended where it did not end with this status.
engine() {
    local wanted=$1 status=0
    shift
    timeout -k 10 $most "$@" >out 2>told </dev/null || status=$?
    cat out
    if [ $status != "$wanted" ]; then echo "status $status: $(tail -n 3 told)"; fi
}

# recipe NAME: writes the block of the page that has this name in one of its first lines.
recipe() {
    awk -v name="$1" '/^```/ { if (inside && block ~ name) printf "%s", block; inside = !inside; block = ""; next } inside { block = block $0 "\n" }' \
        "$recipes" | sed -n '1,$p' >"$1"
    same "the recipe $1 is there" yes "$([ -s "$1" ] && echo yes)"
    chmod +x "$1"
}

# make_texts: `good`, and `bad`, which stops being a text at `fault`.
make_texts() {
    local row='{"id":1234567,"name":"J\u00f6rg \"Ann\" Weiß","tags":["a",["b",{"c":[]}],null],"at":-12.75e-3,"on":true},'
    { printf '['; yes "$row" | head -c $((megabytes * 1000000)) | head -n -1; printf '{}]'; } >good
    size=$(stat -c %s good)
    step=$((size / 13 + 1))
    fault=$((size * 2 / 3))
    cp good bad
    # A control character stands in no text, and inside a string nowhere either.
    printf '\001' | dd of=bad bs=1 seek=$fault conv=notrunc 2>/dev/null
    same 'the good text' accepted "$("$program" check good)"
    same 'the bad text' "stopped at $fault" "$("$program" check bad)"
}

# A jx for the tasks. Where there is a file `kill`, a call of `part` takes it away and dies, as a task does whose machine fails.
put_jx_on_the_path() {
    mkdir bin
    cat >bin/jx <<JX
#!/bin/sh
if [ "\$1" = part ] && [ "\$3" != 0 ] && rm "$room/kill" 2>/dev/null; then
    head -c 1000 >/dev/null
    kill -9 \$\$
fi
exec "$program" "\$@"
JX
    chmod +x bin/jx
    PATH=$room/bin:$PATH
}

# cuts: the beginnings of parts that are cut at random bytes, each with its length.
cuts() {
    { echo 0; shuf -i 1-$((size - 1)) -n 12 --random-source="$recipes"; } | sort -n | awk -v size=$size 'NR > 1 { print at, $1 - at } { at = $1 } END { print at, size - at }'
}

# whole_of FILE: what is said of the runs of these parts of a text, in the order of their lines. It is asked when all are there, so that
# no task is left behind where it ends early.
whole_of() {
    timeout $most parallel -k -j4 --halt now,fail=1 --retries 3 --colsep ' ' "tail -c +\$(({1} + 1)) '$1' | head -c {2} | jx part --from {1}" >runs
    jx whole --to $size <runs 2>&1
}

# was_killed ENGINE: whether a task has died since there was a file `kill`.
was_killed() {
    same "$1: a task was killed" no "$([ -e kill ] && echo yes || echo no)"
    rm -f kill
}

gnu_parallel_comes_to_the_verdict() {
    has_engine 'GNU parallel' parallel --version || return
    recipe spread.sh
    same 'parallel: a text' 'accepted' "$(engine 0 ./spread.sh good : $step)"
    same 'parallel: another text' "stopped at $fault" "$(engine 1 ./spread.sh bad : $step)"
    touch kill
    same 'parallel: a task that is killed and tried again' "stopped at $fault" "$(engine 1 ./spread.sh bad : $step)"
    was_killed parallel
    same 'parallel: parts that are cut at random bytes' "stopped at $fault" "$(cuts | whole_of bad)"
    has 'parallel: parts in another order' ' was due' "$(cuts | tac | whole_of good)"
    has 'parallel: a part twice' ' was due' "$(cuts | sed '3p' | whole_of good)"
    has 'parallel: a part is missing' ' was due' "$(cuts | sed '5d' | whole_of good)"
    has 'parallel: the last part is missing' "jx: -: the runs cover 0.." "$(cuts | sed '$d' | whole_of good)"
    same 'parallel: it cuts by itself' accepted "$(timeout $most parallel -j4 -k --pipepart --recend '' --block $step -a good jx part | jx whole --to $size)"
}

dask_comes_to_the_verdict() {
    local said
    has_engine Dask "$python" -c 'import distributed' || return
    recipe dask_parts.py
    same 'dask: a text' accepted "$(engine 0 "$python" dask_parts.py good $step)"
    touch kill
    same 'dask: a task that is killed and tried again' "stopped at $fault" "$(engine 0 "$python" dask_parts.py bad $step)"
    was_killed dask
    cat >others.py <<'PY'
import os, random, signal, sys
from dask.distributed import Client, as_completed
from dask_parts import join, jx, part

def dying(path, at, size):
    try:
        os.remove("kill")
        os.kill(os.getpid(), signal.SIGKILL)
    except FileNotFoundError:
        return at, part(path, at, size)

if __name__ == "__main__":
    path, size = os.path.abspath(sys.argv[1]), os.path.getsize(sys.argv[1])
    cuts = [0, *sorted(random.Random(7).sample(range(1, size), 12)), size]
    with Client(n_workers=4, threads_per_worker=1, dashboard_address=None) as client:
        tasks = [client.submit(dying, path, at, end - at) for at, end in zip(cuts, cuts[1:])]
        came = [future.result() for future in as_completed(tasks)]
    print(jx(["whole", "--to", str(size)], b"".join(run for _, run in sorted(came))).decode(), end="")
    came.sort(reverse=True)
    try:
        jx(["whole", "--to", str(size)], b"".join(run for _, run in came))
    except RuntimeError as fault:
        print(fault)
PY
    touch kill
    said=$(engine 0 "$python" others.py bad)
    same 'dask: random cuts, and a worker that is killed' "stopped at $fault" "$(head -n 1 <<<"$said")"
    has 'dask: runs in another order' ' was due' "$(sed -n 2p <<<"$said")"
    same 'dask: no more lines' 2 "$(wc -l <<<"$said")"
    was_killed 'dask, a worker'
}

# mpirun ends a job as soon as a rank ends with a status, which may be before it has passed on what that rank printed. With the parameter it
# waits for all ranks and has no status, so what is printed and the status are looked at one by one.
mpi_comes_to_the_verdict() {
    local ranks waits='--mca orte_abort_on_non_zero_status 0'
    has_engine MPI "$python" -c 'import mpi4py' && has_engine MPI mpirun --version || return
    recipe mpi_parts.py
    for ranks in 1 4 7; do
        # shellcheck disable=SC2086
        same "mpi: $ranks ranks" "stopped at $fault" "$(engine 0 mpirun $waits -n $ranks "$python" mpi_parts.py bad)"
    done
    same 'mpi: a text' accepted "$(engine 0 mpirun -n 4 "$python" mpi_parts.py good)"
    has 'mpi: the status of a text that is refused' 'status 1: ' "$(engine 0 mpirun -n 4 "$python" mpi_parts.py bad)"
    touch kill
    has 'mpi: a task that is killed ends the job' 'status ' "$(engine 0 mpirun -n 4 "$python" mpi_parts.py good)"
    same 'mpi: it ends with no verdict' '' "$(cat out)"
    was_killed mpi
}

# Hadoop's shuffle is played by sort, and a task that comes twice by its lines.
hadoop_streaming_comes_to_the_verdict() {
    recipe mapper.sh
    recipe reducer.sh
    seq 0 $step $((size - 1)) >offsets
    same 'streaming: mappers, a sort and a reducer' "stopped at $fault" "$(shuf offsets | ./mapper.sh bad $step | sort | ./reducer.sh $size)"
    same 'streaming: a task that comes twice' accepted "$(sed '3p' offsets | ./mapper.sh good $step | sort | ./reducer.sh $size)"
    has 'streaming: a task that is missing' ' was due' "$(sed '2d' offsets | ./mapper.sh good $step | sort | ./reducer.sh $size 2>&1)"
}

find_engines
settle_engines
put_jx_on_the_path
tests make_texts \
    gnu_parallel_comes_to_the_verdict \
    dask_comes_to_the_verdict \
    mpi_comes_to_the_verdict \
    hadoop_streaming_comes_to_the_verdict
