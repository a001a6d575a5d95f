#!/usr/bin/env bash
# Instructions for each node and edge over bodies of growing size up to the limit of 65,536 nodes, and the time of the processor. Counted is all that
# flow_cases does with a body once it is made: its names, its graph, statuses and dead trees, what is violated along its paths, for which graph and statuses are
# made a second time, and the limits. What making the body alone takes is taken off. Callgrind counts instructions, so these repeat.
# Build the program first (rt run in crates/flow_cases), or name it: bench/flow.sh PROGRAM.
set -eu
root=$(cd "$(dirname "$0")/.." && pwd)
program=${1:-$root/crates/flow_cases/out/flow_cases}
answer=$(mktemp)
trap 'rm -f "$answer"' EXIT

count() {
    valgrind --tool=callgrind --callgrind-out-file=/dev/null "$program" "$@" 2>&1 >"$answer" | sed -n 's/.*Collected : //p'
}

# The least time of ten runs, in microseconds of the processor.
microseconds() {
    python3 - "$program" "$@" <<'END'
import resource, subprocess, sys
def used():
    usage = resource.getrusage(resource.RUSAGE_CHILDREN)
    return usage.ru_utime + usage.ru_stime
def once():
    before = used()
    subprocess.run(sys.argv[1:], stdout=subprocess.DEVNULL, check=True)
    return used() - before
print(f"{min(once() for _ in range(10)) * 1000000:.0f}")
END
}

measure() {
    local shape=$1 size made all nodes edges
    for size in "${@:2}"; do
        made=$(count "$shape" "$size" make)
        all=$(count "$shape" "$size")
        nodes=$(sed -n 's/^  nodes \([0-9]*\),.*/\1/p' "$answer")
        edges=$(sed -n 's/.* edges \([0-9]*\),.*/\1/p' "$answer")
        printf '%-10s %6d  nodes %6d  edges %6d  instructions %12d  a node and edge %8.1f  microseconds %7d\n' "$shape" "$size" "$nodes" "$edges" \
            "$((all - made))" "$(echo "($all - $made) / ($nodes + $edges)" | bc -l)" "$(($(microseconds "$shape" "$size") - $(microseconds "$shape" "$size" make)))"
    done
}

measure straight 100 1000 10000 32766
measure assigned 100 1000 4000 8191
measure branches 100 1000 2000 4680
measure nested 10 50 100 190
measure jumps 100 1000 4000 8191
measure locals 10 50 100 250
