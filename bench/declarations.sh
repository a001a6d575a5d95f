#!/usr/bin/env bash
# Instructions and seconds that class tables and the rules on declarations take, on made hierarchies of growing size, without what it takes to make
# the hierarchy. Repeatable: callgrind counts instructions, not seconds. Build crates/decl_cases first, or name the program: bench/declarations.sh PROGRAM.
set -eu
root=$(cd "$(dirname "$0")/.." && pwd)
program=${1:-$root/crates/decl_cases/out/decl_cases}

count() {
    valgrind --tool=callgrind --callgrind-out-file=/dev/null "$@" 2>&1 >/dev/null | sed -n 's/.*Collected : //p'
}

# The least processor seconds of three runs.
seconds() {
    for _ in 1 2 3; do
        { TIMEFORMAT=%U; time "$@" >/dev/null; } 2>&1
    done | sort -n | head -1
}

# A shape at its sizes; each line also has the instructions for each class, which show how the work grows.
measure() {
    local shape=$1
    shift
    for size in "$@"; do
        local whole made classes took
        classes=$("$program" "$shape" "$size" made | sed -n 's/.*: \([0-9]*\) classes$/\1/p')
        whole=$(count "$program" "$shape" "$size")
        made=$(count "$program" "$shape" "$size" made)
        took=$(seconds "$program" "$shape" "$size")
        printf '%-10s %6d classes  %14d instructions  %12d each  %8s s  %s\n' \
            "$shape" "$classes" "$((whole - made))" "$(((whole - made) / classes))" "$took" "$("$program" "$shape" "$size" | sed 's/.*classes, //')"
    done
}

measure classes 1250 2500 5000 10000
measure chain 625 1250 2500 5000
measure overrides 250 500 1000 2000
measure growing 50 100 200 400
measure ladder 25 50 100 200
