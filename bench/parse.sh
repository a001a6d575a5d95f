#!/usr/bin/env bash
# Instructions that the parser takes on made texts of growing size, without those of making and lexing the text, and the peak of
# the memory of the whole program and of lexing alone. Repeatable: callgrind counts instructions, not seconds. Build the program
# first (`rt run <stdin` in crates/parse_cases), or name it: bench/parse.sh PROGRAM.
set -eu
root=$(cd "$(dirname "$0")/.." && pwd)
program=${1:-$root/crates/parse_cases/out/parse_cases}

instructions() {
    valgrind --tool=callgrind --callgrind-out-file=/dev/null "$program" "$@" 2>&1 >/dev/null | sed -n 's/.*Collected : //p'
}

peak() {
    python3 - "$program" "$@" <<'END'
import resource, subprocess, sys
subprocess.run(sys.argv[1:], stdout=subprocess.DEVNULL, check=True)
print(resource.getrusage(resource.RUSAGE_CHILDREN).ru_maxrss)
END
}

printf '%-12s %8s %14s %14s %12s %10s %10s %12s\n' kind tokens lexing parsing parsing/token KiB 'KiB lexing' bytes/token
for kind in statements locals sums parentheses; do
    for size in 10000 30000 100000 300000; do
        tokens=$("$program" "$kind" "$size" lex | sed 's/.* bytes, \([0-9]*\) tokens.*/\1/')
        lexing=$(instructions "$kind" "$size" lex)
        whole=$(instructions "$kind" "$size")
        memory=$(peak "$kind" "$size")
        before=$(peak "$kind" "$size" lex)
        parsing=$((whole - lexing))
        printf '%-12s %8d %14d %14d %12d %10d %10d %12d\n' "$kind" "$tokens" "$lexing" "$parsing" $((parsing / tokens)) "$memory" "$before" \
            $(((memory - before) * 1024 / tokens))
    done
done
