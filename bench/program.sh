#!/usr/bin/env bash
# Instructions that the built program takes to start, on bodies of growing size, and on sources of 1 MiB, beside those of `wc` on the same source.
# Repeatable: callgrind counts instructions, not seconds. Build the program first (./ktflow), or name it: bench/program.sh PROGRAM.
set -eu
root=$(cd "$(dirname "$0")/.." && pwd)
program=${1:-$root/crates/kt_program/out/kt_program}
folder=$(mktemp -d)
trap 'rm -rf "$folder"' EXIT

python3 - "$folder" <<'END'
import sys
folder, limit = sys.argv[1], 1048576
def write(name, statements):
    open(f"{folder}/{name}.kt", "w").write("fun main() {\n" + "".join(statements) + "}\n")
def fill(first, line):
    return [first] + [line] * ((limit - len("fun main() {\n}\n") - len(first)) // len(line))
write("start", [])
for count in (500, 1000, 2000, 4000, 8000):
    write(f"sums{count}", ["var x = 0\n"] + ["x = x + 1\n"] * count)
for count in (1000, 2000, 4000):
    write(f"prints{count}", ["val answer = 42\n"] + ["println(answer)\n"] * count)
for count in (50, 100, 200):
    write(f"locals{count}", ["var a0 = 0\n"] + [f"val a{i} = a{i - 1} + 1\n" for i in range(1, count)])
write("comment", ["/*" + "x" * (limit - 20) + "*/\n"])
write("refused", fill("var x = 0\n", "x = 1\n"))
END

count() {
    valgrind --tool=callgrind --callgrind-out-file=/dev/null "$@" 2>&1 >/dev/null | sed -n 's/.*Collected : //p'
}

for name in start sums500 sums1000 sums2000 sums4000 sums8000 prints1000 prints2000 prints4000 locals50 locals100 locals200 comment refused; do
    file=$folder/$name.kt
    size=$(stat -c %s "$file")
    ours=$(count "$program" run "$file" || true)
    theirs=$(count wc "$file")
    printf '%-12s %8d bytes  ktflow %13d  wc %9d  ratio %7.1f  instructions/byte %8.1f\n' "$name" "$size" "$ours" "$theirs" "$(echo "$ours / $theirs" | bc -l)" "$(echo "$ours / $size" | bc -l)"
done
