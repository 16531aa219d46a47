#!/usr/bin/env bash
# Counts the instructions that each call takes on the way from a body to the body with a term in it, an operator of the body,
# on bodies of 10,000 and of 1,000,000 operators; the last column is the second count over the first, which stays near 1 where
# the time of a call is linear. Needs valgrind, and takes some minutes. Instructions are counted by callgrind, so that other
# work on the machine does not move them.
#
# The program in benches/main.rt.in makes the calls one after another up to the one that it is told; the cost of a call, with
# what it takes to give back its answer, is the difference of two runs. `build_function` is run by `replace`, which reads the
# body and makes its graph again, so that these are taken off once more.
#
# Usage: run.sh [OTHER]. At the end programs.sh counts whole runs of peephole_run, beside those of the other program, where
# peephole_run is built.
set -euo pipefail
if [ $# -gt 0 ]; then set -- "$(realpath "$1")"; fi
cd "$(dirname "$0")/.."

small=${SMALL:-10000}
large=${LARGE:-1000000}

work=$(mktemp -d)
trap 'rm -rf "$work"' EXIT

# A repository of copies, in which the program stands over the crates; what was proved of them here is used.
mkdir -p "$work/crates/calls/src"
for crate in crates/*/; do
    mkdir -p "$work/$crate/out"
    for folder in src specs proofs out/rlib; do
        if [ -d "$crate$folder" ]; then cp -r "$crate$folder" "$work/$crate$(dirname "$folder")"; fi
    done
done
cp benches/main.rt.in "$work/crates/calls/src/main.rt"
{ cat crates.txt; echo "calls: given_words mutate_base wasm_types device_tally peephole_script peephole_terms peephole_examples"; } > "$work/crates.txt"
if ! (cd "$work/crates/calls" && rt run < /dev/null) > "$work/log" 2>&1 && [ ! -x "$work/crates/calls/out/calls" ]; then
    cat "$work/log"
    exit 1
fi
program=$work/crates/calls/out/calls

# A body of about so many operators: one deep tree, or many small ones.
body() {
    python3 -c '
import sys
shape, count = sys.argv[1], int(sys.argv[2])
code = {
    "chain": b"\x20\x00" + b"\x41\x07\x6a" * (count // 2 - 1),  # local.get 0, and i32.const 7, i32.add
    "trees": b"\x20\x00\x41\x07\x6a\x1a" * (count // 4),        # local.get 0, i32.const 7, i32.add, drop
}[shape]
sys.stdout.buffer.write(code + b"\x0b")
' "$1" "$2"
}

# The instructions of a run with so many calls, which must answer.
count() {
    { printf '%s' "$3"; body "$1" "$2"; } > "$work/input"
    if ! valgrind --tool=callgrind --callgrind-out-file=/dev/null "$program" < "$work/input" 2> "$work/log"; then
        cat "$work/log" >&2
        exit 1
    fi
    awk '/Collected/ { print $4 }' "$work/log"
}

# The instructions of each call, one a line.
costs() {
    local runs=() calls
    for calls in 0 1 2 3 4 5 6; do runs+=("$(count "$1" "$2" "$calls")"); done
    echo "read_body $((runs[1] - runs[0]))"
    echo "get_dfg $((runs[2] - runs[1]))"
    echo "keeps_order $((runs[3] - runs[2]))"
    echo "get_expr $((runs[4] - runs[3]))"
    echo "expr2wasm $((runs[5] - runs[4]))"
    echo "build_function $((runs[6] - runs[4] - runs[2] + runs[0]))"
}

for shape in chain trees; do
    echo "$shape: instructions an operator of $small, of $large, growth"
    costs "$shape" "$small" > "$work/small"
    costs "$shape" "$large" > "$work/large"
    paste -d ' ' "$work/small" "$work/large" | awk -v small="$small" -v large="$large" '
        { printf "  %-16s %9.1f %9.1f %6.2f\n", $1, $2 / small, $4 / large, ($4 / large) / ($2 / small) }
    '
done

if [ -x "${PEEPHOLE_RUN:-crates/peephole_run/out/peephole_run}" ]; then benches/programs.sh "$@"; fi
