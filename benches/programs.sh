#!/usr/bin/env bash
# Counts the instructions of whole runs of peephole_run, by callgrind, so that other work on the machine does not move them: on
# twelve large inputs, in millions, and what a command takes among 1,000 and among 10,000 of its kind, whose ratio stays near 1
# where the time is linear. A second program that reads the same lines is measured beside it, with the ratio of the two, and
# whether both print the same.
#
# Usage: programs.sh [OTHER], once the program is built. PEEPHOLE_RUN names it, else it is the one that `rt run` leaves in
# crates/peephole_run/out. Needs valgrind and Python, and takes some minutes.
set -euo pipefail
program=$(realpath "${PEEPHOLE_RUN:-$(dirname "$0")/../crates/peephole_run/out/peephole_run}")
other=${1:+$(realpath "$1")}
cd "$(dirname "$0")"

work=$(mktemp -d)
trap 'rm -rf "$work"' EXIT

# The instructions of a program on a file.
count() {
    valgrind --tool=callgrind --callgrind-out-file=/dev/null "$1" < "$2" 2>&1 > "$work/printed" \
        | awk '/Collected/ { print $4 }'
}

python3 inputs.py bodies "$work/bodies"
echo "million instructions of a run${other:+, those of the other program, ratio}"
for input in "$work"/bodies/*.lines; do
    ours=$(count "$program" "$input")
    cp "$work/printed" "$work/ours"
    theirs= same=
    if [ -n "$other" ]; then
        theirs=$(count "$other" "$input")
        cmp -s "$work/printed" "$work/ours" || same="printed otherwise"
    fi
    awk -v name="$(basename "$input" .lines)" -v ours="$ours" -v theirs="$theirs" -v same="$same" 'BEGIN {
        printf "  %-24s %9.1f", name, ours / 1e6
        if (theirs != "") printf " %9.1f %6.2f %s", theirs / 1e6, ours / theirs, same
        print ""
    }'
done

python3 inputs.py commands "$work/few" 1000
python3 inputs.py commands "$work/many" 10000
: > "$work/nothing"
start=$(count "$program" "$work/nothing")
echo "instructions of a command among 1,000 of them, among 10,000, growth"
for input in "$work"/few/*.lines; do
    name=$(basename "$input" .lines)
    few=$(count "$program" "$input")
    many=$(count "$program" "$work/many/$name.lines")
    awk -v name="$name" -v few="$((few - start))" -v many="$((many - start))" 'BEGIN {
        printf "  %-24s %9.0f %9.0f %6.2f\n", name, few / 1000, many / 10000, many / few / 10
    }'
done
