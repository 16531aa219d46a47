#!/usr/bin/env bash
# Measures teddertempo-reduce beside wasm-reduce (binaryen): ten failing modules, each of which answers something else where an operator
# is taken for another one (tests/reduce/fault.sh), made smaller by both, with a program teddertempo where TEDDERTEMPO names one. Prints
# for each the bytes of the module and of what both leave, and how often both ran the predicate; the last line is `N passed, N failed`. It
# passes where what is left by teddertempo-reduce is in the mean no larger, and needs in the mean no more runs.
#
# Usage: reduce.sh [FOLDER]. What is made stays in the folder, where one is named, and what is there already isn't made again. Needs wabt,
# binaryen and Python 3; half an hour of a core, mostly wasm-reduce's, which JOBS rows at once (1) share.
set -euo pipefail
if [ -n "${TEDDERTEMPO:-}" ]; then TEDDERTEMPO=$(realpath "$TEDDERTEMPO"); fi
work=${1:-}
if [ -n "$work" ]; then
    mkdir -p "$work"
    work=$(realpath "$work")
else
    work=$(mktemp -d)
    trap 'rm -rf "$work"' EXIT
fi
cd "$(dirname "$0")/.."

for needed in wasm-interp wasm2wat wat2wasm wasm-reduce python3; do
    command -v "$needed" > /dev/null || { echo "reduce.sh needs $needed on the path" >&2; exit 1; }
done

# A module, and the fault.
rows="mixes s/i64[.]rotl/i64.rotr/
hashes s/i32[.]shr_u/i32.shr_s/
shapes s/i32[.]eqz/i32.clz/
packing s/i64[.]shl/i64.shr_u/
bodies s/f64[.]mul/f64.add/
noise s/i64[.]xor/i64.or/
sums s/i64[.]extend_i32_u/i64.extend_i32_s/
plain s/i32[.]mul/i32.add/
text s/i32[.]xor/i32.or/
numbers s/i64[.]rem_u/i64.rem_s/"

# Writes a predicate that counts its runs.
write_predicate() {
    local file=$1 fault=$2 log=$3
    printf '#!/bin/sh\necho run >> "%s"\nexec "%s/tests/reduce/fault.sh" "%s" "$1"\n' "$log" "$PWD" "$fault" > "$file"
    chmod +x "$file"
}

# Makes a module smaller by both programs; what is there already stays.
reduce_row() {
    local name=$1 fault=$2 own=$work/$1
    mkdir -p "$own"
    if [ ! -e "$own/ours.runs" ]; then
        rm -f "$own/ours.log"
        write_predicate "$own/ours.sh" "$fault" "$own/ours.log"
        driver/teddertempo-reduce --quiet --timeout 600 "tests/modules/$name.wasm" -o "$own/ours.wasm" --json "$own/ours.json" -- "$own/ours.sh"
        wc -l < "$own/ours.log" > "$own/ours.runs"
    fi
    if [ ! -e "$own/theirs.runs" ]; then
        rm -f "$own/theirs.log"
        write_predicate "$own/theirs.sh" "$fault" "$own/theirs.log"
        wasm-reduce --all-features -b "$(dirname "$(command -v wasm-reduce)")" -to 600 "tests/modules/$name.wasm" \
            "--command=$own/theirs.sh $own/test.wasm" -t "$own/test.wasm" -w "$own/theirs.wasm" > "$own/theirs.txt" 2>&1
        wc -l < "$own/theirs.log" > "$own/theirs.runs"
    fi
}

export -f reduce_row write_predicate
export work
xargs -P "${JOBS:-1}" -L 1 bash -c 'set -euo pipefail; reduce_row "$1" "$2"' _ <<< "$rows"

printf '%-10s %8s %8s %8s %8s %8s\n' module bytes ours theirs runs theirs
bytes=0 their_bytes=0 runs=0 their_runs=0 count=0
while read -r name _; do
    own=$work/$name
    row=("$(stat -c %s "$own/ours.wasm")" "$(stat -c %s "$own/theirs.wasm")" "$(cat "$own/ours.runs")" "$(cat "$own/theirs.runs")")
    printf '%-10s %8d %8d %8d %8d %8d\n' "$name" "$(stat -c %s "tests/modules/$name.wasm")" "${row[@]}"
    bytes=$((bytes + row[0])) their_bytes=$((their_bytes + row[1])) runs=$((runs + row[2])) their_runs=$((their_runs + row[3]))
    count=$((count + 1))
done <<< "$rows"
printf '%-10s %8s %8d %8d %8d %8d\n' mean "" $((bytes / count)) $((their_bytes / count)) $((runs / count)) $((their_runs / count))

passed=0
failed=0
judge() { if [ "$1" -le "$2" ]; then passed=$((passed + 1)); else failed=$((failed + 1)); echo "$3" >&2; fi; }
judge "$bytes" "$their_bytes" "what is left is larger than what wasm-reduce leaves"
judge "$runs" "$their_runs" "the predicate is run more often than by wasm-reduce"
echo "$passed passed, $failed failed"
[ "$failed" -eq 0 ]
