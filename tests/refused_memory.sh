#!/usr/bin/env bash
# Refuses to calls that take memory, those of `calls` below, their requests in turn: each one, or of more than a hundred the first and
# the last fifty, and each tenth between these. Prints a line for each call: how many requests were refused, one a run, of how many,
# and how many of them to the call itself. Fails where an answer is none of those allowed: the sources in tests/refused_memory say
# which, and stop at any other. The last line is `N passed, N failed`: so many calls.
#
# The program in tests/refused_memory makes a call of those over all its samples. It is built twice: without a refusal,
# which counts the requests of each call, and with request number `at` refused, before which it asks for memory and gives it
# back so often that the refused request is the call's first, second and so on, up to one run that meets no refusal.
set -euo pipefail
cd "$(dirname "$0")/.."

calls="read_later_body write_code copy_node add_constants read_body get_dfg get_expr build_expr add expr2wasm build_function pretty_print clone tree_of write trees_of blocks_of rewrites_of_body reached_operators choose rewrite_body read_module with_body rewrite_module units_of code_of_words change_of_words replace_code change_module run"
never=1000000

work=$(mktemp -d)
trap 'rm -rf "$work"' EXIT

# A repository of copies, in which the program stands beside the crates.
for crate in crates/*/; do
    mkdir -p "$work/$crate"
    for folder in src specs proofs; do
        if [ -d "$crate$folder" ]; then cp -r "$crate$folder" "$work/$crate"; fi
    done
done
program=$work/crates/refused_memory
mkdir -p "$program/src" "$work/counted" "$work/cases"
for source in tests/refused_memory/*.rt.in; do
    cp "$source" "$program/src/$(basename "$source" .in)"
done
# What these sources use.
libraries="body_changes body_rewrites body_splices case_files device_tally given_words module_changes module_rewrites mutate_base"
libraries="$libraries peephole_commands peephole_examples peephole_lang peephole_terms rand rand_core rewrite_rules wasm_code"
libraries="$libraries wasm_execution wasm_module wasm_types"
{ cat crates.txt; echo "refused_memory: $libraries"; } > "$work/crates.txt"

# A line for each case, from what `rt try` prints of it: the case, how it ended, the requests for memory, what it printed.
tried() {
    (cd "$program" && rt try "$@" 2>&1 || true) > "$work/log"
    awk '
        /^== / { said = ""; requests = "-"; next }
        /^allocations: / { requests = $NF; next }
        /^case=/ { print substr($1, 6), $2 "," $3, requests, said ? said : "-"; next }
        { said = said ? said "," $0 : $0 }
    ' "$work/log"
}

# Which requests are refused, of so many.
refused_of() {
    if [ "$1" -le 100 ]; then
        seq 1 "$1"
    else
        seq 1 50
        seq 60 10 $(($1 - 50))
        seq $(($1 - 49)) "$1"
    fi
}

for call in $calls; do echo "$call 0" > "$work/counted/$call"; done
# The interpreter counts them, and where its steps end before the call does, says so: that count isn't all.
tried --steps 100000000 --seconds 600 --fail-alloc "$never" --cases "$work/counted" > "$work/requests"
if grep "^allocations: at least" "$work/log"; then
    echo "the interpreter's steps ended before a call did"
    exit 1
fi
if [ ! -s "$work/requests" ]; then
    cat "$work/log"
    echo "the program isn't built"
    exit 1
fi
at=1
while read -r call end requests said; do
    if [ "$end $said" != "run=ended,status=0 nothing" ]; then
        cat "$work/log"
        echo "$call fails where no request is refused"
        exit 1
    fi
    if [ "$requests" -ge "$at" ]; then at=$((requests + 1)); fi
done < "$work/requests"

while read -r call _ requests _; do
    for n in $(refused_of "$requests") $((requests + 1)); do
        echo "$call $((at - n))" > "$work/cases/$call-$n"
    done
done < "$work/requests"
# The interpreter, which counted the requests, takes seconds a case: few steps stop it, and the compiled program answers.
tried --steps 1000 --fail-alloc "$at" --cases "$work/cases" > "$work/answers"

passed=0
failed=0
for call in $calls; do
    status=0
    highest=0
    refused=0
    in_call=0
    requests=$(awk -v call="$call" '$1 == call { print $3 }' "$work/requests")
    for n in $(refused_of "$requests") $((requests + 1)); do
        read -r end said < <(awk -v name="$call-$n" '$1 == name { print $2, $4 }' "$work/answers") || end=none
        case "$end $said" in
            "run=ended,status=0 nothing") met=no ;;
            "run=ended,status=0 call") met=yes; in_call=$((in_call + 1)) ;;
            "run=ended,status=0 preparation") met=yes ;;
            *) met=failed ;;
        esac
        if [ "$met" = yes ] && [ "$n" -le "$requests" ]; then
            highest=$n
            refused=$((refused + 1))
        elif [ "$met" != no ] || [ "$n" -le "$requests" ]; then
            echo "$call: request $n refused: $end, ${said:-nothing printed}"
            status=1
        fi
    done
    echo "$call: $refused of $requests requests refused, $in_call of them to the call"
    if [ "$highest" -ne "$requests" ] || [ "$in_call" -eq 0 ]; then status=1; fi
    if [ "$status" -eq 0 ]; then passed=$((passed + 1)); else failed=$((failed + 1)); fi
done
if [ "$failed" -ne 0 ]; then cat "$work/log"; fi
echo "$passed passed, $failed failed"
[ "$failed" -eq 0 ]
