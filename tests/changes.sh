#!/usr/bin/env bash
# Changes each module of tests/modules under many seeds (200, or the number that is given), under an odd one the module that the last
# seed left, and has what is made judged by wasm-validate, and by node where it is there, each where it accepts the module as it was
# before any change. It fails where
#   - a run ends with another status than 0, or 2, which says that nothing is changed: where it crashes, or takes more than a minute;
#   - a new module is the one that was changed, or isn't accepted;
#   - a seed, of which each tenth is tried, makes other bytes once more, or by the program `teddertempo --change`, where there is one;
#   - fewer than four in five of a module's seeds make a new one, or of these fewer than four in five are different ones;
#   - code of the module before it in the folder comes into a module, under a quarter of the seeds, and that crashes, or what is made
#     isn't accepted;
#   - wasm-validate doesn't accept a module as it is, but for some of the folder newer, which have what it doesn't know.
# Prints a line for each module: how many new ones there are, how many of them are different ones, and who judged them. The last line is
# `N passed, N failed`, and the one before it says how many nobody judged. What fails is kept in the folder of the variable KEEP, where
# that is set.
#
# Usage: changes.sh [SEEDS [PROGRAM]]. PROGRAM is examples/c/mutate.c, compiled, and SPLICE names examples/c/splice.c, compiled; where
# either isn't named they are compiled with the library in the folder of TEDDERTEMPO_LIB, or with the one that tools/library.sh proves
# and builds. The variable TEDDERTEMPO names the program
# `teddertempo`; without it the library alone is tried. Needs wabt (wasm-validate) and a C compiler.
set -euo pipefail
seeds=${1:-200}
program=${2:-}
splice=${SPLICE:-}
teddertempo=${TEDDERTEMPO:-}
if [ -n "$program" ]; then program=$(realpath "$program"); fi
if [ -n "$splice" ]; then splice=$(realpath "$splice"); fi
if [ -n "$teddertempo" ]; then teddertempo=$(realpath "$teddertempo"); fi
if [ -n "${TEDDERTEMPO_LIB:-}" ]; then TEDDERTEMPO_LIB=$(realpath "$TEDDERTEMPO_LIB"); fi
cd "$(dirname "$0")/.."

if ! command -v wasm-validate > /dev/null; then
    echo "changes.sh needs wasm-validate (wabt) on the path" >&2
    exit 1
fi
with_node=yes
if ! command -v node > /dev/null; then
    with_node=no
    echo "node isn't there: wasm-validate judges alone"
fi
if [ -z "$teddertempo" ]; then echo "TEDDERTEMPO names no program: the library is tried alone"; fi

work=$(mktemp -d)
trap 'rm -rf "$work"' EXIT

if [ -z "$program" ] || [ -z "$splice" ]; then
    if [ -z "${TEDDERTEMPO_LIB:-}" ]; then
        tools/library.sh "$work/lib"
        TEDDERTEMPO_LIB=$work/lib
    fi
    for example in mutate splice; do
        "${CC:-cc}" -std=c99 -O2 -I include "examples/c/$example.c" "$TEDDERTEMPO_LIB/libteddertempo.a" -o "$work/$example"
    done
    program=$work/mutate
    splice=$work/splice
fi

passed=0
failed=0
unjudged=0

pass() { passed=$((passed + 1)); }

# Says what failed of a module, and keeps the file that is named.
fail() {
    failed=$((failed + 1))
    echo "$1: $2" >&2
    if [ -n "${KEEP:-}" ] && [ -f "$3" ]; then
        mkdir -p "$KEEP"
        cp "$3" "$KEEP/$1-$(basename "$3")"
    fi
}

# Which of the files that are named on standard input node refuses. Operators of relaxed vectors, which a change may write wherever
# there are vectors, some versions know by an option alone.
relaxed=--experimental-wasm-relaxed-simd
if [ "$with_node" = yes ] && ! node "$relaxed" -e 0 > /dev/null 2>&1; then relaxed=--no-warnings; fi
refused_by_node() {
    node "$relaxed" -e '
        const fs = require("fs");
        for (const name of fs.readFileSync(0, "utf8").split("\n")) {
            if (name !== "" && !WebAssembly.validate(fs.readFileSync(name))) console.log(name);
        }'
}

# Whether wasm-validate accepts the file, and whether node does.
is_valid() { wasm-validate --enable-all "$1" > "$work/said" 2>&1; }
is_valid_by_node() {
    local refused
    refused=$(echo "$1" | refused_by_node) && [ -z "$refused" ]
}

# Whether the seed makes the new module of the old one once more, and by the program.
try_again() {
    local name=$1 seed=$2 old=$3 new=$4 status=0
    if timeout 60 "$program" --change --seed "$seed" "$old" "$work/again.wasm" > /dev/null && cmp -s "$new" "$work/again.wasm"; then
        pass
    else
        fail "$name" "seed $seed makes other bytes once more" "$old"
    fi
    if [ -z "$teddertempo" ]; then return; fi
    timeout 60 "$teddertempo" --change --seed "$seed" "$old" > "$work/again.wasm" 2> "$work/said" || status=$?
    if [ "$status" -eq 0 ] && cmp -s "$new" "$work/again.wasm"; then
        pass
    else
        fail "$name" "seed $seed makes other bytes by the program: status $status: $(head -n 1 "$work/said")" "$old"
    fi
}

# Changes the module under each seed: of the old one, and for an odd seed of what the last one left.
change_all() {
    local module=$1 name=$2 last=$1 seed new status
    for seed in $(seq 0 $((seeds - 1))); do
        if [ $((seed % 2)) -eq 0 ]; then last=$module; fi
        new=$work/new/$seed.wasm
        status=0
        timeout 60 "$program" --change --seed "$seed" "$last" "$new" > "$work/said" 2>&1 || status=$?
        if [ "$status" -eq 0 ]; then
            if cmp -s "$last" "$new"; then fail "$name" "seed $seed leaves it as it was" "$new"; fi
            if [ $((seed % 10)) -eq 0 ]; then try_again "$name" "$seed" "$last" "$new"; fi
            last=$new
        elif [ "$status" -ne 2 ] || [ -e "$new" ]; then
            fail "$name" "seed $seed: status $status: $(head -n 1 "$work/said")" "$last"
            rm -f "$new"
        fi
    done
}

# Takes code of the other module into the module under a quarter of the seeds.
splice_all() {
    local module=$1 name=$2 other=$3 seed new status
    for seed in $(seq 0 4 $((seeds - 1))); do
        new=$work/new/spliced$seed.wasm
        status=0
        timeout 60 "$splice" "$seed" "$module" "$other" "$new" > "$work/said" 2>&1 || status=$?
        if [ "$status" -eq 0 ]; then
            if cmp -s "$module" "$new"; then fail "$name" "seed $seed splices nothing" "$new"; fi
        elif [ "$status" -ne 2 ] || [ -e "$new" ]; then
            fail "$name" "seed $seed splices with status $status: $(head -n 1 "$work/said")" "$module"
            rm -f "$new"
        fi
    done
}

# Has what was made of a module judged by those that accept it as it was.
judge_all() {
    local module=$1 name=$2 judges="" new
    if is_valid "$module"; then
        judges=" wabt"
        while read -r new; do
            if is_valid "$new"; then pass; else fail "$name" "$(basename "$new") isn't valid: $(head -n 1 "$work/said")" "$new"; fi
        done < "$work/made"
    elif [[ $module != */newer/* ]]; then
        fail "$name" "wasm-validate doesn't accept it as it is: $(head -n 1 "$work/said")" "$module"
    fi
    if [ "$with_node" = yes ] && is_valid_by_node "$module"; then
        judges="$judges node"
        refused_by_node < "$work/made" > "$work/refused"
        passed=$((passed + made - $(wc -l < "$work/refused")))
        while read -r new; do fail "$name" "$(basename "$new") isn't valid by node" "$new"; done < "$work/refused"
    fi
    if [ -z "$judges" ]; then unjudged=$((unjudged + made)); fi
    judged_by=${judges:- nobody}
}

before=tests/modules/numbers.wasm
for module in tests/modules/*.wasm tests/modules/newer/*.wasm; do
    name=$(basename "$module" .wasm)
    mkdir "$work/new"
    change_all "$module" "$name"
    find "$work/new" -name '*.wasm' > "$work/made"
    made=$(wc -l < "$work/made")
    different=$(find "$work/new" -name '*.wasm' -exec sha256sum {} + | cut -d ' ' -f 1 | sort -u | wc -l)
    enough=$((made * 5 >= seeds * 4 && different * 5 >= made * 4))
    splice_all "$module" "$name" "$before"
    before=$module
    find "$work/new" -name '*.wasm' > "$work/made"
    spliced=$(($(wc -l < "$work/made") - made))
    made=$((made + spliced))
    judge_all "$module" "$name"
    echo "$name: $((made - spliced)) made, $different of them different, $spliced spliced, judged by$judged_by"
    if [ "$enough" -eq 1 ]; then
        pass
    else
        fail "$name" "too few are made, or different" /dev/null
    fi
    rm -rf "$work/new"
done
echo "$unjudged new modules judged by nobody"
echo "$passed passed, $failed failed"
[ "$failed" -eq 0 ]
