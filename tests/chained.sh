#!/usr/bin/env bash
# Rewrites each module of tests/modules many times over, one rewrite after another (20,000, or the number that is given), and fails
# where a rewrite isn't made, where the module isn't accepted by wasm-validate after each thousand, or where a call of the module's
# list has another answer at the end than in the module as it was. So once without --exact, and once with it, where no threads share a
# memory of the module. Prints a line for each module and seed and each of these: its size at the start and after each thousand rewrites.
# The last line is `N passed, N failed`: each thousand rewrites, and the answers at the end.
#
# Usage: chained.sh [REWRITES [SEEDS [PROGRAM]]], rewrites in thousands; seeds are 1 if no number is given. The program is
# teddertempo; where neither an argument nor the variable TEDDERTEMPO names one, it is the one that tests/modules.sh built.
# Needs wabt (spectest-interp, wasm-interp, wasm-validate).
set -euo pipefail
rewrites=${1:-20000}
seeds=${2:-1}
program=${3:-${TEDDERTEMPO:-crates/teddertempo/out/teddertempo}}
cd "$(dirname "$0")/.."
program=$(realpath "$program")
source tests/modules/calls.sh

work=$(mktemp -d)
trap 'rm -rf "$work"' EXIT
passed=0
failed=0

pass() { passed=$((passed + 1)); }

fail() {
    failed=$((failed + 1))
    echo "$1: $2" >&2
}

# Rewrites the module of the folder a thousand times, with further options where there are some, and judges it.
rewrite_on() {
    local case=$1 seed=$2 made
    shift 2
    if ! "$program" "$@" --seed "$seed" --count 1000 --stats < "$work/module.wasm" > "$work/new.wasm" 2> "$work/notes"; then
        fail "$case" "$(tail -1 "$work/notes" | head -c 300)"
        return 1
    fi
    made=$(grep -c '^function [0-9]* *operator [0-9]* *rule ' "$work/notes" || true)
    if [ "$made" -ne 1000 ]; then
        fail "$case" "$made rewrites"
        return 1
    fi
    mv "$work/new.wasm" "$work/module.wasm"
    if ! wasm-validate --enable-threads "$work/module.wasm" > "$work/message" 2>&1; then
        fail "$case" "not valid: $(head -c 300 "$work/message")"
        return 1
    fi
}

# Rewrites a module so under a seed, with the options that stand behind it, and compares the answers.
rewrite_all() {
    local name=$1 seed=$2 case sizes
    shift 2
    case=$name-$seed${1:+-exact}
    cp "tests/modules/$name.wasm" "$work/module.wasm"
    answers_of "$work" > "$work/wanted"
    sizes=$(stat -c %s "$work/module.wasm")
    for step in $(seq 1 $((rewrites / 1000))); do
        rewrite_on "$case-$step" $((seed * 1000 + step)) "$@" || break
        pass
        sizes="$sizes $(stat -c %s "$work/module.wasm")"
    done
    answers_of "$work" > "$work/answers"
    if ! cmp -s "$work/answers" "$work/wanted"; then
        fail "$case" "other answers: $(diff "$work/wanted" "$work/answers" | head -3 | tr '\n' ' ')"
    else
        pass
    fi
    echo "$name, seed $seed${1:+, $1}: bytes $sizes"
}

for path in tests/modules/*.wasm; do
    name=$(basename "$path" .wasm)
    commands_of "tests/modules/$(source_of "$name").calls" > "$work/calls.json"
    for seed in $(seq 1 "$seeds"); do
        rewrite_all "$name" "$seed"
        if takes_exact "$name"; then rewrite_all "$name" "$seed" --exact; fi
    done
done
echo "$passed passed, $failed failed"
[ "$failed" -eq 0 ]
