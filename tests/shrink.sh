#!/usr/bin/env bash
# Makes modules larger, and smaller again by --shrink. Fails where a module of tests/modules with one rewrite by a rule isn't shrunk to
# at most the bytes that it had, or to one that wasm-validate doesn't accept; so of each rule, of each module where it applies, as it
# is and as --shrink leaves it (so that nothing else that is shrunk makes up for the rewrite), under some seeds (3, or the number that
# is given). A rule that rewrites with --exact alone has it, and --shrink behind it, where no threads share a memory of the module. Rules
# that needn't be turned back are named below; a line says of each that wasn't how many bytes more it left at most.
#
# With a number of rewrites behind that, each module is rewritten so often by all rules but through_global and then shrunk, once without
# --exact and once with it, where it can be. A line says its bytes at first, behind the rewrites and shrunk, the last as a part of the
# first, how many rewrites shrank it and in how many seconds, and why there are no more. It fails where the shrunk one isn't accepted,
# gives another answer than the module as it was, or has more than 1.3 times its bytes. The last line is `N passed, N failed`.
#
# Usage: shrink.sh [SEEDS [REWRITES [PROGRAM]]]. No rewrites where no number is given; with 0 seeds the rules are left out. The program
# is teddertempo; where neither an argument nor the variable TEDDERTEMPO names one, it is the one that tests/modules.sh built. Needs
# wabt (spectest-interp, wasm-interp, wasm-validate).
set -euo pipefail
seeds=${1:-3}
rewrites=${2:-0}
program=${3:-${TEDDERTEMPO:-crates/teddertempo/out/teddertempo}}
cd "$(dirname "$0")/.."
program=$(realpath "$program")
source tests/modules/calls.sh

# The rules that --shrink needn't turn back, each with the reason.
declare -A kept=([through_global]="the global that it appends stays")

work=$(mktemp -d)
trap 'rm -rf "$work"' EXIT
passed=0
failed=0

pass() { passed=$((passed + 1)); }

fail() {
    failed=$((failed + 1))
    echo "$1: $2" >&2
}

size_of() { stat -c %s "$1"; }

# Shrinks a module to shrunk.wasm, with the options that stand behind the bytes that it should have at most: where none that was drawn
# made it smaller, and it still has more bytes than that, by the next seed once more, up to four in all. `made` is how many rewrites there
# were, `stopped` why there are no more. Whether wasm-validate accepts the module.
shrink() {
    local case=$1 path=$2 most=$3 seed
    shift 3
    cp "$path" "$work/shrunk.wasm"
    made=0
    for seed in 0 1 2 3; do
        mv "$work/shrunk.wasm" "$work/before.wasm"
        if ! "$program" "$@" --shrink --seed "$seed" --stats < "$work/before.wasm" > "$work/shrunk.wasm" 2> "$work/notes"; then
            fail "$case" "$(tail -1 "$work/notes" | head -c 300)"
            return 1
        fi
        made=$((made + $(grep -c '^function [0-9]* *operator [0-9]* *rule ' "$work/notes" || true)))
        stopped=$(sed -n 's/^stopped //p' "$work/notes")
        if [ "$stopped" = NoRule ] || [ "$(size_of "$work/shrunk.wasm")" -le "$most" ]; then break; fi
    done
    if ! wasm-validate --enable-threads "$work/shrunk.wasm" > "$work/message" 2>&1; then
        fail "$case" "not valid: $(head -c 300 "$work/message")"
        return 1
    fi
}

# Rewrites the module of the path once by the rule, with the options that stand behind the seed, shrinks that, and compares the bytes.
try_rule() {
    local case=$1 path=$2 rule=$3 seed=$4 status=0 old new
    shift 4
    "$program" "$@" --seed "$seed" --rule "$rule" < "$path" > "$work/one.wasm" 2> "$work/message" || status=$?
    if [ "$status" -eq 2 ]; then return; fi
    if [ "$status" -ne 0 ]; then
        fail "$case" "status $status: $(head -c 300 "$work/message")"
        return
    fi
    old=$(size_of "$path")
    if ! shrink "$case" "$work/one.wasm" "$old" "$@"; then return; fi
    new=$(size_of "$work/shrunk.wasm")
    if [ "$new" -le "$old" ]; then
        pass
    elif [ -n "${kept[$rule]:-}" ]; then
        larger[$rule]="${larger[$rule]:-} $((new - old))"
        pass
    else
        fail "$case" "$new bytes, where $old were"
    fi
}

modules=$(cd tests/modules && echo *.wasm)
modules=${modules//.wasm/}
declare -A larger=()
exact_rules=$(exact_rules_of "$program" | tr '\n' ' ')
if [ "$seeds" -gt 0 ]; then
    for name in $modules; do
        shrink "$name" "tests/modules/$name.wasm" 0
        mv "$work/shrunk.wasm" "$work/$name-shrunk.wasm"
        if takes_exact "$name"; then
            shrink "$name-exact" "tests/modules/$name.wasm" 0 --exact
            mv "$work/shrunk.wasm" "$work/$name-shrunk-exact.wasm"
        fi
        for rule in $("$program" --list-rules | sed -n 's/^[0-9][0-9]* *\([a-z_0-9]*\) .*/\1/p'); do
            shrunk=$name-shrunk
            exact=
            if [[ " $exact_rules" = *" $rule "* ]]; then
                if ! takes_exact "$name"; then continue; fi
                shrunk=$name-shrunk-exact
                exact=--exact
            fi
            for seed in $(seq 0 $((seeds - 1))); do
                try_rule "$name-$rule-$seed" "tests/modules/$name.wasm" "$rule" "$seed" $exact
                try_rule "$shrunk-$rule-$seed" "$work/$shrunk.wasm" "$rule" "$seed" $exact
            done
        done
    done
    for rule in "${!larger[@]}"; do
        echo "$rule: $(tr ' ' '\n' <<< "${larger[$rule]}" | sort -n | tail -1) bytes more at most: ${kept[$rule]}"
    done | sort
fi

# Rewrites a module often, with the options that stand behind its name, shrinks that, and compares the bytes and the answers.
shrink_many() {
    local name=$1 case start old new seconds part
    shift
    case=$name${1:+-exact}
    commands_of "tests/modules/$(source_of "$name").calls" > "$work/calls.json"
    cp "tests/modules/$name.wasm" "$work/module.wasm"
    answers_of "$work" > "$work/wanted"
    if ! "$program" "$@" --seed 1 --count "$rewrites" --not-rule through_global < "tests/modules/$name.wasm" \
        > "$work/many.wasm" 2> "$work/message"
    then
        fail "$case" "$(tail -1 "$work/message" | head -c 300)"
        return
    fi
    start=$(date +%s.%N)
    old=$(size_of "tests/modules/$name.wasm")
    if ! shrink "$case" "$work/many.wasm" $((old * 13 / 10)) "$@"; then return; fi
    seconds=$(echo "$(date +%s.%N) - $start" | bc)
    cp "$work/shrunk.wasm" "$work/module.wasm"
    answers_of "$work" > "$work/answers"
    new=$(size_of "$work/shrunk.wasm")
    if ! cmp -s "$work/answers" "$work/wanted"; then
        fail "$case" "other answers: $(diff "$work/wanted" "$work/answers" | head -3 | tr '\n' ' ')"
    elif [ $((new * 10)) -gt $((old * 13)) ]; then
        fail "$case" "more than 1.3 times the bytes"
    else
        pass
    fi
    part=$(echo "scale=2; $new / $old" | bc)
    echo "$name${1:+, $1}: bytes $old $(size_of "$work/many.wasm") $new, $part, $made in $seconds s, $stopped"
}

if [ "$rewrites" -gt 0 ]; then
    for name in $modules; do
        shrink_many "$name"
        if takes_exact "$name"; then shrink_many "$name" --exact; fi
    done
fi
echo "$passed passed, $failed failed"
[ "$failed" -eq 0 ]
