#!/usr/bin/env bash
# Rewrites each module of tests/modules under many seeds (200, or the number that is given), one to eight rewrites each, half of them
# with --exact, and fails where a new module isn't accepted by wasm-validate, or where a call of the module's list has another answer in
# it than in the module as it was. Prints a line for each module: how many new ones there are, under how many seeds there was nothing to
# rewrite, and how many of the new ones have other bytes than the old one. Then each rule alone rewrites each module once, with --exact
# where it needs that. A module of which threads share a memory is to be refused with --exact, and is rewritten without it alone. A module
# that no seed rewrites is a failure too, and so is a rule that rewrites no module, and a module whose own answers aren't those of
# its list, which gcc made.
#
# The modules of the folder newer have tail calls, exceptions, atomics, typed references or garbage collection. New ones are run by node,
# where it knows what they have, and accepted by wasm-validate, where that does. In each new one the same functions are read, and those
# that can't be (they have a handler of exceptions) have the bytes that they had.
#
# Usage: modules.sh [SEEDS [PROGRAM]]. The program is teddertempo; where neither an argument nor the variable TEDDERTEMPO
# names one, it is proved and built from crates/teddertempo. Needs wabt (spectest-interp, wasm-interp, wasm-validate),
# node and Python; a few minutes for 200 seeds. A new module that fails is kept in the folder of the variable KEEP, where that is set.
set -euo pipefail
seeds=${1:-200}
program=${2:-${TEDDERTEMPO:-}}
if [ -n "$program" ]; then program=$(realpath "$program"); fi
cd "$(dirname "$0")/.."
source tests/modules/calls.sh

work=$(mktemp -d)
trap 'rm -rf "$work"' EXIT

if [ -z "$program" ]; then
    program=$PWD/crates/teddertempo/out/teddertempo
    if ! (cd crates/teddertempo && rt run -- --seed 1 < ../../tests/modules/numbers.wasm) > /dev/null 2> "$work/log"; then
        cat "$work/log"
        exit 1
    fi
fi

: > "$work/applied"
passed=0
failed=0

pass() { passed=$((passed + 1)); }

# Says what failed, and keeps the new module.
fail() {
    failed=$((failed + 1))
    echo "$1: $2" >&2
    if [ -n "${KEEP:-}" ] && [ -f "$work/module.wasm" ]; then
        mkdir -p "$KEEP"
        cp "$work/module.wasm" "$KEEP/$1.wasm"
    fi
}

# Rewrites a module with the options that stand behind the name of the case. Whether there is a new one, which is module.wasm then.
rewrite_case() {
    local name=$1 case=$2 status=0
    shift 2
    timeout 60 "$program" "$@" < "tests/modules/$name.wasm" > "$work/module.wasm" 2> "$work/message" || status=$?
    if [ "$status" -eq 2 ] && [ -s "$work/message" ] && [ ! -s "$work/module.wasm" ]; then
        nothing=$((nothing + 1))
        pass
        return 1
    elif [ "$status" -ne 0 ]; then
        fail "$case" "status $status: $(head -c 300 "$work/message")"
        return 1
    fi
}

# Whether wasm-validate takes the new module, with these features.
is_valid() {
    local case=$1
    shift
    if ! wasm-validate "$@" "$work/module.wasm" > "$work/message" 2>&1; then
        fail "$case" "not valid: $(head -c 300 "$work/message")"
        return 1
    fi
}

count_rewritten() {
    rewritten=$((rewritten + 1))
    if ! cmp -s "$work/module.wasm" "tests/modules/$1.wasm"; then differ=$((differ + 1)); fi
}

# Rewrites a module so, and judges the new one.
try_case() {
    local name=$1 case=$2
    if rewrite_case "$@" && is_valid "$case" --enable-threads; then
        count_rewritten "$name"
        answers_of "$work" > "$work/answers"
        if cmp -s "$work/answers" "$work/wanted"; then
            pass
        else
            fail "$case" "other answers: $(diff "$work/wanted" "$work/answers" | head -3 | tr '\n' ' ')"
        fi
    fi
}

# Which functions of a module can't be read, by their number among its own, and why.
unread_of() {
    "$program" --blocks --json < "$1" | sed -n 's/^{.*"fault":"\([A-Za-z]*\)","function":\([0-9]*\),.*/\2 \1/p'
}

# The code entries of these functions.
unread_bodies_of() {
    if [ ! -s "$work/unread" ]; then return; fi
    # shellcheck disable=SC2046
    tests/modules/newer.py bodies "$1" $(cut -d ' ' -f 1 "$work/unread")
}

# Rewrites a module of the folder newer so, judges all but its answers, and keeps it for these.
try_newer() {
    local name=$1 case=$2
    if ! rewrite_case "$@"; then return; fi
    # shellcheck disable=SC2086
    if [ -e "tests/modules/$name.wat" ] && ! is_valid "$case" $newer_features; then return; fi
    count_rewritten "$name"
    if ! unread_of "$work/module.wasm" | cmp -s - "$work/unread"; then
        fail "$case" "other functions can't be read"
    elif ! unread_bodies_of "$work/module.wasm" | cmp -s - "$work/unread_bodies"; then
        fail "$case" "a function that can't be read has other bytes"
    elif [ -e "tests/modules/$name.calls" ]; then
        mv "$work/module.wasm" "$work/newer/$case.wasm"
    else
        pass
    fi
}

# Makes the calls of a module of the folder newer on all new ones that were kept.
judge_newer() {
    local name=$1 path
    set -- "$work"/newer/*.wasm
    if [ ! -e "$1" ]; then return; fi
    answers_by_node "$name" "$@"
    for path in "$@"; do
        if cmp -s "$path.answers" "$work/wanted"; then
            pass
        else
            cp "$path" "$work/module.wasm"
            fail "$(basename "$path" .wasm)" "other answers: $(diff "$work/wanted" "$path.answers" | head -3 | tr '\n' ' ')"
        fi
    done
    rm -f "$work"/newer/*
}

# Judges that --exact is refused for a module of which threads share a memory.
judge_refusal() {
    local name=$1 status=0
    "$program" --exact --seed 0 < "tests/modules/$name.wasm" > "$work/module.wasm" 2> "$work/message" || status=$?
    if [ "$status" -eq 1 ] && [ ! -s "$work/module.wasm" ] && grep -q -e '--exact: threads share a memory' "$work/message"; then
        pass
    else
        fail "$name-exact" "status $status, but threads share a memory: $(head -c 300 "$work/message")"
    fi
    rm -f "$work/module.wasm"
}

# Makes a module the one that is tried: its calls, and the answers that are wanted.
take() {
    cp "tests/modules/$1.wasm" "$work/module.wasm"
    commands_of "tests/modules/$(source_of "$1").calls" > "$work/calls.json"
    answers_of "$work" > "$work/wanted"
}

# The same of a module of the folder newer, and its functions that can't be read: operators that aren't known are to be the reason.
take_newer() {
    local module=tests/modules/$1.wasm
    unread_of "$module" > "$work/unread"
    if grep -qv ' UnknownOpcode$' "$work/unread"; then fail "$1" "a function can't be read: $(tr '\n' ' ' < "$work/unread")"; fi
    unread_bodies_of "$module" > "$work/unread_bodies"
    if [ -e "tests/modules/$1.calls" ]; then
        cp "$module" "$work/newer/module.wasm"
        answers_by_node "$1" "$work/newer/module.wasm"
        mv "$work/newer/module.wasm.answers" "$work/wanted"
        rm -f "$work"/newer/*
    fi
}

# The same of any module, and how it is tried.
begin() {
    if [[ $1 = newer/* ]]; then
        try=try_newer
        take_newer "$1"
    else
        try=try_case
        take "$1"
    fi
}

modules=$(cd tests/modules && echo *.wasm)
modules=${modules//.wasm/}
newer=$(cd tests/modules && echo newer/*.wasm)
newer=${newer//.wasm/}
mkdir "$work/newer"
for name in $modules $newer; do
    rewritten=0
    nothing=0
    differ=0
    begin "$name"
    list=tests/modules/$(source_of "$name").calls
    if [ ! -e "$list" ] || grep -v '^#' "$list" | cmp -s - "$work/wanted"; then
        pass
    else
        fail "$name" "its own answers aren't those of its list"
    fi
    if ! takes_exact "$name"; then judge_refusal "$name"; fi
    for seed in $(seq 0 $((seeds - 1))); do
        count=$((seed % 8 + 1))
        if [ $(((seed + seed / 8) % 2)) -eq 1 ] && takes_exact "$name"; then
            "$try" "$name" "${name#newer/}-$seed-$count-exact" --exact --seed "$seed" --count "$count"
        else
            "$try" "$name" "${name#newer/}-$seed-$count" --seed "$seed" --count "$count"
        fi
    done
    if [ "$try" = try_newer ]; then judge_newer "$name"; fi
    echo "$name: $rewritten rewritten, $nothing with nothing to rewrite, $differ with other bytes"
    rm -f "$work/module.wasm"
    if [ "$rewritten" -eq 0 ]; then fail "$name" "no seed rewrites it"; fi
done

# Each rule alone, once on each module.
rules=$("$program" --list-rules | sed -n 's/^[0-9][0-9]* \([^ ]*\).*/\1/p')
if [ -z "$rules" ]; then fail "$program --list-rules" "no names of rules found"; fi
exact_rules=$(exact_rules_of "$program" | tr '\n' ' ')
if [ -z "$exact_rules" ]; then fail "$program --list-rules=json" "no rules found that need --exact"; fi
for name in $modules $newer; do
    begin "$name"
    for rule in $rules; do
        rewritten=0
        if [[ " $exact_rules" != *" $rule "* ]]; then
            "$try" "$name" "${name#newer/}-$rule" --rule "$rule" --seed 1
        elif takes_exact "$name"; then
            "$try" "$name" "${name#newer/}-$rule" --exact --rule "$rule" --seed 1
        fi
        if [ "$rewritten" -ne 0 ]; then echo "$rule" >> "$work/applied"; fi
    done
    if [ "$try" = try_newer ]; then judge_newer "$name"; fi
done
rm -f "$work/module.wasm"
for rule in $rules; do
    if ! grep -qx "$rule" "$work/applied"; then fail "$rule" "it rewrites no module"; fi
done
echo "rules: $(sort -u "$work/applied" | wc -l) of $(wc -w <<< "$rules") rewrite a module"
echo "$passed passed, $failed failed"
[ "$failed" -eq 0 ]
