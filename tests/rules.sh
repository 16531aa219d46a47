#!/usr/bin/env bash
# Compares docs/RULES.md with the rules that the program lists, in each form, and the number of rules in every document that has it. The
# last line is `N passed, N failed`.
#
# Usage: rules.sh [PROGRAM]. The program is teddertempo; if neither an argument nor the variable TEDDERTEMPO names one, it is
# proved and built from crates/teddertempo.
set -euo pipefail
export LC_ALL=C
program=${1:-${TEDDERTEMPO:-}}
if [ -n "$program" ]; then program=$(realpath "$program"); fi
cd "$(dirname "$0")/.."

work=$(mktemp -d)
trap 'rm -rf "$work"' EXIT

if [ -z "$program" ]; then
    program=$PWD/crates/teddertempo/out/teddertempo
    if ! (cd crates/teddertempo && rt run -- --version) > /dev/null 2> "$work/log"; then
        cat "$work/log"
        exit 1
    fi
fi

passed=0
failed=0

# Runs a command, and counts whether it succeeds.
check() {
    if "${@:2}" > "$work/difference" 2>&1; then
        passed=$((passed + 1))
    else
        failed=$((failed + 1))
        echo "$1:"
        head -20 "$work/difference"
    fi
}

export TEDDERTEMPO=$program
check "tools/rules.sh would change documents" tools/rules.sh --check

# Number, name, growth and need of each rule, by each form.
sed -n 's/^| \([0-9]*\) | `\([a-z_0-9]*\)` | \([a-z]*\) |\( `--exact`\)\{0,1\} | .*/\1 \2 \3\4/p' docs/RULES.md | tr -d '`' > "$work/table"
"$program" --list-rules | grep '^[0-9]' > "$work/text"
"$program" --list-rules=json | sed 's/^{"exact":\([a-z]*\),"growth":"\([a-z]*\)","lines":.*,"name":"\([a-z_0-9]*\)","number":\([0-9]*\)}$/\4 \3 \2 \1/; s/ false$//; s/ true$/ --exact/' > "$work/objects"
check "docs/RULES.md and --list-rules have other rules" diff "$work/table" "$work/text"
check "docs/RULES.md and --list-rules=json have other rules" diff "$work/table" "$work/objects"

echo "$passed passed, $failed failed"
[ "$failed" -eq 0 ]
