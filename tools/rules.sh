#!/usr/bin/env bash
# Writes docs/RULES.md: tools/rules/head.md, followed by the rules as the program lists them, a table of Markdown; and writes the number
# of rules wherever a document has it (the list `counted` below).
#
# Usage: rules.sh [--check]. With --check nothing is written: it prints what would change, and exits with 1 if anything would. The
# program is teddertempo; if the variable TEDDERTEMPO names none, it is proved and built from crates/teddertempo.
set -euo pipefail
export LC_ALL=C
program=${TEDDERTEMPO:-}
if [ -n "$program" ]; then program=$(realpath "$program"); fi
cd "$(dirname "$0")/.."

work=$(mktemp -d)
trap 'rm -rf "$work"' EXIT

if [ -z "$program" ]; then
    program=$PWD/crates/teddertempo/out/teddertempo
    if ! (cd crates/teddertempo && rt run -- --version) > /dev/null 2> "$work/log"; then
        cat "$work/log"
        exit 1
    fi
fi
"$program" --list-rules=markdown > "$work/table"
count=$("$program" --list-rules=json | wc -l | tr -d ' ')

# The documents with the number, each with the text that follows it there.
counted='README.md: rules\](docs\/RULES\.md)
docs/ARCHITECTURE.md: rules: a table of
docs/DIFFERENCES.md:\](RULES\.md), on integers
docs/PROGRESS.md: rules, of which
tools/rules/head.md: rules, each by its name'

changed=0

# Writes a document, or only compares it with the file that has its new text.
settle() {
    if cmp -s "$1" "$2"; then return; fi
    changed=1
    if [ "$check" = yes ]; then diff -u "$1" "$2" | head -20; else cat "$2" > "$1"; fi
}

check=no
if [ "${1:-}" = --check ]; then check=yes; fi
while IFS=: read -r document text; do
    if ! grep -q "[0-9][0-9]*$text" "$document"; then
        echo "rules.sh: $document has no number of rules before \"$text\"" >&2
        exit 1
    fi
    sed "s/[0-9][0-9]*\($text\)/$count\1/" "$document" > "$work/document"
    settle "$document" "$work/document"
done <<< "$counted"
sed "s/^[0-9]*\( rules, each by its name\)/$count\1/" tools/rules/head.md | cat - "$work/table" > "$work/rules"
settle docs/RULES.md "$work/rules"
[ "$check" = no ] || [ "$changed" -eq 0 ]
