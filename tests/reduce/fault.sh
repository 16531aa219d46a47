#!/bin/sh
# An engine with a fault, as a predicate: whether what a module's exported functions answer by wasm-interp changes where one operator is
# taken for another one. What takes more than a second of a core, or traps, isn't interesting.
#
# Usage: fault.sh EXPRESSION MODULE. The expression is sed's, on the module's text. Needs wabt.
work=$(mktemp -d) || exit 70
trap 'rm -rf "$work"' EXIT
answers() { (ulimit -t 1 && exec wasm-interp --enable-all --run-all-exports "$1" 2> /dev/null); }
answers "$2" > "$work/right" || exit 1
grep -q '=> [if]' "$work/right" && ! grep -q 'error' "$work/right" || exit 1
wasm2wat --enable-all "$2" 2> /dev/null | sed "$1" > "$work/faulty.wat"
wat2wasm --enable-all "$work/faulty.wat" -o "$work/faulty.wasm" 2> /dev/null || exit 1
answers "$work/faulty.wasm" > "$work/wrong" || exit 1
! grep -q 'error' "$work/wrong" && ! cmp -s "$work/right" "$work/wrong"
