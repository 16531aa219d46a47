#!/usr/bin/env bash
# An engine that optimizes a module before it runs it: takes a script for spectest-interp, as teddertempo-diff writes it, optimizes the
# module beside it by wasm-opt, in which a wrong rewrite may be planted, and runs the script on what comes out by an interpreter without
# a fault. All traps but exhaustion are told as one, since an optimizer may take one for another: wasm-opt makes `unreachable` of a call
# through a table at an index that it knows to be out of bounds.
#
# Usage: optimized.sh SCRIPT. OPTIMIZER and INTERPRETER name the two programs, and LEVEL the optimizer's option (-O3).
set -euo pipefail
beside=$(dirname "$1")
folder=$beside/optimized
mkdir -p "$folder"
cp "$beside"/*.json "$beside/shim.wasm" "$folder/"
"$OPTIMIZER" -all "${LEVEL:--O3}" "$beside/module.wasm" -o "$folder/module.wasm"
env -u PLANTED -u PLANTED_HITS "$INTERPRETER" "$folder/$(basename "$1")" \
    | sed '/ => error: call stack exhausted/!s/ => error: .*/ => error: unreachable executed/'
