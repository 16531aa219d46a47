#!/usr/bin/env bash
# Compiles each module here from its source, or those that are named, and makes the answers of its calls anew: gcc compiles the same
# source for this machine, and a driver makes the calls of NAME.calls one after another. A call that divides by zero, whose quotient is
# too large or that reaches a trap of its own has the answer `trap`. A module that is written by hand, NAME.wat, or in bytes, NAME.bytes,
# has a twin in C for its answers; one in the folder newer that no engine here runs has no calls. Fails where wabt's interpreter, or node
# for those in newer, gives other answers. The files under version control are those of clang and lld 14.0.6, gcc 12.2.0, wabt 1.0.32
# (Debian 12) and node 20 on x86-64, without binaryen: where there is a wasm-opt, clang hands it what it compiled.
#
# Usage: build.sh [NAME..]
set -euo pipefail
cd "$(dirname "$0")"
source ./calls.sh

common="--target=wasm32 -std=c11 -Wall -Wextra -Werror -ffreestanding -fno-builtin -nostdlib -g0
    -Wl,--no-entry -Wl,-z,stack-size=4096"

# Each module and what it is compiled with.
modules="
hashes: -O2 -Wl,--strip-all
sorting: -O2 -Wl,--strip-all -Wl,--compress-relocations
numbers: -O1 -Wl,--strip-all
mixes: -O2
text: -O1 -mbulk-memory -msign-ext -Wl,--strip-all
machine: -O2 -Wl,--strip-all
plain: -O0 -Wl,--strip-all
shapes: -O2 -Wl,--strip-all
shapes_plain: -O0 -Wl,--strip-all
signals: -O2 -msimd128 -Wl,--strip-all
matrices: -O3 -msimd128 -Wl,--strip-all
pixels: -O2 -msimd128 -Wl,--strip-all
sums: -O2 -msimd128 -Wl,--strip-all
bodies: -O1 -msimd128 -Wl,--strip-all
meshes: -O2 -msimd128 -Wl,--strip-all
packing: -O1 -msimd128 -Wl,--strip-all
noise: -O2 -msimd128 -Wl,--strip-all
outside:
shared:
patterns:
forms:
undone:
floats:
vectors:
newer/tails:
newer/throwing:
newer/atomics:
newer/references:
newer/collected:
newer/handlers:
"

work=$(mktemp -d)
mkdir "$work/newer"
trap 'rm -rf "$work"' EXIT

# A program that makes the calls of a module and prints each with its answer.
driver() {
    cat <<END
#include <setjmp.h>
#include <signal.h>
#include <stdio.h>
#include "$PWD/$1.c"

static sigjmp_buf before;

static void trapped(int signal)
{
    (void)signal;
    siglongjmp(before, 1);
}

static void print_32(const char *text, uint32_t value) { printf("%s => i32:%u\n", text, value); }
static void print_64(const char *text, uint64_t value) { printf("%s => i64:%llu\n", text, (unsigned long long)value); }

#define PRINTER(call) _Generic((call), int32_t: print_32, uint32_t: print_32, int64_t: print_64, uint64_t: print_64)
#define CALL(text, call) do { \\
    if (sigsetjmp(before, 1) == 0) { PRINTER(call)(text, call); } else { puts(text " => trap"); } \\
} while (0)

int main(void)
{
    signal(SIGFPE, trapped);
    signal(SIGILL, trapped);
    signal(SIGTRAP, trapped);
END
    awk '!/^[#!]/ {
        arguments = ""
        text = $1
        for (i = 2; i <= NF && $i != "=>"; i++) {
            split($i, part, ":")
            text = text " " $i
            arguments = arguments (i > 2 ? ", " : "") part[2] (part[1] == "i64" ? "ull" : "u")
        }
        printf "    CALL(\"%s\", %s(%s));\n", text, $1, arguments
    }' "$1.calls"
    echo "}"
}

# Prints the answers of the engine to the calls of a module, which is module.wasm in the working folder.
engine_answers() {
    case $1 in
        newer/*)
            answers_by_node "$1" "$work/module.wasm"
            cat "$work/module.wasm.answers"
            ;;
        *)
            commands_of "$1.calls" > "$work/calls.json"
            answers_of "$work"
            ;;
    esac
}

while IFS=: read -r name flags; do
    if [ -z "$name" ] || { [ -n "$*" ] && [[ " $* " != *" $name "* ]]; }; then continue; fi
    source=$(source_of "$name")
    if [ -e "$name.wat" ]; then
        # shellcheck disable=SC2086
        wat2wasm $newer_features --debug-names "$name.wat" -o "$work/$name.wasm"
    elif [ -e "$name.bytes" ]; then
        ./newer.py assemble "$name.bytes" "$work/$name.wasm"
    else
        # shellcheck disable=SC2086
        clang $common $flags -o "$work/$name.wasm" "$source.c"
    fi
    chmod 644 "$work/$name.wasm"
    if [ ! -e "$source.calls" ]; then
        mv "$work/$name.wasm" "$name.wasm"
        echo "$name: $(stat -c %s "$name.wasm") bytes, no calls"
        continue
    fi
    driver "$source" > "$work/$source.driver.c"
    gcc -std=gnu11 -O0 -w -o "$work/$source" "$work/$source.driver.c" -lm
    { grep '^#' "$source.calls"; "$work/$source"; } > "$work/$source.calls"
    cp "$work/$name.wasm" "$work/module.wasm"
    cp "$work/$name.wasm" "$name.wasm"
    if ! diff <(grep -v '^#' "$work/$source.calls") <(engine_answers "$source"); then
        echo "$name: the engine answers otherwise" >&2
        exit 1
    fi
    mv "$work/$source.calls" "$source.calls"
    echo "$name: $(stat -c %s "$name.wasm") bytes, $(grep -vc '^[#!]' "$source.calls") calls"
done <<< "$modules"
