#!/usr/bin/env bash
# Counts the instructions that rewrites of whole modules take, by callgrind, so that other work on the machine does not move them.
# One line a measurement:
#   - a call of teddertempo_rewrite from C on each module of tests/modules: the mean over some seeds (8, or SEEDS), of all calls,
#     those that find nothing to rewrite too, each in a process of its own, less what the process takes without the call;
#   - a run of teddertempo with --list, and one with --blocks, on each of them, less what a run with --version takes;
#   - one rewrite, and --list, of a function that is one chain of 5,000 operators, and of one of 100,000, and the growth of what an
#     operator takes, which stays near 1 where the time is linear;
#   - one rewrite and eight, one after another, of a module of about 10 MB with many small functions, and what each further rewrite
#     takes; seconds too, the least of three runs.
#
# Usage: rewrites.sh, once the program is built. TEDDERTEMPO names it, else it is the one that `rt run` leaves in
# crates/teddertempo/out. TEDDERTEMPO_LIB names the folder of libteddertempo.a, else it is built by tools/library.sh. Needs valgrind,
# Python and a C compiler, and takes some minutes.
set -euo pipefail
program=$(realpath "${TEDDERTEMPO:-$(dirname "$0")/../crates/teddertempo/out/teddertempo}")
if [ -n "${TEDDERTEMPO_LIB:-}" ]; then library=$(realpath "$TEDDERTEMPO_LIB"); fi
seeds=${SEEDS:-8}
cd "$(dirname "$0")/.."

work=$(mktemp -d)
trap 'rm -rf "$work"' EXIT

if [ -z "${library:-}" ]; then
    library=$work/lib
    tools/library.sh "$library" > /dev/null
fi

# Calls the library on the module of the first argument under the seed of the second, or doesn't where there is none.
cat > "$work/call.c" <<'END'
#include <teddertempo.h>

#include <stdio.h>
#include <stdlib.h>

enum { ROOM = 1 << 20 };

int main(int count, char **arguments)
{
    uint8_t *data = malloc(ROOM);
    FILE *file = fopen(arguments[1], "rb");
    size_t size;

    if (data == NULL || file == NULL) {
        return 1;
    }
    size = fread(data, 1, ROOM, file);
    fclose(file);
    if (count > 2) {
        teddertempo_rewrite(data, size, ROOM, strtoull(arguments[2], NULL, 10));
    }
    free(data);
    return 0;
}
END
"${CC:-cc}" -std=c99 -O2 -I include "$work/call.c" "$library/libteddertempo.a" -o "$work/call"

# A module of one function that is a chain of so many operators, or of so many functions of ten operators each.
module() {
    python3 -c '
import sys

def number(n):
    return bytes([n]) if n < 128 else bytes([n % 128 + 128]) + number(n // 128)

def counted(contents):
    return number(len(contents)) + contents

def section(id, contents):
    return bytes([id]) + counted(contents)

shape, count = sys.argv[1], int(sys.argv[2])
if shape == "chain":
    functions = 1
    code = b"\x20\x00" + b"\x41\x07\x6a" * (count // 2 - 1)  # local.get 0, and i32.const 7, i32.add
else:
    functions = count
    code = b"\x20\x00\x41\x07\x6a\x20\x00\x41\x05\x6c\x20\x00\x6b\x73"  # (x + 7) ^ (x * 5 - x)
sys.stdout.buffer.write(b"\0asm\1\0\0\0"
    + section(1, number(1) + b"\x60\x01\x7f\x01\x7f")
    + section(3, number(functions) + b"\0" * functions)
    + section(10, number(functions) + counted(number(0) + code + b"\x0b") * functions))
' "$1" "$2"
}

# The instructions of a run, which must succeed; its input is the first argument. Names are bound as it starts, so that a call
# doesn't pay for it.
count() {
    local input=$1
    shift
    if ! LD_BIND_NOW=1 valgrind --tool=callgrind --callgrind-out-file=/dev/null "$@" < "$input" 2> "$work/log" > /dev/null; then
        cat "$work/log" >&2
        exit 1
    fi
    awk '/Collected/ { print $4 }' "$work/log"
}

# The seconds of the fastest of three runs.
seconds() {
    local input=$1
    shift
    for _ in 1 2 3; do
        { TIMEFORMAT=%R; time "$@" < "$input" > /dev/null 2>&1; } 2>&1
    done | sort -n | head -n 1
}

for path in tests/modules/*.wasm; do
    name=$(basename "$path")
    empty=$(count /dev/null "$work/call" "$path")
    total=0
    for seed in $(seq 0 $((seeds - 1))); do
        with=$(count /dev/null "$work/call" "$path" "$seed")
        total=$((total + with - empty))
    done
    echo "$name, $(stat -c %s "$path") bytes: $((total / seeds)) instructions a call from C"
done

empty=$(count /dev/null "$program" --version)
for path in tests/modules/*.wasm; do
    for option in --list --blocks; do
        with=$(count "$path" "$program" "$option")
        echo "$(basename "$path"), $(stat -c %s "$path") bytes: $((with - empty)) instructions a run with $option"
    done
done

small=5000
large=100000
for length in $small $large; do module chain "$length" > "$work/$length.wasm"; done
for task in "--seed 1" --list; do
    # shellcheck disable=SC2086
    for length in $small $large; do
        with=$(count "$work/$length.wasm" "$program" $task)
        echo $((with - empty))
    done > "$work/runs"
    paste -s -d ' ' "$work/runs" | awk -v what="$task" -v small=$small -v large=$large '{
        printf "chain, %s: %.1f instructions an operator of %d, %.1f of %d, growth %.2f\n",
            what, $1 / small, small, $2 / large, large, ($2 / large) / ($1 / small)
    }'
done

module functions 560000 > "$work/large.wasm"
size=$(stat -c %s "$work/large.wasm")
for number in 1 8; do
    instructions=$(count "$work/large.wasm" "$program" --seed 1 --count $number)
    time=$(seconds "$work/large.wasm" "$program" --seed 1 --count $number)
    echo "module of $size bytes, --count $number: $instructions instructions, $time seconds"
    echo "$instructions $time" >> "$work/large"
done
paste -s -d ' ' "$work/large" | awk -v size="$size" '{
    printf "module of %d bytes, each further rewrite: %.0f instructions, %.3f seconds\n", size, ($3 - $1) / 7, ($4 - $2) / 7
}'
