#!/usr/bin/env bash
# Runs every script of this repository's tests that the gate (`rt ci`) doesn't, several at a time, with fewer seeds than each has by
# itself, and a sample of the planted faults: some forty minutes of four cores, an hour at most. Prints a line for each as it ends: its
# name, its last line, and the minutes that it took; of one that fails also the end of what it printed, all of which is in the folder of
# the variable KEEP, where that is set. The last line is `N passed, N failed`: the sum of theirs, and one that ends without such a line
# is a failure.
#
# Usage: all.sh [NAME..], of the names in the table below; all of them where none is given. TEDDERTEMPO_BIN names the folder of the
# programs teddertempo and peephole_run, and TEDDERTEMPO_LIB that of libteddertempo.a and libteddertempo.so.0; what isn't named is proved
# and built first, which needs a Rattle kit. JOBS is how many run at a time (as many as there are cores). PLANTED_SOURCES, PLANTED_BUILD
# and COVERAGE_BUILD are handed on: where the engines aren't built there yet, half an hour of a core comes on top.
# Needs what each script says: of Debian wabt, binaryen, clang, libclang-rt-14-dev, llvm-14, afl++, cargo, rustc, cmake, ninja-build,
# patch, pkg-config, nodejs, Python 3, mypy and python3-pytest, and a line `deb-src` in the sources of apt.
set -euo pipefail
cd "$(dirname "$0")/.."

# The name, and the command; those that take long are first.
scripts="reduce JOBS=2 tests/reduce.sh
planted_interpreter tests/planted.sh interpreter --sample 5 --seeds 20 --jobs 2
planted_optimizer tests/planted.sh optimizer --sample 5 --seeds 20 --jobs 2
shrink tests/shrink.sh 0 300
modules tests/modules.sh 40
changes tests/changes.sh 40
chained tests/chained.sh 2
examples AFL_SECONDS=20 examples/run.sh 2
coverage tests/coverage.sh 60
driver tests/driver.sh
files tests/files.sh
rules tests/rules.sh
package tests/package.sh
readme tests/readme.sh
refused_memory tests/refused_memory.sh"

# Names of the table that are asked for, with their commands.
chosen() {
    if [ $# -eq 0 ]; then
        echo "$scripts"
    else
        for name in "$@"; do
            grep "^$name " <<< "$scripts" || { echo "all.sh: no script $name" >&2; return 64; }
        done
    fi
}
rows=$(chosen "$@")

work=$(mktemp -d)
trap 'rm -rf "$work"' EXIT
logs=${KEEP:-$work/logs}
mkdir -p "$logs" "$work/built"
logs=$(realpath "$logs")

# Proves and builds a program, and leaves it in the folder of programs.
build() {
    local program=$1 input=$2
    shift 2
    (cd "crates/$program" && rt run "$@") < "$input" > "$logs/$program" 2>&1 || { tail "$logs/$program" >&2; exit 1; }
    cp "crates/$program/out/$program" "$work/built/"
}
if [ -z "${TEDDERTEMPO_BIN:-}" ]; then
    build teddertempo /dev/null -- --version
    build peephole_run crates/peephole_run/stdin
    TEDDERTEMPO_BIN=$work/built
fi
if [ -z "${TEDDERTEMPO_LIB:-}" ]; then
    tools/library.sh "$work/built"
    TEDDERTEMPO_LIB=$work/built
fi
TEDDERTEMPO_BIN=$(realpath "$TEDDERTEMPO_BIN")
TEDDERTEMPO_LIB=$(realpath "$TEDDERTEMPO_LIB")
TEDDERTEMPO=$TEDDERTEMPO_BIN/teddertempo
export TEDDERTEMPO TEDDERTEMPO_BIN TEDDERTEMPO_LIB
export work logs

# Runs a row of the table, and says how it ended.
run_row() {
    local name=$1 log=$logs/$1 from=$SECONDS status=0 last
    shift
    env bash -c "$*" > "$log" 2>&1 || status=$?
    last=$(tail -n 1 "$log")
    if ! [[ $last =~ ^([0-9]+)\ passed,\ ([0-9]+)\ failed$ ]]; then
        last="0 passed, 1 failed"
    elif [ "$status" -ne 0 ] && [ "${BASH_REMATCH[2]}" -eq 0 ]; then
        last="${BASH_REMATCH[1]} passed, 1 failed"
    fi
    echo "$last" > "$work/$name.ended"
    printf '%-20s %-24s %3d min\n' "$name" "$last" $(((SECONDS - from + 59) / 60))
    case $last in
        *" 0 failed") ;;
        *) tail -n 20 "$log" | sed 's/^/    /' ;;
    esac
}
export -f run_row

xargs -P "${JOBS:-$(nproc)}" -L 1 bash -c 'set -euo pipefail; run_row "$@"' _ <<< "$rows"
cat "$work"/*.ended | awk '{ passed += $1; failed += $3 } END { print passed " passed, " failed " failed"; exit failed > 0 }'
