#!/usr/bin/env bash
# Measures how many edges of a WebAssembly implementation libFuzzer reaches in the same time of a core, from the same modules, by:
#   bytes   its own mutations of bytes
#   keep    teddertempo_rewrite, which keeps what a module does, alone
#   change  teddertempo_change, which keeps it valid and changes what it does, alone
#   mix     teddertempo_change and mutations of bytes, each every second time by a coin
# The implementation is wabt 1.0.32: its reader, validator and interpreter (tests/coverage/target.cc). The modules are those of
# tests/modules and its newer of at most 4 kB that wabt finds valid. Each run has a core of its own, and what it keeps is run again by one
# program, which counts the edges. tests/coverage/report.py prints these, by part of wabt, and judges the runs; the last line is
# `N passed, N failed`. docs/TESTED.md has what came of it.
#
# Usage: coverage.sh [SECONDS], of a core for each run: 1200 where no number is given, and then half an hour by the clock for as many
# runs as there are cores. TEDDERTEMPO_LIB names the folder of libteddertempo.a; where it isn't set, tools/library.sh proves and builds
# the library first. COVERAGE_SOURCES names a folder with the sources of Debian's package wabt 1.0.32-1, as `apt-get source wabt` leaves
# them, which needs a line `deb-src` for bookworm in the sources of apt; where it isn't set, they are taken by that command.
# COVERAGE_BUILD names the folder of the builds and of what the runs leave (tests/coverage/build): wabt is built once, in two minutes of
# a core, and a run that is there isn't made again. COVERAGE_MUTATORS names some of the four; COVERAGE_SEEDS seeds of libFuzzer (1), with
# each of which each mutator is run; COVERAGE_CORES the numbers of cores (all), and as many runs are made at a time. Needs clang with
# libFuzzer (libclang-rt-14-dev) and llvm-symbolizer (llvm-14), cmake, ninja, patch, taskset and Python 3.
set -euo pipefail
seconds=${1:-1200}
if [ -n "${TEDDERTEMPO_LIB:-}" ]; then TEDDERTEMPO_LIB=$(realpath "$TEDDERTEMPO_LIB"); fi
if [ -n "${COVERAGE_SOURCES:-}" ]; then COVERAGE_SOURCES=$(realpath "$COVERAGE_SOURCES"); fi
build=$(realpath -m "${COVERAGE_BUILD:-$(dirname "$0")/coverage/build}")
cd "$(dirname "$0")/.."
here=$PWD/tests/coverage
read -ra mutators <<< "${COVERAGE_MUTATORS:-bytes keep change mix}"
read -ra seeds <<< "${COVERAGE_SEEDS:-1}"
read -ra cores <<< "${COVERAGE_CORES:-$(seq -s ' ' 0 $(($(nproc) - 1)))}"
most_bytes=4096
options=(-max_len=8192 -len_control=0 -use_value_profile=0 -rss_limit_mb=2048 -timeout=20 -print_final_stats=1)

fail() {
    echo "coverage.sh: $1" >&2
    exit 1
}

for needed in clang clang++ llvm-symbolizer cmake ninja patch taskset python3; do
    command -v "$needed" > /dev/null || fail "needs $needed on the path"
done
mkdir -p "$build/runs"

runs=()
leave() {
    if [ "${#runs[@]}" -gt 0 ]; then
        kill "${runs[@]}" 2> /dev/null || true
        wait
    fi
}
trap leave EXIT

# Runs a command, and shows what it printed where it fails.
quietly() { "$@" > "$build/log" 2>&1 || { tail -n 30 "$build/log"; fail "$1 failed"; }; }

# Takes wabt's sources, and builds its library so that it counts edges. Assertions are on, those of the C++ library too.
flags=(-O2 -gline-tables-only -fsanitize=fuzzer-no-link -D_GLIBCXX_ASSERTIONS)
wabt="wabt-1.0.32"
if [ ! -f "$build/$wabt/out/libwabt.a" ]; then
    sources=${COVERAGE_SOURCES:-$build/sources}
    if [ ! -d "$sources/$wabt" ]; then
        mkdir -p "$sources"
        (cd "$sources" && apt-get source wabt) || fail "apt-get source wabt: that needs a line deb-src in apt's sources"
    fi
    rm -rf "${build:?}/$wabt"
    cp -r "$sources/$wabt" "$build/$wabt"
    patch -s -p1 -d "$build/$wabt" < "$here/steps.patch"
    quietly cmake -S "$build/$wabt" -B "$build/$wabt/out" -G Ninja -DCMAKE_C_COMPILER=clang -DCMAKE_CXX_COMPILER=clang++ \
        -DCMAKE_CXX_FLAGS="${flags[*]}" -DBUILD_TOOLS=OFF -DBUILD_TESTS=OFF -DBUILD_LIBWASM=OFF
    quietly ninja -C "$build/$wabt/out" -j 2 wabt
fi

# The target, the program that counts what it covers, and the fuzzers. The mutators' own code counts no edges.
compile() { clang -std=c99 -O2 -Wall -Wextra -Werror -I include "$@"; }
link() { clang++ "$@" "$build/target.o" "$build/$wabt/out/libwabt.a"; }
clang++ -std=c++17 "${flags[@]}" -Wall -Wextra -Wno-unused-parameter -fno-exceptions -I "$build/$wabt/include" \
    -I "$build/$wabt/out/include" -c "$here/target.cc" -o "$build/target.o"
compile -c "$here/replay.c" -o "$build/replay.o"
link -no-pie "$build/replay.o" -o "$build/replay"
link -fsanitize=fuzzer -o "$build/bytes"
for mutator in "${mutators[@]}"; do
    case $mutator in
        bytes) continue ;;
        keep) define=-DKEEP ;;
        change) define=-DCHANGE ;;
        mix) define=-DMIX ;;
        *) fail "no mutator $mutator" ;;
    esac
    if [ -z "${TEDDERTEMPO_LIB:-}" ]; then
        tools/library.sh "$build/lib"
        TEDDERTEMPO_LIB=$build/lib
    fi
    compile "$define" -c "$here/mutator.c" -o "$build/$mutator.o"
    link -fsanitize=fuzzer "$build/$mutator.o" "$TEDDERTEMPO_LIB/libteddertempo.a" -o "$build/$mutator"
done

# The modules that are valid: of each file replay says how far the target came.
rm -rf "$build/modules"
mkdir "$build/modules"
find tests/modules -name '*.wasm' -size "-$((most_bytes + 1))c" -exec cp {} "$build/modules" \;
"$build/replay" "$build/modules" "$build/modules.edges" > "$build/modules.files"
while read -r name state; do
    case $state in bytes | read) rm "$build/modules/$name" ;; esac
done < "$build/modules.files"
"$build/replay" "$build/modules" "$build/modules.edges" > "$build/modules.files"

# The seconds of a core that a process has used, in `used`, which stays as it is where the process is gone.
ticks=$(getconf CLK_TCK)
look_at() {
    local fields=()
    if read -ra fields < "/proc/$1/stat"; then used=$(((fields[13] + fields[14]) / ticks)); fi 2> /dev/null
}

# Fuzzes on a core with a mutator and a seed, for so many seconds of that core. Where the fuzzer stops at an input, it goes on, with
# another seed, from what it kept.
fuzz() {
    local mutator=$1 seed=$2 core=$3 run=$4 before=0 stops=0 used=0 begun=$SECONDS child
    while [ "$before" -lt "$seconds" ] && [ "$stops" -lt 1000 ]; do
        COVERAGE_COUNTS=$run/counts taskset -c "$core" "$build/$mutator" "${options[@]}" -seed=$((seed + 1000 * stops)) \
            -artifact_prefix="$run/stops/" "$run/corpus" >> "$run/log" 2>&1 &
        child=$!
        # shellcheck disable=SC2064
        trap "kill $child 2> /dev/null || true; exit 1" TERM
        while kill -0 "$child" 2> /dev/null && [ $((before + used)) -lt "$seconds" ]; do
            sleep 1
            look_at "$child"
        done
        kill -USR1 "$child" 2> /dev/null || true
        if wait "$child"; then break; fi
        before=$((before + used))
        used=0
        stops=$((stops + 1))
    done
    echo "$((before + used)) $((SECONDS - begun))" > "$run/ended"
}

for seed in "${seeds[@]}"; do
    for mutator in "${mutators[@]}"; do
        run=$build/runs/$mutator-$seed
        if [ -f "$run/ended" ]; then continue; fi
        if [ "${#runs[@]}" -eq "${#cores[@]}" ]; then
            wait
            runs=()
        fi
        rm -rf "$run"
        mkdir -p "$run/corpus" "$run/stops"
        cp "$build/modules"/*.wasm "$run/corpus"
        fuzz "$mutator" "$seed" "${cores[${#runs[@]}]}" "$run" &
        runs+=($!)
    done
done
wait
runs=()

# All that each run kept is run again. Its files are counted as libFuzzer merges them: where a run went on from what it had kept, an input
# stays beside a smaller one that took its place. At an input at which a run stopped, the target is to stop without a mutator too.
for run in "$build"/runs/*/; do
    if [ -f "$run/ended" ] && [ ! -f "$run/files" ]; then
        "$build/replay" "$run/corpus" "$run/edges" > /dev/null
        rm -rf "$run/merged" "$run/unexplained"
        mkdir "$run/merged"
        quietly "$build/bytes" "${options[@]}" -merge=1 "$run/merged" "$run/corpus"
        for input in "$run"/stops/*; do
            if [ -f "$input" ] && "$build/bytes" "${options[@]}" "$input" > /dev/null 2>&1; then echo "$input" >> "$run/unexplained"; fi
        done
        "$build/replay" "$run/merged" "$run/merged.edges" > "$run/files.new"
        mv "$run/files.new" "$run/files"
    fi
done
python3 "$here/report.py" "$build"
