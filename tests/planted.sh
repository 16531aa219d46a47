#!/usr/bin/env bash
# Plants faults in an interpreter (wabt's, 48 miscompilations) and in an optimizer (binaryen's, 18 wrong rewrites), switches them on one
# at a time, and runs teddertempo-diff over tests/modules, wabt's own tests, a fixed set of generated modules and one by hand: prints
# which faults are revealed, by which rule, at which dose and cost, beside the optimizer's pipelines as mutators. docs/TESTED.md has the
# faults, and what came of it. The last line for each is `N passed, N failed`; tests/planted/planted.py says what is judged.
#
# Usage: planted.sh [interpreter | optimizer] [OPTIONS FOR planted.py]. TEDDERTEMPO names the program, else it is that of
# crates/teddertempo/out. PLANTED_SOURCES names a folder with the sources of Debian's packages wabt 1.0.32-1 and binaryen 108-1, as
# `apt-get source wabt binaryen` leaves them, which needs a line `deb-src` for bookworm in the sources of apt; where it isn't named, they
# are taken by that command. PLANTED_BUILD names the folder of the builds (tests/planted/build), which are made once: half an hour
# of a core. Needs cmake, ninja, a C++ compiler, flock and Python 3; then some three hours of four cores, an hour of which makes the
# mutants: 200 of each module, of 400 rewrites, each by a tenth of the rules. `--seeds`, `--doses` and `--swarm` ask for others, and
# `--sample N` for N faults of each engine, spread over its table. Two runs at once, one for each engine, may share that folder.
set -euo pipefail
program=${TEDDERTEMPO:-}
if [ -n "$program" ]; then program=$(realpath "$program"); fi
if [ -n "${PLANTED_SOURCES:-}" ]; then PLANTED_SOURCES=$(realpath "$PLANTED_SOURCES"); fi
build=$(realpath -m "${PLANTED_BUILD:-$(dirname "$0")/planted/build}")
cd "$(dirname "$0")/.."
program=${program:-$PWD/crates/teddertempo/out/teddertempo}
planted=$PWD/tests/planted

fail() {
    echo "planted.sh: $1" >&2
    exit 1
}

for needed in cmake ninja c++ python3 patch flock; do command -v "$needed" > /dev/null || fail "needs $needed on the path"; done
[ -x "$program" ] || fail "no program $program: TEDDERTEMPO names one"
mkdir -p "$build"

# Takes the sources of a package, and plants: its name, the folder of its sources, the patch, and where the table of the faults goes.
take() {
    local package=$1 folder=$2 patch=$3 table=$4 place=$5 sources=${PLANTED_SOURCES:-$build/sources}
    if [ ! -d "$sources/$folder" ]; then
        mkdir -p "$sources"
        (cd "$sources" && apt-get source "$package") || fail "apt-get source $package: that needs a line deb-src in apt's sources"
    fi
    rm -rf "$build/$folder.new"
    cp -r "$sources/$folder" "$build/$folder.new"
    patch -s -p1 -d "$build/$folder.new" < "$planted/$patch"
    cp "$planted/$table" "$build/$folder.new/$place"
    mv "$build/$folder.new" "$build/$folder"
}

# Builds programs of the sources that were taken.
make_programs() {
    local folder=$1
    shift
    cmake -S "$build/$folder" -B "$build/$folder/out" -G Ninja -DCMAKE_BUILD_TYPE=Release -DBUILD_TESTS=OFF \
        -DBUILD_LIBWASM=OFF -DENABLE_WERROR=OFF > "$build/log" \
        || { cat "$build/log"; fail "cmake of $folder"; }
    ninja -C "$build/$folder/out" "$@" > "$build/log" || { tail -n 30 "$build/log"; fail "$folder isn't built"; }
}

# Which engine; and what two runs at once have each for itself. The engines they share, and one builds them while the other waits.
which=${1:-both}
case $which in
    interpreter | optimizer) shift ;;
    *) which=both ;;
esac
modules=$build/modules-$which
made=$build/made-$which

wabt=wabt-1.0.32
binaryen=binaryen-108
exec 9> "$build/lock"
flock 9
[ -d "$build/$wabt" ] || take wabt $wabt interpreter.patch faults.h src/interp/planted.h
[ -d "$build/$binaryen" ] || take binaryen $binaryen optimizer.patch wrong_rewrites.h src/passes/planted.h
make_programs $wabt spectest-interp wat2wasm
make_programs $binaryen wasm-opt
flock -u 9
interpreter=$build/$wabt/out/spectest-interp
optimizer=$build/$binaryen/out/bin/wasm-opt

# The modules: those of tests/modules, those that wabt's own tests of its interpreter have, the generated ones, and one by hand.
rm -rf "$modules"
mkdir -p "$modules"/{own,wabt,generated}
cp tests/modules/*.wasm "$modules/own/"
for text in "$build/$wabt"/test/interp/*.txt; do
    "$build/$wabt/out/wat2wasm" "$text" -o "$modules/wabt/$(basename "$text" .txt).wasm" > /dev/null 2>&1 || true
done
python3 "$planted/generate.py" "$modules/generated"
cp "$planted/programs.wat" "$modules/generated/"
for text in "$modules"/generated/*.wat; do "$build/$wabt/out/wat2wasm" "$text" -o "${text%.wat}.wasm"; done

# Tries each fault of a table on an engine.
try_all() {
    local name=$1 table=$2 engine=$3
    shift 3
    echo "== $name"
    python3 "$planted/planted.py" --table "$planted/$table" --folder "$made" --teddertempo "$program" --optimizer "$optimizer" \
        "$@" --modules "$modules" --engine "$engine"
}

status=0
export OPTIMIZER=$optimizer INTERPRETER=$interpreter LEVEL=-O3
if [ "$which" != optimizer ]; then try_all interpreter faults.h "$interpreter" "$@" || status=1; fi
if [ "$which" != interpreter ]; then try_all optimizer wrong_rewrites.h "$planted/optimized.sh" "$@" || status=1; fi
exit "$status"
