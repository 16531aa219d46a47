#!/usr/bin/env bash
# Builds the examples in C, the Rust crate of bindings/rust with its examples, and those for fuzzers over the static library, and runs them:
#   - the two programs rewrite the modules of tests/modules, and change them, under some seeds (8, or the number that is given), each
#     with options of its own: both say the same and write the same bytes, which wasm-validate accepts, where it is there; and both
#     refuse options that are for rewrites alone where they are to change;
#   - code of one module comes into another, and what is made is valid;
#   - options.c checks the fields of the structures, their defaults and what is refused;
#   - the header and its initializers are compiled as C++, the fuzz target with KEEP, and the tests of the Rust crate are run;
#   - the mutator for AFL++, with KEEP too, is called as AFL++ calls it (by Python), trimming too, and what it makes is valid;
#   - where clang has libFuzzer, 2,000 runs of the fuzz target in C, and of the one in Rust;
#   - where AFL++ is there, three instances of afl-fuzz for a minute (or AFL_SECONDS; none where that is 0): two over one output
#     folder, and one that changes inputs by the custom mutator alone. Each has run the target, and what the mutator made was kept.
# The last line is `N passed, N failed`.
#
# Usage: run.sh [SEEDS]. Needs a C compiler and cargo. TEDDERTEMPO_LIB names the folder of libteddertempo.a; where it isn't set,
# tools/library.sh proves and builds the library first.
set -euo pipefail
seeds=${1:-8}
afl_seconds=${AFL_SECONDS:-60}
if [ -n "${TEDDERTEMPO_LIB:-}" ]; then TEDDERTEMPO_LIB=$(realpath "$TEDDERTEMPO_LIB"); fi
cd "$(dirname "$0")/.."

work=$(mktemp -d)
instances=()
leave() {
    if [ "${#instances[@]}" -gt 0 ]; then
        kill "${instances[@]}" 2> /dev/null || true
        wait
    fi
    rm -rf "$work"
}
trap leave EXIT

if [ -z "${TEDDERTEMPO_LIB:-}" ]; then
    tools/library.sh "$work/lib"
    TEDDERTEMPO_LIB=$work/lib
fi
export TEDDERTEMPO_LIB
library=$TEDDERTEMPO_LIB/libteddertempo.a
if [ ! -f "$library" ]; then
    echo "run.sh needs $library: TEDDERTEMPO_LIB names its folder, and tools/library.sh builds it" >&2
    exit 1
fi

passed=0
failed=0

# Runs a command, or a function of this script, and counts what it says of the thing that is named.
judge() {
    local what=$1
    shift
    if "$@" > "$work/log" 2>&1; then
        passed=$((passed + 1))
    else
        failed=$((failed + 1))
        echo "$what failed:"
        tail -n 30 "$work/log"
    fi
}

finish() {
    echo "$passed passed, $failed failed"
    [ "$failed" -eq 0 ]
    exit
}

# The options of the programs to rewrite under a seed, of eight kinds in turn.
options_of() {
    echo "--seed $1"
    case $(($1 % 8)) in
        1) echo "--count 5" ;;
        2) echo "--rule $rule" ;;
        3) echo "--growth 0 --strip" ;;
        4) echo "--function $(($1 / 8))" ;;
        5) echo "--count 100 --growth 40" ;;
        6) echo "--rule no_such_rule" ;;
        7) echo "--exact --shrink --percent 5" ;;
    esac
}

# The same to change, of four kinds in turn.
change_options_of() {
    echo "--change --seed $1"
    case $(($1 % 4)) in
        1) echo "--count 3" ;;
        2) echo "--growth 0 --strip" ;;
        3) echo "--function $(($1 / 4))" ;;
    esac
}

# Writes a module that either program makes with some options: the same, with the same words and the same status.
compare() {
    local module=$1 by_c=0 by_rust=0
    shift
    rm -f "$work"/{c,rust}.wasm
    timeout 60 "$work/mutate" "$@" "$module" "$work/c.wasm" > "$work/c.said" 2> "$work/c.message" || by_c=$?
    timeout 60 "$work/target/release/examples/mutate" "$@" "$module" "$work/rust.wasm" \
        > "$work/rust.said" 2> "$work/rust.message" || by_rust=$?
    cat "$work"/{c,rust}.{said,message}
    if [ "$by_c" -ne "$by_rust" ]; then
        echo "status $by_c in C, $by_rust in Rust"
        return 1
    fi
    cmp "$work/c.said" "$work/rust.said" && cmp "$work/c.message" "$work/rust.message" || return 1
    if [ "$by_c" -ne 0 ]; then
        test "$by_c" -le 2 && test ! -e "$work/c.wasm" && test ! -e "$work/rust.wasm"
        return
    fi
    cmp "$work/c.wasm" "$work/rust.wasm" || return 1
    echo made >> "$work/count"
    if command -v wasm-validate > /dev/null; then wasm-validate --enable-all "$work/c.wasm"; fi
}

# Both programs refuse the options, for the same reason.
refuses() { compare "$@" && test ! -s "$work/c.said" && test -s "$work/c.message"; }

# Builds the crate with nothing but a folder in which pkg-config looks.
build_by_pkg_config() {
    env -u TEDDERTEMPO_LIB -u PKG_CONFIG_PATH PKG_CONFIG_LIBDIR="$1" CARGO_TARGET_DIR="$work/by_pkg_config" \
        cargo build "${cargo[@]}" --all-targets
}

# Where pkg-config finds no library, the crate says what to do.
explains() {
    if build_by_pkg_config "$work" > "$work/said" 2>&1; then return 1; fi
    cat "$work/said"
    grep -q "set TEDDERTEMPO_LIB to its folder" "$work/said"
}

# Where it finds one, the crate is built.
builds_by_pkg_config() {
    mkdir "$work/pkgconfig"
    printf 'Name: teddertempo\nDescription: examples\nVersion: %s\nLibs: -L%s -lteddertempo\n' "$(cat VERSION)" "$TEDDERTEMPO_LIB" \
        > "$work/pkgconfig/teddertempo.pc"
    build_by_pkg_config "$work/pkgconfig"
}

# Compiles C that stands beside this script, with the header and the library.
compile() {
    local source=$1 compiler=$2
    shift 2
    "$compiler" -std=c99 -Wall -Wextra -Werror -I include "examples/$source" "$@"
}

# Compiles the header and its initializers as C++.
compile_in_cpp() {
    "${CXX:-c++}" -x c++ -std=c++11 -Wall -Wextra -Werror -pedantic -I include -fsyntax-only - <<'END'
#include <teddertempo.h>

teddertempo_options options = TEDDERTEMPO_OPTIONS_INIT;
teddertempo_change_options change_options = TEDDERTEMPO_CHANGE_OPTIONS_INIT;
teddertempo_place place = TEDDERTEMPO_PLACE_INIT;
teddertempo_report report = TEDDERTEMPO_REPORT_INIT;
size_t (*const rewrite)(uint8_t *, size_t, size_t, uint64_t) = teddertempo_mutate;
static_assert(TEDDERTEMPO_ONLY(3) == 4, "the function with the index 3");
END
}

judge "c/mutate.c" compile c/mutate.c "${CC:-cc}" -pedantic -O2 "$library" -o "$work/mutate"
judge "c/splice.c" compile c/splice.c "${CC:-cc}" -pedantic -O2 "$library" -o "$work/splice"
judge "c/options.c" compile c/options.c "${CC:-cc}" -pedantic -O2 "$library" -o "$work/options"
judge "the structures, by options.c" "$work/options" tests/modules/numbers.wasm
judge "c/fuzz.c with KEEP" compile c/fuzz.c "${CC:-cc}" -DKEEP -pedantic -O2 -c -o "$work/keep.o"
judge "afl/mutator.c" compile afl/mutator.c "${CC:-cc}" -pedantic -O2 -shared -fPIC "$library" -o "$work/teddertempo_afl.so"
judge "afl/mutator.c with KEEP" compile afl/mutator.c "${CC:-cc}" -DKEEP -pedantic -O2 -shared -fPIC "$library" -o "$work/keep.so"
if command -v "${CXX:-c++}" > /dev/null; then judge "the header in C++" compile_in_cpp; fi
export CARGO_TARGET_DIR=$work/target
cargo=(--quiet --locked --offline --manifest-path bindings/rust/Cargo.toml)
judge "bindings/rust" cargo build "${cargo[@]}" --release --all-targets
judge "the tests of bindings/rust" timeout 300 cargo test "${cargo[@]}"
judge "what bindings/rust says without the library" explains
if command -v pkg-config > /dev/null; then judge "bindings/rust by pkg-config" builds_by_pkg_config; fi

: > "$work/count"
if [ ! -x "$work/mutate" ] || [ ! -x "$work/target/release/examples/mutate" ]; then finish; fi
rule=$("$work/mutate" --seed 0 tests/modules/numbers.wasm "$work/new.wasm" | sed -n 's/.*, the last by \(.*\) in function .*/\1/p')
rule=${rule:-commute}
for module in tests/modules/*.wasm README.md; do
    for seed in $(seq 0 $((seeds - 1))); do
        for kind in options_of change_options_of; do
            read -ra options <<< "$("$kind" "$seed" | tr '\n' ' ')"
            judge "$(basename "$module") with ${options[*]}" compare "$module" "${options[@]}"
        done
    done
done
judge "rewriting or changing any module" test -s "$work/count"
for asked in "--change --exact" "--percent 5 --change" "--rule $rule --seed 1 --change"; do
    read -ra options <<< "$asked"
    judge "that ${options[*]} is refused" refuses tests/modules/numbers.wasm "${options[@]}"
done

# Code of the second module comes into the first one, which stays valid.
splices() {
    "$work/splice" "$1" "tests/modules/$2.wasm" "tests/modules/$3.wasm" "$work/new.wasm" || return 1
    if cmp -s "tests/modules/$2.wasm" "$work/new.wasm"; then return 1; fi
    if command -v wasm-validate > /dev/null; then wasm-validate --enable-all "$work/new.wasm"; fi
}
for seed in $(seq 0 $((seeds - 1))); do judge "code of hashes in numbers with seed $seed" splices "$seed" numbers hashes; done

# The calls of AFL++, without it: what they make of some modules is valid.
calls_of_afl() {
    local module
    rm -rf "$work/made"
    mkdir "$work/made"
    python3 examples/afl/calls.py "$1" "$work/made" tests/modules/{numbers,forms,hashes,mixes,sorting}.wasm || return 1
    if ! command -v wasm-validate > /dev/null; then return; fi
    for module in "$work"/made/*.wasm; do wasm-validate --enable-all "$module" || return 1; done
}
judge "the calls of AFL++" calls_of_afl "$work/teddertempo_afl.so"
judge "the calls of AFL++ with KEEP" calls_of_afl "$work/keep.so"

# Builds the Rust crate's target for libFuzzer, with counters for coverage.
build_fuzz_rust() {
    local target=x86_64-unknown-linux-gnu
    local counters="-Cpasses=sancov-module -Cllvm-args=-sanitizer-coverage-level=4"
    counters+=" -Cllvm-args=-sanitizer-coverage-inline-8bit-counters -Cllvm-args=-sanitizer-coverage-pc-table"
    RUSTFLAGS=$counters cargo build "${cargo[@]}" --release --example fuzz --target "$target" || return 1
    clang -fsanitize=fuzzer "$work/target/$target/release/examples/libfuzz.a" -o "$work/fuzz_rust"
}

mkdir "$work/corpus"
cp tests/modules/*.wasm "$work/corpus"
if command -v clang > /dev/null && echo 'int LLVMFuzzerTestOneInput(const char *d, long n) { return d && n < 0; }' \
    | clang -fsanitize=fuzzer -x c - -o "$work/has_fuzzer" 2> /dev/null; then
    judge "c/fuzz.c" compile c/fuzz.c clang -O1 -g -fsanitize=fuzzer,address "$library" -o "$work/fuzz"
    cp -r "$work/corpus" "$work/fuzzed"
    judge "2,000 runs of the fuzz target" timeout 300 \
        "$work/fuzz" -runs=2000 -seed=1 -max_len=65536 -artifact_prefix="$work/" "$work/fuzzed"
    judge "the fuzz target of bindings/rust" build_fuzz_rust
    cp -r "$work/corpus" "$work/fuzzed_rust"
    judge "2,000 runs of it" timeout 300 \
        "$work/fuzz_rust" -runs=2000 -seed=1 -max_len=65536 -artifact_prefix="$work/" "$work/fuzzed_rust"
fi

# Becomes an instance of AFL++ that ends by itself.
run_afl() {
    local folder=$1 name=$2
    shift 2
    exec env AFL_SKIP_CPUFREQ=1 AFL_I_DONT_CARE_ABOUT_MISSING_CRASHES=1 AFL_NO_AFFINITY=1 AFL_NO_UI=1 \
        AFL_CUSTOM_MUTATOR_LIBRARY=$work/teddertempo_afl.so timeout $((afl_seconds + 120)) \
        afl-fuzz -i "$work/corpus" -o "$work/$folder" -V "$afl_seconds" "$@" -- "$work/target_afl" > "$work/$folder-$name.log" 2>&1
}

# Judges an instance: it ran the target, and kept what the mutator made.
fuzzed() {
    local folder=$1 name=$2 execs found made
    if ! execs=$(sed -n 's/^execs_done *: //p' "$work/$folder/$name/fuzzer_stats"); then
        tail -n 30 "$work/$folder-$name.log"
        return 1
    fi
    found=$(sed -n 's/^corpus_found *: //p' "$work/$folder/$name/fuzzer_stats")
    made=$(find "$work/$folder/$name/queue" -maxdepth 1 -name '*op:teddertempo*' | wc -l)
    echo "AFL++, $folder, $name: $execs runs, $found kept, $made of them made by the mutator" | tee -a "$work/afl"
    test "$execs" -ge $((afl_seconds * 10)) && test "$made" -gt 0
}

# Nothing is kept but what the mutator made.
kept_alone() { ! find "$work/alone/default/queue" -maxdepth 1 -name 'id:*' | grep -v -e ',orig:' -e 'op:teddertempo'; }

if command -v afl-fuzz > /dev/null && command -v afl-cc > /dev/null && [ "$afl_seconds" -gt 0 ]; then
    judge "afl/target.c" compile afl/target.c afl-cc -O1 -o "$work/target_afl"
    run_afl together main -M main & instances=($!)
    run_afl together second -S second & instances+=($!)
    AFL_CUSTOM_MUTATOR_ONLY=1 run_afl alone default & instances+=($!)
    for instance in "${instances[@]}"; do judge "an instance of AFL++" wait "$instance"; done
    instances=()
    judge "AFL++, main" fuzzed together main
    judge "AFL++, second" fuzzed together second
    judge "AFL++, with the mutator alone" fuzzed alone default
    judge "what AFL++ keeps with the mutator alone" kept_alone
    cat "$work/afl"
fi

echo "$(wc -l < "$work/count") modules rewritten or changed"
finish
