#!/usr/bin/env bash
# Runs each command of README.md as it is written there, in a fresh copy of the repository, and compares the outputs that README.md shows.
# Its code in C and Rust is compiled, and that in Rust is run. Prints the seconds that each command took. The last line is
# `N passed, N failed`.
#
# Not run, as `is_left_out` lists them: `rt ci`, the installation as root, and AFL++, which doesn't end by itself (examples/run.sh runs
# it). Shortened, by `shortened`: the times of teddertempo-diff. Not compared: the example of a finding, which takes a faulty interpreter.
#
# Usage: readme.sh. TEDDERTEMPO_BIN names the folder of the programs teddertempo and peephole_run, and TEDDERTEMPO_LIB that of
# libteddertempo.a and libteddertempo.so.1; what isn't named is proved and built first. Needs a Rattle kit whose rt is on the path, git,
# a C compiler, cargo, and what tools/package.sh needs.
set -euo pipefail
if [ -n "${TEDDERTEMPO_BIN:-}" ]; then TEDDERTEMPO_BIN=$(realpath "$TEDDERTEMPO_BIN"); export TEDDERTEMPO_BIN; fi
if [ -n "${TEDDERTEMPO_LIB:-}" ]; then TEDDERTEMPO_LIB=$(realpath "$TEDDERTEMPO_LIB"); export TEDDERTEMPO_LIB; fi
cd "$(dirname "$0")/.."

work=$(mktemp -d)
trap 'rm -rf "$work"' EXIT
mkdir "$work/copy" "$work/blocks"
git ls-files -z | tar --null -T - -cf - | tar -C "$work/copy" -xf -
cd "$work/copy"

passed=0
failed=0

# Runs a command, and counts whether it succeeds.
check() {
    local from=$SECONDS
    if "${@:2}" > "$work/log" 2>&1; then
        passed=$((passed + 1))
    else
        failed=$((failed + 1))
        echo "$1 failed:"
        tail -n 20 "$work/log"
    fi
    printf '%4d s  %s\n' $((SECONDS - from)) "$1"
}

# Whether a command isn't run in its place; the package is made before all others.
is_left_out() {
    case $1 in
        "tools/package.sh" | "rt ci" | "sudo apt "* | "afl-fuzz "*) true ;;
        *) false ;;
    esac
}

# A command with shorter times.
shortened() { sed -e 's/--time 4h/--time 20s/' -e 's/--reduce 10m/--reduce 10s/' <<< "$1"; }

# The blocks of code, a file each, in their order: NUMBER.LANGUAGE.
awk -v "folder=$work/blocks" '
    /^```/ && file != "" { close(file); file = ""; next }
    /^```/ { file = sprintf("%s/%02d.%s", folder, ++count, substr($0, 4)); printf "" > file; next }
    file != "" { print > file }' README.md

# A block of commands: each line is one, but for a text that follows a command by <<.
run_commands() {
    if grep -q "<<" "$1"; then
        check "$(head -n 1 "$1")" run_here "$(cat "$1")"
        return
    fi
    local command
    while IFS= read -r command; do
        if ! is_left_out "$command"; then check "$command" run_here "$(shortened "$command")"; fi
    done < "$1"
}
run_here() { bash -euo pipefail -c "$1" > "$work/output" < /dev/null; }

# A block of a command after `$ ` and what it prints, on either output.
run_session() {
    local command
    command=$(sed -n 's/^\$ //p' "$1")
    sed 1d "$1" > "$work/expected"
    check "$command" compare_run "$command"
}
compare_run() {
    bash -euo pipefail -c "$1" > "$work/output" 2>&1 < /dev/null
    diff "$work/expected" "$work/output"
}

compile_c() { "${CC:-cc}" -std=c99 -Wall -Wextra -pedantic -I include -x c -c "$1" -o "$work/block.o"; }

# The code in Rust as the body of `main`, in a crate that depends on the bindings.
run_rust() {
    mkdir -p "$work/rust/src"
    cp tests/modules/numbers.wasm in.wasm
    {
        echo "fn main() -> Result<(), Box<dyn std::error::Error>> {"
        cat "$1"
        echo "Ok(()) }"
    } > "$work/rust/src/main.rs"
    printf '[package]\nname = "readme"\nversion = "0.0.0"\nedition = "2021"\n[dependencies]\nteddertempo = { path = "%s" }\n' \
        "$PWD/bindings/rust" > "$work/rust/Cargo.toml"
    cargo run --quiet --offline --manifest-path "$work/rust/Cargo.toml" --target-dir "$work/rust/target"
    ! cmp -s in.wasm out.wasm
}

# The package first, since commands use its programs; and what the commands find in a user's folder.
check tools/package.sh tools/package.sh
tar -C "$work" -xzf dist/teddertempo-*.tar.gz
mv "$work"/teddertempo-*-linux "$work/installed"
PATH=$work/installed/bin:$PATH
export TEDDERTEMPO_LIB=$work/installed/lib
mkdir corpus
cp tests/modules/{mixes,numbers}.wasm corpus/
cp tests/modules/numbers.wasm crash.wasm
printf '#!/bin/sh\nexit 0\n' > engine
printf '#!/bin/sh\ngrep -q memory "$1"\n' > still-crashes.sh
chmod +x engine still-crashes.sh

for block in "$work"/blocks/*; do
    case $block in
        *.sh) run_commands "$block" ;;
        *.console) run_session "$block" ;;
        *.c) check "the code in C" compile_c "$block" ;;
        *.rust) check "the code in Rust" run_rust "$block" ;;
        *.text)
            if ! grep -q "output: all()" "$block"; then
                check "what the command before prints" diff "$block" "$work/output"
            fi
            ;;
    esac
done

echo "$passed passed, $failed failed"
[ "$failed" -eq 0 ]
