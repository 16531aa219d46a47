#!/usr/bin/env bash
# Tests the packages that tools/package.sh wrote into dist/ (or the folder that is named), with no Rattle kit on the path:
#   - the archive, unpacked into an empty folder: the programs run, teddertempo-diff finds an engine that falls over rewrites and none
#     where there is none, teddertempo-reduce leaves what a predicate asks for, the C example is linked by pkg-config alone and
#     rewrites a module, header and library have one version, the shared library exports the calls of the header and changes a module,
#     the mutator for AFL++ answers the calls that AFL++ makes, and man pages, completions and docs/REFERENCE.md have the options that the
#     programs have;
#   - the Debian package: installed, the same programs, example and libraries; then removed, and nothing of it is left.
# Before, each place of tools/package/versions.sh has the version of the file VERSION. The last line is `N passed, N failed`.
#
# Usage: package_test.sh [FOLDER], or package_test.sh --versions for the versions alone, which needs no package. Needs a C compiler,
# pkg-config and Python 3; for the Debian package also dpkg and root. Where these aren't there, or the package is installed already, a line
# says so, and that part is left out.
set -euo pipefail
packages=${1:-$(dirname "$0")/../dist}
if [ "$packages" != --versions ]; then packages=$(realpath "$packages"); fi
cd "$(dirname "$0")/.."
source tools/package/versions.sh
version=$(cat VERSION)
name=teddertempo-$version-x86_64-linux

fail() {
    echo "package_test.sh: $1" >&2
    exit 1
}

work=$(mktemp -d)
installed=
leave() {
    if [ -n "$installed" ]; then dpkg --purge teddertempo > /dev/null; fi
    rm -rf "$work"
}
trap leave EXIT

passed=0
failed=0

# Runs a function of this script, and counts what it says of the thing that is named.
judge() {
    local what=$1
    shift
    if "$@" > "$work/log" 2>&1; then
        passed=$((passed + 1))
    else
        failed=$((failed + 1))
        echo "$what failed:"
        tail -n 30 "$work/log"
    fi
}

agrees() {
    echo "it has ${1:-none}, and VERSION $version"
    [ "$1" = "$version" ]
}

judge_version() { judge "the version: $1" agrees "$2"; }

# Says how many tests passed and failed.
count() {
    echo "$passed passed, $failed failed"
    [ "$failed" -eq 0 ]
}

for_each_version judge_version
if [ "$packages" = --versions ]; then
    count
    exit
fi

for file in "$name.tar.gz" "teddertempo_${version}_amd64.deb"; do
    [ -f "$packages/$file" ] || fail "needs $packages/$file: tools/package.sh writes it"
done
PATH=/usr/sbin:/usr/bin:/sbin:/bin
export PATH
for needed in tar gzip objdump "${CC:-cc}" pkg-config python3; do
    command -v "$needed" > /dev/null || fail "needs $needed on the path $PATH"
done
! command -v rt > /dev/null || fail "finds a Rattle kit in $PATH, and is to show that none is needed"

# All that the tests use, beside the packages, stands in one folder.
mkdir "$work/here"
cp examples/c/mutate.c examples/afl/calls.py tests/modules/numbers.wasm "$work/here/"
cp crates/peephole_run/stdin crates/peephole_run/stdout docs/REFERENCE.md "$work/here/"
tar -C "$work" -xzf "$packages/$name.tar.gz"
cd "$work/here"

is_valid() { ! command -v wasm-validate > /dev/null || wasm-validate --enable-threads "$1"; }

# The program under a path says its version, and rewrites a module: between files and in a pipe the same.
program_runs() {
    local teddertempo=$1 status=0
    "$teddertempo" --version | tee version
    test "$(cat version)" = "teddertempo $version" || return 1
    rm -f new.wasm
    "$teddertempo" --seed 7 --count 3 numbers.wasm -o new.wasm || return 1
    "$teddertempo" --seed 0x7 --count 3 < numbers.wasm > piped.wasm || return 1
    cmp new.wasm piped.wasm && ! cmp -s new.wasm numbers.wasm && is_valid new.wasm || return 1
    "$teddertempo" < stdin > none.wasm || status=$?
    test "$status" -eq 1 && test ! -s none.wasm || return 1
    status=0
    "$teddertempo" --no-such-option < numbers.wasm || status=$?
    test "$status" -eq 64
}

peephole_run_runs() { "$1" < stdin > printed && cmp printed stdout; }

# The example is compiled and linked by what pkg-config says, and rewrites a module.
example_links() {
    rm -f mutate new.wasm
    # shellcheck disable=SC2046
    "${CC:-cc}" -std=c99 -Wall -Wextra -Werror -O2 mutate.c $(pkg-config --cflags --libs teddertempo) -o mutate || return 1
    ./mutate --seed 7 --count 3 numbers.wasm new.wasm || return 1
    ! cmp -s new.wasm numbers.wasm && is_valid new.wasm
}

versions_agree() {
    cat > version.c <<'END'
#include <teddertempo.h>

#include <stdio.h>

int main(void)
{
    puts(TEDDERTEMPO_VERSION);
    return teddertempo_version() != TEDDERTEMPO_VERSION_NUMBER;
}
END
    # shellcheck disable=SC2046
    "${CC:-cc}" version.c $(pkg-config --cflags --libs teddertempo) -o version && ./version > said || return 1
    cat said
    test "$(cat said)" = "$version" && test "$(pkg-config --modversion teddertempo)" = "$version"
}

# The shared library has its soname, and exports what the header declares and nothing else.
exports_agree() {
    local library=$1 header=$2
    objdump -p "$library" | grep -x ' *SONAME *libteddertempo.so.1' || return 1
    objdump -T "$library" | grep ' g .* \.text' | sed 's/.* //' | sort > exported
    sed -n 's/^[a-z].*[ *]\(teddertempo_[a-z_]*\)(.*/\1/p' "$header" | sort > declared
    test -s declared && diff exported declared
}

# A program that loads the shared library changes a module by it.
shared_library_runs() {
    rm -f new.wasm
    python3 - "$1" <<'END' || return 1
import ctypes
import sys

library = ctypes.CDLL(sys.argv[1])
library.teddertempo_change.restype = ctypes.c_size_t
library.teddertempo_change.argtypes = [ctypes.c_char_p, ctypes.c_size_t, ctypes.c_size_t, ctypes.c_uint64]
module = open("numbers.wasm", "rb").read()
data = ctypes.create_string_buffer(module, 65536)
size = library.teddertempo_change(data, len(module), 65536, 7)
open("new.wasm", "wb").write(data.raw[:size])
END
    test -s new.wasm && ! cmp -s new.wasm numbers.wasm && is_valid new.wasm
}

# The mutator for AFL++ is called as AFL++ calls it, and what it makes is valid.
afl_mutator_runs() {
    local module
    rm -rf made
    mkdir made
    python3 calls.py "$1" made numbers.wasm || return 1
    for module in made/*.wasm; do is_valid "$module" || return 1; done
}

# The driver has the version, finds nothing in an engine that says nothing, and the rewrite where an engine says how long a module is.
driver_runs() {
    local driver=$1 status=0
    rm -rf found none
    test "$("$driver" --version)" = "teddertempo-diff $version" || return 1
    "$driver" --seeds 3 --dose 5 -o none numbers.wasm -- true || return 1
    "$driver" --seeds 3 --dose 5 --first -o found numbers.wasm -- wc -c @@ || status=$?
    test "$status" -eq 1 && grep '^function' found/0001-*/rewrite.txt && cmp found/0001-*/original.wasm numbers.wasm
}

# An engine that is there is run, and finds no difference.
driver_runs_on() {
    rm -rf found
    "$1" --seeds 5 -o found numbers.wasm -- "$2"
}

# The reducer has the version, keeps the bytes that a predicate looks for, and reports a predicate that doesn't accept the module.
reducer_runs() {
    local reducer=$1 status=0
    rm -f small.wasm
    test "$("$reducer" --version)" = "teddertempo-reduce $version" || return 1
    "$reducer" --quiet -o small.wasm numbers.wasm -- grep -q memory || return 1
    grep -q memory small.wasm && test "$(wc -c < small.wasm)" -lt 30 && is_valid small.wasm || return 1
    "$reducer" -o none.wasm numbers.wasm -- false || status=$?
    test "$status" -eq 1
}

# The long options of a text, one a line.
options_in() { sed 's/\\-/-/g; s/ -l / --/' "$@" | grep -o -e '--[a-z][a-z-]*' | sort -u; }

# The options of a page of the manual, but for those of another program that are named.
page_has_options() {
    local page=$1 program=$2 others=$3
    "$program" --help > help || return 1
    options_in help > of_program
    sed -n '/^\.SH OPTIONS/,/^\.SH [^O]/p' "$page" > section
    options_in section | grep -v -x -e "$others" > of_page
    diff of_program of_page
}

completions_have_options() {
    local programs=$1
    shift
    { "$programs/teddertempo" --help && "$programs/teddertempo-diff" --help && "$programs/teddertempo-reduce" --help; } > help || return 1
    options_in help > of_programs
    options_in "$@" > of_completions
    diff of_programs of_completions
}

# The options of the table in docs/REFERENCE.md.
table_has_options() {
    "$1" --help > help || return 1
    options_in help > of_program
    sed -n '/^| Option |/,/^$/s/^| \(`[^|]*\) |.*/\1/p' REFERENCE.md > rows
    options_in rows > of_table
    diff of_program of_table
}

page_is_set() { man --warnings -E UTF-8 -l -Tutf8 -Z "$1" 2>&1 > /dev/null | tee warnings && test ! -s warnings; }

unpacked=$work/$name
share=$unpacked/share
for file in bin/teddertempo bin/peephole_run bin/teddertempo-diff bin/teddertempo-reduce lib/libteddertempo.{a,so.1} \
    lib/teddertempo/teddertempo-afl.so lib/pkgconfig/teddertempo.pc include/teddertempo.h share/man/man1/teddertempo{,-diff,-reduce}.1 LICENSE README.md; do
    judge "$file in the archive" test -s "$unpacked/$file"
done
judge "teddertempo" program_runs "$unpacked/bin/teddertempo"
judge "peephole_run" peephole_run_runs "$unpacked/bin/peephole_run"
export PKG_CONFIG_PATH=$unpacked/lib/pkgconfig
judge "c/mutate.c by pkg-config" example_links
judge "the version of header and library" versions_agree
unset PKG_CONFIG_PATH
judge "what the shared library exports" exports_agree "$unpacked/lib/libteddertempo.so.1" "$unpacked/include/teddertempo.h"
judge "the shared library" shared_library_runs "$unpacked/lib/libteddertempo.so.1"
judge "the mutator for AFL++" afl_mutator_runs "$unpacked/lib/teddertempo/teddertempo-afl.so"
judge "teddertempo-diff" driver_runs "$unpacked/bin/teddertempo-diff"
judge "teddertempo-reduce" reducer_runs "$unpacked/bin/teddertempo-reduce"
for engine in node spectest-interp; do
    if command -v "$engine" > /dev/null; then judge "$engine" driver_runs_on "$unpacked/bin/teddertempo-diff" "$engine"; fi
done
judge "the options of the man page" page_has_options "$share/man/man1/teddertempo.1" "$unpacked/bin/teddertempo" --none
judge "the options of the driver's" page_has_options "$share/man/man1/teddertempo-diff.1" "$unpacked/bin/teddertempo-diff" --reach
judge "the options of the reducer's" page_has_options "$share/man/man1/teddertempo-reduce.1" "$unpacked/bin/teddertempo-reduce" --none
judge "the options of docs/REFERENCE.md" table_has_options "$unpacked/bin/teddertempo"
for page in "$share"/man/man1/*.1; do
    if command -v man > /dev/null; then judge "the man page ${page##*/}" page_is_set "$page"; fi
done
judge "completions for bash" completions_have_options "$unpacked/bin" "$share/bash-completion/completions/teddertempo"
judge "completions for zsh" completions_have_options "$unpacked/bin" "$share/zsh/site-functions/_teddertempo"
judge "completions for fish" completions_have_options "$unpacked/bin" "$share"/fish/vendor_completions.d/*.fish

# The files, not the folders, that the package installs.
files_of() { dpkg-deb --fsys-tarfile "$packages/teddertempo_${version}_amd64.deb" | tar -t | sed -n 's|^\.\(/.*[^/]\)$|\1|p'; }

nothing_is_left() {
    local file
    for file in $(files_of); do { test ! -e "$file" && test ! -L "$file"; } || { echo "$file"; return 1; }; done
    ! dpkg-query -W teddertempo && ! pkg-config --exists teddertempo
}

if ! command -v dpkg > /dev/null || [ "$(id -u)" -ne 0 ]; then
    echo "the Debian package isn't tested: that needs dpkg, and root"
elif dpkg-query -W teddertempo > /dev/null 2>&1; then
    echo "the Debian package isn't tested: teddertempo is installed already"
else
    installed=yes
    judge "installing the Debian package" dpkg --install "$packages/teddertempo_${version}_amd64.deb"
    judge "teddertempo, installed" program_runs /usr/bin/teddertempo
    judge "peephole_run, installed" peephole_run_runs /usr/bin/peephole_run
    judge "teddertempo-diff, installed" driver_runs /usr/bin/teddertempo-diff
    judge "teddertempo-reduce, installed" reducer_runs /usr/bin/teddertempo-reduce
    judge "c/mutate.c by pkg-config, installed" example_links
    judge "the version of header and library, installed" versions_agree
    judge "the shared library, installed" shared_library_runs libteddertempo.so.1
    judge "the mutator for AFL++, installed" afl_mutator_runs /usr/lib/x86_64-linux-gnu/teddertempo/teddertempo-afl.so
    judge "removing the Debian package" dpkg --remove teddertempo
    judge "what is left of the Debian package" nothing_is_left
    dpkg --purge teddertempo > /dev/null 2>&1 || true
    installed=
fi

count
