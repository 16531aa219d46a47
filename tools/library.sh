#!/usr/bin/env bash
# Proves and builds the library, and writes
#   - FOLDER/libteddertempo.a: the library of the crate teddertempo_c with the kit's part by which it takes memory merged in, so that a
#     program links one archive;
#   - FOLDER/libteddertempo.so.1: the same as a shared library, which exports the calls of the header and nothing else.
#
# Usage: library.sh FOLDER. Needs a Rattle kit, whose rt is on the path, binutils and a C compiler. RATTLE_C names the kit's folder of
# liblibc_c.a, where that isn't the one beside rt.
set -euo pipefail
if [ $# -ne 1 ]; then
    echo "usage: library.sh FOLDER" >&2
    exit 64
fi
for needed in rt ar objcopy "${CC:-cc}"; do
    if ! command -v "$needed" > /dev/null; then
        echo "library.sh needs $needed on the path" >&2
        exit 1
    fi
done
mkdir -p "$1"
folder=$(realpath "$1")
kit=$(realpath "${RATTLE_C:-$(dirname "$(realpath "$(command -v rt)")")/../c}")
root=$(dirname "$(realpath "$0")")/..
crate=$root/crates/teddertempo_c

work=$(mktemp -d)
trap 'rm -rf "$work"' EXIT
if ! (cd "$crate" && rt lib) > "$work/log" 2>&1; then
    cat "$work/log"
    exit 1
fi

# Plain names, since ar reads others from its script in part only.
cp "$crate/out/libteddertempo_c.a" "$kit/liblibc_c.a" "$work/"
cd "$work"
# teddertempo_mutate is another name of teddertempo_rewrite, which has a section of its own.
objcopy --add-symbol teddertempo_mutate=.text.teddertempo_rewrite:0,function,global libteddertempo_c.a
ar -M <<END
create libteddertempo.a
addlib libteddertempo_c.a
addlib liblibc_c.a
save
end
END

mapfile -t calls < <(sed -n 's/^[a-z].*[ *]\(teddertempo_[a-z_]*\)(.*/\1/p' "$root/include/teddertempo.h")
printf '{ global: %s local: *; };\n' "$(printf '%s; ' "${calls[@]}")" > calls.map
"${CC:-cc}" -shared "${calls[@]/#/-Wl,-u,}" libteddertempo.a -Wl,-soname,libteddertempo.so.1,--version-script=calls.map,--gc-sections,-z,defs \
    -o libteddertempo.so.1
mv libteddertempo.{a,so.1} "$folder/"
