#!/usr/bin/env bash
# Proves and builds the programs and the library, and writes into dist/
#   - teddertempo-VERSION-x86_64-linux.tar.gz, which runs where it is unpacked: the programs teddertempo and peephole_run,
#     teddertempo-diff and teddertempo-reduce (in Python), libteddertempo.a and libteddertempo.so.0, teddertempo-afl.so for AFL++,
#     teddertempo.h, teddertempo.pc, man pages, completions, LICENSE and README.md;
#   - teddertempo_VERSION_amd64.deb, a Debian package of the same.
# The version is that of the file VERSION; it fails where the header, the Rust crate, CHANGELOG.md, the program or one of the other
# places of tools/package/versions.sh has another one.
# Equal commits and equal builds give equal packages.
#
# Usage: package.sh, on x86-64 Linux. TEDDERTEMPO_BIN names the folder of programs that are built already, and TEDDERTEMPO_LIB
# that of libteddertempo.a and libteddertempo.so.0; what isn't named is proved and built first, which needs a Rattle kit, whose rt is on
# the path. Needs a C compiler.
set -euo pipefail
if [ -n "${TEDDERTEMPO_BIN:-}" ]; then TEDDERTEMPO_BIN=$(realpath "$TEDDERTEMPO_BIN"); fi
if [ -n "${TEDDERTEMPO_LIB:-}" ]; then TEDDERTEMPO_LIB=$(realpath "$TEDDERTEMPO_LIB"); fi
cd "$(dirname "$0")/.."
source tools/package/versions.sh

fail() {
    echo "package.sh: $1" >&2
    exit 1
}

# Fails where a program isn't there; the second word is the package of Debian that has it.
need() { command -v "$1" > /dev/null || fail "needs $1 on the path (package $2)"; }

need tar tar
need awk mawk
need gzip gzip
need strip binutils
need objdump binutils
need dpkg-deb dpkg
need python3 python3
need "${CC:-cc}" gcc
if [ "$(uname -sm)" != "Linux x86_64" ]; then fail "makes packages for x86-64 Linux, and runs there alone"; fi
if [ -z "${TEDDERTEMPO_BIN:-}" ] || [ -z "${TEDDERTEMPO_LIB:-}" ]; then
    command -v rt > /dev/null \
        || fail "needs a Rattle kit, whose rt is on the path; or TEDDERTEMPO_BIN and TEDDERTEMPO_LIB name what is built"
    need ar binutils
fi

work=$(mktemp -d)
trap 'rm -rf "$work"' EXIT
version=$(cat VERSION)
SOURCE_DATE_EPOCH=${SOURCE_DATE_EPOCH:-$(git log -1 --format=%ct 2> /dev/null || stat -c %Y VERSION)}
export SOURCE_DATE_EPOCH

# Fails where a place, which is named, has another version.
agree() { [ "$2" = "$version" ] || fail "VERSION is $version, and $1 has ${2:-none}"; }

# Proves and builds a program in its crate, with a run of it, and leaves it in the folder of programs.
build() {
    local program=$1 input=$2
    shift 2
    (cd "crates/$program" && rt run "$@") < "$input" > "$work/log" 2>&1 || { cat "$work/log"; fail "$program isn't built"; }
    cp "crates/$program/out/$program" "$work/built/"
}

for_each_version agree
mkdir "$work/built"
if [ -z "${TEDDERTEMPO_BIN:-}" ]; then
    build teddertempo /dev/null -- --version
    build peephole_run crates/peephole_run/stdin
    TEDDERTEMPO_BIN=$work/built
fi
if [ -z "${TEDDERTEMPO_LIB:-}" ]; then
    tools/library.sh "$work/built"
    TEDDERTEMPO_LIB=$work/built
fi
for file in "$TEDDERTEMPO_BIN"/{teddertempo,peephole_run} "$TEDDERTEMPO_LIB"/libteddertempo.{a,so.0}; do
    [ -f "$file" ] || fail "needs $file"
done
agree "teddertempo --version" "$("$TEDDERTEMPO_BIN/teddertempo" --version | sed -n 's/^teddertempo \([0-9.]*\)$/\1/p')"

# Fills the places @NAME@ of a template.
fill() {
    local template=$1 word
    shift
    for word in "$@"; do set -- "$@" -e "s|@${word%%=*}@|${word#*=}|g"; shift; done
    sed -e "s|@VERSION@|$version|g" "$@" "tools/package/$template"
}

# The pages of the manual.
lay_out_pages() {
    local pages=$1/share/man/man1 date dose
    date=$(date -u -d "@$SOURCE_DATE_EPOCH" +%Y-%m-%d)
    dose=$(sed -n 's/^USUAL_DOSE = "\(.*\)"$/\1/p' driver/teddertempo/running/command.py)
    mkdir -p "$pages"
    fill teddertempo.1.in "DATE=$date" > "$pages/teddertempo.1"
    fill teddertempo-diff.1.in "DATE=$date" "DOSE=$dose" > "$pages/teddertempo-diff.1"
    fill teddertempo-reduce.1.in "DATE=$date" > "$pages/teddertempo-reduce.1"
}

# The completions for a shell, by its template and the table of options.
completions_for() {
    local shell=$1 template=$2 folder=tools/package/completions
    awk -v "shell=$shell" -f $folder/options.awk $folder/teddertempo.options "$folder/$template"
}

# The completions of three shells, of which zsh has a folder of its own for a distribution's.
lay_out_completions() {
    local share=$1/share zsh=$2
    mkdir -p "$share"/{bash-completion/completions,fish/vendor_completions.d} "$share/zsh/$zsh"
    completions_for bash teddertempo.bash.in > "$share/bash-completion/completions/teddertempo"
    ln -s teddertempo "$share/bash-completion/completions/teddertempo-diff"
    ln -s teddertempo "$share/bash-completion/completions/teddertempo-reduce"
    completions_for fish teddertempo.fish.in > "$share/fish/vendor_completions.d/teddertempo.fish"
    cp tools/package/completions/teddertempo-{diff,reduce}.fish "$share/fish/vendor_completions.d/"
    completions_for zsh _teddertempo.in > "$share/zsh/$zsh/_teddertempo"
}

# The archive, the shared library, and the mutator for AFL++, whose source is an example.
lay_out_libraries() {
    local folder=$1
    mkdir -p "$folder/teddertempo"
    cp "$TEDDERTEMPO_LIB"/libteddertempo.{a,so.0} "$folder/"
    "${CC:-cc}" -std=c99 -O2 -shared -fPIC -I include examples/afl/mutator.c "$TEDDERTEMPO_LIB/libteddertempo.a" \
        -Wl,--exclude-libs,ALL -o "$folder/teddertempo/teddertempo-afl.so"
    strip --strip-debug --enable-deterministic-archives "$folder/libteddertempo.a"
    strip --strip-unneeded "$folder/libteddertempo.so.0" "$folder/teddertempo/teddertempo-afl.so"
}

# The driver and the reducer: what starts them, and their Python package with its version.
lay_out_tools() {
    local share=$1/share/teddertempo
    cp driver/teddertempo-{diff,reduce} "$1/bin/"
    tar -C driver --exclude=__pycache__ -cf - teddertempo | tar -C "$share" -xf -
    cp VERSION "$share/"
}

# Lays out the files in a folder, with the library in the one of it that is named; then the prefix for teddertempo.pc, and the folder
# of zsh's completions.
lay_out() {
    local root=$1 library=$2 prefix=$3 zsh=$4
    mkdir -p "$root"/{bin,include,share/teddertempo/examples} "$root/$library/pkgconfig"
    cp "$TEDDERTEMPO_BIN"/{teddertempo,peephole_run} "$root/bin/"
    strip --strip-unneeded "$root"/bin/*
    lay_out_tools "$root"
    cp tests/modules/{hashes,mixes,numbers,sorting,text}.wasm "$root/share/teddertempo/examples/"
    lay_out_libraries "$root/$library"
    cp include/teddertempo.h "$root/include/"
    fill teddertempo.pc.in "PREFIX=$prefix" "LIBDIR=$library" > "$root/$library/pkgconfig/teddertempo.pc"
    lay_out_pages "$root"
    lay_out_completions "$root" "$zsh"
}

# Gives the files of a folder, of which one has programs, their modes and one time.
settle() {
    chmod -R u=rwX,go=rX "$1"
    chmod 755 "$2"/*
    find "$1" -exec touch -h -d "@$SOURCE_DATE_EPOCH" {} +
}

# What the Debian package depends on: the C library, at least of the version by whose symbols the programs are linked.
depends() {
    local other glibc
    other=$(objdump -p "$@" | sed -n 's/^ *NEEDED *//p' | sort -u \
        | grep -v -x -e libc.so.6 -e libm.so.6 -e ld-linux-x86-64.so.2 || true)
    if [ -n "$other" ]; then fail "knows no package of Debian for $other, by which the programs are linked"; fi
    glibc=$(objdump -T "$@" 2> /dev/null | grep -o 'GLIBC_[0-9.]*' | sort -uV | tail -1 || true)
    echo "libc6${glibc:+ (>= ${glibc#GLIBC_})}"
}

mkdir -p dist
name=teddertempo-$version-x86_64-linux
lay_out "$work/$name" lib "\${pcfiledir}/../.." site-functions
cp LICENSE README.md "$work/$name/"
settle "$work/$name" "$work/$name/bin"
tar -C "$work" --sort=name --owner=0 --group=0 --numeric-owner -cf "$work/$name.tar" "$name"
gzip -9n "$work/$name.tar"
mv "$work/$name.tar.gz" dist/

root=$work/debian
lay_out "$root/usr" lib/x86_64-linux-gnu /usr vendor-completions
gzip -9n "$root/usr/share/man/man1"/*.1
documents=$root/usr/share/doc/teddertempo
mkdir -p "$documents" "$root/DEBIAN"
cp README.md "$documents/"
cp LICENSE "$documents/copyright"
gzip -9nc CHANGELOG.md > "$documents/changelog.gz"
size=$(du -sk --apparent-size "$root/usr" | cut -f1)
echo "activate-noawait ldconfig" > "$root/DEBIAN/triggers"
depends=$(depends "$root"/usr/bin/{teddertempo,peephole_run} "$root"/usr/lib/x86_64-linux-gnu/{,teddertempo/}*.so*)
fill control.in "SIZE=$size" "DEPENDS=$depends" > "$root/DEBIAN/control"
(cd "$root" && find usr -type f -print0 | sort -z | xargs -0 md5sum) > "$root/DEBIAN/md5sums"
settle "$root" "$root/usr/bin"
dpkg-deb --root-owner-group -Zxz --build "$root" "dist/teddertempo_${version}_amd64.deb" > "$work/log" \
    || fail "dpkg-deb: $(cat "$work/log")"

ls -l dist/*"$version"*
