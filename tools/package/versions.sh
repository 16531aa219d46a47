# The places that have the version of the file VERSION, for the scripts that source this at the top of the repository.
# shellcheck shell=bash

# The version of a number, as 0.2.0 of 0x000200, or of 0x00_02_00; none of nothing.
version_of_number() {
    local digits=${1//_/}
    if [ -n "$digits" ]; then echo "$((digits >> 16)).$((digits >> 8 & 255)).$((digits & 255))"; fi
}

# What a command makes of each place: it gets the place's name, and the version that stands there.
for_each_version() {
    local header=include/teddertempo.h library=crates/teddertempo_c/src/lib.rt program=crates/module_options/src/arguments.rt
    "$@" "TEDDERTEMPO_VERSION of $header" "$(sed -n 's/^#define TEDDERTEMPO_VERSION "\(.*\)"$/\1/p' $header)"
    "$@" "TEDDERTEMPO_VERSION_NUMBER of $header" \
        "$(version_of_number "$(sed -n 's/^#define TEDDERTEMPO_VERSION_NUMBER \(0x[0-9a-f]*\)u$/\1/p' $header)")"
    "$@" "the first comment of $header" "$(sed -n '2s/^ \* Teddertempo \([0-9.]*\): .*/\1/p' $header)"
    "$@" "the number in $library" "$(version_of_number "$(sed -n 's/^ *\(0x[0-9a-f_]*\)$/\1/p' $library | head -1)")"
    "$@" "the comment on the number in $library" \
        "$(sed -n 's|^/// The version as a number: 0x[0-9a-f]* for \([0-9.]*\)\.$|\1|p' $library)"
    "$@" "$program" "$(sed -n 's/^ *\.version("\(.*\)")$/\1/p' $program)"
    "$@" "teddertempo-diff --version" "$(python3 driver/teddertempo-diff --version | sed -n 's/^teddertempo-diff \([0-9.]*\)$/\1/p')"
    "$@" "teddertempo-reduce --version" "$(python3 driver/teddertempo-reduce --version | sed -n 's/^teddertempo-reduce \([0-9.]*\)$/\1/p')"
    "$@" "examples/rust/Cargo.toml" "$(sed -n 's/^version = "\(.*\)"$/\1/p' examples/rust/Cargo.toml)"
    "$@" "examples/rust/Cargo.lock" "$(sed -n '/^name = "teddertempo"$/{n;s/^version = "\(.*\)"$/\1/p}' examples/rust/Cargo.lock)"
    "$@" "CHANGELOG.md" "$(sed -n 's/^## \([0-9][0-9.]*\).*/\1/p' CHANGELOG.md | head -1)"
}
