#!/usr/bin/env bash
# Makes the packages anew and tests them (tools/package.sh, tools/package_test.sh), in a copy of this repository, so that nothing of a
# folder dist/ that is there is lost. The last line is `N passed, N failed`.
#
# Usage: package.sh. TEDDERTEMPO_BIN and TEDDERTEMPO_LIB name what is built, as tools/package.sh has them.
set -euo pipefail
cd "$(dirname "$0")/.."
work=$(mktemp -d)
trap 'rm -rf "$work"' EXIT
git archive HEAD | tar -x -C "$work"
SOURCE_DATE_EPOCH=$(git log -1 --format=%ct)
export SOURCE_DATE_EPOCH
"$work/tools/package.sh"
"$work/tools/package_test.sh"
