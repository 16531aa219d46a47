#!/usr/bin/env bash
# Tests teddertempo-diff and teddertempo-reduce: mypy --strict on both and on their tests, and the tests of tests/driver by pytest. The
# last line is `N passed, N failed`: mypy counts as one, and a test that is skipped isn't counted.
#
# Usage: driver.sh [ARGUMENT..], which pytest is given. TEDDERTEMPO names the program, else it is that of crates/teddertempo/out; PYTHON
# names a Python that has mypy and pytest, else it is the python3 on the path, or Debian's. Needs wabt; node is tested if it is there.
set -euo pipefail
if [ -n "${TEDDERTEMPO:-}" ]; then
    TEDDERTEMPO=$(realpath "$TEDDERTEMPO")
    export TEDDERTEMPO
fi
cd "$(dirname "$0")/.."

work=$(mktemp -d)
trap 'rm -rf "$work"' EXIT
export PYTHONDONTWRITEBYTECODE=1

python=
for candidate in ${PYTHON:-python3 /usr/bin/python3}; do
    if "$candidate" -c 'import mypy, pytest' 2> /dev/null; then python=$candidate; break; fi
done
if [ -z "$python" ]; then
    echo "driver.sh: needs mypy and pytest for ${PYTHON:-python3}: packages mypy and python3-pytest, or pip install .[development]" >&2
    exit 1
fi

# The number before a word in pytest's last line; 0 if the word isn't there.
counted() { tail -n 1 "$work/log" | grep -oP "\d+(?= $1s?\b)" || echo 0; }

passed=0
failed=0
if "$python" -m mypy --cache-dir=/dev/null; then passed=1; else failed=1; fi
status=0
"$python" -m pytest --quiet --color=no --basetemp="$work/tests" "$@" 2>&1 | tee "$work/log" || status=$?
passed=$((passed + $(counted passed)))
failed=$((failed + $(counted failed) + $(counted error)))
if [ "$status" -ne 0 ] && [ "$failed" -eq 0 ]; then failed=1; fi
echo "$passed passed, $failed failed"
[ "$failed" -eq 0 ]
