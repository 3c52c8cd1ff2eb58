#!/bin/sh
# The tests of aces-c: ends with a line `N passed, N failed`. What is not there is told, and its tests are left out.
cd "$(dirname "$0")" || exit 1
if [ -n "$ACES" ] && [ ! -x "$ACES" ]; then
    echo "ACES names no program: $ACES"
    echo "0 passed, 1 failed"
    exit 1
fi
if ! command -v clang > /dev/null; then
    echo "left out: the tests of aces-c (clang is not installed)"
    echo "0 passed, 0 failed"
    exit 0
fi
python=
for one in python3 /usr/bin/python3; do
    "$one" -c 'import pytest' 2> /dev/null && python=$one && break
done
if [ -z "$python" ]; then
    echo "left out: the tests of aces-c (python3-pytest is not installed)"
    echo "0 passed, 0 failed"
    exit 0
fi
command -v csmith > /dev/null || echo "left out: random programs (csmith is not installed)"
"$python" -c 'import mypy' 2> /dev/null || echo "left out: the types of aces-c (mypy is not installed)"
for header in jsmn xxhash; do
    [ -e "/usr/include/$header.h" ] || echo "left out: the library $header (lib$header-dev is not installed)"
done
[ -x "${ACES:-../../../crates/aces/out/aces}" ] || echo "left out: comparisons (the program aces is not built; ACES may name it)"
out=$(mktemp) || exit 1
trap 'rm -rf "$out" "$out.d" "$out.t"' EXIT
mkdir "$out.t" || exit 1
TMPDIR=$out.t PYTHONDONTWRITEBYTECODE=1 "$python" -m pytest -q -rfP -p no:cacheprovider --basetemp="$out.d" . > "$out" 2>&1
status=$?
cat "$out"
count() { sed -n "\$s/.*[^0-9]*\b\([0-9][0-9]*\) $1.*/\1/p" "$out"; }
passed=$(count passed) failed=$(count failed) errors=$(count error)
failed=$((${failed:-0} + ${errors:-0}))
# pytest that did not come to its end counts as a failure
[ "$status" -eq 0 ] || [ "$failed" -gt 0 ] || failed=1
echo "${passed:-0} passed, $failed failed"
[ "$failed" -eq 0 ]
