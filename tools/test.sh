#!/bin/sh
# Runs the tests of what is outside of the proof, its parts side by side; it writes in temporary folders alone. Each part tells what it left out
# for want of a tool, and ends with a line `N passed, N failed`, and so does this script; the pages are one more test, which fails where
# check_pages.py prints a line. Status 0 where nothing failed. ACES may name the program of aces; else it is crates/aces/out/aces, and what
# needs it is left out where it is not built.
if [ -n "$ACES" ]; then
    ACES=$(realpath -m "$ACES") || exit 1
    export ACES
else
    unset ACES
fi
cd "$(dirname "$0")" || exit 1
passed=0
failed=0
out=$(mktemp -d) || exit 1
trap 'rm -rf "$out"' EXIT
parts="acesc/tests/run.sh qemu_tests.sh selftest_tests.sh"

# The parts run side by side; what each printed is shown in their order.
for part in $parts; do
    name=$(echo "$part" | tr / .)
    (sh "$part" > "$out/$name" 2>&1; echo $? > "$out/$name.status") &
done
wait
for part in $parts; do
    name=$(echo "$part" | tr / .)
    echo "== $part"
    cat "$out/$name"
    status=$(cat "$out/$name.status")
    last=$(tail -n 1 "$out/$name")
    one=$(echo "$last" | sed -n 's/^\([0-9][0-9]*\) passed, \([0-9][0-9]*\) failed$/\1/p')
    other=$(echo "$last" | sed -n 's/^\([0-9][0-9]*\) passed, \([0-9][0-9]*\) failed$/\2/p')
    [ "$status" -eq 0 ] || [ "${other:-0}" -gt 0 ] || other=1
    [ -n "$one" ] || other=1
    passed=$((passed + ${one:-0}))
    failed=$((failed + ${other:-0}))
done
if ! command -v python3 > /dev/null; then echo "left out: pages (no python3)"; elif python3 check_pages.py; then passed=$((passed + 1)); else failed=$((failed + 1)); fi
echo "$passed passed, $failed failed"
[ "$failed" -eq 0 ]
