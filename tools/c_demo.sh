#!/bin/sh
# Shows the way from C to compartments on examples/rover: three files, an SVD excerpt and a tape. The program of aces is the one that ACES
# names, or crates/aces/out/aces, or else one that is built unproved for this run, as demo.sh does it.
set -e
cd "$(dirname "$0")/.."
rover=examples/rover
work=$(mktemp -d)
trap 'rm -rf "$work"' EXIT
trap 'exit 1' HUP INT TERM
program=${ACES:-crates/aces/out/aces}
mkdir "$work/cases"

# Makes one call of the program, now or with the others.
call() {
    name=$1
    shift
    if [ -x "$program" ]; then
        "$program" "$@" > "$work/$name"
    else
        : > "$work/cases/$name"
        printf '%s\n' "$@" > "$work/cases/$name.args"
    fi
}

echo "\$ tools/aces-c --svd $rover/rover.svd -o rover.ir $rover/control.c $rover/radio.c $rover/shell.c"
tools/aces-c --svd "$rover/rover.svd" -o "$work/rover.ir" "$rover/control.c" "$rover/radio.c" "$rover/shell.c"
grep -c '' "$work/rover.ir" | sed 's/$/ lines of firmware text; the first of the control loop:/'
sed -n '/^func step/,/load/p' "$work/rover.ir"

[ -x "$program" ] || echo "An unproved build of the program, with checks; it takes a minute or two."
call 10-list list "$work/rover.ir" "$PWD/examples/board.toml" filename
call 20-source source "$work/rover.ir" filename "$PWD/$rover/rover.tape" 100000
call 30-compile compile "$work/rover.ir" "$PWD/examples/board.toml" filename "$work/rover.image"
call 40-run run "$work/rover.image" "$PWD/$rover/rover.tape" 1000000
if [ ! -x "$program" ]; then
    (cd crates/aces && rt try --cases "$work/cases" > "$work/printed" 2> "$work/ends") || { cat "$work/ends" >&2; exit 1; }
    for name in 10-list 20-source 30-compile 40-run; do
        awk -v "name=$name" '/^== / { on = $2 == name; next } on' "$work/printed" > "$work/$name"
    done
fi

echo
echo "Each file is a compartment: what it may write, and what of that it does not need."
grep -E '^(compartment|function|slot|exposed|undeclared)' "$work/10-list"
echo
echo "The source on the tape: number of the compartment, access, peripheral. The last lines:"
tail -n 5 "$work/20-source"
cmp "$work/20-source" "$work/40-run"
echo "The image makes the same $(($(wc -l < "$work/40-run") - 1)) accesses, and ends as the source does."

echo
if [ -x "$program" ]; then
    ACES=$program tools/aces-c test --svd "$rover/rover.svd" --board examples/board.toml --tape "$rover/rover.tape" "$rover/control.c" \
        "$rover/radio.c" "$rover/shell.c"
else
    echo "Left out: aces-c test, which compares with the C run natively (ACES has to name a program that is built)."
fi
if command -v qemu-system-arm > "$work/found"; then
    python3 tools/qemu_run.py "$work/rover.image" "$rover/rover.tape" 1000000 > "$work/qemu"
    cmp "$work/40-run" "$work/qemu"
    echo "QEMU's Cortex-M4 and its protection unit make the same accesses from this image, and end as it does (docs/BOARDS.md)."
else
    echo "Left out: the same image on QEMU (qemu-system-arm is not installed)."
fi
