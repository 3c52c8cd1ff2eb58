#!/bin/sh
# Self-tests of the program: each size from 1 to 200 with one seed, and 200 seeds with one size; each ends with `same` and status 0. Of the greatest
# seed and the greatest size the lines are compared too, but for the number of machine steps; they were worked out apart from the program, by the rule
# of what is made. Ends with a line `N passed, N failed`. What needs the program is left out where it is not built.
cd "$(dirname "$0")" || exit 1
case ${ACES:=$PWD/../crates/aces/out/aces} in /*) ;; *) ACES=$OLDPWD/$ACES ;; esac
passed=0
failed=0
out=$(mktemp) || exit 1
trap 'rm -f "$out"' EXIT
trap 'exit 1' HUP INT TERM

# try SEED SIZE: makes a self-test; its lines are shown where it does not end with `same`.
try() {
    if "$ACES" selftest "$1" "$2" > "$out" 2>&1 && [ "$(wc -l < "$out")" -eq 5 ] && [ "$(tail -n 1 "$out")" = same ]; then
        passed=$((passed + 1))
    else
        failed=$((failed + 1))
        echo "selftest $1 $2:"
        cat "$out"
    fi
}

# expect SEED SIZE: makes a self-test, whose lines are compared with those on the standard input, M being any number of steps.
expect() {
    if [ "$("$ACES" selftest "$1" "$2" 2>&1 | sed 's/^image [0-9]* steps/image M steps/')" = "$(cat)" ]; then
        passed=$((passed + 1))
    else
        failed=$((failed + 1))
        echo "selftest $1 $2: other lines"
    fi
}

if [ -x "$ACES" ]; then
    expect 4294967295 1 << 'END'
functions 3 globals 1 peripherals 4
compartments 3 sites 1
source 32 steps 12 events end input
image M steps 12 events end input
same
END
    expect 1 200 << 'END'
functions 202 globals 200 peripherals 4
compartments 18 sites 255
source 5412 steps 200 events end input
image M steps 200 events end input
same
END
    number=1
    while [ "$number" -le 200 ]; do
        try 1 "$number"
        try "$((number * 21474836))" 24
        number=$((number + 1))
    done
else
    echo "left out: self-tests (the program aces is not built; ACES may name it)"
fi
echo "$passed passed, $failed failed"
[ "$failed" -eq 0 ]
