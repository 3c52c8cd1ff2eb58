#!/usr/bin/env bash
# How the time of the commands grows with the firmware: each shape of firmware at three sizes, with the seconds of each command, the
# least of three calls, and in brackets by what they grew from size to size. Then the most memory that `list` takes, in MB, where there is GNU time.
#
#     tools/bench_sizes.sh PROGRAM [SHAPE ..]
#
# PROGRAM is a built `aces`. The firmware texts are made here. The largest of each shape is at a limit of a text or of what is compiled, or
# near it. `source` makes 1,000 steps, `run` 1,000,000. Time is that of the processor for the program, so that other work on the machine
# counts as little as may be. A command that refuses the firmware, as what does not fit the board, has no time.
set -eu
program=$(realpath "$1")
shift
shapes=${*:-text functions blocks globals calls behind among sets}
export LC_ALL=C TIMEFORMAT='%U %S'
work=$(mktemp -d)
trap 'rm -rf "$work"' EXIT
cd "$work"
: > tape
printf '[flash]\nbase = 0x08000000\nsize = 1048576\n[ram]\nbase = 0x20000000\nsize = 1048576\nstack = 4096\n' > board

# The sizes of a shape.
sizes() {
    case $1 in
        calls | behind) echo 1000 2000 4000 ;;
        among) echo 4096 8192 16384 ;;
        sets) echo 20 40 80 ;;
        *) echo 256 512 1024 ;;
    esac
}

# Functions of so many instructions each, in 16 files, that call each other.
functions() {
    awk -v n="$1" -v each="$2" 'BEGIN {
        for (file = 0; file < 16; file++) {
            printf "file f%d.c {\n", file
            for (f = file; f < n; f += 16) {
                printf "func %s() { reg a: u32 b: a = 1\n", f == 0 ? "main" : "f" f
                for (k = 3; k <= each; k++) print "a = add a, a"
                if (f + 16 < n) printf "call f%d() ", f + 16
                print "ret }"
            }
            print "}"
        }
    }'
}

# One function of so many blocks.
blocks() {
    awk -v n="$1" 'BEGIN {
        print "file main.c { func main() { reg a: u32 reg b: u32"
        for (k = 0; k < n - 1; k++) printf "b%d: a = 1 b = %d a = eq a, b branch a b%d b%d\n", k, k, k + 1, int((k + n) / 2)
        printf "b%d: ret } }\nfile other.c { func rest() { b0: ret } }\n", n - 1
    }'
}

# So many globals, each written in two of 16 files.
globals() {
    awk -v n="$1" 'BEGIN {
        for (k = 0; k < n; k++) printf "global g%d: u32\n", k
        for (file = 0; file < 16; file++) {
            printf "file f%d.c { func %s() { reg p: *u32 reg v: u32 b: v = 1\n", file, file == 0 ? "main" : "f" file
            for (k = 0; k < n; k++) if (k % 16 == file || int(k / 16) % 16 == file) printf "p = addr g%d store p, v\n", k
            print "ret } }"
        }
    }'
}

# One function that makes so many calls to another compartment, calls of its own compartment, and other instructions before them.
calls() {
    awk -v far="$1" -v near="$2" -v others="$3" 'BEGIN {
        print "file main.c { func main() { reg n: u32 b: n = 1"
        for (k = 1; k < others; k++) print "n = add n, n"
        for (k = 0; k < far || k < near; k++) {
            if (k < far) print "n = call next(n)"
            if (k < near) print "n = call own(n)"
        }
        print "ret } func own(n: u32) -> u32 { b: ret n } }"
        print "file other.c { func next(n: u32) -> u32 { b: ret n } }"
    }'
}

# So many functions with 100 registers, each of which may hold the addresses of 1,000 globals.
sets() {
    awk -v n="$1" 'BEGIN {
        print "global cell: *u32"
        for (k = 0; k < 1000; k++) printf "global g%d: u32\n", k
        print "file main.c { func main() { reg p: **u32 reg q: *u32 b: p = addr cell"
        for (k = 0; k < 1000; k++) printf "q = addr g%d store p, q\n", k
        print "ret }"
        for (f = 0; f < n; f++) {
            printf "func f%d() { reg p: **u32\n", f
            for (k = 0; k < 100; k++) printf "reg r%d: *u32\n", k
            print "b: p = addr cell"
            for (k = 0; k < 100; k++) printf "r%d = load p\n", k
            print "ret }"
        }
        print "}"
    }'
}

# The text of a shape at a size.
text_of() {
    case $1 in
        text) functions "$2" 310 ;;
        functions) functions "$2" 60 ;;
        blocks) blocks "$2" ;;
        globals) globals "$2" ;;
        calls) calls "$2" 0 1 ;;
        behind) calls "$2" 0 12384 ;;
        among) calls $(($2 / 4 - 1)) $(($2 * 3 / 4)) 1 ;;
        sets) sets "$2" ;;
    esac
}

# The words of a command on the firmware of this name.
words() {
    case $1 in
        check) echo check "$2.ir" ;;
        list) echo list "$2.ir" board filename ;;
        compile) echo compile "$2.ir" board filename "$2.image" ;;
        source) echo source "$2.ir" filename tape 1000 ;;
        run) echo run "$2.image" tape 1000000 ;;
    esac
}

# The processor seconds of a call, the least of three; a dash where it refuses.
seconds() {
    "$program" "$@" > printed 2>&1 || { echo -; return; }
    for _ in 1 2 3; do
        { time "$program" "$@" > printed; } 2>&1
    done | awk '{ print $1 + $2 }' | sort -g | sed -n 1p
}

# The most memory that a call takes, in MB; a dash where it refuses, and where nothing measures it.
megabytes() {
    { command time -f %M "$program" "$@" > printed; } 2> measured && awk 'END { printf "%.1f\n", $1 * 1024 / 1000000 }' measured || echo -
}

# The figures at three sizes, and by what they grew.
cell() {
    echo "$@" | awk '{
        growth = ""
        for (k = 2; k <= NF; k++) growth = growth (k > 2 ? ", " : "") ($(k - 1) > 0 && $k > 0 ? sprintf("%.1f", $k / $(k - 1)) : "-")
        gsub(/ /, ", ")
        printf " %s (%s) |", $0, growth
    }'
}

echo "| shape | sizes | \`check\` | \`list\` | \`compile\` | \`source\` | \`run\` |"
echo "|---|---|---|---|---|---|---|"
for shape in $shapes; do
    printf '| %s | %s |' "$shape" "$(sizes "$shape" | sed 's/ /, /g')"
    for size in $(sizes "$shape"); do
        text_of "$shape" "$size" > "$shape$size.ir"
    done
    for command in check list compile source run; do
        all=""
        for size in $(sizes "$shape"); do
            # shellcheck disable=SC2046
            all="$all $(seconds $(words $command "$shape$size"))"
        done
        # shellcheck disable=SC2086
        cell $all
    done
    echo
done

echo
echo "| shape | sizes | MB of \`list\` |"
echo "|---|---|---|"
for shape in $shapes; do
    printf '| %s | %s |' "$shape" "$(sizes "$shape" | sed 's/ /, /g')"
    all=""
    for size in $(sizes "$shape"); do
        # shellcheck disable=SC2046
        all="$all $(megabytes $(words list "$shape$size"))"
    done
    # shellcheck disable=SC2086
    cell $all
    echo
done
