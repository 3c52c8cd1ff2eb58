#!/usr/bin/env bash
# How fast two programs run images, in millions of machine steps a second: the median of five runs of each, and the ratio.
#
#     tools/bench.sh PROGRAM OTHER [STEPS]
#
# PROGRAM and OTHER are built `aces`, as crates/aces/out/aces of two checkouts. The firmware texts are made here, and PROGRAM compiles
# them. The programs run in turn, each time for 20,000,000 steps if nothing else is said. Time is that of the processor in the program itself, so
# that other work on the machine counts as little as may be.
set -eu
program=$(realpath "$1") other=$(realpath "$2") steps=${3:-20000000}
export LC_ALL=C TIMEFORMAT=%U
work=$(mktemp -d)
trap 'rm -rf "$work"' EXIT
cd "$work"
: > tape

# Loads, stores and arithmetic on globals, in one compartment of two.
cat > loop.ir <<'TEXT'
global values: [64]u32
global total: u32
file loop.c {
  func main() {
    reg all: *[64]u32 reg at: *u32 reg sum: *u32 reg k: u32 reg one: u32 reg last: u32 reg v: u32 reg t: u32
    start: all = addr values sum = addr total one = 1 last = 63 jump round
    round: k = add k, one k = and k, last at = elem all, k v = load at v = add v, k store at, v
      t = load sum t = xor t, v store sum, t jump round
  }
}
file other.c { func rest() { b0: ret } }
TEXT

# Calls from one compartment to another, and back.
cat > calls.ir <<'TEXT'
file main.c { func main() { reg n: u32 start: jump round round: n = call next(n) jump round } }
file other.c { func next(n: u32) -> u32 { reg one: u32 b0: one = 1 n = add n, one ret n } }
TEXT

# Stores and loads of a local that another compartment has lent.
cat > loans.ir <<'TEXT'
file main.c { func main() { local x: [8]u32 reg p: *[8]u32 start: p = addr x call fill(p) ret } }
file other.c {
  func fill(p: *[8]u32) {
    reg at: *u32 reg k: u32 reg v: u32 reg last: u32
    start: last = 7 jump round
    round: at = elem p, k v = load at v = add v, last store at, v k = add k, last k = and k, last jump round
  }
}
TEXT

# Arithmetic on registers of the firmware, which lie in its frame.
cat > arithmetic.ir <<'TEXT'
file main.c {
  func main() {
    reg a: u32 reg b: u32 reg c: u32 reg d: u32
    start: a = 12345 b = 6789 d = 5 jump round
    round: a = add a, b b = mul b, a c = xor a, b c = shr c, d b = sub b, c c = ult a, b a = or a, c d = and d, c d = add d, c
      jump round
  }
}
file other.c { func rest() { b0: ret } }
TEXT

printf '[flash]\nbase = 0x08000000\nsize = 262144\n[ram]\nbase = 0x20000000\nsize = 65536\nstack = 2048\n' > 8
{ cat 8; printf '[mpu]\nregions = 16\nreads = "closed"\n'; } > 16

# The processor seconds that a program needs for an image.
seconds() {
    { time "$1" run "$2" tape "$steps" > printed; } 2>&1
    printf 'end limit\n' | cmp - printed >&2
}

median() {
    sort -g "$1" | sed -n 3p
}

echo "| firmware | regions | PROGRAM | OTHER | ratio |"
echo "|---|---|---|---|---|"
for firmware in loop calls loans arithmetic; do
    for regions in 8 16; do
        "$program" compile $firmware.ir $regions filename image
        : > mine
        : > theirs
        for _ in 1 2 3 4 5; do
            seconds "$program" image >> mine
            seconds "$other" image >> theirs
        done
        awk -v name=$firmware -v regions=$regions -v steps="$steps" -v mine="$(median mine)" -v theirs="$(median theirs)" 'BEGIN {
            printf "| %s | %s | %.1f | %.1f | %.2f |\n", name, regions, steps / mine / 1e6, steps / theirs / 1e6, theirs / mine }'
    done
done
