#!/bin/sh
# Compares `aces run` with QEMU's Cortex-M4 and its protection unit: the examples on four boards under the three policies, the station with a line
# on its radio that is too long, code that takes a radio over, cores whose protection unit is another one, and programs made from C where clang is there. Two runs are equal where they print the same
# lines and end with the same status, and where each line comes behind the same number of instructions; of a run some lines are looked at for
# that, the first and the last among them. Nothing of this is proved, and nothing that is claimed rests on it.
# Needs qemu-system-arm and python3. ACES names the program; else it is crates/aces/out/aces. Prints a line for each difference, and at the
# end how many runs and instructions were compared.
set -e
cd "$(dirname "$0")"
tools=$PWD
case ${ACES:=$tools/../crates/aces/out/aces} in /*) ;; *) ACES=$OLDPWD/$ACES ;; esac
cd ../examples
work=$(mktemp -d)
trap 'rm -rf "$work"' EXIT
trap 'exit 1' HUP INT TERM
most=100000
runs=0
steps=0
places=0
differ=0

# Tells a difference.
tell() {
    differ=$((differ + 1))
    echo "$1"
}

# prefix NAME IMAGE TAPE STEPS LINES END: by so many steps `aces run` prints the first so many of QEMU's lines, and END behind them where it is a text.
prefix() {
    head -n "$5" "$work/qemu" > "$work/want"
    [ -z "$6" ] || echo "$6" >> "$work/want"
    "$ACES" run "$2" "$3" "$4" > "$work/have" || :
    cmp -s "$work/want" "$work/have" || tell "$1: other lines within $4 instructions"
}

# same NAME IMAGE TAPE: both run the image.
same() {
    one=0
    other=0
    "$ACES" run "$2" "$3" $most > "$work/machine" || one=$?
    nice python3 "$tools/qemu_run.py" --steps "$work/steps" "$2" "$3" $most > "$work/qemu" || other=$?
    runs=$((runs + 1))
    if ! cmp -s "$work/machine" "$work/qemu" || [ $one != $other ]; then
        tell "$1: status $one and $other"
        diff "$work/machine" "$work/qemu" | head -n 4
        return
    fi
    lines=$(wc -l < "$work/steps")
    steps=$((steps + $(tail -n 1 "$work/steps")))
    for line in 1 $((lines / 2)) "$lines"; do
        [ "$line" -gt 0 ] || continue
        at=$(sed -n "${line}p" "$work/steps")
        last="end limit"
        [ "$line" -lt "$lines" ] || last=
        places=$((places + 1))
        prefix "$1" "$2" "$3" "$at" "$line" "$last"
        [ "$at" -eq 0 ] || [ "$at" -eq $most ] || prefix "$1" "$2" "$3" $((at - 1)) $((line - 1)) "end limit"
    done
}

# board NAME REGIONS READS: makes a board like the two of the examples.
board() {
    cat board.toml > "$work/$1.toml"
    printf '[mpu]\nregions = %s\nreads = "%s"\n' "$2" "$3" >> "$work/$1.toml"
}

# The examples.
board open8 8 open
board closed8 8 closed
board open16 16 open
board closed16 16 closed
for firmware in sample heater satellite; do
    for policy in filename optimized peripheral; do
        for board in open8 closed8 open16 closed16; do
            "$ACES" compile $firmware.ir "$work/$board.toml" $policy "$work/image"
            same "$firmware $policy $board" "$work/image" $firmware.tape
        done
    done
done
echo "examples: $runs runs, $steps instructions"

# The station: its radio hears 35, and then a line that does not end. The console is always ready, and a round ends with every 40th poll.
awk 'BEGIN {
    for (k = 0; k < 4; k++) print "RCC 0\nGPIOA 0\nGPIOB 0\nGPIOD 0\nTIM2 0"
    for (k = 0; k < 400; k++) { print "USART1 0x80"; print "TIM2 " k * 400 }
    print "USART2 0\nUSART2 0x20\nUSART2 51\nUSART2 0\nUSART2 0x20\nUSART2 53\nUSART2 0x20\nUSART2 10"
    for (k = 0; k < 80; k++) print "USART2 0\nUSART2 0x20\nUSART2 99"
}' > "$work/station.tape"
for board in stm32f4 stm32f4_closed; do
    "$ACES" compile station.ir $board.toml filename "$work/image"
    same "station $board" "$work/image" "$work/station.tape"
    grep -q '^end halt 7$' "$work/qemu" || tell "station $board: no halt 7"
done

# A radio that was taken over, as demo.sh shows it: its own peripheral, then `effort` of the control loop.
"$ACES" compile satellite.ir board16.toml filename "$work/image"
"$ACES" bin "$work/image" "$work/flash"
start=$(($(wc -c < "$work/image") - $(wc -c < "$work/flash") + 0x2300))
printf '\101\362\000\001\304\362\001\001\007\040\010\140\100\366\140\101\302\362\000\001\010\140' |
    dd of="$work/image" bs=1 seek=$start conv=notrunc 2> "$work/dd"
same "hostile radio" "$work/image" satellite.tape
grep -q '^end halt 7$' "$work/qemu" || tell "hostile radio: no halt 7"

# A core whose unit has another number of regions than the image was made for, or that has none.
for regions in 8 16; do
    "$ACES" compile satellite.ir "$work/closed$regions.toml" filename "$work/image"
    for other in 0 $((24 - regions)); do
        nice python3 "$tools/qemu_run.py" --regions $other "$work/image" satellite.tape $most > "$work/qemu" || :
        [ "$(cat "$work/qemu")" = "end halt 10" ] || tell "made for $regions regions, run on $other: no halt 10"
    done
    # the image's file has the number at byte 40
    printf "\\$(printf %o $((24 - regions)))" | dd of="$work/image" bs=1 seek=40 conv=notrunc 2> "$work/dd"
    same "made for $regions regions, run on $((24 - regions))" "$work/image" satellite.tape
    grep -q '^end halt 10$' "$work/qemu" || tell "made for $regions regions, run on $((24 - regions)): no halt 10"
done
echo "with halts: $runs runs, $steps instructions"

# Programs made from C, on the tapes of the tests of aces-c.
if command -v clang > /dev/null; then
    programs=$tools/acesc/tests/programs
    sed 's/^size = 262144/size = 524288/; s/^size = 65536/size = 131072/; s/^stack = .*/stack = 8192/' "$work/closed8.toml" > "$work/c.toml"
    most=5000
    for program in "$programs"/*/main.c; do
        folder=$(dirname "$program")
        name=$(basename "$folder")
        PYTHONDONTWRITEBYTECODE=1 PYTHONPATH=$tools/acesc/tests python3 -c 'if True:
            import pathlib, sys, support
            print(support.tape(pathlib.Path(sys.argv[1]), sys.argv[2]), end="")' "$folder" "$name" > "$work/c.tape"
        "$tools/aces-c" -p "$folder/peripherals.txt" -I "$programs" -o "$work/c.ir" "$folder"/*.c 2> "$work/notes"
        "$ACES" compile "$work/c.ir" "$work/c.toml" filename "$work/image"
        same "$name" "$work/image" "$work/c.tape"
    done
else
    echo "left out: programs made from C (clang is not installed)"
fi
echo "$runs runs of $steps instructions compared, $places of their lines by the number of instructions too; $differ differ"
[ $differ = 0 ]
