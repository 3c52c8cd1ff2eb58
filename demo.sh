#!/bin/sh
# Shows what the program does with the example firmwares on recorded device input. Where ACES names a built program, it is that one. Else the
# program is built once by the kit (`rt`) and run as it stands: nothing of it is proved here. `rt ci` proves it.
set -e
case $ACES in '' | /*) ;; *) ACES=$PWD/$ACES ;; esac
if [ -n "$ACES" ] && [ ! -x "$ACES" ]; then
    echo "demo.sh: no program $ACES" >&2
    exit 1
fi
if [ -z "$ACES" ] && ! command -v rt > /dev/null; then
    echo "demo.sh: it needs the Rattle kit (rt), or a built program that ACES names" >&2
    exit 1
fi
cd "$(dirname "$0")"
examples=$PWD/examples
work=$(mktemp -d)
build=
trap '[ -z "$build" ] || kill "$build" 2> /dev/null || :; rm -rf "$work"' EXIT
trap 'exit 1' HUP INT TERM
mkdir "$work/cases"
mkfifo "$work/go"

# Puts a call of the program among those of the build; calls are made in the order of their names, the first word here.
call() {
    name=$1
    shift
    : > "$work/cases/$name"
    printf '%s\n' "$@" > "$work/cases/$name.args"
}

# Prints what a call printed.
printed() {
    awk -v "name=$1" '/^== / { on = $2 == name; next } on' "$work/printed"
}

# Prints a call, what it printed, and its exit status where that is another than 0.
show() {
    echo
    echo "$ aces $(paste -s -d ' ' "$work/cases/$1.args" | sed "s:$examples/::g; s:$work/::g")"
    printed "$1"
    sed -n "s/^case=$1 .*status=\([1-9][0-9]*\) .*/(exit status \1)/p" "$work/ends"
}

cd "$examples"
call 10-check check "$examples/satellite.ir"
sed 's/field at, rate/field at, speed/' "$examples/satellite.ir" > "$work/faulty.ir"
call 10-explain explain "$work/faulty.ir"
call 11-list list "$examples/satellite.ir" "$examples/board.toml" filename
call 12-list list "$examples/satellite.ir" "$examples/board16.toml" filename
call 13-stack stack "$examples/satellite.ir" "$examples/board.toml" filename
call 14-stack stack "$examples/satellite.ir" "$examples/board16.toml" filename
call 15-who who "$examples/satellite.ir" "$examples/board.toml" filename
call 16-symbols symbols "$examples/satellite.ir" "$examples/board.toml" filename
call 20-compile compile "$examples/satellite.ir" "$examples/board.toml" filename "$work/satellite.image"
call 21-compile compile "$examples/satellite.ir" "$examples/board16.toml" filename "$work/satellite16.image"
call 22-audit audit "$work/satellite.image"
call 23-audit audit "$work/satellite16.image"
call 24-tables tables "$work/satellite.image"
call 30-source source "$examples/satellite.ir" filename "$examples/satellite.tape" 10000
call 31-run run "$work/satellite.image" "$examples/satellite.tape" 100000
call 32-run run "$work/satellite16.image" "$examples/satellite.tape" 100000

# Every example on both boards under the three policies.
all=""
for firmware in sample heater satellite; do
    for policy in filename optimized peripheral; do
        for board in board board16; do
            one=$firmware.$policy.$board
            call "40-$one" compile "$examples/$firmware.ir" "$examples/$board.toml" "$policy" "$work/$one"
            call "41-$one" run "$work/$one" "$examples/$firmware.tape" 100000
            call "42-$one" source "$examples/$firmware.ir" "$policy" "$examples/$firmware.tape" 10000
            all="$all $one"
        done
    done
done

# A radio that was taken over, an image whose tables give the radio the stack, and one with another monitor. The flash bytes come first, to
# know where they begin in the image; at the pipe `go` the program waits until these images are made.
call 50-bin bin "$work/satellite16.image" "$work/flash"
call 51-bin bin "$work/satellite16.image" "$work/flash.again"
call 52-go bin "$work/satellite16.image" "$work/go"
call 53-hostile run "$work/hostile.image" "$examples/satellite.tape" 100000
call 54-audit audit "$work/hostile.image"
call 55-tables tables "$work/greedy.image"
call 56-tables tables "$work/monitor.image"
call 57-state state "$work/hostile.image" "$examples/satellite.tape" 100000
call 60-selftest selftest 1 50

# changed IMAGE OFFSET writes satellite16.image as that image, but for bytes of its flash from OFFSET on, which come on standard input.
changed() {
    start=$(($(wc -c < "$work/satellite16.image") - $(wc -c < "$work/flash")))
    cp "$work/satellite16.image" "$work/$1"
    dd of="$work/$1" bs=1 seek=$((start + $2)) conv=notrunc 2> "$work/dd" || cat "$work/dd" >&2
}

# The hostile code, 22 bytes where the listing has the radio's code, 0x2300 behind the start of flash. It puts 7 into the radio's own
# peripheral, and then into `effort`, a global of the control loop at 0x20000c60.
hostile() {
    printf '\101\362\000\001\304\362\001\001' # MOVW r1,#0x1000; MOVT r1,#0x4001
    printf '\007\040\010\140'                 # MOVS r0,#7; STR r0,[r1,#0]
    printf '\100\366\140\101\302\362\000\001' # MOVW r1,#0x0c60; MOVT r1,#0x2000
    printf '\010\140'                         # STR r0,[r1,#0]
}

# The images that differ from satellite16.image. The record of the radio, which is compartment 2, stands 4,128 + 2 * 112 bytes behind the start of
# flash, and its first slot 8 bytes behind that: now it holds the 2,048 bytes of the stack at 0x20000000, to be written. In the other one the
# address at which the processor starts is changed, 4 bytes behind the start of flash.
images() {
    hostile | changed hostile.image 0x2300
    printf '\024\000\000\040\025\000\006\023' | changed greedy.image $((4128 + 2 * 112 + 8))
    printf '\001' | changed monitor.image 4
}

# The calls in their order, by the program that ACES names: what each prints stands below its name, and its status in a line of `ends`.
run_calls() {
    for words in "$work"/cases/*.args; do
        name=$(basename "$words" .args)
        set --
        while IFS= read -r word; do set -- "$@" "$word"; done < "$words"
        ended=0
        echo "== $name"
        "$ACES" "$@" || ended=$?
        echo "case=$name by=ACES status=$ended end" >&3
    done > "$work/printed" 3> "$work/ends"
}

if [ -n "$ACES" ]; then
    echo "The program is $ACES."
    run_calls &
else
    echo "An unproved build of the program, with checks; it takes a minute or two."
    (cd ../crates/aces && exec rt try --cases "$work/cases" > "$work/printed" 2> "$work/ends") &
fi
build=$!
while [ ! -e "$work/flash.again" ] && kill -0 "$build" 2> /dev/null; do sleep 1; done
if [ -e "$work/flash.again" ]; then
    images
    exec 3<> "$work/go"
fi
wait "$build" || { cat "$work/ends" >&2; exit 1; }
build=

echo
echo "The firmware of a small satellite: a control loop, a sensor driver and a radio, which are to be kept apart."
show 10-check
echo
echo "What is wrong with a text in which a field has another name: where, what was found and expected, and the rule."
show 10-explain | sed "s:$work/::g"
[ "$(printed 10-explain | grep -c '^found speed$')" = 1 ]

echo
echo "Its compartments on a board with 8 regions, and what each may write. The radio may write 4 bytes without need."
show 11-list
echo
echo "The same with 16 regions, where all that is not needed is closed to reading too. Nothing is exposed."
show 12-list

echo
echo "The first by object: who may write and use what, who needs it, and what is exposed, by name; and who calls whom across compartments."
show 15-who

echo
echo "Where all of this lies, for a debugger: the functions, globals and calls to other compartments, among lines for each instruction."
echo
echo "$ aces symbols satellite.ir board.toml filename | grep -E '^(function|global|site) '"
printed 16-symbols | grep -E '^(function|global|site) '

echo
echo "How much of the stack its calls need at most, and by which path. Both fit, so the images follow every run of the source that meets no fault."
show 13-stack
show 14-stack

echo
echo "Images for both boards: code, monitor and tables."
show 20-compile
show 21-compile

echo
echo "What one who gets such an image can check without the compiler, and what its tables say: the radio may write 64 bytes of its own and two shared ranges."
show 22-audit
show 23-audit
show 24-tables

echo
echo "The source on recorded input, and the image on the simulated processor: number of the compartment, access, peripheral."
show 30-source
show 31-run
printed 30-source > "$work/source"
for it in 31-run 32-run; do
    printed "$it" > "$work/run"
    cmp "$work/source" "$work/run"
done
echo
echo "The images of both boards make the same accesses, by the same compartments, in the same order, as the source, and end as it does."

for one in $all; do
    printed "41-$one" > "$work/run"
    printed "42-$one" > "$work/source"
    [ -s "$work/source" ] && cmp "$work/source" "$work/run" || { echo "source and image differ: $one"; exit 1; }
    echo "source and image agree: $(echo "$one" | tr . ' ')"
done

echo
echo "Now the radio is hostile: in the image for the second board its code is overwritten by code that stores into the control loop's effort."
echo "The tables are the same, and only bytes behind them differ; so this image too is one of those of which it is proved that the radio changes"
echo "no byte of effort, and no other store of it leaves what it may write, whatever code it executes."
printed 12-list | grep -q '^compartment 2 code 0x08002300 '
printed 12-list | grep -q '^slot . data 0x20000c60 32 effort$'
show 53-hostile
echo
echo "The hostile code runs and reaches the radio's own peripheral; its store into effort is refused, and the monitor ends the run by halt 7."
printed 53-hostile | grep '^[01] ' > "$work/others"
printed 30-source | grep '^[01] ' | head -n "$(wc -l < "$work/others")" | cmp - "$work/others"
echo "Up to there the control loop and the sensor driver did what they do in the source."
echo
echo "What the machine holds then: it is compartment 2, the radio, that stored at 0x20000c60, which is effort, by its instruction at 0x08002314."
show 57-state
printed 57-state | grep -q '^compartment 2 '
printed 57-state | grep -q '^fault cfsr 0x00000082 address 0x20000c60$'
printed 57-state | grep -q '^frame 0x[0-9a-f]* pc 0x08002314 '
echo
echo "Such an image still passes the audit: its tables and its monitor are whole, and its code is no matter."
show 54-audit
printed 23-audit | grep -q '^yes '
printed 23-audit > "$work/yes"
printed 54-audit | cmp - "$work/yes"
echo
echo "An image whose tables give the radio the stack, and one whose monitor is another, do not pass, and what their tables say is not told."
show 55-tables
show 56-tables
[ "$(printed 55-tables)" = "no regions 0x08001100" ]
[ "$(printed 56-tables)" = "no code 0x08000004" ]
echo
echo "A firmware that nobody wrote: 50 functions by draws, compiled, and run by its source and by its image."
show 60-selftest
[ "$(printed 60-selftest | tail -n 1)" = same ]
echo
echo "All of this was run unproved. This proves every crate and builds the program, with a line for each crate: rt ci 2>&1 | tools/progress.py"
