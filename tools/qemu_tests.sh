#!/bin/sh
# The tests of what runs on QEMU's processor, of the maps, and of the ELF files: ends with a line `N passed, N failed`. What is not there is told, and
# its tests are left out.
cd "$(dirname "$0")" || exit 1
case ${ACES:=$PWD/../crates/aces/out/aces} in /*) ;; *) ACES=$OLDPWD/$ACES ;; esac
export ACES PYTHONDONTWRITEBYTECODE=1
passed=0
failed=0
work=$(mktemp -d) || exit 1
trap 'rm -rf "$work"' EXIT
trap 'exit 1' HUP INT TERM

# has COMMAND PACKAGE WHAT: whether the command is there; tells what is left out where it is not.
has() {
    command -v "$1" > "$work/found" || {
        echo "left out: $3 ($2 is not installed)"
        return 1
    }
}

# try WHAT WORD ..: runs a test; its output is shown where it fails, and else its last line.
try() {
    what=$1
    shift
    if "$@" > "$work/out" 2>&1; then
        passed=$((passed + 1))
        echo "$what: $(tail -n 1 "$work/out")"
    else
        failed=$((failed + 1))
        cat "$work/out"
        echo "$what failed"
    fi
}

# ELF files of the examples; elf.py itself compares their bytes with those of the image.
elf_files() {
    files=0
    for firmware in sample heater satellite station; do
        for policy in filename optimized peripheral; do
            for board in board16 stm32f4; do
                python3 elf.py ../examples/$firmware.ir ../examples/$board.toml $policy "$work/elf" || return 1
                files=$((files + 1))
            done
        done
    done
    echo "$files files have the bytes of their images"
}

# Maps of the examples, and of firmwares whose ranges and globals are joined: what is hatched is what the listing tells.
maps() {
    awk '/^file / { if (n++) next } /^}$/ { next } { print } END { print "}" }' ../examples/station.ir > "$work/flat.ir"
    sed 's/^\[mpu\]$/&\nreads = "closed"/; $!b; /reads/b' ../examples/board.toml > "$work/closed.toml"
    grep -q '^reads' "$work/closed.toml" || printf '[mpu]\nreads = "closed"\n' >> "$work/closed.toml"
    drawn=0
    : > "$work/hatched"
    for firmware in ../examples/sample.ir ../examples/heater.ir ../examples/satellite.ir ../examples/station.ir "$work/flat.ir"; do
        for policy in filename optimized peripheral; do
            for board in ../examples/board.toml ../examples/board16.toml ../examples/stm32f4.toml "$work/closed.toml"; do
                "$ACES" list "$firmware" "$board" $policy > "$work/list" && python3 map.py "$firmware" "$board" $policy "$work/svg" \
                    && python3 debug_info/hatched.py "$work/svg" "$work/list" >> "$work/hatched" || return 1
                drawn=$((drawn + 1))
            done
        done
    done
    for kind in global read undeclared; do
        grep -q "$kind=[1-9]" "$work/hatched" || { echo "nothing hatched: $kind"; return 1; }
    done
    echo "$drawn maps, $(grep -c '=[1-9]' "$work/hatched") with hatching, tell what their listings tell"
}

# The station with all its functions in one compartment: addresses that no peripheral declares are told, and where one of them is the flash
# controller's, which a board denies, there is no listing.
joined() {
    awk '/^file / { if (n++) next } /^}$/ { next } { print } END { print "}" }' ../examples/station.ir > "$work/flat.ir"
    "$ACES" list "$work/flat.ir" ../examples/stm32f4.toml filename > "$work/list" || return 1
    [ "$(grep undeclared "$work/list" | tr '\n' ' ')" = "undeclared 0x40000400 16384 undeclared 0x40004800 14336 undeclared 0x40020800 1024 \
undeclared 0x40021000 10240 undeclared 0x40023c00 1024 " ] || { cat "$work/list"; return 1; }
    "$ACES" list "$work/flat.ir" ../examples/stm32f4_denied.toml filename > "$work/list" 2> "$work/refused"
    [ $? -eq 3 ] && [ ! -s "$work/list" ] \
        && [ "$(cat "$work/refused")" = "aces: deny: compartment 0: range 0x40020000 16384 meets flash_controller" ] || { cat "$work/refused"; return 1; }
    echo "what the station in one compartment reaches undeclared is told, and refused where it is denied"
}

# What gdb tells of a call across compartments.
calls() {
    python3 elf.py ../examples/station.ir ../examples/stm32f4.toml filename "$work/elf" || return 1
    timeout 120 nice gdb-multiarch -nx -batch "$work/elf" -ex "target remote | exec qemu-system-arm -M netduinoplus2 -kernel $work/elf -display none \
        -monitor none -serial null -serial null -S -gdb stdio" -ex 'break number' -ex continue -ex backtrace -ex kill > "$work/calls" 2> "$work/shell"
    grep '^#' "$work/calls"
    grep -q '^#0 .*number (v=1) at .*station.ir:[0-9]' "$work/calls" && grep -q '^#1 *<signal handler called>' "$work/calls" \
        && grep -q '^#2 .*report () at .*station.ir:[0-9]' "$work/calls" && grep -q '^#3 .*main () at .*station.ir:[0-9]' "$work/calls" \
        && echo "gdb tells the callers in two compartments"
}

# The instrument of hostile code finds what a slot that is too wide lets through.
found() {
    python3 qemu_hostile.py --control 20 > "$work/control" && return 1
    grep -q "has changed$" "$work/control" && tail -n 1 "$work/control"
}

# The types of the Python files.
types() {
    "$python" -m mypy --strict --cache-dir /dev/null elf.py map.py debug_info/hatched.py qemu_run.py qemu_hostile.py
}

if has python3 python3 "all tests of maps, ELF files and QEMU"; then
    python=
    for one in python3 /usr/bin/python3; do
        "$one" -c 'import mypy' 2> "$work/found" && python=$one && break
    done
    if [ -n "$python" ]; then try types types; else echo "left out: types (mypy is not installed)"; fi
    if [ ! -x "$ACES" ]; then
        echo "left out: maps, ELF files, and all on QEMU (the program aces is not built; ACES may name it)"
    else
        try maps maps
        try "joined ranges" joined
        has arm-none-eabi-ld binutils-arm-none-eabi "ELF files" && try "ELF files" elf_files
        has qemu-system-arm qemu-system-arm "QEMU beside aces run, hostile code on QEMU, and the demo" && {
            try "QEMU beside aces run" ./qemu_check.sh
            try "hostile code on QEMU" ./qemu_hostile.py 40
            try "hostile code, its slot opened" found
            has arm-none-eabi-ld binutils-arm-none-eabi "calls in gdb" && has gdb-multiarch gdb-multiarch "calls in gdb" && try "calls in gdb" calls
            has arm-none-eabi-as binutils-arm-none-eabi "the demo on QEMU" && try "the demo on QEMU" ./qemu_demo.sh
        }
    fi
fi
echo "$passed passed, $failed failed"
[ "$failed" -eq 0 ]
