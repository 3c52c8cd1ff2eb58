#!/bin/sh
# Runs examples/station.ir on QEMU's machine netduinoplus2, whose processor, protection unit, USARTs and timer nobody of this project wrote: as it is, then
# with a line on the radio that overflows the radio's buffer, with all functions in one compartment and in four, then with the radio's code replaced. Each
# time it tests what is seen. Nothing of this is proved, and nothing that is claimed rests on it.
# Needs qemu-system-arm and binutils-arm-none-eabi; the last part also python3 and gdb-multiarch. ACES names the program; else it is
# crates/aces/out/aces.
set -e
cd "$(dirname "$0")"
tools=$PWD
case ${ACES:=$tools/../crates/aces/out/aces} in /*) ;; *) ACES=$OLDPWD/$ACES ;; esac
export ACES
cd ../examples
ulimit -c 0
work=$(mktemp -d)
trap 'stop; rm -rf "$work"' EXIT
trap 'exit 1' HUP INT TERM
mkfifo "$work/radio.in" "$work/radio.out"
zeros=00000000000000000000000000000000

# stop: ends QEMU, where it runs.
stop() {
    [ ! -s "$work/pid" ] || kill "$(cat "$work/pid")" 2> "$work/killed" || :
}

# make NAME FIRMWARE BOARD: makes NAME.bin, the bytes of flash.
make() {
    "$ACES" compile "$2" "$3" filename "$work/$1.image"
    "$ACES" bin "$work/$1.image" "$work/$1.bin"
}

# ended: holds where QEMU has ended.
ended() {
    [ -s "$work/status" ]
}

# rounds N: holds where the console has that many lines more than at the last call that held, or QEMU has ended.
rounds() {
    ended && return
    [ "$(wc -l < "$work/console")" -ge $((seen + $1)) ] || return 1
    seen=$(wc -l < "$work/console")
}

# sent: holds where the radio has sent something.
sent() {
    dd if="$work/radio.out" iflag=nonblock oflag=append conv=notrunc of="$work/sent" 2> "$work/dd" || :
    [ -s "$work/sent" ]
}

# await CONDITION ..: waits for it, a minute at most.
await() {
    for _ in $(seq 600); do
        ! "$@" || return 0
        sleep 0.1
    done
    echo "waited in vain for: $*"
    exit 1
}

# start BIN: QEMU with these bytes of flash. A lockup, which is what a BKPT is without a debugger, ends it with status 134.
start() {
    seen=0
    rm -f "$work/status" "$work/pid"
    : > "$work/console"
    : > "$work/sent"
    exec 3<> "$work/radio.in" 4<> "$work/radio.out"
    {
        status=0
        timeout 300 nice qemu-system-arm -M netduinoplus2 -kernel "$1" -display none -monitor none -pidfile "$work/pid" \
            -serial "file:$work/console" -serial "pipe:$work/radio" -d in_asm -D "$work/log" > "$work/out" 2>&1 || status=$?
        echo $status > "$work/status"
    } 2> "$work/shell" &
}

# finish: prints the lines of the console in which something changed but the round, what the radio sent, and how QEMU stands or ended.
finish() {
    sent || :
    ended && status=$(cat "$work/status") || status=
    stop
    wait
    exec 3>&- 4>&-
    {
        awk '{ line = $0; sub(/^round [0-9]+/, "round ..") } $0 != last { print "  console: " line } { last = $0 }' "$work/console"
        [ ! -s "$work/sent" ] || echo "  radio sends: $(od -An -tx1 "$work/sent" | head -n 1)"
        case $status in
        '') echo "  it still runs" ;;
        134) sed -n 's/^.*bkpt  *#\([0-9]*\)$/  halted by BKPT #\1; QEMU:/p' "$work/log" | tail -n 1
             sed -n 's/^qemu: fatal/  fatal/p; s/^R04=\([0-9a-f]*\) .*/  the refused address, which the monitor has in r4: 0x\1/p' "$work/out" ;;
        *) echo "  QEMU ended with $status"; cat "$work/out" ;;
        esac
    } > "$work/told"
    cat "$work/told"
}

# expect TEXT: a line that was told has to end so.
expect() {
    grep -q "$1\$" "$work/told" || { echo "expected: $1"; exit 1; }
}

# shows TEXT: holds where a line of the console ends so, or QEMU has ended.
shows() {
    ended || grep -q "$1\$" "$work/console"
}

# boot BIN TEXT WORD ..: sends each word to the radio when three more rounds were made, and goes on until the console shows the
# text and then for three rounds, or until QEMU ends.
boot() {
    start "$1"
    text=$2
    shift 2
    for word; do
        await rounds 3
        printf "$word" >&3
    done
    await shows "$text"
    await rounds 3
    finish
}

# hostile CODE BOARD NAME [TARGET]: boots NAME.bin with other code over the radio's, until the radio sends or QEMU ends, and then
# for a second. TARGET is the address that the code is made for, that of limit where it is missing.
hostile() {
    "$ACES" list station.ir "$2" filename > "$work/list"
    base=$(awk '/^compartment/ { at = $4 } /^function radio_start$/ { print at }' "$work/list")
    target=${4:-$(sed -n 's/^slot . data \(0x[0-9a-f]*\) [0-9]* limit .*/\1/p' "$work/list")}
    arm-none-eabi-as -mcpu=cortex-m4 --defsym TARGET="$target" -o "$work/hostile.o" "$1"
    arm-none-eabi-objcopy -O binary -j .text "$work/hostile.o" "$work/hostile.code"
    cp "$work/$3.bin" "$work/hostile.bin"
    dd if="$work/hostile.code" of="$work/hostile.bin" bs=1 seek=$((base - 0x08000000)) conv=notrunc 2> "$work/dd"
    start "$work/hostile.bin"
    await eval 'ended || sent'
    sleep 1
    finish
}

awk '/^file / { if (n++) next } /^}$/ { next } { print } END { print "}" }' station.ir > "$work/flat.ir"
make station station.ir stm32f4.toml
make flat "$work/flat.ir" stm32f4.toml
make closed station.ir stm32f4_closed.toml
echo "The firmware, four compartments; on its radio it hears 35, and takes it as the heater's limit, then 77. It never takes more than 40."
boot "$work/station.bin" "heard 2" '35\n' '77\n'
expect "limit 35 heard 2"
expect "it still runs"
echo
echo "The same text with all functions in one file. On the radio comes 35, then a line of 36 bytes, of which the packet has room for 32."
boot "$work/flat.bin" "heard 2" '35\n' "${zeros}c\0\0\0\n"
expect "limit 99 heard 2"
expect "it still runs"
echo "The limit is what the line said: 99."
echo
echo "The four compartments, and the same line."
boot "$work/station.bin" "heard 2" '35\n' "${zeros}c\0\0\0\n"
expect "limit 35 heard 2"
expect "it still runs"
echo
echo "The four compartments, and a line of 70 bytes: it runs out of the radio's block."
boot "$work/station.bin" "heard 2" '35\n' "$zeros${zeros}cccccc\n"
expect "limit 35 heard 1"
expect "BKPT #7; QEMU:"

echo
echo "The radio's code is replaced: it sends H, and stores 99 to limit."
hostile station_writer.s stm32f4.toml station
expect "radio sends:  48"
expect "BKPT #7; QEMU:"
echo
echo "It sends H, and stores to the data register of the console's USART."
hostile station_writer.s stm32f4.toml station 0x40011004
expect "radio sends:  48"
expect "BKPT #7; QEMU:"
expect "0x40011004"
echo
echo "It loads limit, and sends what it is. On this board loads are open: the byte 0x14 is 20."
hostile station_reader.s stm32f4.toml station
expect "radio sends:  14"
expect "it still runs"
echo
echo "The same on a board with closed reads."
hostile station_reader.s stm32f4_closed.toml closed
expect "BKPT #9; QEMU:"
! grep -q "radio sends" "$work/told" || { echo "the radio sent what it may not read"; exit 1; }

for tool in gdb-multiarch python3; do
    command -v $tool > "$work/found" && continue
    echo "left out: the overflow under gdb ($tool is not installed)"
    echo "All else was seen as it had to be."
    exit 0
done
echo
echo "The overflow once more, under gdb with the firmware's lines and variables."
python3 "$tools/elf.py" station.ir stm32f4.toml filename "$work/station.elf" > "$work/made"
exec 3<> "$work/radio.in" 4<> "$work/radio.out"
: > "$work/console"
{
    for _ in $(seq 600); do
        [ "$(wc -l < "$work/console")" -lt 3 ] || break
        sleep 0.1
    done
    printf "35\n$zeros${zeros}cccccc\n" >&3
} &
timeout 120 nice gdb-multiarch -nx -batch "$work/station.elf" -ex "target remote | exec qemu-system-arm -M netduinoplus2 -kernel $work/station.elf \
    -display none -monitor none -serial file:$work/console -serial pipe:$work/radio -S -gdb stdio" -x "$tools/halted.gdb" -ex 'print limit' \
    -ex 'print packet' -ex kill 2> "$work/shell" | sed -n '/^halt/,/^\[Inf/{ /^\[Inf/!s/^/  /p; }' > "$work/told"
wait
sed "s:$PWD/::" "$work/told"
expect "halt 7 in compartment 3: refused was the address 0x20000c40, t_start in section .ram.t_start"
expect "in radio_poll () at .*station.ir:[0-9]*"
expect "#2 .*main () at .*station.ir:[0-9]*"
echo
echo "All of this was seen as it had to be."
