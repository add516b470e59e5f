#!/usr/bin/env bash
# Compares the S-records of `load` and `image` with their reports: m68k-linux-gnu-objcopy reads the records, and
# what it writes has the bytes of the report at their addresses. It ends with status 1 where they differ. It
# needs the toolchain, python3 and binutils-m68k-linux-gnu on the PATH, and 200 MB for temporary files.
set -eu
. "$(dirname "$0")/common.sh"
examples="$(cd "$benches/../examples" && pwd)"
make_file large --longwords 2097152 --sites 100000 --order random
cd "$folder"
"$amihunk" link --out linked "$examples/main.o" "$examples/library.o"

compare() { # NAME COMMAND..
    local name="$1"
    shift
    "$@" > report
    "$@" --srec > records
    m68k-linux-gnu-objcopy -I srec -O binary records copied
    python3 -c 'import sys
memory = {}
for line in sys.stdin:
    address, _, digits = line.partition(" ")
    if address != "hunk":
        memory[int(address, 16)] = bytes.fromhex(digits)
lowest, highest = min(memory), max(memory)
image = bytearray(highest - lowest + len(memory[highest]))
for address, row in memory.items():
    image[address - lowest : address - lowest + len(row)] = row
sys.stdout.buffer.write(image)' < report > reported
    if cmp copied reported; then
        printf '%-40s %10d bytes are the same\n' "$name" "$(stat -c %s copied)"
    else
        missed=1
    fi
}

compare "one hunk" "$amihunk" load --at 10000 "$examples/one-hunk.load"
compare "two hunks" "$amihunk" load --at 20000,10000 "$examples/two-hunks.load"
compare "a linked file" "$amihunk" load --at 10000,20000,30000,40000 linked
compare "object files" "$amihunk" image --at 40000,30000,20000,10000 "$examples/main.o" "$examples/library.o"
compare "8 MB with relocations" "$amihunk" load --at FF000000 large
exit "$missed"
