#!/usr/bin/env bash
# Measures how much memory each command of the program takes for each byte of its file, at the worst file that a search over shapes
# finds; for files of content, of relocations and of names; and for a small file with a site far behind what it stores. It makes its
# own inputs, and prints for each figure what is allowed and what was reached. It ends with status 1 where a figure is missed. It needs
# the toolchain, a C compiler ($CC, or cc) and python3 on the PATH.
set -eu
. "$(dirname "$0")/common.sh"
size=400000
cd "$folder"
"${CC:-cc}" -std=gnu11 -O2 "$benches/peak.c" -o peak

python3 "$benches/amplification.py" ./peak "$amihunk" "$size" > worst
while IFS=$'\t' read -r command content relocations names ratio shape; do
    echo "$command: for a byte of content $content, of relocations $relocations, of names $names; the worst is $shape"
    figure "memory of $command by its file" 20 "$ratio" times
done < worst

# A load file of one hunk of 2^24 longwords, which stores one of them and relocates the last.
printf '%08x' 0x3f3 0 1 0 0 0x1000000 0x3e9 1 0 0x3ec 1 0 0x3fffffc 0 0x3f2 | xxd -r -p > far
printf '%08x' 0x3f3 0 1 0 0 0x1000000 0x3e9 1 0 0x3f2 | xxd -r -p > near
for words in "check" "show" "copy --out out"; do
    read -ra words <<< "$words"
    read -r _ kib <<< "$(./peak "$amihunk" "${words[@]}" far)"
    read -r _ least <<< "$(./peak "$amihunk" "${words[@]}" near)"
    figure "memory of ${words[0]} for a site 64 MiB behind the content" 1 "$(ratio "$((kib - least))" 1024)" MiB
done
exit "$missed"
