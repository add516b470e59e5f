#!/usr/bin/env bash
# Measures linking beside GNU ld and mold, which link the same programs as ELF objects: one of many files, one of
# many names, and one of 60 MB; and the memory of `amihunk link`. It makes its own inputs, and prints for each figure
# what is allowed and what was reached. The linkers take turns, and times are the best of five rounds. It ends with
# status 1 where a figure is missed. It needs the toolchain, python3, binutils-m68k-linux-gnu and mold on the PATH,
# and 1 GB for temporary files.
set -eu
. "$(dirname "$0")/common.sh"
cd "$folder"

ld=(m68k-linux-gnu-ld --no-warn-rwx-segments -e 0 -o ld.linked)
mold=(mold -m m68kelf --no-fork -e 0 -o mold.linked)

measure() { # the least microseconds of five rounds, in `least`: KIND
    least=()
    for _ in 1 2 3 4 5; do
        keep ld "$(took /dev/null "${ld[@]}" "$1".elf/*)"
        keep mold1 "$(took /dev/null "${mold[@]}" --thread-count=1 "$1".elf/*)"
        keep mold2 "$(took /dev/null "${mold[@]}" --thread-count=2 "$1".elf/*)"
        keep amihunk "$(took /dev/null "$amihunk" link --out amihunk.linked "$1"/*)"
    done
    echo "$1: GNU ld takes ${least[ld]} us, mold ${least[mold1]} with one thread and ${least[mold2]} with two"
}

by() { # what `amihunk` took by the least of LINKER..: NAME ALLOWED LINKER..
    local name="$1" allowed="$2" time
    shift 2
    time="$(for linker in "$@"; do echo "${least[$linker]}"; done | smallest)"
    figure "link of $name" "$allowed" "$(ratio "${least[amihunk]}" "$time")" times
}

for row in "many 5000 2" "symbols 100 2" "big 15728640 1.2"; do
    read -r kind count memory <<< "$row"
    python3 "$benches/object_files.py" "$kind" "$kind" "$count"
    python3 "$benches/object_files.py" "$kind.elf" "$kind" "$count" --elf
    measure "$kind"
    case "$kind" in
        many) by "many files (${least[amihunk]} us) by GNU ld" 0.15 ld ;;
        symbols) by "many names (${least[amihunk]} us) by the best of GNU ld and mold" 0.8 ld mold1 mold2 ;;
        big) by "60 MB (${least[amihunk]} us) by mold with one thread" 1 mold1 ;;
    esac
    kib="$(peak "$amihunk" link --out amihunk.linked "$kind"/*)"
    figure "memory of the same by its inputs" "$memory" "$(ratio "$((1024 * kib))" "$(cat "$kind"/* | wc -c)")" times
    rm -r "$kind" "$kind.elf"
done
exit "$missed"
