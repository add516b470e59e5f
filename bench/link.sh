#!/usr/bin/env bash
# Measures linking: its time compared with `cat` and with that of half the work, and its memory compared with the
# size of its inputs; and the report of `amihunk image`, compared with `xxd`. It makes its own inputs: a program
# of many files, one of many names, one of 60 MB, and object files of names that are made to collide. It prints
# for each figure what is allowed and what was reached. Times are the best of five runs, and those of colliding
# names the best of 20. It ends with status 1 where a figure is missed. It needs the toolchain, a C compiler
# ($CC, or cc), python3 and xxd on the PATH, and 2 GB for temporary files.
set -eu
. "$(dirname "$0")/common.sh"

make_program() { # NAME KIND COUNT
    python3 "$benches/object_files.py" "$folder/$1" "$2" "$3"
}

bytes_in() { # of the files in FOLDER
    cat "$1"/* | wc -c
}

cd "$folder"

# Beside `cat`, what other linkers need for the same programs: many, a quarter of GNU ld's time; symbols, mold's
# time; big, GNU ld's time.
for row in "many 5000 8" "symbols 100 20" "big 15728640 9"; do
    read -r kind count allowed <<< "$row"
    make_program "$kind" "$kind" "$count"
    make_program "$kind.half" "$kind" "$((count / 2))"
    files=("$kind"/*)
    size="$(bytes_in "$kind")"
    cat_time="$(best copy cat "${files[@]}")"
    echo "$kind: ${#files[@]} files of $size bytes; cat takes $cat_time us; both write a file"
    link="$(best /dev/null "$amihunk" link --out "$kind.linked" "${files[@]}")"
    half="$(best /dev/null "$amihunk" link --out half.linked "$kind.half"/*)"
    figure "link of $kind ($link us) by cat" "$allowed" "$(ratio "$link" "$cat_time")" times
    figure "the same by half the work ($half us)" 2.2 "$(ratio "$link" "$half")" times
    small="$(best /dev/null "$amihunk" link --short --trim --out small.linked "${files[@]}")"
    figure "the same with --short --trim ($small us) by it" 1.1 "$(ratio "$small" "$link")" times
    kib="$(peak "$amihunk" link --out "$kind.linked" "${files[@]}")"
    figure "memory of the same by the inputs" 2 "$(ratio "$((1024 * kib))" "$size")" times
    rm -r copy half.linked small.linked "$kind.half"
done

echo "the report of 60 MB with a million relocations; both write a file"
image="$(best out "$amihunk" image --at 10000000,100 big/*)"
xxd="$(best out xxd -c 16 big.linked)"
rm out
figure "amihunk image ($image us) by xxd -c 16 ($xxd us)" 0.3 "$(ratio "$image" "$xxd")" times

# Names that collide by the hash of a known seed, each link after one of the others.
"${CC:-cc}" -std=c11 -O2 "$benches/collide.c" -o collide
for count in 32768 131072; do
    ./collide "$count" | make_program named named "$count"
    for _ in {1..20}; do
        took /dev/null "$amihunk" link --out named.linked named/00001.o >> ordinary
        took /dev/null "$amihunk" link --out named.linked named/00000.o >> colliding
    done
    link="$(smallest < colliding)"
    others="$(smallest < ordinary)"
    figure "link of $count colliding names ($link us) by others ($others us)" 1.5 "$(ratio "$link" "$others")" times
    rm -r named named.linked colliding ordinary
done
exit "$missed"
