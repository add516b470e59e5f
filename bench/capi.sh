#!/usr/bin/env bash
# Measures the C library. Loading is compared with `ImageLoader`, by which `amihunk load` decodes: 60 MB with a million
# relocations, from memory, and from a file in the same pieces. Loading and linking in one buffer are compared with the same
# by malloc: that file, 16,384 small units, and 60 MB in as many. Loading 60 MB without relocations into memory of the caller is
# compared with the same in one buffer, since the pages of both are there already, and with a plain copy of the file; and what the
# loader asks of its memory is told. It makes its own inputs, and prints for each figure what is allowed and what was reached.
# Times are the least of five rounds, in which the programs take turns. It ends with status 1 where a figure is missed. It needs
# the toolchain, a C compiler ($CC, or cc), binutils and python3 on the PATH, 500 MB for temporary files, and 500 MB of memory.
set -eu
. "$(dirname "$0")/common.sh"
capi="$(cd "$benches/../capi" && pwd)"
units=16384
"$capi/build.sh"
"${CC:-cc}" -std=c11 -O2 -I"$capi/out" "$capi/bench.c" -o "$folder/capi" "$capi/out/libamihunk.a"
make_file rising --longwords 15728640 --sites 1000000
make_file plain --longwords 15728640
rm "$folder"/*.content
cd "$folder"
for kind in small many; do
    python3 "$benches/object_files.py" "$kind" "$kind" "$units"
    cat "$kind"/* > "$kind.o" # the units of an object file follow one another
    rm -r "$kind"
done

keep_both() { # WHAT FILE: the least times of that by malloc, and in a buffer
    local memory
    for memory in malloc buffer; do
        keep "$2.$memory" "$(./capi "$1" "$memory" "$2")"
    done
}

in_buffer() { # NAME FILE
    figure "$1 in a buffer (${least[$2.buffer]} us) by malloc (${least[$2.malloc]} us)" 1.3 \
        "$(ratio "${least[$2.buffer]}" "${least[$2.malloc]}")" times
}

./capi read malloc rising # ends this script where it fails
for _ in 1 2 3 4 5; do
    keep handle "$(took /dev/null ./capi read malloc rising)"
    keep loader "$(took /dev/null "$bench" load-file rising)"
    keep_both load rising
    keep_both link small.o
    keep_both link many.o
    keep plain.place "$(./capi place malloc plain)"
    keep plain.buffer "$(./capi load buffer plain)"
    keep plain.copy "$(./capi copy malloc plain)"
done
echo "60 MB with 1000000 relocations; ImageLoader takes ${least[loader]} us with reading"
figure "from memory through the handle (${least[rising.malloc]} us) by that" 1.1 "$(ratio "${least[rising.malloc]}" "${least[loader]}")" times
figure "with reading through the handle (${least[handle]} us) by that" 1.1 "$(ratio "${least[handle]}" "${least[loader]}")" times
in_buffer "the same from memory" rising
echo "60 MB without relocations; a plain copy takes ${least[plain.copy]} us"
figure "into memory of the caller (${least[plain.place]} us) by a buffer (${least[plain.buffer]} us)" 1.05 \
    "$(ratio "${least[plain.place]}" "${least[plain.buffer]}")" times
figure "the same by a plain copy" 1.05 "$(ratio "${least[plain.place]}" "${least[plain.copy]}")" times
figure "memory that the loader asks for" 64 "$(ratio "$(./capi asked malloc plain)" 1024)" KiB
echo "$units units: small ones, of $(wc -c < small.o) bytes; and $(wc -c < many.o) bytes of larger ones"
in_buffer "link of small ones" small.o
in_buffer "link of larger ones" many.o
exit "$missed"
