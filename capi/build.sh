#!/usr/bin/env bash
# Makes capi/out: libamihunk.a, libamihunk.so with its versions, amihunk.h and amihunk.pc, for `cc` and for pkg-config. The
# arguments are handed to archive.sh, which proves and builds crates/amihunk_c. It needs the toolchain, a C compiler ($CC, or
# cc) and binutils.
#
# Of both libraries no names are global but the calls of amihunk.h.
set -eu
cd "$(dirname "$0")"
crate=../crates/amihunk_c
cc="${CC:-cc}"
flags=(-std=c11 -O2 -fPIC -ffunction-sections -Wall -Wextra -Werror)

rm -rf out
mkdir -p out/parts
./archive.sh "$@" > out/parts/archive.log 2>&1 || { cat out/parts/archive.log >&2; exit 1; }
for part in amihunk lent file buffer malloc; do
    "$cc" "${flags[@]}" -c "$part.c" -o "out/parts/$part.o"
done

# The seam, the buffers and the exports become one object, in which only the calls of the header stay global.
parts=(out/parts/amihunk.o out/parts/lent.o out/parts/file.o out/parts/buffer.o)
ld -r -o out/parts/joined.o "${parts[@]}" "$crate/out/libamihunk_c.a"
nm -g --defined-only "${parts[@]}" | awk '$3 ~ /^amihunk_/ { print $3 }' > out/parts/calls
objcopy --keep-global-symbols=out/parts/calls --strip-unneeded out/parts/joined.o out/parts/amihunk.o

ar rcsD out/libamihunk.a out/parts/amihunk.o out/parts/malloc.o
./shared.sh out
cp amihunk.h out/amihunk.h
version="$(sed -n 's/^## \([0-9.]*\).*/\1/p' ../CHANGELOG.md | sed -n 1p)"
cat > out/amihunk.pc << END
prefix=\${pcfiledir}
includedir=\${prefix}
libdir=\${prefix}

Name: amihunk
Description: Loads Amiga load files into memory, and links object files
Version: $version
Cflags: -I\${includedir}
Libs: -L\${libdir} -lamihunk
END
