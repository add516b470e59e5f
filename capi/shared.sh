#!/usr/bin/env bash
# Links FOLDER/libamihunk.a into a shared library beside it: libamihunk.so.VERSION, with the link by which programs find it
# and the one by which they are linked. It exports the calls of amihunk.h and nothing else, for the archive has no other
# global names. The same archive and compiler make the same bytes, in any folder.
#
#     capi/shared.sh FOLDER
#
# It needs a C compiler ($CC, or cc) and binutils.
set -eu
folder="$1"
version="$(sed -n 's/^## \([0-9.]*\).*/\1/p' "$(dirname "${BASH_SOURCE[0]}")/../CHANGELOG.md" | sed -n 1p)"
file="libamihunk.so.$version"
name="libamihunk.so.${version%%.*}"

# Nothing runs when it is loaded or unloaded, so that it needs no start files, and with them no names but those of the C
# library. Its calls call each other directly, whatever else a process calls so.
flags=(-shared -nostartfiles -s "-Wl,-soname,$name" -Wl,-Bsymbolic-functions)
flags+=(-Wl,-z,defs -Wl,-z,text -Wl,-z,relro -Wl,-z,now -Wl,-z,noexecstack -Wl,--as-needed -Wl,--build-id=none)
"${CC:-cc}" "${flags[@]}" -Wl,--whole-archive "$folder/libamihunk.a" -Wl,--no-whole-archive -o "$folder/$file"
ln -sf "$file" "$folder/$name"
ln -sf "$name" "$folder/libamihunk.so"
