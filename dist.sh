#!/usr/bin/env bash
# Makes one archive of all that install.sh installs, for machines without the toolchain, and beside it its SHA-256.
#
#     ./dist.sh [FOLDER]
#
# FOLDER is where to, `out` unless told. The same files give the same archive, byte for byte: its members are sorted and have
# the time of SOURCE_DATE_EPOCH, or else of the newest commit. It needs GNU tar, gzip and binutils, and builds what is missing.
set -eu
export LC_ALL=C
folder="$(mkdir -p "${1:-out}" && cd "${1:-out}" && pwd)"
cd "$(dirname "${BASH_SOURCE[0]}")"
version="$(sed -n 's/^## \([0-9.]*\).*/\1/p' CHANGELOG.md | sed -n 1p)"
name="amihunk-$version-x86_64-linux"
time="${SOURCE_DATE_EPOCH:-$(git log -1 --format=%ct 2> /dev/null || echo 0)}"
work="$(mktemp -d)"
trap 'rm -rf "$work"' EXIT

./install.sh --destdir "$work" --prefix "/$name" >&2
rm -r "$work/$name/share/amihunk"

# The oldest C library that has all that the programs ask for by version.
oldest="$(find "$work/$name" -type f \( -path '*/bin/*' -o -name '*.so*' \) -exec objdump -T {} + \
    | sed -n 's/.*[( ]GLIBC_\([0-9.]*\)[) ].*/\1/p' | sort -uV | tail -n 1)"
[ -n "$oldest" ] || { echo "dist.sh: the program asks for no C library" >&2; exit 1; }
cat > "$work/$name/README" << END
amihunk $version for Linux on x86-64 (level v2): bin/amihunk --help lists its commands, share/man has its page, lib/pkgconfig serves C, and lib/python3/site-packages is for PYTHONPATH.
Nothing has to be installed, and the folder may stand anywhere. It needs the GNU C library $oldest or newer, and nothing else but Python 3 for its module.
END

tar --create --directory "$work" --format=ustar --sort=name --mtime="@$time" --owner=0 --group=0 --numeric-owner \
    --mode='u+rw,go+r,go-w,a+X' "$name" | gzip -9n > "$work/archive"
mv "$work/archive" "$folder/$name.tar.gz"
chmod 644 "$folder/$name.tar.gz"
(cd "$folder" && sha256sum "$name.tar.gz" > "$name.tar.gz.sha256")
cat "$folder/$name.tar.gz.sha256"
