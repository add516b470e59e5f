#!/usr/bin/env bash
# Measures `amihunk compare` and `amihunk copy`: the time of comparing two load files of 60 MB that mean the same, with a million
# relocations each, compared with that of `check` of both, and its memory beside one content; and the time of copying such a
# file, compared with that of linking the same content. It makes its own inputs, and prints for each figure what is allowed and
# what was reached. Times are the least of five rounds, in which the commands take turns. It ends with status 1 where a figure is
# missed. It needs the toolchain and python3 on the PATH, and 500 MB for temporary files.
set -eu
. "$(dirname "$0")/common.sh"
longwords=15728640 # 60 MB
sites=1000000
make_file first --longwords "$longwords" --sites "$sites"
make_file object --kind object --longwords "$longwords" --sites "$sites"
rm "$folder"/*.content
cd "$folder"
cp first second
for form in "" "--strip --short --trim" "--normal"; do
    # shellcheck disable=SC2086 # (the flags are words)
    "$amihunk" copy --out copied $form first
    "$amihunk" compare first copied # ends this script where it fails
done
"$amihunk" link --out linked object
"$amihunk" copy --out copied linked
cmp linked copied

for _ in 1 2 3 4 5; do
    keep first "$(took /dev/null "$amihunk" check first)"
    keep second "$(took /dev/null "$amihunk" check second)"
    keep compare "$(took /dev/null "$amihunk" compare first second)"
    keep link "$(took /dev/null "$amihunk" link --out linked object)"
    keep copy "$(took /dev/null "$amihunk" copy --out copied first)"
done
checks="$((least[first] + least[second]))"
echo "60 MB with $sites relocations"
figure "compare of two files (${least[compare]} us) by check of both ($checks us)" 2.2 "$(ratio "${least[compare]}" "$checks")" times
kib="$(peak "$amihunk" compare first second)"
figure "memory of the same beside one content" 32 "$(ratio "$((kib - 4 * longwords / 1024))" 1024)" MiB
figure "copy (${least[copy]} us) by link (${least[link]} us)" 1.1 "$(ratio "${least[copy]}" "${least[link]}")" times
exit "$missed"
