#!/usr/bin/env bash
# Measures `amihunk survey`: its time for 80,000 small files, half of them object files and half load files, compared with that of
# `cat` of the same files, and its memory for a list of a million names. It makes its own inputs, and prints for each figure what is
# allowed and what was reached. Times are the best of five runs. It ends with status 1 where a figure is missed. It needs the toolchain,
# python3 and xargs on the PATH, and 500 MB for temporary files.
set -eu
. "$(dirname "$0")/common.sh"
count=80000
cd "$folder"
python3 "$benches/archive.py" files "$count" list

read_all() {
    xargs -0 cat < list
}

wanted="$count files: $((count / 2)) object files, $((count / 2)) load files, 0 refused, 0 unreadable"
"$amihunk" survey --files-from list | tail -n 2 | grep -qx "$wanted" # ends this script where it fails

cat_time="$(best /dev/null read_all)"
echo "$count files of $(read_all | wc -c) bytes; xargs -0 cat takes $cat_time us"
survey="$(best /dev/null "$amihunk" survey --files-from list)"
figure "survey ($survey us) by cat" 1.5 "$(ratio "$survey" "$cat_time")" times
with_digest="$(best /dev/null "$amihunk" survey --digest --files-from list)"
echo "with --digest it takes $with_digest us"

for _ in {1..13}; do cat list; done | head -z -n 1000000 > million
kib="$(peak "$amihunk" survey --files-from million)"
figure "memory for a list of a million names ($(wc -c < million) bytes)" 16 "$(ratio "$kib" 1024)" MiB
exit "$missed"
