#!/usr/bin/env bash
# Measures how long `amihunk check` takes for relocations in every order that a search tries, by the time for rising offsets:
# orders of the sites of each page, page by page and with all pages in turn, and orders of all sites. It makes its own inputs,
# and prints for each figure what is allowed and what was reached. Times are the best of five runs. It ends with status 1 where
# a figure is missed. It needs the toolchain and python3 on the PATH, and 200 MB for temporary files.
set -eu
. "$(dirname "$0")/common.sh"
cd "$folder"

check_time() { # WAY ORDER
    python3 "$benches/site_orders.py" order "$1" "$2"
    best /dev/null "$amihunk" check order
    rm order
}

rising="$(check_time all rising)"
echo "2^24 relocations; rising they take $rising us"
while read -r way order; do
    time="$(check_time "$way" "$order")"
    figure "$way $order ($time us), by rising" 4 "$(ratio "$time" "$rising")" times
done < <(python3 "$benches/site_orders.py" --list)
exit "$missed"
