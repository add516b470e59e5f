#!/usr/bin/env bash
# Draws pages of hunk files by Chromium, and looks at what they show: the page of page/, over documents of a model. It ends
# with status 1 where a figure is missed. It needs bash, python3 and Chromium, and nothing that is built.
#
#     bench/page.sh [FOLDER]
#
# With a FOLDER it leaves the pages and pictures of them there.
set -eu
export LC_ALL=C.UTF-8
benches="$(cd "$(dirname "$0")" && pwd)"
. "$benches/figures.sh"
folder="$(mktemp -d)"
trap 'rm -rf "$folder"' EXIT

"$benches/../page/make.sh" --check
status=0
python3 "$benches/page.py" "$folder" > "$folder/figures" || status="$?"
while IFS=$'\t' read -r name allowed reached unit; do
    figure "$name" "$allowed" "$reached" "$unit"
done < "$folder/figures"
if [ "$#" -gt 0 ]; then
    mkdir -p "$1"
    cp "$folder"/*.html "$folder"/*.png "$1"
fi
[ "$status" -eq 0 ] || missed=1
exit "$missed"
