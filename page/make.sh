#!/usr/bin/env bash
# Makes head.html and tail.html, between which `page_run` of hunk_json writes the document of a file, of page.html, style.css and
# the scripts here.
#
#     page/make.sh            writes both
#     page/make.sh --check    tells whether they are what the sources give; its last line is 'N passed, M failed'
#
# The page has a policy that lets it run its own script and style alone, by their hashes, and lets it load nothing.
set -eu
export LC_ALL=C
cd "$(dirname "${BASH_SOURCE[0]}")"

# The hash of a text, as a policy spells it: TEXT.
hash_of() {
    local digits
    digits="$(printf '%s' "$1" | sha256sum | cut -c 1-64)"
    printf "'sha256-%s'" "$(printf "$(sed 's/../\\x&/g' <<< "$digits")" | base64 -w 0)"
}

style="$(cat style.css)"
script="$(cat file.js scroller.js hunks.js bytes.js names.js page.js)"
case "$script$style" in
    *'</'*|*'<!--'*) echo "make.sh: a script or style has what would end it" >&2; exit 1 ;;
esac
# The text of an element begins and ends with the line breaks beside its tags.
policy="default-src 'none'; script-src $(hash_of $'\n'"$script"$'\n'); style-src $(hash_of $'\n'"$style"$'\n')"
policy+="; base-uri 'none'; form-action 'none'"

page="$(cat page.html)"
page="${page/@POLICY@/"$policy"}"
page="${page/@STYLE@/"$style"}"
page="${page/@SCRIPT@/"$script"}"
head="${page%%@DOCUMENT@*}"
tail="${page#*@DOCUMENT@}"$'\n'

failed=0
for part in head tail; do
    if [ "${1:-}" != --check ]; then
        printf '%s' "${!part}" > "$part.html"
    elif ! printf '%s' "${!part}" | cmp -s - "$part.html"; then
        echo "page/$part.html is not what page/make.sh makes"
        failed=$((failed + 1))
    fi
done
[ "${1:-}" != --check ] || echo "$((2 - failed)) passed, $failed failed"
[ "$failed" -eq 0 ]
