#!/usr/bin/env bash
# Measures `amihunk check` and `amihunk show`: their time compared with `cat` and `xxd`, the memory of `check` and of
# `show --json`, `check --lint` by half the work and its memory, and the decoder of object files compared with that of load
# files. It makes its own inputs, and prints for each figure what is allowed and what was reached. Times are the best of five
# runs. It ends with status 1 where a figure is missed. It needs the toolchain, python3 and xxd on the PATH, and 2 GB for
# temporary files.
set -eu
. "$(dirname "$0")/common.sh"
longwords=15728640 # 60 MB
sites=1000000
symbols=1000000
for kind in load object; do
    make_file "$kind" --kind "$kind" --longwords "$longwords" --sites "$sites"
    make_file "$kind.half" --kind "$kind" --longwords "$((longwords / 2))" --sites "$((sites / 2))"
    make_file "$kind.symbols" --kind "$kind" --symbols "$symbols"
done
cd "$folder"

cat_time="$(best /dev/null cat load)"
echo "60 MB with $sites relocations; cat takes $cat_time us"
for kind in load object; do
    check="$(best /dev/null "$amihunk" check "$kind")"
    half="$(best /dev/null "$amihunk" check "$kind.half")"
    figure "check of a file of kind $kind ($check us) by cat" 4 "$(ratio "$check" "$cat_time")" times
    figure "the same by half the work ($half us)" 2.2 "$(ratio "$check" "$half")" times
    figure "memory of the same" 32 "$(ratio "$(peak "$amihunk" check "$kind")" 1024)" MiB
    beside="$(($(peak "$amihunk" show --json "$kind") - 4 * longwords / 1024))"
    figure "memory of show --json beside its content" 64 "$(ratio "$beside" 1024)" MiB
    lint="$(best /dev/null "$amihunk" check --lint "$kind")"
    half="$(best /dev/null "$amihunk" check --lint "$kind.half")"
    figure "check --lint of the same ($lint us) by half the work ($half us)" 2.2 "$(ratio "$lint" "$half")" times
    beside="$(($(peak "$amihunk" check --lint "$kind") - 4 * longwords / 1024))"
    figure "memory of check --lint beside its content" 64 "$(ratio "$beside" 1024)" MiB
done

load="$(best /dev/null "$bench" decode-file load)"
object="$(best /dev/null "$bench" decode-object object)"
figure "decode of the object file ($object us) by the load file ($load us)" 1.3 "$(ratio "$object" "$load")" times

echo "a file with $symbols symbols; both write a file"
for kind in load object; do
    show="$(best out "$amihunk" show "$kind.symbols")"
    xxd="$(best out xxd "$kind.symbols")"
    rm out
    figure "show of a file of kind $kind ($show us) by xxd ($xxd us)" 1 "$(ratio "$show" "$xxd")" times
done
exit "$missed"
