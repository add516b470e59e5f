#!/usr/bin/env bash
# Measures loading: its time compared with `cat`, with a program in C that copies the file into memory, and with
# `xxd`, in every order of relocations, and its memory.
# It makes its own inputs, and prints for each figure what is allowed and what was reached. Times are the
# best of five runs. It ends with status 1 where a figure is missed. It needs the toolchain, a C compiler ($CC, or
# cc), python3 and xxd on the PATH, and 2 GB for temporary files. The input `huge` is `plain` under the GNU C
# library's setting for huge pages, which changes nothing where the kernel gives none on request.
set -eu
. "$(dirname "$0")/common.sh"
longwords=15728640 # 60 MB
sites=1000000
make_file plain --longwords "$longwords"
for order in rising targets falling random; do
    make_file "$order" --longwords "$longwords" --sites "$sites" --order "$order"
done
make_file half --longwords "$((longwords / 2))" --sites "$((sites / 2))"
make_file debug --longwords "$longwords" --debug 400000000
cd "$folder"
"${CC:-cc}" -std=c11 -O2 "$benches/copy.c" -o in-c

# The inputs take turns, so that each figure compares times of the same few seconds.
measure() { # the least microseconds of five rounds, in `least`: HOW INPUT..
    local how="$1" input now
    shift
    least=()
    for _ in 1 2 3 4 5; do
        for input in "$@"; do
            case "$input" in
                cat) now="$(took /dev/null cat plain)" ;;
                in-c) now="$(took /dev/null ./in-c plain)" ;;
                huge) now="$(GLIBC_TUNABLES=glibc.malloc.hugetlb=1 took /dev/null "$bench" "$how-file" plain)" ;;
                *) now="$(took /dev/null "$bench" "$how-file" "$input")" ;;
            esac
            keep "$input" "$now"
        done
    done
}

echo "60 MB"
for how in decode load; do
    measure "$how" cat in-c plain huge rising targets falling random half
    plain="${least[plain]}"
    figure "$how without relocations ($plain us) by cat (${least[cat]} us)" 6 "$(ratio "$plain" "${least[cat]}")" times
    figure "the same with huge pages (${least[huge]} us) by it" 1.1 "$(ratio "${least[huge]}" "$plain")" times
    most="rising 1.5"
    if [ "$how" = load ]; then
        most="rising 1.35"
        figure "the same by reading and copying it in C (${least[in-c]} us)" 1.1 "$(ratio "$plain" "${least[in-c]}")" times
    fi
    for row in "$most" "targets 1.7" "falling 2" "random 4"; do
        read -r order allowed <<< "$row"
        time="${least[$order]}"
        figure "$how with $sites, $order ($time us), by the same without" "$allowed" "$(ratio "$time" "$plain")" times
    done
    figure "$how (${least[rising]} us) by half the work (${least[half]} us)" 2.2 "$(ratio "${least[rising]}" "${least[half]}")" times
done

echo "the report of 60 MB with $sites relocations; both write a file"
load="$(best out "$amihunk" load --at 10000 rising)"
xxd="$(best out xxd -c 16 rising.content)"
rm out
figure "amihunk load ($load us) by xxd -c 16 ($xxd us)" 0.3 "$(ratio "$load" "$xxd")" times

echo "memory of amihunk load, beside the image of 60 MB"
image=$((longwords * 4 / 1024))
for row in "plain 16" "debug 16" "rising 32" "random 32"; do
    read -r name allowed <<< "$row"
    kib="$(peak "$amihunk" load --at 10000 "$name")"
    figure "$name" "$allowed" "$(ratio "$((kib - image))" 1024)" MiB
done

hunk_times() { # the least seconds of five runs by `check_places_with` and by `ImageLoader`: ORDER
    for _ in 1 2 3 4 5; do "$bench" hunks "$1"; done \
        | awk '{ c = $3 / 1e9; l = $7 / 1e9
            if (NR == 1 || c < check) check = c
            if (NR == 1 || l < load) load = l }
            END { print check, load }'
}

echo "65,535 hunks at descending bases"
scan="$(for _ in 1 2 3 4 5; do "$bench" scan falling; done | awk '{ t = $3 / 1e9; if (NR == 1 || t < least) least = t } END { print least }')"
read -r _ load < <(hunk_times falling)
figure "check_places" 5 "$scan" s
figure "ImageLoader" 5 "$load" s

echo "65,535 hunks at bases in no order"
read -r _ rising < <(hunk_times rising)
for order in last-moved halves bit-reversed random organ-pipe shared; do
    read -r check load < <(hunk_times "$order")
    figure "check_places_with, $order" 0.1 "$check" s
    figure "ImageLoader, $order ($load s), by rising ($rising s)" 5 "$(ratio "$load" "$rising")" times
done
exit "$missed"
