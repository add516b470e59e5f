# What the benchmarks of the program share: building it, making files, and timing. A script sources it, and ends with
# `exit "$missed"`.
export LC_ALL=C
# The scripts that make files import others beside them.
export PYTHONDONTWRITEBYTECODE=1
benches="$(cd "$(dirname "${BASH_SOURCE[0]}")" && pwd)"
. "$benches/figures.sh"
crates="$(cd "$benches/../crates" && pwd)"
# In memory, if there is such a file system: a link ends once its file is on the disk, and disks are not what is measured.
folder="$(mktemp -d -p "$([ -w /dev/shm ] && echo /dev/shm || echo "${TMPDIR:-/tmp}")")"
trap 'rm -rf "$folder"' EXIT

build() { # CRATE WORDS..
    local crate="$1"
    shift
    (cd "$crates/$crate" && rt run "$@") > "$folder/build" 2>&1 || { cat "$folder/build" >&2; exit 1; }
}

build amihunk -- --help
build hunk_bench
amihunk="$crates/amihunk/out/amihunk"
bench="$crates/hunk_bench/out/hunk_bench"

make_file() { # NAME OPTIONS..: those of hunk_file.py
    local name="$1"
    shift
    python3 "$benches/hunk_file.py" "$folder/$name" "$@"
}

took() { # the microseconds of COMMAND, which writes to OUT: OUT COMMAND..
    local out="$1" start
    shift
    start="${EPOCHREALTIME/./}"
    "$@" > "$out"
    echo $((${EPOCHREALTIME/./} - start))
}

smallest() { # of the numbers on standard input
    sort -n | sed -n 1p
}

best() { # the least microseconds of five runs: OUT COMMAND..
    for _ in 1 2 3 4 5; do took "$@"; done | smallest
}

declare -A least
keep() { # NAME TIME: in `least`, if it is less. Of what is measured by turns
    if [ "$2" -lt "${least[$1]:-$(($2 + 1))}" ]; then least[$1]="$2"; fi
}

peak() { # the most memory of COMMAND, in KiB: COMMAND..
    python3 -c 'import resource, subprocess, sys
subprocess.run(sys.argv[1:], stdout=subprocess.DEVNULL, check=True)
print(resource.getrusage(resource.RUSAGE_CHILDREN).ru_maxrss)' "$@"
}

ratio() { # A / B
    awk -v a="$1" -v b="$2" 'BEGIN { print a / b }'
}
