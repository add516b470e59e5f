#!/usr/bin/env bash
# Builds the C library, its tests and its examples, and runs them: plainly, with the library as LLVM builds it and as
# Rattle's own compiler does, over the shared library, with the address and undefined behaviour sanitizers, and in valgrind.
# The last two are left out where they are not installed, and so is the example that needs Unicorn; everything else that
# cannot be built or run counts as failed. Each test that is passed is counted once for each way in which it was run. The
# arguments are handed to archive.sh.
#
# The last line is 'N passed, M failed', and the status is 0 if M is 0. It needs the toolchain, a C compiler ($CC, or cc), a
# C++ compiler ($CXX, or c++) and binutils.
set -u
cd "$(dirname "$0")" || exit 1
export LC_ALL=C
cc="${CC:-cc}"
cxx="${CXX:-c++}"
warnings=(-Wall -Wextra -Werror -pedantic)
tests=(loading sizes placing placing_calls reasons linking keeping mapping looking many empty file_calls finding from_files
    comparing memory handles calls mutated altered buffer blocks version)
# Of the library the sanitizers see nothing, so what these tests are about is built with them.
declare -A sources=([buffer]=buffer.c [blocks]=buffer.c)
version="$(sed -n 's/^## \([0-9.]*\).*/\1/p' ../CHANGELOG.md | sed -n 1p)"
shared="libamihunk.so.$version"
soname="libamihunk.so.${version%%.*}"
work="$(mktemp -d)" || exit 1
trap 'rm -rf "$work"' EXIT
passed=0
failed=0

# Counts what was tried, and shows why it failed: NAME COMMAND..
attempt() {
    local name="$1"
    shift
    if "$@" > "$work/log" 2>&1; then
        passed=$((passed + 1))
        return 0
    fi
    failed=$((failed + 1))
    echo "FAILED: $name"
    tail -n 40 "$work/log"
    return 1
}

# Runs a test program, which lists its tests and then says how many they are: NAME COMMAND..
run_tests() {
    local name="$1" status good bad ran
    shift
    timeout 600 "$@" > "$work/log" 2>&1
    status=$?
    good="$(grep -c '^ok ' "$work/log")"
    bad="$(grep -c '^FAILED ' "$work/log")"
    ran="$(sed -n 's/^ran //p' "$work/log")"
    passed=$((passed + good))
    if [ "$status" -eq 0 ] && [ "$bad" -eq 0 ] && [ "$good" -gt 0 ] && [ "$ran" = "$good" ]; then
        return
    fi
    failed=$((failed + (bad > 0 ? bad : 1)))
    echo "FAILED: $name, status $status"
    tail -n 40 "$work/log"
}

# Builds and runs all test programs in one way over a library, with its header beside it:
# WAY LIBRARY FLAGS.. -- WORDS.. (those that run a program)
run_way() {
    local way="$1" library="$2" flags=("-I${2%/*}") test files
    shift 2
    while [ "$1" != -- ]; do
        flags+=("$1")
        shift
    done
    shift
    for test in "${tests[@]}"; do
        files=("tests/$test.c" ${sources[$test]+"${sources[$test]}"})
        if attempt "build of $test, $way" "$cc" -std=c11 "${warnings[@]}" "${flags[@]}" "${files[@]}" \
            -o "$work/$test" "$library" -pthread; then
            run_tests "$test, $way" "$@" "$work/$test"
        fi
    done
    if attempt "build of header, $way" "$cxx" -std=c++11 "${warnings[@]}" "${flags[@]}" tests/header.cpp \
        -o "$work/header" "$library"; then
        run_tests "header, $way" "$@" "$work/header"
    fi
}

# The tests over the shared library that a program names, and over the one that it opens while it runs.
run_shared() {
    run_way "over the shared library" "$PWD/out/libamihunk.so" -O2 "-Wl,-rpath,$PWD/out" --
    if attempt "build of opened" "$cc" -std=c11 -O2 "${warnings[@]}" -Iout tests/opened.c -o "$work/opened" \
        -pthread -ldl; then
        run_tests "opened" "$work/opened" "$PWD/out/libamihunk.so"
    fi
}

# Does something while the script goes on, in a folder of its own: COMMAND..
beside() {
    local folder
    folder="$(mktemp -d "$work/beside.XXXXXX")" || exit 1
    (
        work="$folder"
        passed=0
        failed=0
        "$@"
        echo "$passed $failed" > "$folder/sums"
    ) > "$folder/said" 2>&1 &
}

# Waits for what is done beside, and adds what it counted. What tells no sums counts as one failure.
gather() {
    local folder good bad
    wait
    for folder in "$work"/beside.*; do
        [ -d "$folder" ] || continue
        cat "$folder/said"
        read -r good bad < "$folder/sums" || { good=0; bad=1; }
        passed=$((passed + good))
        failed=$((failed + bad))
    done
}

# Whether the libraries define no global names but the calls of the header, and need none but C's.
only_own_names() {
    local of_c='mem(cpy|move|set)|malloc|realloc|free|strlen|__tls_get_addr'
    tr '\n' ' ' < amihunk.h | sed 's|/\*[^*]*\*\+\([^/*][^*]*\*\+\)*/||g' | grep -oE 'amihunk_[a-z_]+\(' | tr -d '(' \
        | sort -u > "$work/declared"
    nm -g --defined-only out/libamihunk.a | awk 'NF == 3 { print $3 }' | sort | diff "$work/declared" - || return 1
    nm -D --defined-only out/libamihunk.so | awk '{ print $NF }' | sort | diff "$work/declared" - || return 1
    nm -u out/libamihunk.a | awk 'NF == 2 { print $2 }' | sort -u | grep -vxE "$of_c|_GLOBAL_OFFSET_TABLE_" && return 1
    nm -D --undefined-only out/libamihunk.so | awk '{ print $NF }' | grep -vxE "($of_c)(@.*)?" && return 1
    return 0
}

# Whether the shared library has its name and its links, is loaded anywhere with no change of its code, and names no place
# of this machine.
is_well_linked() {
    [ "$(readlink out/libamihunk.so)" = "$soname" ] && [ "$(readlink "out/$soname")" = "$shared" ] || return 1
    readelf -dlW "out/$shared" > "$work/headers" || return 1
    grep -qF "Library soname: [$soname]" "$work/headers" && grep -q ' GNU_RELRO ' "$work/headers" || return 1
    grep -qE '\(FLAGS\) +BIND_NOW$' "$work/headers" && grep -qE ' GNU_STACK .* RW +0x' "$work/headers" || return 1
    grep -E 'TEXTREL|R(UN)?PATH|\(INIT|\(FINI' "$work/headers" && return 1
    grep -F '(NEEDED)' "$work/headers" | grep -vE '\[(libc\.so\.6|ld-linux-x86-64\.so\.2)\]$' && return 1
    grep -aF "$(cd .. && pwd)" "out/$shared" && return 1
    return 0
}

# Whether the same archive makes the same shared library at another place.
is_the_same_elsewhere() {
    mkdir "$work/another place" && cp out/libamihunk.a "$work/another place" && ./shared.sh "$work/another place" \
        && cmp "out/$shared" "$work/another place/$shared"
}

# Whether the header and pkg-config tell the version of the newest entry of the changelog. That the calls tell that of the
# header is a test in C.
versions_agree() {
    grep -qxF "#define AMIHUNK_VERSION \"$version\"" out/amihunk.h && grep -qxF "Version: $version" out/amihunk.pc
}

# Whether a command writes what is expected and ends with the status: STATUS OUT ERRORS COMMAND..
writes() {
    local status="$1" out="$2" errors="$3"
    shift 3
    "$@" > "$work/stdout" 2> "$work/stderr"
    [ $? -eq "$status" ] || { cat "$work/stdout" "$work/stderr"; return 1; }
    diff <(printf '%s' "$out") "$work/stdout" && diff <(printf '%s' "$errors") "$work/stderr"
}

example() { # NAME LIBRARIES..
    "$cc" -std=c11 -O2 "${warnings[@]}" -Iout "../examples/c/$1.c" -o "$work/$1" out/libamihunk.a "${@:2}"
}

# Builds the assembler by pkg-config, over one of the two libraries, and runs it: NEEDED BEFORE AFTER, how many shared
# libraries of ours it needs then, and what stands before and after the words of pkg-config.
example_by_pkg_config() {
    local words
    read -r -a words < <(PKG_CONFIG_PATH=out pkg-config --cflags --libs amihunk)
    [ "${#words[@]}" -gt 0 ] || return 1
    "$cc" ../examples/c/assembler.c -o "$work/assembler" "$2" "${words[@]}" "$3" || return 1
    [ "$(objdump -p "$work/assembler" | grep -cE "NEEDED +$soname\$")" = "$1" ] || return 1
    writes 0 "$assembler_output" "" "$work/assembler" print
}

# Runs a command from the top of the repository: COMMAND..
from_the_top() {
    (cd .. && "$@")
}

run_linker() {
    attempt "build of linker" example linker || return
    # Code that refers to `draw` and to `print`.
    printf '\0\0\3\347\0\0\0\0\0\0\3\351\0\0\0\2\0\0\0\0\0\0\0\0\0\0\3\357' > "$work/draw.o"
    printf '\201\0\0\1draw\0\0\0\1\0\0\0\0\201\0\0\2print\0\0\0\0\0\0\1\0\0\0\4\0\0\0\0\0\0\3\362' >> "$work/draw.o"
    attempt "linker prints the map" writes 0 "$linker_output" "" \
        from_the_top "$work/linker" "$work/hello" examples/main.o examples/library.o
    attempt "linker writes the load file" writes 0 "$hello_output" "" "$work/emulator" "$work/hello" 1000 2000 3000 4000
    attempt "linker tells the name that is missing" writes 1 "" "$missing_output" \
        from_the_top "$work/linker" "$work/none" examples/main.o
    attempt "linker tells all names that are missing" writes 1 "" "$all_missing_output" \
        from_the_top "$work/linker" "$work/none" examples/main.o "$work/draw.o"
    attempt "linker writes nothing that is refused" [ ! -e "$work/none" ]
}

run_examples() {
    if attempt "build of emulator" example emulator; then
        # 81,920 bytes of memory, which the file asks for without any content.
        printf '\0\0\3\363\0\0\0\0\0\0\0\1\0\0\0\0\0\0\0\0\0\0\120\0\0\0\3\353\0\0\120\0\0\0\3\362' > "$work/large.load"
        printf '\0\0\3\363\0\0\0\1' > "$work/bad.load"
        attempt "emulator loads a file" writes 0 "$emulator_output" "" \
            "$work/emulator" ../examples/two-hunks.load 10000 20000
        attempt "emulator refuses what does not fit" writes 1 "" "amihunk: out of memory
" "$work/emulator" "$work/large.load" 10000
        attempt "emulator refuses a bad file" writes 1 "" \
            "amihunk: $work/bad.load: longword 1: resident library names not supported
" "$work/emulator" "$work/bad.load" 10000
        attempt "emulator refuses an address outside its machine" writes 1 "" \
            "emulator: the machine has no memory for hunk 0
" "$work/emulator" ../examples/one-hunk.load FFFFE
    fi
    if command -v pkg-config > /dev/null; then
        attempt "the shared library by pkg-config" example_by_pkg_config 1 -Wl,-Bdynamic "-Wl,-rpath,$PWD/out"
        attempt "the static library by pkg-config" example_by_pkg_config 0 -Wl,-Bstatic -Wl,-Bdynamic
    fi
    if attempt "build of assembler" example assembler; then
        attempt "assembler links and loads" writes 0 "$assembler_output" "" "$work/assembler" print
        attempt "assembler names what is missing" writes 1 "" "amihunk: link: unit 0 hunk 0: \"draw\" not defined
" "$work/assembler" draw
    fi
    run_linker
    if is_there -- -include unicorn/unicorn.h -lunicorn; then
        if attempt "build of run" example run -lunicorn; then
            attempt "a program runs the same at each list of addresses" writes 0 "$run_output" "" "$work/run"
        fi
    else
        echo "Unicorn is not installed, and the example that runs a program was left out."
    fi
}

emulator_output="hunk 0: 16 bytes at 00010000
hunk 1: 8 bytes at 00020000
the machine starts at 00010000: 207c
"
assembler_output="hunk 0 at 00010000: 4eb9000200044e75
hunk 1 at 00020000: 4e714e7170004e75
"
linker_output='hunk 0 code any 4 longwords examples/main.o unit 0 "main" hunk 0 ""
  define "main" at 00000000
hunk 1 data any 4 longwords examples/main.o unit 0 "main" hunk 1 ""
hunk 2 code any 5 longwords examples/library.o unit 0 "library" hunk 0 ""
  define "clear" at 00000000
  define "print" at 00000008
hunk 3 bss chip 4 longwords examples/library.o unit 0 "library" hunk 1 ""
'
hello_output="hunk 0: 16 bytes at 00001000
hunk 1: 16 bytes at 00002000
hunk 2: 20 bytes at 00003000
hunk 3: 16 bytes at 00004000
the machine starts at 00001000: 41f9
"
missing_output='amihunk: link: unit 0 hunk 0: "print" not defined
  examples/main.o: unit 0 hunk 0 refers to print, references: 1
'
all_missing_output="amihunk: link: unit 0 hunk 0: \"print\" not defined
  examples/main.o: unit 0 hunk 0 refers to print, references: 2
  $work/draw.o: unit 0 hunk 0 refers to draw, references: 1
"
# Hunks of 16, 4, 32, 16 and 12 bytes: one after another; 64 KiB apart; downwards and 0x1235 apart, the first three at the
# even address below.
run_output="00C0FFEE, with hunks at 00001000 00001010 00001014 00001034 00001044
00C0FFEE, with hunks at 00020000 00030010 00040014 00050034 00060044
00C0FFEE, with hunks at 000eedba 000edb80 000ec92a 000eb6e5 000ea4a4
"

finish() {
    echo "$passed passed, $failed failed"
    [ "$failed" -eq 0 ]
    exit
}

# Whether a program can be built and run so: WORDS.. (those that run it) -- FLAGS..
is_there() {
    local words=()
    while [ "$1" != -- ]; do
        words+=("$1")
        shift
    done
    shift
    echo 'int main(void) { return 0; }' > "$work/nothing.c"
    "$cc" "$@" "$work/nothing.c" -o "$work/nothing" 2> /dev/null && "${words[@]}" "$work/nothing" > /dev/null 2>&1
}

if attempt "the library, by Rattle's own compiler" ./build.sh "$@" --backend rattle; then
    cp -r out "$work/by-rattle"
    beside run_way "by Rattle's own compiler" "$work/by-rattle/libamihunk.a" -O2 --
fi
attempt "the library" ./build.sh "$@" || { gather; finish; }
attempt "the names of the libraries" only_own_names
attempt "the shared library is well linked" is_well_linked
attempt "the shared library is the same elsewhere" is_the_same_elsewhere
attempt "the version of the library" versions_agree
beside run_way "plainly" out/libamihunk.a -O2 --
beside run_shared
sanitizers=(-g -O1 -fsanitize=address,undefined -fno-sanitize-recover=all)
if is_there -- "${sanitizers[@]}"; then
    beside run_way "with sanitizers" out/libamihunk.a "${sanitizers[@]}" --
else
    echo "The sanitizers are not installed, and were left out."
fi
valgrind=(valgrind --quiet --error-exitcode=99 --leak-check=full --show-leak-kinds=all --errors-for-leak-kinds=all)
if is_there "${valgrind[@]}" -- -O1; then
    beside run_way "in valgrind" out/libamihunk.a -g -O1 -- "${valgrind[@]}"
else
    echo "Valgrind is not installed, and was left out."
fi
run_examples
gather
finish
