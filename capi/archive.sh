#!/usr/bin/env bash
# Makes crates/amihunk_c/out/libamihunk_c.a, by `rt lib`, which proves what it builds. The arguments are handed to it.
#
# With --after-gate as the first argument, it stands over the libraries that `rt ci` has just proved and left in a clone
# that had none. `rt lib` takes no library of the gate, and would prove each once more; here crates/amihunk_c alone is
# proved, the first time. Use it right after `rt ci`, with no file changed since: nothing compares the libraries with
# their sources. With --proof after it, it ends with that proof, which is made in one process, beside the rest of the gate.
set -eu
cd "$(dirname "$0")/../crates/amihunk_c"

libraries="$(sed -n 's/^amihunk_c staticlib: //p' ../../crates.txt)"

# Whether all libraries of the repository here are the gate's: beside its own ones `rt lib` leaves a stamp.
are_the_gates() {
    local name
    for name in $libraries; do
        [ ! -d "../$name" ] || { [ -d "../$name/out/rlib/$name.rlib" ] && [ ! -e "../$name/out/rlib/stamp" ]; } || return 1
    done
}

after_gate=no
if [ "${1-}" = --after-gate ]; then
    after_gate=yes
    shift
fi
proof_alone=no
jobs="$(nproc)"
if [ "${1-}" = --proof ]; then
    proof_alone=yes
    jobs=1
    shift
fi
if [ "$after_gate" = no ] || ! are_the_gates; then
    exec rt lib "$@"
fi

kit="$(dirname "$(rt doc)")"
words=(--crate-name amihunk_c --crate-type staticlib src/lib.rt --extern "std=$kit/rlibs/std.rlib")
words+=(--antt-project "$kit/rattle/logic/antt-project.json" -L "dependency=$kit/rlibs")
for name in $libraries; do
    if [ -d "../$name" ]; then
        words+=(--extern "$name=../$name/out/rlib/$name.rlib")
    else
        words+=(--extern "$name=$kit/rlibs/$name.rlib")
    fi
done
for folder in ../*/out/rlib; do
    words+=(-L "dependency=$folder")
done

mkdir -p out
if [ ! -d out/checked ]; then
    rattle check "${words[@]}" --logic-built "$kit/logic_built" --jobs "$jobs" -o out/checked
fi
[ "$proof_alone" = no ] || exit 0
exec rattle build "${words[@]}" --crate-checked out/checked --toolchain "$kit/toolchain" "$@" \
    -o out/libamihunk_c.a
