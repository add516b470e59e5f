#!/usr/bin/env bash
# Compares the commands and options of `amihunk --help` with those of the man page and of the completions for
# bash and zsh, by real completions of both shells. It ends with status 1 where they differ. It needs the
# toolchain, python3, man and zsh on the PATH.
set -eu
. "$(dirname "$0")/common.sh"
python3 "$benches/words.py" "$amihunk" "$benches/.."
