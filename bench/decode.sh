#!/usr/bin/env bash
# Measures the decoder: feeds it 64 MB of content, with a taker that counts and sums words, and compares that with a plain sum of
# the same longwords. Does so five times, and prints the bytes per second of both and the ratio of their times.
set -eu
cd "$(dirname "$0")/../crates/hunk_bench"
rt run -- decode > /dev/null
for _ in 1 2 3 4 5; do out/hunk_bench decode; done | awk '
    { sum = $3; decode = $9; bytes = 67108864
      printf "sum %.0f MB/s, decoder %.0f MB/s, ratio %.1f\n", bytes * 1000 / sum, bytes * 1000 / decode, decode / sum }'
