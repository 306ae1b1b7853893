#!/usr/bin/env bash
# MB/s of the printer, beside `wc -l` on the same text in the same run. Build first: `rt run -- print 2 1`
# in crates/bench_compiler. The text has BLOCKS blocks; building it costs one printing's time at most.
set -eu
cd "$(dirname "$0")/.."
blocks=${BLOCKS:-60000}
times=${TIMES:-40}
program=crates/bench_compiler/out/bench_compiler
text=$(mktemp)
trap 'rm -f "$text"' EXIT
"$program" print "$blocks" 1 > "$text"
bytes=$(stat -c %s "$text")
# user seconds of a command
spent() { { TIMEFORMAT=%U; time "$@" > /dev/null; } 2>&1; }
one=$(spent "$program" print "$blocks" 1)
many=$(spent "$program" print "$blocks" $((times + 1)))
lines() { for _ in $(seq "$times"); do wc -l < "$text"; done; }
wc=$(spent lines)
awk -v b="$bytes" -v n="$times" -v one="$one" -v many="$many" -v wc="$wc" 'BEGIN {
  mb = b * n / 1e6; p = mb / (many - one); w = mb / wc
  printf "text %d bytes; print %.0f MB/s; wc -l %.0f MB/s; ratio %.3f\n", b, p, w, p / w }'
