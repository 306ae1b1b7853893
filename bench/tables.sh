#!/usr/bin/env bash
# Reading and writing cells of an owned whole table, which was never cut or was cut and put together
# again, against plain vectors in Rust; and cutting a table of 4,000,000 cells and appending what
# was cut off against copying its cells once, as ratios of user seconds (user and system for cuts
# and copies) in one run. `plain` is a vector in a table that learns its sizes when it runs, as ours
# does, and tests the row, the column and the index at each cell. `fixed` is one whose sizes stand in
# the code: there rustc takes every test out, and makes the walk along rows a vector loop.
# Build first: `rt run -- tables cuts 1` in crates/bench_machine. Each load runs twice, so that starting up
# falls out, and three times over, of which the least counts. With another build's program as
# argument, its path and the word `tables` as one, its walks are compared too.
set -eu
cd "$(dirname "$0")/.."
program="crates/bench_machine/out/bench_machine tables"
twin=$(mktemp -d)
trap 'rm -rf "$twin"' EXIT
rustc -O -o "$twin/tables" bench/tables.rs
# spent PROGRAM WORDS: a program may be followed by a word of its own
spent() { { TIMEFORMAT='%U %S'; time $1 "${@:2}" > /dev/null; } 2>&1 | awk '{ print $1 + $2 }'; }
least() { for _ in 1 2 3; do spent "$@"; done | sort -g | head -1; }
# load PROGRAM NAME TIMES: the seconds of so many rounds
load() { awk -v a="$(least "$1" "$2" 1)" -v b="$(least "$1" "$2" $(($3 + 1)))" -v n="$3" 'BEGIN { print (b - a) / n }'; }
ratio() { awk -v a="$1" -v b="$2" 'BEGIN { printf "%.4f\n", a / b }'; }
for walk in access rows columns; do
  plain=$(load "$twin/tables" "$walk" "${TIMES:-40}")
  fixed=$(load "$twin/tables" "fixed_$walk" "${TIMES:-40}")
  ours=$(load "$program" "$walk" "${TIMES:-40}")
  joined=$(load "$program" "cut_$walk" "${TIMES:-40}")
  echo "$walk: plain / never cut $(ratio "$plain" "$ours"), fixed $(ratio "$fixed" "$ours")"
  echo "$walk: plain / cut and joined $(ratio "$plain" "$joined"), fixed $(ratio "$fixed" "$joined")"
  if [ $# -gt 0 ]; then echo "$walk: other build / never cut $(ratio "$(load "$1" "$walk" "${TIMES:-40}")" "$ours")"; fi
done
copy=$(load "$program" copies 20)
echo "cut at the middle and append, in copies: $(ratio "$(load "$program" cuts 20000)" "$copy")"
echo "a row cut out in two and appended, in copies: $(ratio "$(load "$program" row_cuts 20000)" "$copy")"
echo "a thousand leaves and back, in copies: $(ratio "$(load "$program" leaves 100)" "$copy")"
# A copy is made for each first cut.
echo "first cut and append, in copies: $(ratio "$(awk -v a="$(load "$program" first_cuts 20)" -v b="$copy" 'BEGIN { print a - b }')" "$copy")"
