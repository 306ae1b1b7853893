#!/usr/bin/env bash
# Runs programs again and again by several workers. Each run has a minute, and must print the same text and
# end with the same status as the first one, by one worker.
#
#   tests/stress.sh [PROGRAM [TIMES [RUNS]]]
#
# PROGRAM is crates/tpal/out/tpal where none is given. The examples and a program that traps in the middle run
# TIMES times (100) with each of 1, 2, 4 and 16 workers and each of the heartbeats 1, 100 and 10,000. Then a
# sum, calls in pairs, a table of products and that program make RUNS runs (10,000) in all, by 16 workers with
# the heartbeat 1. The numbers are printed; the status is 1 where a run differs.
set -u
top=$(cd "$(dirname -- "${BASH_SOURCE[0]}")/.." && pwd)
program=$(realpath -- "${1:-$top/crates/tpal/out/tpal}")
times=${2:-100}
total=${3:-10000}
work=$(mktemp -d)
trap 'rm -rf "$work"' EXIT
made=0
bad=0

cat >"$work/trap.tpal" <<'P'
main {
  let s = 0;
  print 7;
  par i in 0..200 reduce s by add {
    par j in 0..20 reduce s by add { fold s with 10 / (i * 20 + j - 2500); }
  }
  print s;
}
P
cat >"$work/sum.tpal" <<'P'
input a;
main {
  let s = 0;
  par i in 0..rows(a) reduce s by add { fold s with a[i][0]; }
  print s;
}
P
printf 'table a 4 1 1 2 3 4' >"$work/sum.tables"
cat >"$work/pairs.tpal" <<'P'
fn fib(n) {
  let r = n;
  if 1 < n {
    let a = 0;
    let b = 0;
    both a = fib(n - 1), b = fib(n - 2);
    r = a + b;
  }
  return r;
}
main { let x = 0; call x = fib(10); print x; }
P
cat >"$work/products.tpal" <<'P'
table t[3][3];
main {
  par i in 0..3 carry t[i] {
    par j in 0..3 carry t[i][j] { t[i][j] = (i + 1) * (j + 1); }
  }
  emit t;
}
P

# The words that name a program and its tables text.
texts_of() {
  words=("$1")
  if [ -e "${1%.tpal}.tables" ]; then
    words+=("${1%.tpal}.tables")
  fi
}

# What a program prints by one worker, and its status.
wanted_of() {
  texts_of "$1"
  wanted=$work/$(basename "$1" .tpal).wanted
  status=0
  timeout 60 "$program" run "${words[@]}" >"$wanted" 2>&1 || status=$?
}

# One more run, with these options.
try() {
  local found=0
  timeout 60 "$program" run "${words[@]}" "$@" >"$work/out" 2>&1 || found=$?
  made=$((made + 1))
  if [ "$found" != "$status" ] || ! cmp -s "$work/out" "$wanted"; then
    bad=$((bad + 1))
    echo "differs: ${words[0]} $*: status $found for $status"
  fi
}

for source in "$top"/examples/*.tpal "$work/trap.tpal"; do
  wanted_of "$source"
  if [ -e "${source%.tpal}.out" ] && ! cmp -s "${source%.tpal}.out" "$wanted"; then
    bad=$((bad + 1))
    echo "differs: $source by one worker"
  fi
  for workers in 1 2 4 16; do
    for beat in 1 100 10000; do
      for ((k = 0; k < times; k++)); do
        try --workers $workers --beat $beat
      done
    done
  done
done
echo "examples: $made runs, $bad that differ, $SECONDS s"

made=0
for source in "$work"/{sum,pairs,products,trap}.tpal; do
  wanted_of "$source"
  printf '%s: ' "$(basename "$source" .tpal)"
  tail -n 1 "$wanted"
  for ((k = 0; k < total / 4; k++)); do
    try --workers 16 --beat 1
  done
done
echo "16 workers: $made runs, $bad that differ in all, $SECONDS s"
[ "$bad" = 0 ]
