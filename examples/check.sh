#!/usr/bin/env bash
# Runs each example over its tables and compares what it prints with the text beside it, and its status
# with 0, or with the one beside it: each program, and each code that was written by hand. Then tries
# each other way in which a call ends: the status of the process, and the line.
set -eu
cd "$(dirname -- "${BASH_SOURCE[0]}")"
failed=0
work=$(mktemp -d)
trap 'rm -rf "$work"' EXIT

# Says whether a call with these words ends with that status and writes that file.
ends() {
  local name=$1 wanted=$2 text=$3 status=0
  shift 3
  ../tpal "$@" >"$work/out" || status=$?
  if [ "$status" = "$wanted" ] && cmp -s "$work/out" "$text"; then
    echo "$name: as written"
  else
    echo "$name: differs, with status $status for $wanted"
    failed=1
  fi
}

# The same of a source text and the text that it owes, behind the command and before the other words.
owes() {
  local name=$1 wanted=$2 source=$3 text=$4
  shift 4
  printf '%s' "$source" >"$work/p"
  printf '%b' "$text" >"$work/text"
  ends "$name" "$wanted" "$work/text" run "$work/p" "$@"
}

# The same of a code text.
code_owes() {
  local name=$1 wanted=$2 code=$3 text=$4
  shift 4
  printf '%b' "$code" >"$work/p"
  printf '%b' "$text" >"$work/text"
  ends "$name" "$wanted" "$work/text" exec "$work/p" "$@"
}

for program in *.tpal; do
  name=${program%.tpal}
  tables=()
  if [ -e "$name.tables" ]; then
    tables=("$name.tables")
  fi
  ends "$name" 0 "$name.out" run "$program" ${tables[@]+"${tables[@]}"}
done

for code in *.tasm; do
  name=${code%.tasm}
  tables=()
  if [ -e "$name.tables" ]; then
    tables=("$name.tables")
  fi
  wanted=0
  if [ -e "$name.status" ]; then
    wanted=$(<"$name.status")
  fi
  for beat in 1 10000; do
    ends "$code, --beat $beat" "$wanted" "$name.out" \
      exec "$code" ${tables[@]+"${tables[@]}"} --beat "$beat"
  done
done

# What a sample prints, whichever way its run goes.
sample() {
  printf '%s\n' -1841916167788486091 330540374171 524419 >"$work/text"
  ends "a sample${*:+, $*}" 0 "$work/text" sample 1 "$@"
}

sample
sample --workers 4
sample --workers=4 --beat=1

owes 'a trap' 1 'main { print 7; print 1 / 0; }' '7\ntrap Divide at 1:25\n'
owes 'a run out of fuel' 2 'main { while 1 { } }' 'out of fuel\n' --fuel 1000
owes 'a refused program' 3 'main { print 1 + ; }' 'refused E3 at 1:18\n'
loop='main: plain\n  jump @a\na: plain\n  tick\n  jump @a\n'
code_owes 'a code out of steps' 2 "$loop" 'out of steps\n' --steps 1000
code_owes 'a code out of fuel' 2 "$loop" 'out of fuel\n' --fuel 1000
code_owes 'a text that is no code' 3 'main: plain\n  halt' 'refused E9 at line 2\n'
code_owes 'a code that is refused' 3 'main: plain\n  jump r30\n' 'refused E16 V7 at main:0\n'
code_owes 'a code and absent tables' 5 'main: plain\n  halt\n' '' "$work/absent"
owes 'absent tables' 5 'main { }' '' "$work/absent"
: >"$work/text"
ends 'an absent file' 5 "$work/text" run "$work/absent"
printf 'bad words\n' >"$work/text"
ends 'no words' 7 "$work/text"
ends 'a word too many' 7 "$work/text" compile hello.tpal hello.tpal
ends 'no seed' 7 "$work/text" sample hello.tpal
ends 'a code by two workers' 7 "$work/text" exec sum.tasm --workers 2

if [ -e /dev/full ]; then
  status=0
  ../tpal run hello.tpal >/dev/full || status=$?
  if [ "$status" = 6 ]; then
    echo 'a full output: as written'
  else
    echo "a full output: differs, with status $status for 6"
    failed=1
  fi
fi
exit $failed
