#!/usr/bin/env bash
# Tries the program on what a system can put in the place of a file and of the output, on texts of the
# largest size and of one byte more, and on a small stack. Each call has a time limit.
#
#   tests/real_files.sh [PROGRAM]     PROGRAM is crates/tpal/out/tpal where none is given
#
# A line a case is written, and the status is 1 where a case differs.
set -u
top=$(cd "$(dirname -- "${BASH_SOURCE[0]}")/.." && pwd)
program=$(realpath -- "${1:-$top/crates/tpal/out/tpal}")
work=$(mktemp -d)
trap 'chmod -R u+rwx "$work"; rm -rf "$work"' EXIT
cd "$work" || exit 1
failed=0

# Says whether a status and the text in `out` are those that are owed.
judge() {
  local name=$1 status=$2 wanted=$3 text=$4
  if [ "$status" = "$wanted" ] && printf '%b' "$text" | cmp -s - out; then
    echo "$name: as written"
  else
    echo "$name: differs, with status $status for $wanted, and begins with $(head -c 60 out | head -n 1)"
    failed=1
  fi
}

# Runs the program on these words, within a minute.
call() {
  timeout 60 "$program" "$@" >out 2>errors
}

ends() {
  local name=$1 wanted=$2 text=$3 status=0
  shift 3
  call "$@" || status=$?
  judge "$name" "$status" "$wanted" "$text"
}

# So many copies of a text.
repeat() {
  local text=$1 times=$2
  if [ "$times" -gt 0 ]; then
    head -c $((${#text} * times)) < <(yes "$text" | tr -d '\n')
  fi
}

# --- what isn't a file ---
printf 'main { print 2 + 3; }' >five
printf 'input a; main { print a[0][0]; }' >first
printf 'table a 1 1 7' >seven
mkdir folder
ends 'a folder as program' 5 '' run folder
ends 'a folder as tables' 5 '' run first folder
ends 'a folder to compile' 5 '' compile folder
ends 'a folder as code' 5 '' exec folder
ends 'a file below a file' 5 '' run five/five
ends 'the empty name' 5 '' run ''
ends 'a name of 5,000 bytes' 5 '' run "$(repeat x 5000)"
ln -s loop loop
ends 'a link to itself' 5 '' run loop

# --- what may not be read ---
cp five closed
chmod 000 closed
# Root may read every file and make any number of threads.
user=()
runner=$program
if [ "$(id -u)" = 0 ]; then
  chmod 755 .
  cp -L "$program" runner
  chmod 755 runner
  runner=$work/runner
  user=(runuser -u nobody --)
fi
for words in 'run closed' 'run first closed' 'compile closed'; do
  status=0
  timeout 60 ${user[@]+"${user[@]}"} "$runner" $words >out 2>errors || status=$?
  judge "$words, without permission" "$status" 5 ''
done

# --- pipes with names ---
mkfifo pipe
cat five >pipe &
ends 'a program in a pipe' 0 '5\n' run pipe
wait
cat seven >pipe &
ends 'tables in a pipe' 0 '7\n' run first pipe
wait
(yes 2>&1 || true) >pipe 2>/dev/null &
ends 'a program without an end' 3 'refused E15 file pipe\n' run pipe
wait
(yes 2>&1 || true) >pipe 2>/dev/null &
ends 'tables without an end' 3 'refused E15 file pipe\n' run first pipe
wait
ends 'a device without an end' 3 'refused E15 file /dev/zero\n' run /dev/zero
ends 'the same as a code text' 3 'refused E15 file /dev/zero\n' exec /dev/zero
ends 'an empty device' 3 'refused E3 at 1:1\n' run /dev/null

# --- names that are no text ---
cp five $'five-\xff'
ends 'a name that is no UTF-8' 7 'bad words\n' run $'five-\xff'
ends 'an option that is no UTF-8' 7 'bad words\n' run five $'--fuel=\xff'
cp five 'fünf'
ends 'a name that is UTF-8' 0 '5\n' run 'fünf'
ends 'an absent name with a line break' 5 '' run $'no\nfile'
# The name of the program itself is none of its words.
mkdir $'f\xf6lder'
cp -L "$program" $'f\xf6lder/tp\xe4l'
status=0
timeout 60 $'./f\xf6lder/tp\xe4l' run five >out 2>errors || status=$?
judge 'a program whose own name and folder are no UTF-8' "$status" 0 '5\n'

# --- outputs that take nothing, or not all ---
printf 'table t[1][0]; main { emit t; }' >one_byte
printf 'main { loop i in 0..500000 { print 9223372036854775807; } }' >ten_million
ends 'an output of one byte' 0 '\n' run one_byte

# Says whether calls with an output that takes nothing end with a fault of writing.
cut_short() {
  local name=$1 status=0
  shift
  "$@" 2>errors || status=$?
  : >out
  judge "$name" "$status" 6 ''
}
to_full() { timeout 60 "$program" "$@" >/dev/full; }
to_closed() { timeout 60 "$program" "$@" >&-; }
# The reader of this pipe has ended before the program begins.
to_nobody() {
  local ends
  exec {ends}> >(exec true)
  sleep 0.2
  timeout 60 "$program" "$@" >&"$ends"
  local status=$?
  exec {ends}>&-
  return $status
}
# The reader of this one ends behind the first line.
to_first_line() {
  timeout 60 "$program" "$@" | head -n 1 >out
  return "${PIPESTATUS[0]}"
}
for text in one_byte ten_million; do
  cut_short "$text to a full device" to_full run "$text"
  cut_short "$text to a closed output" to_closed run "$text"
  cut_short "$text to a pipe without a reader" to_nobody run "$text"
done
cut_short 'code to a full device' to_full compile five
cut_short 'code to a pipe without a reader' to_nobody compile five
cut_short 'bad words to a full device' to_full walk
cut_short 'a sample to a full device' to_full sample 1 --fuel 0
cut_short 'a refusal to a full device' to_full run /dev/null
cut_short 'ten_million to a reader of one line' to_first_line run ten_million
status=0
to_first_line run one_byte || status=$?
judge 'one_byte to a reader of one line' "$status" 0 '\n'

# --- texts of the largest size, and of one byte more ---
{ printf 'main { print 2 + 3; }'; repeat ' ' $((1048576 - 21)); } >full
cp full over
printf ' ' >>over
ends 'a program of 1,048,576 bytes' 0 '5\n' run full
ends 'a program of 1,048,577 bytes' 3 'refused E15 file over\n' run over
ends 'the same to compile' 3 'refused E15 file over\n' compile over
{ printf 'table a 1 1 7'; repeat ' ' $((67108864 - 13)); } >full_tables
cp full_tables over_tables
printf ' ' >>over_tables
ends 'tables of 67,108,864 bytes' 0 '7\n' run first full_tables
ends 'tables of 67,108,865 bytes' 3 'refused E15 file over_tables\n' run first over_tables
rm -f full_tables over_tables
truncate -s 67108864 full_code
ends 'a code text of 67,108,864 bytes' 3 'refused E9 at line 1\n' exec full_code
truncate -s 67108865 over_code
ends 'a code text of 67,108,865 bytes' 3 'refused E15 file over_code\n' exec over_code
rm -f full_code over_code

# --- no thread can be made ---
printf 'main { let s = 0; par i in 0..100 reduce s by add { fold s with i; } print s; }' >sum
for workers in 2 4 16; do
  for most in 1 2 3; do
    status=0
    timeout 20 ${user[@]+"${user[@]}"} bash -c "ulimit -u $most; exec \"\$@\"" - "$runner" \
      run sum --beat 1 --workers $workers >out 2>errors || status=$?
    judge "$workers workers where $most threads may be made" "$status" 0 '4950\n'
  done
done

# --- a stack of 256 KiB ---
printf 'fn f(n) {
  let r = 0;
  if 0 < n { call r = f(n - 1); }
  return r;
}
main { let x = 0; call x = f(9999); print x; }' >deep
printf 'fn f(n) {
  let r = n;
  if 0 < n {
    let a = 0;
    let b = 0;
    both a = f(n - 1), b = f(0);
    r = a + b;
  }
  return r;
}
main { let x = 0; call x = f(9999); print x; }' >deep_pairs
{ printf 'main { print '; repeat '(' 127; printf 7; repeat ')' 127; printf '; }'; } >brackets
{ printf 'main { print -'; repeat '(' 127; printf 7; repeat ')' 127; printf '; }'; } >most_tokens
{ printf 'main { print 1'; repeat ' + 1' 23; printf '; }'; } >high
{ printf 'main {'; repeat ' if 1 {' 31; printf ' print 7;'; repeat ' }' 32; } >blocks
{ printf 'main {'; repeat ' if 1 {' 31; printf ' print '; repeat '(' 127; printf 7; repeat ')' 127
  printf ';'; repeat ' }' 32; } >blocks_and_brackets
{ printf 'main {'; for i in 1 2 3 4 5 6 7 8; do printf ' par i%s in 0..1 {' $i; done; repeat ' }' 9; } >loops
{ printf 'main { print '; repeat '(' 1000000; } >open_brackets
{ printf 'main {'; repeat ' if 1 {' 31; printf ' print '; repeat '(' 1000000; } >open_in_blocks
{ printf 'main {'; repeat ' if 1 {' 31; printf ' print '; repeat '(' 500000; printf 7; repeat ')' 500000
  printf ';'; repeat ' }' 32; } >brackets_in_blocks
{ printf 'main { print '; repeat '-' 1000000; } >signs
{ printf 'main {'; repeat ' if 1 {' 140000; } >open_blocks
{ repeat '{' 1000000; } >braces
{ printf 'main { '; repeat 'if 1 {} ' 2730; printf '}'; } >long
{ printf '#'; repeat '(' 1000000; printf '\nmain { print 7; }'; } >comment

ulimit -s 256
small() { ends "$1, on a small stack" "${@:2}"; }
for beat in 1 10000; do
  for workers in 1 4; do
    small "calls 10,000 deep" 0 '0\n' run deep --beat $beat --workers $workers
    small "pairs of calls 10,000 deep" 0 '0\n' run deep_pairs --beat $beat --workers $workers
  done
done
small 'brackets' 0 '7\n' run brackets
small 'an expression of 256 tokens' 0 '-7\n' run most_tokens
small 'an expression of height 24' 0 '24\n' run high
small 'blocks 32 deep' 0 '7\n' run blocks
small 'brackets in blocks 32 deep' 0 '7\n' run blocks_and_brackets
small 'parallel loops 8 deep' 0 '' run loops --beat 1
small 'parallel loops 8 deep by 4 workers' 0 '' run loops --beat 1 --workers 4
small 'a long program' 0 '' run long
small 'a comment' 0 '7\n' run comment
small 'a sample' 2 'out of fuel\n' sample 1 --fuel 100000 --beat 1
small 'a sample by 4 workers' 2 'out of fuel\n' sample 1 --fuel 100000 --beat 1 --workers 4
for command in run compile; do
  small "open brackets to $command" 3 'refused E14 at 1:270\n' $command open_brackets
  small "open brackets in blocks to $command" 3 'refused E14 at 1:487\n' $command open_in_blocks
  small "a million brackets in blocks to $command" 3 'refused E14 at 1:487\n' $command brackets_in_blocks
  small "signs to $command" 3 'refused E14 at 1:270\n' $command signs
  small "open blocks to $command" 3 'refused E14 at 1:230\n' $command open_blocks
  small "braces to $command" 3 'refused E3 at 1:1\n' $command braces
done
for text in deep deep_pairs brackets most_tokens high blocks blocks_and_brackets loops long comment; do
  status=0
  call compile $text || status=$?
  tail -n 2 out >end
  mv end out
  judge "$text to compile, on a small stack" "$status" 0 '  prmsplit r28, r29\n  jump r29\n'
  status=0
  call run --show --beat 1 $text || status=$?
  tail -n 1 out | sed 's/[0-9][0-9]*/N/g' >end
  mv end out
  judge "$text shown, on a small stack" "$status" 0 'tasks N beats N skipped N instructions N ticks N\n'
done
exit $failed
