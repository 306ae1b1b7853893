#!/usr/bin/env bash
# Tokens per second of lexing and parsing a source of nearly 1,048,576 bytes, beside `wc -w` on the same
# file in the same run: processor time, the least of nine, the two in turn.
set -eu
cd "$(dirname "$0")/.."
lines=${LINES_OF_SOURCE:-16500}
(cd crates/bench_compiler && rt run -- parse 4 1 >/dev/null)
python3 - crates/bench_compiler/out/bench_compiler "$lines" <<'PY'
import os, subprocess, sys, tempfile
program, lines = sys.argv[1:]
source = tempfile.NamedTemporaryFile()
source.write(subprocess.run([program, "parse", lines, "0"], check=True, capture_output=True).stdout)
source.flush()
size = os.path.getsize(source.name)
words = int(subprocess.run(["wc", "-w", source.name], check=True, capture_output=True).stdout.split()[0])
tokens = int(subprocess.run([program, "parse", lines, "1"], check=True, capture_output=True).stdout.split()[0])
def spent(command):
    quiet = [(os.POSIX_SPAWN_OPEN, 1, "/dev/null", os.O_WRONLY, 0)]
    child = os.posix_spawnp(command[0], command, os.environ, file_actions=quiet)
    used = os.wait4(child, 0)[2]
    return used.ru_utime + used.ru_stime
read = count = 1e9
for _ in range(9):
    read = min(read, (spent([program, "parse", lines, "21"]) - spent([program, "parse", lines, "1"])) / 20)
    count = min(count, spent(["wc", "-w"] + 20 * [source.name]) / 20)
print(f"source {size} bytes, {tokens} tokens, {words} words")
print(f"lex and parse {tokens / read / 1e6:.2f} million tokens/s, wc -w {words / count / 1e6:.2f} million words/s")
print(f"time over wc -w on the same file {read / count:.2f}")
PY
