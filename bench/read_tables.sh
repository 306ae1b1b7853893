#!/usr/bin/env bash
# Times reading a table of 2,000 rows and columns against the plain Rust twin: the processor time of
# 21 readings less that of 1, the two programs in turn, the least of nine. Prints both speeds and
# their ratio.
set -eu
cd "$(dirname "$0")/.."
work=$(mktemp -d)
trap 'rm -rf "$work"' EXIT
rustc --edition 2021 -O -C target-cpu=x86-64-v2 -o "$work/twin" bench/read_tables.rs
(cd crates/bench_compiler && rt run -- tables 3 2 >/dev/null)
python3 - crates/bench_compiler/out/bench_compiler "$work/twin" <<'PY'
import os, subprocess, sys
ours, twin = [sys.argv[1], "tables"], [sys.argv[2]]
for side in ("3", "100"):
    text = [subprocess.run([*program, side, "2"], check=True, capture_output=True).stdout for program in (ours, twin)]
    assert text[0] == text[1]
def once(program, times):
    quiet = [(os.POSIX_SPAWN_OPEN, 1, "/dev/null", os.O_WRONLY, 0)]
    child = os.posix_spawn(program[0], [*program, "2000", str(times)], os.environ, file_actions=quiet)
    used = os.wait4(child, 0)[2]
    return used.ru_utime + used.ru_stime
least = [1e9, 1e9]
for _ in range(9):
    for at, program in enumerate((ours, twin)):
        least[at] = min(least[at], (once(program, 21) - once(program, 1)) / 20)
x, size = 1, len("table a 2000 2000\n")
for _ in range(4_000_000):
    x = (x * 1664525 + 1013904223) % 2**32
    size += len(str(x // 65536 % 1000)) + 1
print(f"text {size} bytes, 4000000 cells")
print(f"read_tables {size / least[0] / 1e6:.0f} MB/s, twin {size / least[1] / 1e6:.0f} MB/s, ratio {least[1] / least[0]:.2f}")
PY
