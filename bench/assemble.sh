#!/usr/bin/env bash
# MB/s of the assembler on a code text of 60,000 blocks, beside `wc -l` on the same file in the same run:
# processor time, the least of nine, the two in turn.
set -eu
cd "$(dirname "$0")/.."
blocks=${BLOCKS:-60000}
(cd crates/bench_compiler && rt run -- assemble 3 1 >/dev/null)
python3 - crates/bench_compiler/out/bench_compiler "$blocks" <<'PY'
import os, subprocess, sys, tempfile
program, blocks = sys.argv[1:]
text = tempfile.NamedTemporaryFile()
text.write(subprocess.run([program, "assemble", blocks, "0"], check=True, capture_output=True).stdout)
text.flush()
size = os.path.getsize(text.name)
assert subprocess.run([program, "assemble", blocks, "1"], check=True, capture_output=True).stdout == b"%s blocks\n" % blocks.encode()
def spent(command):
    quiet = [(os.POSIX_SPAWN_OPEN, 1, "/dev/null", os.O_WRONLY, 0)]
    child = os.posix_spawnp(command[0], command, os.environ, file_actions=quiet)
    used = os.wait4(child, 0)[2]
    return used.ru_utime + used.ru_stime
read = count = 1e9
for _ in range(9):
    read = min(read, (spent([program, "assemble", blocks, "6"]) - spent([program, "assemble", blocks, "1"])) / 5)
    count = min(count, spent(["wc", "-l"] + 20 * [text.name]) / 20)
print(f"text {size} bytes, {blocks} blocks")
print(f"assemble {size / read / 1e6:.1f} MB/s, wc -l {size / count / 1e6:.0f} MB/s, ratio {count / read:.4f}")
PY
