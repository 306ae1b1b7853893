#!/usr/bin/env bash
# What heartbeats cost a run by one worker. A loop that may be cut before each iteration adds the
# numbers below COUNT: as one task with no diversion, and as a solo run with heartbeats from 1 to
# 10^9. Prints for each the processor time against the plain run's, the least of RUNS with all in
# turn, the x86 instructions that callgrind counts against the plain run's, and the tasks and skipped
# beats. Build first: `rt run -- heartbeats 1 100` in crates/bench_machine.
set -eu
cd "$(dirname "$0")/.."
count=${COUNT:-10000000}
runs=${RUNS:-9}
(cd crates/bench_machine && rt run -- heartbeats 1 100 >/dev/null)
python3 - crates/bench_machine/out/bench_machine "$count" "$runs" <<'PY'
import os, re, subprocess, sys
program, count, runs = sys.argv[1], sys.argv[2], int(sys.argv[3])
kinds = ["plain", "1000000000", "10000", "100", "1"]
def spent(kind):
    quiet = [(os.POSIX_SPAWN_OPEN, 1, "/dev/null", os.O_WRONLY, 0)]
    child = os.posix_spawn(program, [program, "heartbeats", kind, count], os.environ, file_actions=quiet)
    used = os.wait4(child, 0)[2]
    return used.ru_utime + used.ru_stime
def executed(kind):
    command = ["valgrind", "--tool=callgrind", "--callgrind-out-file=/dev/null", program, "heartbeats", kind, str(int(count) // 10)]
    told = subprocess.run(command, check=True, capture_output=True, text=True).stderr
    return int(re.search(r"Collected : (\d+)", told).group(1))
told = {kind: subprocess.run([program, "heartbeats", kind, count], check=True, capture_output=True, text=True).stdout.split("\n") for kind in kinds}
assert len({lines[0] for lines in told.values()}) == 1, told
times = {kind: 1e9 for kind in kinds}
for _ in range(runs):
    for kind in kinds:
        times[kind] = min(times[kind], spent(kind))
steps = {kind: executed(kind) for kind in kinds}
print(f"sum of the numbers below {count}: {told['plain'][0]}; plain run {times['plain']:.3f} s")
for kind in kinds[1:]:
    print(f"heartbeat {kind}: time {times[kind] / times['plain']:.3f}, x86 instructions {steps[kind] / steps['plain']:.4f} of the plain run; {told[kind][1]}")
PY
