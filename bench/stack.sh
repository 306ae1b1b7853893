#!/usr/bin/env bash
# A thousand marks set on a stack and taken away, the oldest first, and a stack of 100,000 cells with
# 1,000 marks cut at its lowest activation, against the same in plain Rust with the marks in a queue
# beside the cells: nanoseconds a mark and microseconds a cut, by user and system time, and the x86
# instructions that callgrind counts, where there is one. Build first: `rt run -- marks cuts 1` in
# crates/bench_machine. Each load runs twice, so that starting up falls out.
set -eu
cd "$(dirname "$0")/.."
program=crates/bench_machine/out/bench_machine
twin=$(mktemp -d)
trap 'rm -rf "$twin"' EXIT
rustc --edition 2021 -O -o "$twin/stack" bench/stack.rs
python3 - "$program" "$twin/stack" <<'PY'
import os, re, shutil, subprocess, sys
programs = [[sys.argv[1], "marks"], [sys.argv[2]]]
def spent(program, name, times):
    quiet = [(os.POSIX_SPAWN_OPEN, 1, "/dev/null", os.O_WRONLY, 0)]
    child = os.posix_spawn(program[0], [*program, name, str(times)], os.environ, file_actions=quiet)
    used = os.wait4(child, 0)[2]
    return used.ru_utime + used.ru_stime
def executed(program, name, times):
    command = ["valgrind", "--tool=callgrind", "--callgrind-out-file=/dev/null", *program, name, str(times)]
    told = subprocess.run(command, check=True, capture_output=True, text=True).stderr
    return int(re.search(r"Collected : (\d+)", told).group(1))
for name, times, parts, unit, scale in (("marks", 400, 1000, "ns a mark", 1e9), ("cuts", 1000, 1, "us a cut", 1e6)):
    least = [[1e9, 1e9] for _ in programs]
    for _ in range(7):
        for program, best in zip(programs, least):
            for i, runs in enumerate((1, times + 1)):
                best[i] = min(best[i], spent(program, name, runs))
    ours, twin = [(long - short) / times / parts * scale for short, long in least]
    print(f"{name}: {ours:.2f} {unit}, with a queue {twin:.2f}, ratio {ours / twin:.2f}")
    if shutil.which("valgrind"):
        ours, twin = [(executed(program, name, 11) - executed(program, name, 1)) / 10 / parts for program in programs]
        print(f"{name}: {ours:.0f} instructions, with a queue {twin:.0f}, ratio {ours / twin:.2f}")
PY
