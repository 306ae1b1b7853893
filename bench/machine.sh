#!/usr/bin/env bash
# Runs two codes on the machine and on the same interpreter in plain Rust, in turn: the sum of the
# squares of a table of 1000 by 1000 cells, and fib of 24. Prints the machine's steps a second by
# processor time, the least of fifteen, the x86 instructions a step that callgrind counts, and the
# ratios. Where there is a lua5.4, it runs the same two programs in Lua too.
set -eu
cd "$(dirname "$0")/.."
work=$(mktemp -d)
trap 'rm -rf "$work"' EXIT
rustc --edition 2021 -O -o "$work/twin" bench/machine.rs
(cd crates/bench_machine && rt run -- codes fib 1 >/dev/null)
python3 - crates/bench_machine/out/bench_machine "$work/twin" <<'PY'
import os, re, shutil, subprocess, sys
programs = [[sys.argv[1], "codes"], [sys.argv[2]]]
lua = shutil.which("lua5.4")
timed = programs + ([[lua, "bench/machine.lua"]] if lua else [])
def spent(program, name, times):
    quiet = [(os.POSIX_SPAWN_OPEN, 1, "/dev/null", os.O_WRONLY, 0)]
    child = os.posix_spawn(program[0], [*program, name, str(times)], os.environ, file_actions=quiet)
    used = os.wait4(child, 0)[2]
    return used.ru_utime + used.ru_stime
def executed(program, name, times):
    command = ["valgrind", "--tool=callgrind", "--callgrind-out-file=/dev/null", *program, name, str(times)]
    told = subprocess.run(command, check=True, capture_output=True, text=True).stderr
    return int(re.search(r"Collected : (\d+)", told).group(1))
def output(program, name):
    return subprocess.run([*program, name, "1"], check=True, capture_output=True, text=True).stdout
for name, times in (("sum", 6), ("fib", 16)):
    text = [output(program, name) for program in programs]
    assert text[0] == text[1], text
    assert not lua or text[0].split()[0] == output(timed[2], name).strip()
    steps = int(text[0].split()[-1])
    # Each of the two least times apart, since a difference of two noisy ones has a least below all.
    least = [[1e9, 1e9] for _ in timed]
    for _ in range(15):
        for program, times_of in zip(timed, least):
            for i, runs in enumerate((1, times + 1)):
                times_of[i] = min(times_of[i], spent(program, name, runs))
    once = [(long - short) / times for short, long in least]
    ours, twin = [steps / seconds / 1e6 for seconds in once[:2]]
    print(f"{name}: {ours:.0f} million steps a second, twin {twin:.0f}, ratio {ours / twin:.2f}")
    if shutil.which("valgrind"):
        ours, twin = [(executed(program, name, 2) - executed(program, name, 1)) / steps for program in programs]
        print(f"{name}: {ours:.1f} instructions a step, twin {twin:.1f}, ratio {twin / ours:.2f}")
    if lua:
        print(f"{name}: {once[0] * 1e3:.1f} ms a run, Lua {once[2] * 1e3:.1f} ms, ratio {once[2] / once[0]:.2f}")
PY
