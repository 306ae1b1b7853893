#!/usr/bin/env bash
# What heartbeats cost compiled programs that one worker runs: those that `lower` of crates/bench_compiler
# counts, and larger ones, at heartbeats from 1 to 10^9. Prints for each, against the run at 10^9: the
# processor time, the least of RUNS with all in turn, the x86 instructions that callgrind counts (not
# for the larger ones, nor for a program that it can't run), the machine's instructions, and the tasks
# and skipped beats. Words behind the script choose programs by their names. PROGRAM is a built `tpal`,
# else the repository's is built.
set -eu
cd "$(dirname "$0")/.."
runs=${RUNS:-5}
program=${PROGRAM:-crates/tpal/out/tpal}
if [ -z "${PROGRAM:-}" ]; then
  ./tpal run examples/hello.tpal >/dev/null
fi
python3 - "$program" "$runs" "$@" <<'PY'
import os, re, subprocess, sys, tempfile
program, runs, chosen = sys.argv[1], int(sys.argv[2]), sys.argv[3:]
beats = [10 ** 9, 10_000, 1_000, 100, 10, 1]
listed = open("crates/bench_compiler/src/lowering.rt").read()
small = dict(re.findall(r'\(\s*"([^"]+)",\s*"([^"]+)",?\s*\)', listed))
large = {
    "large par with fold": """main {
  let s = 0;
  par i in 0..3000000 reduce s by add { fold s with i; }
  print s;
}""",
    "large sum of rows": """table a[1000][1000];
table s[1000][1];
main {
  par i in 0..1000 carry s[i] {
    let x = 0;
    loop j in 0..1000 { x = x + a[i][j] + i * j; }
    s[i][0] = x;
  }
  let g = 0;
  par i in 0..1000 reduce g by max { fold g with s[i][0]; }
  print g;
}""",
    "large nested par": """table a[1000][1000];
main {
  let m = 0;
  par i in 0..1000 reduce m by add {
    par j in 0..1000 reduce m by add { fold m with a[i][j] + i; }
  }
  print m;
}""",
    "large fib by both": """fn fib(n) {
  let r = n;
  if n > 1 {
    let a = 0;
    let b = 0;
    both a = fib(n - 1), b = fib(n - 2);
    r = a + b;
  }
  return r;
}
main { let f = 0; call f = fib(25); print f; }""",
}
folder = tempfile.TemporaryDirectory()

def words(beat):
    return [program, "run", os.path.join(folder.name, "p"), "--beat", str(beat)]

def spent(beat):
    quiet = [(os.POSIX_SPAWN_OPEN, 1, "/dev/null", os.O_WRONLY, 0)]
    child = os.posix_spawn(program, words(beat), os.environ, file_actions=quiet)
    used = os.wait4(child, 0)[2]
    return used.ru_utime + used.ru_stime

def executed(beat):
    command = ["valgrind", "--tool=callgrind", "--callgrind-out-file=/dev/null"] + words(beat)
    told = subprocess.run(command, capture_output=True, text=True).stderr
    found = re.search(r"Collected : (\d+)", told)
    return int(found.group(1)) if found else None

def shown(beat):
    told = subprocess.run(words(beat) + ["--show"], check=True, capture_output=True, text=True).stdout
    counts = told.rstrip("\n").rpartition("\n")[2].split(" ")
    return dict(zip(counts[0::2], map(int, counts[1::2])))

for name, source in list(small.items()) + list(large.items()):
    if chosen and name not in chosen:
        continue
    with open(os.path.join(folder.name, "p"), "w") as file:
        file.write(source)
    printed = {subprocess.run(words(beat), check=True, capture_output=True).stdout for beat in beats}
    assert len(printed) == 1, (name, printed)
    counts = {beat: shown(beat) for beat in beats}
    times = dict.fromkeys(beats, 1e9)
    for _ in range(runs):
        for beat in beats:
            times[beat] = min(times[beat], spent(beat))
    steps = {beat: executed(beat) for beat in beats} if name in small else {}
    if None in steps.values():
        steps = {}
    plain = beats[0]
    print(f"{name}: {counts[plain]['instructions']} instructions, {times[plain]:.3f} s")
    for beat in beats[1:]:
        x86 = f", x86 instructions {steps[beat] / steps[plain]:.4f}" if steps else ""
        print(
            f"  heartbeat {beat}: time {times[beat] / times[plain]:.3f}{x86}, instructions "
            f"{counts[beat]['instructions'] / counts[plain]['instructions']:.4f}; "
            f"tasks {counts[beat]['tasks']}, skipped {counts[beat]['skipped']}"
        )
PY
