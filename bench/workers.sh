#!/usr/bin/env bash
# What more workers gain: five programs with 1, 2, 4 and 16 workers at a heartbeat of 10,000, and by
# one worker at 10^9. Prints for each the seconds that the run by one worker takes, the least of RUNS
# with all in turn, how many times as fast the others are, and the tasks, the beats and the skipped
# beats; and how much more two and four separate runs by one worker get done at once than one alone,
# which is what the machine itself has to give. Needs as many free processors as workers to say
# anything. Words behind the script choose programs by their names. PROGRAM is a built `tpal`, else
# the repository's is built.
set -eu
cd "$(dirname "$0")/.."
runs=${RUNS:-5}
program=${PROGRAM:-crates/tpal/out/tpal}
if [ -z "${PROGRAM:-}" ]; then
  ./tpal run examples/hello.tpal >/dev/null
fi
python3 - "$program" "$runs" "$@" <<'PY'
import os, subprocess, sys, tempfile, time
program, runs, chosen = sys.argv[1], int(sys.argv[2]), sys.argv[3:]
plain = ("1", "1000000000")
kinds = [("1", "10000"), plain, ("2", "10000"), ("4", "10000"), ("16", "10000")]
programs = {
    "sum of squares": """table t[2000][2000];
main {
  let s = 0;
  par i in 0..rows(t) reduce s by add {
    par j in 0..cols(t) reduce s by add { fold s with t[i][j] * t[i][j] + i * j; }
  }
  print s;
}""",
    "mandelbrot": """main {
  let inside = 0;
  par i in 0..400 reduce inside by add {
    par j in 0..400 reduce inside by add {
      let a = i * 10 - 3000;
      let b = j * 10 - 2000;
      let x = 0;
      let y = 0;
      let n = 0;
      while (n < 100) * (x * x + y * y < 4000000) {
        let z = (x * x - y * y) / 1000 + a;
        y = 2 * x * y / 1000 + b;
        x = z;
        n = n + 1;
      }
      if n == 100 { fold inside with 1; }
    }
  }
  print inside;
}""",
    "fib": """fn fib(n) {
  let r = n;
  if n > 1 {
    let a = 0;
    let b = 0;
    both a = fib(n - 1), b = fib(n - 2);
    r = a + b;
  }
  return r;
}
main { let f = 0; call f = fib(30); print f; }""",
    "matrix product": """table a[200][200];
table b[200][200];
table c[200][200];
main {
  loop i in 0..200 {
    loop j in 0..200 { a[i][j] = i + 2 * j; b[i][j] = 3 * i - j; }
  }
  par i in 0..200 carry c[i] {
    loop j in 0..200 {
      let s = 0;
      loop k in 0..200 { s = s + a[i][k] * b[k][j]; }
      c[i][j] = s;
    }
  }
  let g = 0;
  par i in 0..200 reduce g by max { fold g with c[i][i]; }
  print g;
}""",
    # row i of the matrix has 2,000,000 / (i + 1) numbers, which stand in one row of a table
    "sparse rows": """table v[1][1000];
table y[1000][1];
main {
  loop j in 0..1000 { v[0][j] = j * j; }
  par i in 0..1000 carry y[i] {
    let s = 0;
    loop k in 0..2000000 / (i + 1) { s = s + (k % 7) * v[0][(i + k * 31) % 1000]; }
    y[i][0] = s;
  }
  let g = 0;
  par i in 0..1000 reduce g by add { fold g with y[i][0]; }
  print g;
}""",
}
folder = tempfile.TemporaryDirectory()

def words(kind):
    return [program, "run", os.path.join(folder.name, "p"), "--workers", kind[0], "--beat", kind[1]]

def spent(kind):
    began = time.monotonic()
    subprocess.run(words(kind), check=True, stdout=subprocess.DEVNULL)
    return time.monotonic() - began

def at_once(count):
    began = time.monotonic()
    started = [subprocess.Popen(words(kinds[0]), stdout=subprocess.DEVNULL) for _ in range(count)]
    assert not any(run.wait() for run in started)
    return time.monotonic() - began

def shown(kind):
    told = subprocess.run(words(kind) + ["--show"], check=True, capture_output=True, text=True).stdout
    return told.rstrip("\n").rpartition("\n")[2]

for name, source in programs.items():
    if chosen and name not in chosen:
        continue
    with open(os.path.join(folder.name, "p"), "w") as file:
        file.write(source)
    printed = {subprocess.run(words(kind), check=True, capture_output=True).stdout for kind in kinds}
    assert len(printed) == 1, (name, printed)
    times = dict.fromkeys(kinds, 1e9)
    separate = dict.fromkeys((2, 4), 1e9)
    for _ in range(runs):
        for kind in kinds:
            times[kind] = min(times[kind], spent(kind))
        for count in separate:
            separate[count] = min(separate[count], at_once(count))
    alone = times[kinds[0]]
    print(f"{name}: one worker {alone:.3f} s, {alone / times[plain]:.3f} of that at a heartbeat of 10^9")
    for kind in kinds:
        print(f"  workers {kind[0]}, heartbeat {kind[1]}: {alone / times[kind]:.2f} times as fast; {shown(kind)}")
    for count, seconds in separate.items():
        print(f"  {count} separate runs by one worker at once: {count * alone / seconds:.2f} times the work")
PY
