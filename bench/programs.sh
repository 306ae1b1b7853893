#!/usr/bin/env bash
# The programs of bench/programs/ by `tpal` with 1, 2 and 4 workers, beside the same work in Rust
# (`rustc -O`), Lua 5.4 and Python, where these are there. All must print the same. Prints for each
# program the seconds that `tpal` takes by one worker, the least of RUNS with all in turn, and how many
# times as long each other one takes; with a file named behind PLOT= it draws them there as SVG.
# Words behind the script choose programs by their names. PROGRAM is a built `tpal`, else the
# repository's is built.
set -eu
cd "$(dirname "$0")/.."
runs=${RUNS:-5}
program=${PROGRAM:-crates/tpal/out/tpal}
if [ -z "${PROGRAM:-}" ]; then
  ./tpal run examples/hello.tpal >/dev/null
fi
python3 - "$program" "$runs" "${PLOT:-}" "$@" <<'PY'
import glob, math, os, shutil, subprocess, sys, tempfile, time
program, runs, plot, chosen = sys.argv[1], int(sys.argv[2]), sys.argv[3], sys.argv[4:]
folder = tempfile.TemporaryDirectory()

def commands(source):
    stem = source[: -len(".tpal")]
    found = {
        f"tpal, {workers} worker" + "s" * (workers > 1): [program, "run", source, "--fuel", "1000000000000",
        "--workers", str(workers)] for workers in (1, 2, 4)
    }
    if shutil.which("rustc"):
        built = os.path.join(folder.name, os.path.basename(stem))
        subprocess.run(["rustc", "-O", "-o", built, stem + ".rs"], check=True)
        found["Rust"] = [built]
    lua = shutil.which("lua5.4") or shutil.which("lua")
    if lua:
        found["Lua"] = [lua, stem + ".lua"]
    found["Python"] = [sys.executable, stem + ".py"]
    return found

def measured(source):
    found = commands(source)
    least, printed = dict.fromkeys(found, math.inf), set()
    for _ in range(runs):
        for name, command in found.items():
            began = time.perf_counter()
            printed.add(subprocess.run(command, check=True, capture_output=True).stdout)
            least[name] = min(least[name], time.perf_counter() - began)
    assert len(printed) == 1, (source, printed)
    return least

def drawn(rows):
    names = list(next(iter(rows.values())))
    colours = dict(zip(names, ["#0b6e4f", "#3fa37c", "#9bd3ba", "#b5651d", "#3b5b92", "#c9a227"]))
    wide, tall, left = 760, 16, 150
    every = [seconds for least in rows.values() for seconds in least.values()]
    low, high = math.floor(math.log10(min(every))), math.ceil(math.log10(max(every)))
    across = lambda seconds: left + (wide - left - 20) * (math.log10(seconds) - low) / (high - low)
    bottom = 30 + len(rows) * (len(names) * tall + 14)
    parts = [f'<svg xmlns="http://www.w3.org/2000/svg" width="{wide}" height="{bottom + 50}" '
             'font-family="sans-serif" font-size="12">',
             f'<rect width="{wide}" height="{bottom + 50}" fill="white"/>']
    for power in range(low, high + 1):
        x = across(10.0 ** power)
        parts.append(f'<line x1="{x:.0f}" y1="20" x2="{x:.0f}" y2="{bottom}" stroke="#ccc"/>')
        parts.append(f'<text x="{x:.0f}" y="14" text-anchor="middle">{10.0 ** power:g} s</text>')
    y = 30
    for title, least in rows.items():
        parts.append(f'<text x="{left - 8}" y="{y + 12}" text-anchor="end">{title}</text>')
        for name, seconds in least.items():
            parts.append(f'<rect x="{left}" y="{y}" width="{across(seconds) - left:.0f}" '
                         f'height="{tall - 3}" fill="{colours[name]}"/>')
            y += tall
        y += 14
    for at, name in enumerate(names):
        x = 20 + at * 120
        parts.append(f'<rect x="{x}" y="{bottom + 20}" width="12" height="12" fill="{colours[name]}"/>')
        parts.append(f'<text x="{x + 17}" y="{bottom + 30}">{name}</text>')
    return "\n".join(parts + ["</svg>", ""])

rows = {}
for source in sorted(glob.glob("bench/programs/*.tpal")):
    title = os.path.basename(source)[: -len(".tpal")].replace("_", " ")
    if chosen and title not in chosen:
        continue
    least = rows[title] = measured(source)
    first, *others = least.items()
    told = ", ".join(f"{name} {seconds / first[1]:.3f}" for name, seconds in others)
    print(f"{title}: {first[1]:.3f} s; {told}", flush=True)
if plot:
    with open(plot, "w") as file:
        file.write(drawn(rows))
PY
