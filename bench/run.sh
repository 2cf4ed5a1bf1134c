#!/bin/sh
# Measures the pipelines of the table of speed in README.md, over a generated file of 2,000,000 points, and for each a program of
# one purpose in plain Rust that does what it does: bench/plain.rs. It prints the least processor time of seven runs, of program and
# system, the memory that one more run took, that of the plain program, and what README.md says. What both wrote has to be the same,
# but for the header block of LAS files.
#
#     bench/run.sh                         measures target/lasline in target/bench
#     bench/run.sh PROGRAM FOLDER [RUNS]
#
# It needs Python 3, rustc for the plain programs, and GNU time for the memory; what the last two would give is left out where they
# aren't there. Figures differ from machine to machine.
here=$(cd "$(dirname "$0")/.." && pwd) || exit 2
program=${1:-$here/target/lasline}
room=${2:-$here/target/bench}
runs=${3:-7}
if [ ! -x "$program" ]; then
    echo "bench/run.sh: there is no program $program: make builds it" >&2
    exit 2
fi
program=$(cd "$(dirname "$program")" && pwd)/$(basename "$program") || exit 2
mkdir -p "$room" && cd "$room" || exit 2

rm -f plain
if command -v rustc > /dev/null; then
    rustc --edition 2021 -O -o plain "$here/bench/plain.rs" || exit 2
else
    echo "left out the plain programs: rustc isn't there"
fi

exec python3 - "$here/README.md" "$program" "$runs" << 'END'
import filecmp
import os
import re
import shutil
import subprocess
import sys

readme, program, runs = sys.argv[1], sys.argv[2], int(sys.argv[3])

CORNERS = [(100, 100), (500, 50), (900, 150), (800, 300), (950, 500), (850, 800),
           (600, 700), (500, 950), (300, 750), (50, 850), (150, 500), (20, 300)]
RING = ", ".join(f"{500000 + x}.005 {4800000 + y}.005" for x, y in CORNERS + CORNERS[:1])
LIMITS = ["Z[100:149]", "X[500010:500990)", "Y[4800000:4804000]", "Intensity[1000:]", "Classification[1:7]",
          "ReturnNumber[1:4]", "NumberOfReturns[1:5]", "ScanAngleRank[-29:29]", "Red[:64000]", "Green[500:]"]
RANGES = ",".join('{"type":"filters.range","limits":"%s"}' % limits for limits in LIMITS)
LAS = '{"type":"writers.las","filename":"o.las","forward":"all"}'

# What the plain program is told, what that is in a few words, and the pipeline.
WORKS = [
    ("text", "X, Y and Z as text", '["big.las","o.txt"]'),
    ("copy", "LAS to LAS", f'["big.las",{LAS}]'),
    ("trial", "a range, each third point, text",
     '["big.las",{"type":"filters.range","limits":"Classification[2:2]"},{"type":"filters.decimation","step":3},"o.txt"]'),
    ("chain", "crop of 12 corners, condition, assign, text",
     '["big.las",{"type":"filters.crop","polygon":"POLYGON ((%s))"},' % RING
     + '{"type":"filters.expression","expression":"Classification == 2 || Intensity > 20000"},'
     + '{"type":"filters.assign","value":"Z = Z * 2 - 1"},"o.txt"]'),
    ("sort", "sort by Z, text", '["big.las",{"type":"filters.sort","dimension":"Z"},"o.txt"]'),
    ("groups", "two files, merge, groupby, LAS",
     '[{"type":"readers.las","filename":"big.las","tag":"a"},{"type":"readers.las","filename":"big.las","tag":"b"},'
     + '{"type":"filters.merge","inputs":["a","b"]},{"type":"filters.groupby","dimension":"Classification"},' + LAS + "]"),
    ("ranges", "ten ranges, LAS", f'["big.las",{RANGES},{LAS}]'),
]


def spent(words):
    """The processor time of one run, in seconds."""
    quiet = (os.POSIX_SPAWN_OPEN, 1, "report", os.O_WRONLY | os.O_CREAT | os.O_TRUNC, 0o644)
    child = os.posix_spawn(words[0], words, os.environ, file_actions=[quiet])
    _, status, usage = os.wait4(child, 0)
    if status != 0:
        sys.exit(f"bench/run.sh: {' '.join(words)} failed")
    return usage.ru_utime + usage.ru_stime


def measure(words):
    """The least processor time of some runs, in seconds, and the memory that one more took, in MiB."""
    best = min(spent(words) for _ in range(runs))
    if timer is None:
        return best, "-"
    subprocess.run([timer, "-f", "%M", "-o", "memory", *words], stdout=subprocess.DEVNULL, check=True)
    with open("memory", encoding="utf-8") as file:
        return best, f"{int(file.read()) / 1024:.0f}"


def records(name):
    """The bytes of a LAS file behind its header block."""
    with open(name, "rb") as file:
        return file.read()[375:]


def show(what, figures, beside=None, told=""):
    plain = "" if beside is None else f"{beside[0]:6.2f} s plain, {beside[0] / figures[0]:4.2f} of it"
    print(f"{figures[0]:6.2f} s {figures[1]:>5} MiB {plain:28}  {what}{told}", flush=True)


def beside(purpose, came, source="big.las"):
    """What the plain program takes for the same, which has to write what lasline wrote."""
    if not os.path.exists("plain"):
        return None
    name = "plain" + os.path.splitext(came)[1]
    figures = measure(["./plain", purpose, source, name])
    same = records(came) == records(name) if name.endswith(".las") else filecmp.cmp(came, name, shallow=False)
    if not same:
        sys.exit(f"bench/run.sh: {purpose} of the plain program writes other bytes")
    return figures


def run(pipeline):
    with open("p.json", "w", encoding="utf-8") as file:
        file.write(pipeline)
    return measure([program, "run", "p.json"])


with open(readme, encoding="utf-8") as file:
    rows = dict(re.findall(r"^\| ([^|]*?) \| ([0-9.]+) \| [^|]* \| [^|]* \|$", file.read(), re.M))
timer = shutil.which("time")
if timer is None:
    print("left out the memory: GNU time isn't there")
if not rows:
    sys.exit("bench/run.sh: README.md has no table of pipelines with their seconds")

for purpose, what, pipeline in [("gen", "a generated file", "")] + WORKS:
    told = f"   (README.md: {rows[what]} s)" if what in rows else ""
    if purpose == "gen":
        figures = measure([program, "gen", "2000000", "big.las"])
        show(what, figures, beside("gen", "big.las", "2000000"), told)
        continue
    figures = run(pipeline)
    came = "o.las" if LAS in pipeline else "o.txt"
    show(what, figures, beside(purpose, came), told)
show("all points are read", run('["big.las"]'))

# A hundred starts at a time, over two points.
measure([program, "gen", "2", "two.las"])
run('["two.las","o.txt"]')
ours = min(sum(spent([program, "run", "p.json"]) for _ in range(100)) for _ in range(runs)) * 10
print(f"{ours:6.2f} ms a start, over two points", end="")
if os.path.exists("plain"):
    plain = min(sum(spent(["./plain", "text", "two.las", "plain.txt"]) for _ in range(100)) for _ in range(runs)) * 10
    print(f", {plain:.2f} ms in plain Rust, {plain / ours:4.2f} of it", end="")
print()
END
