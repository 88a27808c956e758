#!/usr/bin/env python3
"""Times the proved program against plain Rust, on full days.

    (cd crates/bench && rt run) && bench/run.py

Makes days of 8, 16, 32 and 64 points, with 4 slips for each point, bunkers with a use for every other
point each, and a crossing for every fourth (64 points: 256 slips, 32 and 32 uses, 16 crossings).
Three kinds: easy (wide distances and roofs), tight (all close around one plan) and noplan (tight, with
roofs that are too low). Compiles bench/plain.rs, runs crates/bench/out/bench and it on the same days, in turn
and several times, compares their answers and prints the least time of each: one tightening, proved and
plain, and the proved way from the files' bytes to the answer.
"""
import os
import random
import subprocess
import sys

HORIZON = 1440
TOP = os.path.dirname(os.path.dirname(os.path.abspath(__file__)))
WORK = os.path.join(TOP, "target", "bench")
ROUNDS = 200
REPEATS = 7


def level_range(start, uses, plan):
    levels = []
    for minute in range(HORIZON + 1):
        level = start
        for first, last, kilos in uses:
            if first == last:
                level += kilos if plan[first] <= minute else 0
            elif plan[first] <= minute < plan[last]:
                level -= kilos
        levels.append(level)
    return min(levels), max(levels)


def bunker_uses(rng, count, plan):
    uses = []
    for _ in range(count):
        first, last = rng.randrange(1, len(plan)), rng.randrange(1, len(plan))
        if plan[first] > plan[last]:
            first, last = last, first
        if rng.randrange(3):
            last = first
        uses.append((first, last, rng.choice([-1, 1]) * rng.randint(1, 500)))
    return uses


def crossings(rng, count, plan):
    points = sorted(range(1, len(plan)), key=lambda p: plan[p])
    starts = rng.sample(range(0, len(points) - 1, 2), min(count, len(points) // 2))
    return [(points[i], points[i + 1], 0) for i in starts]


def make_day(folder, points, kind):
    rng = random.Random("%d %s" % (points, kind))
    plan = [0] + [rng.randint(1, HORIZON - 1) for _ in range(points - 1)]
    slack = 400 if kind == "easy" else 40
    slips = []
    for _ in range(4 * points):
        i, j = rng.sample(range(points), 2)
        slips.append((i, j, min(HORIZON, plan[j] - plan[i] + rng.randint(0, slack))))
    floors, rows = [], []
    for place in range(2):
        uses = bunker_uses(rng, points // 2, plan)
        low, high = level_range(20000, uses, plan)
        spare = 5000 if kind == "easy" else 50
        roof = (20000 + high) // 2 if kind == "noplan" else high + spare
        floors.append((max(0, low - spare), max(roof, 20000), 20000))
        rows += [(place, n + 1) + use for n, use in enumerate(uses)]
    rows += [(2, n + 1) + use for n, use in enumerate(crossings(rng, points // 4, plan))]
    label = lambda p: "opening" if p == 0 else "p%d" % p
    os.makedirs(folder, exist_ok=True)
    with open(os.path.join(folder, "bridge.day"), "w") as f:
        f.write("label\n" + "".join("%s\n" % label(p) for p in range(1, points)))
        f.write("\nslip from to minutes\n")
        f.write("".join("%d %s %s %d\n" % (n + 1, label(i), label(j), d) for n, (i, j, d) in enumerate(slips)))
    with open(os.path.join(folder, "hall.day"), "w") as f:
        f.write("floor roof start\n" + "".join("%d %d %d\n" % line for line in floors))
        f.write("\nplace slip first last kilos\n")
        f.write("".join("%d %d %s %s %d\n" % (q, n, label(a), label(b), k) for q, n, a, b, k in rows))


def times(program, folders):
    """The answer and the times of each day."""
    text = subprocess.run([program, str(ROUNDS)] + folders, stdout=subprocess.PIPE, check=True).stdout.decode()
    return {line.split()[0]: line.split()[1:] for line in text.splitlines()}


def least(program, folders):
    runs = [times(program, folders) for _ in range(REPEATS)]
    return {d: (runs[0][d][:2], [min(int(r[d][c]) for r in runs) for c in range(2, len(runs[0][d]))]) for d in folders}


def main():
    folders = []
    for points in (8, 16, 32, 64):
        for kind in ("easy", "tight", "noplan"):
            folders.append(os.path.join(WORK, "%s%d" % (kind, points)))
            make_day(folders[-1], points, kind)
    plain = os.path.join(WORK, "plain")
    subprocess.run(["rustc", "-O", "-o", plain, os.path.join(TOP, "bench", "plain.rs")], check=True)
    proved, other = least(os.path.join(TOP, "crates", "bench", "out", "bench"), folders), least(plain, folders)
    print("| Day | Answer | Proved, µs | Plain Rust, µs | Ratio | Files to answer, µs |\n|---|---|---|---|---|---|")
    wrong = 0
    for d in folders:
        answer, (tightening, planning) = proved[d]
        wrong += answer != other[d][0]
        plain_time = other[d][1][0]
        print("| %s | %s | %.1f | %.1f | %.2f | %.1f |" % (os.path.basename(d), " ".join(answer), tightening / 1e3, plain_time / 1e3, tightening / plain_time, planning / 1e3))
    if wrong:
        print("%d answers differ" % wrong)
    sys.exit(1 if wrong else 0)


if __name__ == "__main__":
    main()
