#!/usr/bin/env python3
"""Compares products of random squares and closures with the same steps in plain C, in alternating runs.

    (cd crates/bench_trees && rt run); (cd crates/bench_engine && rt run); bench/kernels/run.py [ROUNDS]

Prints a row of Markdown for each: the milliseconds of the proved crates and of plain.c, the ratio of both, and the same of
the recursion by quarters alone (of a closure: by squares, which plain.c does not have). Each time is the shortest of the
rounds, since other work on the machine only adds to a time. Products have the same names in both, and closures as many
pairs, which is checked. All have their tables on large pages where the system gives them on request, as `./relview` asks it
to.
"""
import os
import subprocess
import sys
import tempfile
from pathlib import Path

HERE = Path(__file__).resolve().parent
CRATES = HERE.parent.parent / "crates"
PRODUCTS = [(20, 10, 2), (20, 10, 8), (22, 12, 2), (22, 12, 8), (24, 14, 2), (24, 14, 8)]
CLOSURES = [
    (20, "random", 256), (24, "random", 1024), (24, "random", 4096),
    (20, "acyclic", 256), (22, "acyclic", 1024), (24, "acyclic", 4096),
    (20, "cycle", 256), (20, "cycle", 1024), (20, "cycle", 4096),
]  # fmt: skip


def run(command):
    """The lines of a run: the way, its nanoseconds, and the name or the pairs."""
    lines = subprocess.run([str(word) for word in command], check=True, capture_output=True, text=True).stdout.split("\n")
    return {way: (int(time), value) for way, time, value in (line.split() for line in lines if line)}


def least(runs, way):
    return min(lines[way][0] for lines in runs) / 1e6


def shown(time):
    return f"{time:.3g}" if time < 1000 else f"{time:.0f}"


def compared(what, ours, theirs, rounds, first, second):
    """Prints a row, of so many runs of both in turn."""
    proved, plain = [], []
    for _ in range(rounds):
        proved.append(run(ours))
        plain.append(run(theirs))
    for way in plain[0]:
        assert {lines[way][1] for lines in proved + plain} == {plain[0][way][1]}, "the results differ"
    a, b = least(proved, first), least(plain, first)
    c, d = least(proved, second), least(plain, second) if second in plain[0] else None
    rest = f"{shown(c)} | {shown(d)} | {c / d:.2f}" if d else f"{shown(c)} | |"
    print(f"| {what} | {shown(a)} | {shown(b)} | {a / b:.2f} | {rest} |", flush=True)


def main():
    os.environ.setdefault("GLIBC_TUNABLES", "glibc.malloc.hugetlb=1")
    rounds = int(sys.argv[1]) if len(sys.argv) > 1 else 3
    with tempfile.TemporaryDirectory() as folder:
        plain = os.path.join(folder, "plain")
        subprocess.run(["cc", "-O3", "-march=x86-64-v2", "-o", plain, HERE / "plain.c"], check=True)
        print("| work | proved | plain C | time | by quarters or squares alone: proved | plain C | time |")
        print("|---|---|---|---|---|---|---|")
        for table, height, each in PRODUCTS:
            ours = [CRATES / "bench_trees/out/bench_trees", "products", table, height, "random", each]
            theirs = [plain, table, "products", height, each]
            compared(f"product, {1 << height} rows, {each} a row", ours, theirs, 1 if height > 12 else rounds, "rows", "quarters")
        for table, graph, vertices in CLOSURES:
            ours = [CRATES / "bench_engine/out/bench_engine", "kernels", table, graph, vertices]
            compared(f"closure, {graph}, {vertices}", ours, [plain, table, graph, vertices], rounds, "quarters", "squares")


if __name__ == "__main__":
    main()
