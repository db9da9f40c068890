#!/usr/bin/env python3
"""Compares the operators on trees with the same ones in plain C, in alternating runs.

    cd crates/bench_trees && rt run && ../../bench/boole/run.py out/bench_trees [ROUNDS]

Prints, for each density and operator, the milliseconds of both, cold, the ratio of the times, what the C program takes
where it goes by quarters alone, with the ratio to that, microseconds of both when the call is made again, and the nodes
made and the words probed, cold, which the C program counts in a run of its own. Each time is the shortest of the rounds,
since other work on the machine only adds to a time. Both give the same names in the same order of calls, which is checked;
by quarters alone results have other names, since words come to their places in another order. All three have their tables
on large pages where the system gives them on request, as `./relview` asks it to.
"""
import os
import subprocess
import sys
import tempfile

here = os.path.dirname(os.path.abspath(__file__))
os.environ.setdefault("GLIBC_TUNABLES", "glibc.malloc.hugetlb=1")
program = [os.path.abspath(sys.argv[1]), "boole"]
rounds = int(sys.argv[2]) if len(sys.argv) > 2 else 5
folder = tempfile.mkdtemp()


def compiled(name, *flags):
    out = os.path.join(folder, name)
    subprocess.run(["cc", "-O2", "-march=x86-64-v2", *flags, "-o", out, os.path.join(here, "plain.c")], check=True)
    return [out]


def run(command, case):
    lines = subprocess.run([*command, *map(str, case)], check=True, capture_output=True, text=True).stdout.splitlines()
    return [[int(word) for word in line.split()] for line in lines]


def names(lines):
    return [lines[0]] + [line[2:4] for line in lines[1:]]


plain, counted, quarters = compiled("plain", "-DBLOCKS"), compiled("counted", "-DBLOCKS", "-DCOUNTED"), compiled("quarters")
print("density  operator       cold ms: proved  plain  time  by quarters  time   again us: proved  plain   nodes made   words probed")
for density, cells in (("0.001", 1), ("0.01", 10), ("0.1", 100), ("0.5", 500)):
    case = (22, cells)
    counts = run(counted, case)
    ours, theirs, before = [], [], []
    for _ in range(rounds):
        ours.append(run(program, case))
        theirs.append(run(plain, case))
        before.append(run(quarters, case))
    for lines in ours + theirs:
        assert names(lines) == names(counts), "the names differ"
    for i, operator in enumerate(("union", "intersection", "difference", "transposition"), 1):
        (a, c), (b, d) = ([min(lines[i][k] for lines in rows) for k in (0, 1)] for rows in (ours, theirs))
        made, probed = counts[i][4:]
        e = min(lines[i][0] for lines in before)
        print(
            f"{density:7}  {operator:13} {a / 1e6:16.2f} {b / 1e6:6.2f} {a / b:5.2f} {e / 1e6:12.2f} {a / e:5.2f} {c / 1e3:17.2f} {d / 1e3:6.2f} {made:12} {probed:14}",
            flush=True,
        )
