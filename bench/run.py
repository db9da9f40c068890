#!/usr/bin/env python3
"""Compares the proved table with the same probe in plain C, in alternating runs.

    cd crates/bench_trees && rt run && ../../bench/run.py out/bench_trees [ROUNDS]

Prints, for each size, load and number of threads, millions of interns per second
of both, for inserts and for hits, and the ratio of the times. Each is from the
shortest of the rounds, since other work on the machine only adds to a time. With
one thread both give the same names, so the sums of the names are compared. With
four a last column has the ratio to plain C whose threads are started as the
proved program's are: the second starts the fourth.
"""
import os
import subprocess
import sys

here = os.path.dirname(os.path.abspath(__file__))
program = [os.path.abspath(sys.argv[1]), "table"]
rounds = int(sys.argv[2]) if len(sys.argv) > 2 else 5
plain = os.path.join(here, "out_probe")
subprocess.run(["cc", "-O2", "-march=x86-64-v2", "-pthread", "-o", plain, os.path.join(here, "probe.c")], check=True)


def run(command, case, *more):
    words = subprocess.run([*command, *map(str, case), *more], check=True, capture_output=True, text=True).stdout.split()
    inserting, inserts, finding, hits, total = map(int, words)
    return inserting / inserts, finding / hits, total


print("bits  load  threads   inserts: proved  plain  time   hits: proved  plain  time   beside a tree of threads: inserts  hits")
for bits in (20, 24):
    for load in (10, 50, 80):
        for threads in (1, 4):
            case = (bits, load, threads, 4_000_000)
            ours, theirs, trees = [], [], []
            for _ in range(rounds):
                ours.append(run(program, case))
                theirs.append(run([plain], case))
                if threads > 1:
                    trees.append(run([plain], case, "tree"))
                if threads == 1:
                    assert ours[-1][2] == theirs[-1][2], "the names differ"
            a, b, c = ([min((r[i] for r in rows), default=None) for i in (0, 1)] for rows in (ours, theirs, trees))
            line = f"{bits:4} {load:4}% {threads:8} {1000 / a[0]:17.1f} {1000 / b[0]:6.1f} {a[0] / b[0]:5.2f} {1000 / a[1]:14.1f} {1000 / b[1]:6.1f} {a[1] / b[1]:5.2f}"
            if trees:
                line += f" {a[0] / c[0]:34.2f} {a[1] / c[1]:5.2f}"
            print(line, flush=True)
os.remove(plain)
