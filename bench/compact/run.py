#!/usr/bin/env python3
"""Compares the proved move of relations into fresh words with the same move in plain C, in alternating runs.

    cd crates/bench_trees && rt run && ../../bench/compact/run.py out/bench_trees [ROUNDS]

Prints, for each size of the table, how many nodes are reached, the milliseconds of both, and the ratio of the times.
Each is from the shortest of the rounds, since other work on the machine only adds to a time. Both make the same words,
which is checked.
"""
import os
import subprocess
import sys

here = os.path.dirname(os.path.abspath(__file__))
program = [os.path.abspath(sys.argv[1]), "compact"]
rounds = int(sys.argv[2]) if len(sys.argv) > 2 else 3
plain = os.path.join(here, "out_plain")
subprocess.run(["cc", "-O2", "-march=x86-64-v2", "-o", plain, os.path.join(here, "plain.c")], check=True)


def run(command, case):
    words = subprocess.run([*command, *map(str, case)], check=True, capture_output=True, text=True).stdout.split()
    time, stored, total = map(int, words)
    return time, stored, total


print("bits  reached nodes   ms: proved    plain  time")
for case in ((20, 2048), (24, 8192)):
    ours, theirs = [], []
    for _ in range(rounds):
        ours.append(run(program, case))
        theirs.append(run([plain], case))
        assert ours[-1][1:] == theirs[-1][1:], "the words differ"
    a, b = (min(row[0] for row in rows) for rows in (ours, theirs))
    print(f"{case[0]:4} {ours[0][1]:14} {a / 1e6:12.1f} {b / 1e6:8.1f} {a / b:5.2f}", flush=True)
os.remove(plain)
