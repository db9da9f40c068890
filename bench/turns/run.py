#!/usr/bin/env python3
"""Compares turns of the proved book with the same work under a pthread mutex in plain C, in alternating runs.

    cd crates/bench_texts && rt run && ../../bench/turns/run.py out/bench_texts [ROUNDS]

Prints, for each number of passes and of turns, nanoseconds a turn of both, from the
first turn's beginning to the last one's end: the best and the middle of the rounds,
and the ratio of the middles. Both put one event behind the others in each turn, and
both say how many events there are in the end, which is checked.
"""
import os
import statistics
import subprocess
import sys

here = os.path.dirname(os.path.abspath(__file__))
program = [os.path.abspath(sys.argv[1]), "turns"]
rounds = int(sys.argv[2]) if len(sys.argv) > 2 else 15
plain = os.path.join(here, "out_plain")
subprocess.run(["cc", "-O2", "-march=x86-64-v2", "-pthread", "-o", plain, os.path.join(here, "plain.c")], check=True)


def run(command, passes, turns):
    words = subprocess.run([*command, str(passes), str(turns)], check=True, capture_output=True, text=True, timeout=120).stdout.split()
    nanos, events = map(int, words)
    assert events == passes * turns, (command, passes, turns, events)
    return nanos / events


print("passes   turns   proved: best  middle   mutex: best  middle   ratio")
for passes, turns in ((1, 100_000), (2, 1_000), (4, 1_000), (8, 1_000), (8, 20_000), (64, 1_000)):
    ours, theirs = [], []
    for _ in range(rounds):
        ours.append(run(program, passes, turns))
        theirs.append(run([plain], passes, turns))
    a, b = statistics.median(ours), statistics.median(theirs)
    print(f"{passes:6} {turns:7} {min(ours):14.1f} {a:7.1f} {min(theirs):13.1f} {b:7.1f} {a / b:7.2f}", flush=True)
os.remove(plain)
