#!/usr/bin/env python3
"""Times the parser on scripts of three shapes and three lengths.

    cd crates/bench_texts && rt run && ../../bench/parse/run.py out/bench_texts [ROUNDS]

Prints, for each shape and number of names, rows or items, the bytes of the script,
the milliseconds of one call of `parse`, the megabytes (10^6 bytes) a second and the
nanoseconds a byte. Each time is the shortest of the rounds, since other work on the
machine only adds to a time. The script is in memory before the clock starts; the
tree is made within the time, and dropped behind it.
"""
import os
import subprocess
import sys

program = os.path.abspath(sys.argv[1])
rounds = int(sys.argv[2]) if len(sys.argv) > 2 else 5
SHAPES = (
    ("chain", "names", (30_000, 100_000, 300_000)),
    ("rows", "rows", (10_000, 30_000, 100_000)),
    ("items", "items", (10_000, 30_000, 100_000)),
)


def run(shape, count):
    words = subprocess.run([program, "parse", shape, str(count)], check=True, capture_output=True, text=True).stdout.split()
    taken, length, items = map(int, words)
    assert items == (count if shape == "items" else 1), "another script"
    return taken, length


print("shape     count           bytes       ms   MB/s   ns a byte")
for shape, unit, counts in SHAPES:
    for count in counts:
        taken, length = min(run(shape, count) for _ in range(rounds))
        print(
            f"{shape:5} {count:9} {unit:5} {length:9} {taken / 1e6:8.2f} {length / taken * 1e3:6.1f} {taken / length:11.1f}",
            flush=True,
        )
