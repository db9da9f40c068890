#!/usr/bin/env python3
"""Compares relation files with the same format written and read in plain C, in alternating runs.

    cd crates/bench_engine && rt run && ../../bench/files/run.py out/bench_engine [ROUNDS]

Prints, for each relation, megabytes a second of both, of writing and of reading,
and the ratio of the times. Of reading there are two lines: into a table in which
no node stands, and once more, where all do. What the nodes alone take is measured
by the C program, which asks for the same words in the same order in a table of its
own; behind it is what is left of both for the format's own work, and the ratio of
that. Then come files of version 2, with one relation, which is written, read as a
whole, and read once more by its name, beside shared.c; and the times of matrices and listings. Each time is the shortest of the
rounds, since other work on the machine only adds to a time. Both programs write the
same bytes and give the same names, which is checked.
"""
import os
import subprocess
import sys
import tempfile

here = os.path.dirname(os.path.abspath(__file__))
program = [os.path.abspath(sys.argv[1]), "files"]
rounds = int(sys.argv[2]) if len(sys.argv) > 2 else 5
folder = tempfile.mkdtemp()


def compiled(name, source, *flags):
    out = os.path.join(folder, name)
    subprocess.run(["cc", "-O2", "-march=x86-64-v2", *flags, "-o", out, os.path.join(here, source)], check=True)
    return [out]


def run(command, case):
    lines = subprocess.run([*command, *map(str, case)], check=True, capture_output=True, text=True).stdout.splitlines()
    return [[int(word) for word in line.split()[1:]] for line in lines]


def told(lines):
    return [lines[0][1:]] + [line[1:] for line in lines[1:]]


def best(rows, i):
    return min(lines[i][0] for lines in rows)


plain, nodes, several = compiled("plain", "plain.c"), compiled("nodes", "plain.c", "-DNODES"), compiled("shared", "shared.c")
print("relation             file KB  direction     MB/s: proved  plain  time   nodes ms    asked     made   own ms: proved  plain  time")
cases = [(24, "random", height, pairs) for height in (14, 24) for pairs in (1_000, 100_000, 1_000_000)]
for case in [*cases, (20, "full", 10, 0)]:
    ours, theirs, alone = [], [], []
    for _ in range(rounds):
        ours.append(run(program, case))
        theirs.append(run(plain, case))
        alone.append(run(nodes, case))
        assert told(ours[-1]) == told(theirs[-1]), "the bytes or the names differ"
    length = ours[0][0][1]
    what = f"{case[1]} {case[3]} 2^{case[2]}"
    for i, direction in enumerate(("write", "read", "read again")):
        a, b = best(ours, i), best(theirs, i)
        line = f"{what:20} {length / 1e3:7.0f}  {direction:10} {length / a * 1e3:16.1f} {length / b * 1e3:6.1f} {a / b:5.2f}"
        if i:
            c = min(lines[0][i - 1] for lines in alone)
            _, _, asked, made, _ = alone[0][0]
            line += f" {c / 1e6:10.2f} {asked:8} {made if i == 1 else 0:8} {(a - c) / 1e6:16.2f} {(b - c) / 1e6:6.2f} {(a - c) / (b - c):5.2f}"
        print(line, flush=True)
print("\nof version 2         file KB   quadrants  direction     ms: proved  plain   MB/s: proved  plain  time")
for bits, height, pairs in ((24, 14, 100_000), (24, 24, 4_000), (24, 24, 44_000)):
    ours, theirs = [], []
    for _ in range(rounds):
        ours.append(run(program, (bits, "shared", height, pairs)))
        theirs.append(run(several, (bits, height, pairs)))
        assert told(ours[-1]) == told(theirs[-1]), "the bytes or the names differ"
    length = ours[0][0][1]
    what = f"random {pairs} 2^{height}"
    for i, direction in enumerate(("write", "read all", "read one")):
        a, b = best(ours, i), best(theirs, i)
        line = f"{what:20} {length / 1e3:7.0f} {(length - 26) // 16:11}  {direction:10} {a / 1e6:13.2f} {b / 1e6:6.2f}"
        print(f"{line} {length / a * 1e3:14.1f} {length / b * 1e3:6.1f} {a / b:5.2f}", flush=True)
print("\nshown             ms   bytes   ns a byte")
for task, height, pairs in [("matrix", h, 100 << (2 * (h - 8))) for h in (8, 9, 10)] + [("listing", 14, p) for p in (10_000, 100_000, 1_000_000)]:
    time, length = min(run(program, (24, task, height, pairs))[0] for _ in range(rounds))
    print(f"{task:8} {pairs:8} {time / 1e6:8.2f} {length:9} {time / length:6.2f}", flush=True)
