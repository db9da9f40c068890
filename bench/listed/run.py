#!/usr/bin/env python3
"""Times listed relations: the whole program, and the library at sizes that its scripts do not have yet.

    ./relview examples/first.rv && (cd crates/bench_engine && rt run)
    bench/listed/run.py crates/relview/out/relview crates/bench_engine/out/bench_engine [ROUNDS]

The program runs scripts of one REL of pseudo-random pairs in 1000 x 1000, the greatest
sizes that scripts list for now, and a PRINT of a small union. `bench_engine listed` reads scripts
of one such REL in 4096 x 4096 and two small ones, by the parser of the whole language, and
builds the relations over an engine with a table of the program's size, unites the small
ones, and counts. Prints for each number of listed pairs the bytes of the script, the
seconds of the whole process, and the most memory that it held (maximum resident set). Each
time is the shortest of the rounds, since other work on the machine only adds to a time.
"""
import os
import random
import sys
import tempfile
import time

rounds = int(sys.argv[3]) if len(sys.argv) > 3 else 5
folder = tempfile.mkdtemp()


def script(pairs, size, last):
    picked = random.Random(20).choices(range(size * size), k=pairs)
    rows = {}
    for pair in picked:
        rows.setdefault(pair // size, []).append(str(pair % size + 1))
    listed = "; ".join(f"{row + 1}:{','.join(cols)}" for row, cols in rows.items())
    return f"REL A {size} {size} {{{listed}}}. REL B 3 3 {{1:2}}. REL C 3 3 {{2:3}}.{last}", len(set(picked))


def run(command, name):
    reading, writing = os.pipe()
    begin = time.monotonic()
    child = os.fork()
    if child == 0:
        os.dup2(writing, 1)
        os.chdir(folder)
        os.execv(command[0], [*command, name])
    os.close(writing)
    page = b""
    while part := os.read(reading, 65536):
        page += part
    _, status, used = os.wait4(child, 0)
    seconds = time.monotonic() - begin
    os.close(reading)
    return status, page, seconds, used.ru_maxrss * 1024


def measure(command, size, last, page):
    print(f"{' '.join([os.path.basename(command[0]), *command[1:]])}, {size} by {size}")
    print(" pairs   bytes of script   seconds   bytes of memory")
    for pairs in (0, 1_000, 10_000, 100_000):
        name = f"{size}-{pairs}.rv"
        text, distinct = script(pairs, size, last)
        with open(os.path.join(folder, name), "w") as file:
            file.write(text)
        runs = [run(command, name) for _ in range(rounds)]
        for status, written, _, _ in runs:
            assert status == 0 and written == page(distinct), (status, written)
        print(f"{pairs:6} {len(text):17} {min(r[2] for r in runs):9.3f} {min(r[3] for r in runs):17}")


measure([os.path.abspath(sys.argv[1])], 1000, " PRINT B|C.", lambda distinct: b"1.4: 3 x 3\n.1.\n..1\n...\n")
measure([os.path.abspath(sys.argv[2]), "listed"], 4096, "", lambda distinct: b"%d 2\n" % distinct)
