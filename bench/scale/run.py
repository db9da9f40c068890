#!/usr/bin/env python3
"""Times whole runs of the program: the start, sessions, closures, vectors, large relations, sets of sets.

    bench/scale/run.py [ROUNDS] [GROUP..]     start, sessions, closure, vector, large, subsets; all without a GROUP

Each row is one run in a process of its own, the best of ROUNDS (3): seconds by the clock, seconds of the processor, the
most memory that it held, its status and the last line of its page. A run over 100 seconds is ended and says so.
"""
import multiprocessing
import os
import random
import subprocess
import sys
import tempfile
import time
from pathlib import Path

TOP = Path(__file__).resolve().parent.parent.parent
RELVIEW = TOP / "crates" / "relview" / "out" / "relview"
sys.dont_write_bytecode = True
sys.path.insert(0, str(TOP / "tools"))
from relations import Relation, k2  # noqa: E402

SECONDS = 100
MOST = ["--nodes", "24"]
KERNELS = """KERNELS(G) DECL e, breaks BEG e = epsi(Ln1(G)); breaks = (e & G*e) | -(e | G*e); RETURN -ran(breaks) END.
LOAD G "g.k2". COUNT KERNELS(G)."""
STABLE = """MAXIMAL(Order, v) = v & -((Order & -I(Order))*v).
STABLE(G) DECL e BEG e = epsi(Ln1(G)); RETURN MAXIMAL(e \\ e, -ran(e & G*e)) END.
LOAD G "g.k2". COUNT STABLE(G | G^)."""
REACHED = """REACHED(G, v) DECL found, more BEG found = v; more = found | G^*found;
WHILE -eq(found, more) DO found = more; more = found | G^*found OD RETURN found END.
LOAD G "g.k2". REL v SIZE 1 {1:1}. COUNT REACHED(G, v)."""
CLOSURE = 'LOAD G "g.k2". COUNT trans(G).'


def random_graph(vertices, steps, seed=1):
    """A graph with so many steps from each vertex, to vertices picked at random."""
    lot = random.Random(seed)
    pairs = ((x, lot.randrange(vertices) + 1) for x in range(1, vertices + 1) for _ in range(steps))
    return Relation(vertices, vertices, pairs)


def acyclic(vertices, steps, seed=1):
    """A graph whose steps lead to later vertices."""
    lot = random.Random(seed)
    pairs = ((x, lot.randrange(x, vertices) + 1) for x in range(1, vertices) for _ in range(steps))
    return Relation(vertices, vertices, pairs)


def cycle(vertices):
    """A directed cycle."""
    return Relation(vertices, vertices, ((x, x % vertices + 1) for x in range(1, vertices + 1)))


def grid(side):
    """A square grid of steps to the right and down."""
    right = ((row * side + at, row * side + at + 1) for row in range(side) for at in range(1, side))
    down = ((row * side + at, row * side + at + side) for row in range(side - 1) for at in range(1, side + 1))
    return Relation(side * side, side * side, [*right, *down])


def cases():
    """The group, the label, the words, the scripts of each row, and how its relation is made."""
    for bits in (10, 16, 20, 22, 24):
        yield "start", f"one script, --nodes {bits}", ["--nodes", str(bits)], [""], None
    for count in (1, 8, 64):
        yield "sessions", f"{count} scripts of one REL and one COUNT", [], ["REL A 4 4 {1:2}. COUNT A."] * count, None
    for workers in (1, 8):
        yield "sessions", f"--gen 0 --workers {workers}", ["--gen", "0", "--workers", str(workers)], [], None
    for vertices in (1000, 2000, 4000, 8000):
        yield "closure", f"random, {vertices} vertices, 2 steps each", MOST, [CLOSURE], (random_graph, vertices, 2)
    for vertices in (1000, 4000, 16000):
        yield "closure", f"acyclic, {vertices} vertices, 2 steps each", MOST, [CLOSURE], (acyclic, vertices, 2)
    for vertices in (1000, 1000000):
        yield "closure", f"a cycle of {vertices}", MOST, [CLOSURE], (cycle, vertices)
    for side in (32, 64, 128):
        yield "closure", f"a grid of {side} by {side}", MOST, [CLOSURE], (grid, side)
    for vertices in (8000, 100000):
        script = REACHED.replace("SIZE", str(vertices))
        yield "vector", f"what 1 reaches, random, {vertices} vertices", MOST, [script], (random_graph, vertices, 2)
    for what in ("COUNT G", "COUNT G^", "COUNT G | G^", "REL v 1000000 1 {1:1}. COUNT G^*v"):
        label = f"a random map of 1000000: {what.partition('COUNT ')[2]}"
        yield "large", label, MOST, [f'LOAD G "g.k2". {what}.'], (random_graph, 1000000, 1)
    for elements in (12, 16, 20, 24):
        script = f"REL v {elements} 1 {{}}. COUNT epsi(v)."
        yield "subsets", f"membership in the subsets of {elements}", MOST, [script], None
    for elements in (12, 16, 20):
        script = f"REL v {elements} 1 {{}}. COUNT epsi(v) \\ epsi(v)."
        yield "subsets", f"inclusion of the subsets of {elements}", MOST, [script], None
    for vertices in (12, 16, 20, 24):
        yield "subsets", f"kernels of a cycle of {vertices}", MOST, [KERNELS], (cycle, vertices)
    for vertices in (16, 20, 24):
        yield "subsets", f"kernels of an acyclic graph of {vertices}", MOST, [KERNELS], (acyclic, vertices, 3)
    for vertices in (14, 20, 24):
        yield "subsets", f"maximal independent sets of a cycle of {vertices}", MOST, [STABLE], (cycle, vertices)


def write_relation(path, maker, *arguments):
    """Writes a relation file."""
    Path(path).write_bytes(k2(maker(*arguments), None))


def measured(words, folder):
    """Seconds by the clock and of the processor, mebibytes, status and the last line of the page of one run."""
    with tempfile.TemporaryFile() as page:
        began = time.perf_counter()
        run = subprocess.Popen([str(RELVIEW), *words], cwd=folder, stdout=page)
        while True:
            ended, status, usage = os.wait4(run.pid, os.WNOHANG)
            if ended:
                break
            if time.perf_counter() - began > SECONDS:
                run.kill()
                os.wait4(run.pid, 0)
                return SECONDS, SECONDS, 0, -1, "ended"
            time.sleep(0.001)
        took = time.perf_counter() - began
        page.seek(0)
        lines = page.read().decode().splitlines()
    spent = usage.ru_utime + usage.ru_stime
    return took, spent, usage.ru_maxrss / 1024, os.waitstatus_to_exitcode(status), lines[-1] if lines else ""


def file_of(relation, made):
    """The file of a relation, which is written once, by a process of its own: what this one holds is counted to those
    that it starts."""
    path = Path(made) / ("_".join(str(word) for word in (relation[0].__name__, *relation[1:])) + ".k2")
    if not path.exists():
        maker = multiprocessing.Process(target=write_relation, args=(path, *relation))
        maker.start()
        maker.join()
    return path


def row(words, scripts, relation, rounds, made):
    """The best of some runs of these scripts, with the relation as g.k2."""
    with tempfile.TemporaryDirectory() as folder:
        files = []
        for number, script in enumerate(scripts, 1):
            files.append(f"s{number}.rv")
            (Path(folder) / files[-1]).write_text(script)
        if relation:
            files.append("g.k2")
            (Path(folder) / "g.k2").symlink_to(file_of(relation, made))
        runs = []
        while len(runs) < rounds and (not runs or runs[-1][3] >= 0):
            runs.append(measured([*words, *files], folder))
    return [min(column) for column in zip(*runs)]


def main():
    rounds = int(sys.argv[1]) if len(sys.argv) > 1 else 3
    wanted = sys.argv[2:]
    with tempfile.TemporaryDirectory() as made:
        for group, label, words, scripts, relation in cases():
            if not wanted or group in wanted:
                took, spent, memory, status, last = row(words, scripts, relation, rounds, made)
                print(f"{label:58} {took:8.3f} s {spent:8.3f} s {memory:5.0f} MiB  {status}  {last[:60]}", flush=True)


if __name__ == "__main__":
    main()
