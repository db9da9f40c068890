#!/usr/bin/env python3
"""Times cut work: the rows of a closure by 1, 2 and 4 jobs at once, and what their files cost.

    bench/scale/jobs.py [ROUNDS] [VERTICES]      3 rounds, 20,000 vertices

The work is examples/spread/rows.yaml, with eight parts. Each row is the best of ROUNDS, in seconds by the clock and of the
processor. The ratios are to the first row, which does the parts one after another without Snakemake. The runs are those of
crates/relview/out/relview.
"""
import os
import subprocess
import sys
import tempfile
import time
from pathlib import Path

sys.dont_write_bytecode = True
from run import RELVIEW, TOP, measured  # noqa: E402

PARTS = 8
NODES = ["--nodes", "22"]


def snakemake(folder, vertices, jobs, *targets):
    """Seconds by the clock and of the processor that Snakemake takes for some targets, with the runs."""
    command = ["snakemake", *targets, "-s", str(TOP / "tools" / "spread" / "Snakefile"), "-d", str(folder), "-j", str(jobs)]
    command += ["--configfile", str(TOP / "examples" / "spread" / "rows.yaml"), "--quiet", "all"]
    command += ["--config", f"values={{vertices: {vertices}}}"]
    around = {**os.environ, "RELVIEW": str(RELVIEW)}
    began, before = time.perf_counter(), spent_below()
    subprocess.run(command, env=around, check=True, stdin=subprocess.DEVNULL, stderr=subprocess.DEVNULL)
    return time.perf_counter() - began, spent_below() - before


def spent_below():
    """Seconds of the processor of the processes that were started here and have ended."""
    times = os.times()
    return times.children_user + times.children_system


def one_run(folder, *words):
    """Seconds by the clock and of the processor of one run, which must be done."""
    took, spent, _, status, last = measured(words, folder)
    if status:
        sys.exit(f"{' '.join(words)}: status {status}: {last}")
    return took, spent


def best(rounds, work):
    """The best of some rounds, figure by figure."""
    return [min(figures) for figures in zip(*(work() for _ in range(rounds)))]


def row(label, took, spent, first=None):
    """A row of the table."""
    print(f"{label:52} {took:8.2f} s {spent:8.2f} s" + (f" {took / first:6.2f}" if first else ""), flush=True)


def main():
    rounds = int(sys.argv[1]) if len(sys.argv) > 1 else 3
    vertices = int(sys.argv[2]) if len(sys.argv) > 2 else 20000
    with tempfile.TemporaryDirectory() as name:
        folder = Path(name)
        parts = [f"layer1/part{number}.k2" for number in range(1, PARTS + 1)]
        snakemake(folder, vertices, 4, "page.txt", "whole.rv")

        def in_turn():
            runs = [one_run(folder, *NODES, part.replace(".k2", ".rv"), "graph.k2") for part in parts]
            return *map(sum, zip(*runs)), *max(runs)

        def by_jobs(jobs):
            for part in parts:
                (folder / part).unlink()
            return snakemake(folder, vertices, jobs, *parts)

        first, spent, *longest = best(rounds, in_turn)
        row(f"{PARTS} parts in turn, without Snakemake", first, spent, first)
        for jobs in (1, 2, 4):
            row(f"{PARTS} parts by {jobs} jobs at once", *best(rounds, lambda jobs=jobs: by_jobs(jobs)), first)
        row("the longest part alone", *longest, first)

        def by_its_own():
            (folder / parts[0]).unlink()
            with_it = snakemake(folder, vertices, 1, parts[0])
            without = one_run(folder, *NODES, "layer1/part1.rv", "graph.k2")
            return [more - less for more, less in zip(with_it, without)]

        row("what Snakemake takes for a part by itself", *best(rounds, by_its_own))
        (folder / "empty.rv").write_text("")
        (folder / "load.rv").write_text('LOAD G "graph.k2".')
        (folder / "loads.rv").write_text("".join(f'LOAD P{number} "{part}". ' for number, part in enumerate(parts, 1)))
        row("an empty run", *best(rounds, lambda: one_run(folder, *NODES, "empty.rv")))
        row("a run that loads the graph", *best(rounds, lambda: one_run(folder, *NODES, "load.rv", "graph.k2")))
        row("a run that loads the files of all parts", *best(rounds, lambda: one_run(folder, *NODES, "loads.rv", *parts)))
        row("the join of all parts", *best(rounds, lambda: one_run(folder, *NODES, "layer1/joined.rv", *parts)))
        row("the page", *best(rounds, lambda: one_run(folder, *NODES, "page.rv", "layer1/joined.k2")))
        whole = best(rounds, lambda: one_run(folder, "--nodes", "24", "whole.rv", "graph.k2"))
        row("the same by one run, --nodes 24", *whole)
        sizes = [(folder / file).stat().st_size for file in ("graph.k2", *parts, "layer1/joined.k2")]
        print(f"graph {sizes[0]:,} bytes, parts {min(sizes[1:-1]):,} to {max(sizes[1:-1]):,}, the join {sizes[-1]:,}")


if __name__ == "__main__":
    main()
