#!/usr/bin/env python3
"""Measures work by batches: how full each table of examples/batches is, and what another batch costs.

    bench/scale/batches.py [ROUNDS] [GROUP..]     3 rounds; fill, start, moved; all without a GROUP

fill    The node words that stand at the end of each week, those carried into it, and those of the same weeks as one
        script, with the least K of --nodes K in which they run either way. The program prints none of them. So they are
        counted: after the commands come as many REL items as are done, each of another block of 8 by 8 cells, and each
        of these takes one word. The counts are exact, and the same in every run.
start   Runs of 1, 2, 4 and 8 batches of an empty script.
moved   A random map of 1,000,000 elements that is loaded and counted, by one script, and by two batches, of which the
        second counts it: the difference is what it takes to move all its nodes. The same once more where it is dropped.

The rows of the last two groups are the best of ROUNDS: seconds by the clock and of the processor, and the most memory.
"""
import random
import subprocess
import sys
import tempfile
from pathlib import Path

sys.dont_write_bytecode = True
from run import RELVIEW, TOP, measured, random_graph, write_relation  # noqa: E402

WEEKS = [f"week{number}.rv" for number in range(1, 8)]
SMALL, LARGE = 10, 12                   # the table of each batch, and one that has room for all weeks as one script
MAP = 1000000


def fillers(count):
    """REL items of so many different blocks, by a fixed seed: each has the last cell, so that its word is no pair of
    names, and five others."""
    lot, seen = random.Random(48), {}
    while len(seen) < count:
        seen[tuple(sorted(lot.sample(range(63), 5)))] = None
    pairs = ("; ".join(f"{cell // 8 + 1}:{cell % 8 + 1}" for cell in [*cells, 63]) for cells in seen)
    return [f"REL Filler 8 8 {{{listed}}}.\n" for listed in pairs]


def by_batches(scripts):
    """The words of a run with a batch for each script."""
    return " --then ".join(scripts).split()


def is_done(folder, bits, words):
    """Whether the run refuses nothing."""
    run = subprocess.run([str(RELVIEW), "--nodes", str(bits), *words], cwd=folder, stdout=subprocess.DEVNULL)
    return run.returncode == 0


def taken(folder, bits, words, last, items):
    """The node words that stand at the end of a run, whose script last.rv is written here: a text, and then fillers."""
    room = 2**bits - 2

    def fits(count):
        (folder / "last.rv").write_text(last + "".join(items[:count]))
        return is_done(folder, bits, words)

    low, high = 0, room + 1
    if not fits(0):
        return None
    while high - low > 1:
        middle = (low + high) // 2
        low, high = (middle, high) if fits(middle) else (low, middle)
    return room - low


def least(folder, words):
    """The least K of --nodes K in which nothing is refused."""
    return next(bits for bits in range(10, 25) if is_done(folder, bits, words))


def fill(folder):
    """A row for each week."""
    texts = [(TOP / "examples" / "batches" / name).read_text() for name in WEEKS]
    for name, text in zip(WEEKS, texts):
        (folder / name).write_text(text)
    items = fillers(2**LARGE)
    print("week   carried into it   at its end   least K   as one script   least K")
    carried = 0
    for number, text in enumerate(texts, 1):
        before, whole = WEEKS[: number - 1], "".join(texts[:number])
        at_end = taken(folder, SMALL, by_batches([*before, "last.rv"]), text, items)
        as_one = taken(folder, LARGE, ["last.rv"], whole, items)
        (folder / "last.rv").write_text(whole)
        figures = (carried, at_end, least(folder, by_batches(WEEKS[:number])), as_one, least(folder, ["last.rv"]))
        print("{:4}   {:15}   {:10}   {:7}   {:13}   {:7}".format(number, *figures), flush=True)
        carried = taken(folder, SMALL, by_batches([*WEEKS[:number], "last.rv"]), "", items)


def row(label, folder, words, rounds):
    """The best of some rounds of a run, which must be done."""
    runs = [measured(words, folder) for _ in range(rounds)]
    if any(run[3] for run in runs):
        sys.exit(f"{' '.join(words)}: {runs[-1]}")
    took, spent, memory = (min(column) for column in list(zip(*runs))[:3])
    print(f"{label:62} {took:8.3f} s {spent:8.3f} s {memory:5.0f} MiB", flush=True)


def start(folder, rounds):
    """Rows of empty scripts."""
    (folder / "empty.rv").write_text("")
    for bits in (10, 20, 24):
        for count in (1, 2, 4, 8):
            row(f"{count} batches of an empty script, --nodes {bits}", folder,
                ["--nodes", str(bits), *by_batches(["empty.rv"] * count)], rounds)


def moved(folder, rounds):
    """Rows of a large relation that lives on, or does not."""
    write_relation(folder / "g.k2", random_graph, MAP, 1)
    (folder / "load.rv").write_text('LOAD G "g.k2".')
    (folder / "count.rv").write_text("COUNT G.")
    (folder / "both.rv").write_text('LOAD G "g.k2". COUNT G.')
    (folder / "drop.rv").write_text('LOAD G "g.k2". COUNT G. DROP G.')
    (folder / "empty.rv").write_text("")
    nodes = ["--nodes", "24"]
    row(f"a random map of {MAP}, by one script", folder, [*nodes, "both.rv", "g.k2"], rounds)
    row("loaded by one batch, and counted by the next", folder,
        [*nodes, "load.rv", "g.k2", "--then", "count.rv"], rounds)
    row("loaded, counted and dropped by one batch, and an empty one", folder,
        [*nodes, "drop.rv", "g.k2", "--then", "empty.rv"], rounds)


def main():
    rounds = int(sys.argv[1]) if len(sys.argv) > 1 else 3
    wanted = sys.argv[2:] or ["fill", "start", "moved"]
    with tempfile.TemporaryDirectory() as name:
        folder = Path(name)
        if "fill" in wanted:
            fill(folder)
        if "start" in wanted:
            start(folder, rounds)
        if "moved" in wanted:
            moved(folder, rounds)


if __name__ == "__main__":
    main()
