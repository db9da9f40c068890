#!/usr/bin/env python3
"""Compares whole runs of the program with those of other ways to compute with relations.

    bench/peers/run.py [ROUNDS] [GROUP..]      the groups are those of works.py, start and sessions

The peers are matrices of bits in plain C (dense.c), binary decision diagrams (buddy.c, over BuDDy: Debian's
libbdd-dev), sparse matrices (graphblas.c, over SuiteSparse:GraphBLAS: libgraphblas-dev), and the steps that the program
itself takes on sparse relations, in plain C (lists.c). One that is not installed is left out, with a line that says so.
Each run is a process of its own, and the peers take turns within a round. A row has two numbers of each, in
milliseconds of the processor: the shortest of ROUNDS (3) whole runs, and what is left of it without the shortest run
that starts, reads the same files, and makes nothing of them. The counts that they print have to be equal. The program
runs in the smallest table of 2^20, 2^22 and 2^24 node words that is not full in the end, and lists.c in one of the same
size. A run over 120 seconds is ended, and shown as `-`. RELVIEW in the environment names another program.
"""
import os
import subprocess
import sys
import tempfile
import time
from pathlib import Path

sys.dont_write_bytecode = True
from inputs import flat, k2, steps  # noqa: E402
from works import works  # noqa: E402

HERE = Path(__file__).resolve().parent
TOP = HERE.parent.parent
RELVIEW = Path(os.environ.get("RELVIEW", TOP / "crates" / "relview" / "out" / "relview")).resolve()
SECONDS = 120
BITS = (20, 22, 24)
FLAGS = {
    "dense": ["-O3", "-march=native"],
    "buddy": ["-lbdd"],
    "graphblas": ["-lgraphblas"],
    "lists": ["-O3", "-march=x86-64-v2"],
}
READERS = {"graphblas", "lists"}
LETTERS = "RST"


def compiled(folder):
    """The peers that can be built here."""
    built = {}
    for name, flags in FLAGS.items():
        out = Path(folder) / name
        words = ["cc", "-O2", "-o", str(out), str(HERE / f"{name}.c"), *flags]
        if subprocess.run(words, stderr=subprocess.DEVNULL, check=False).returncode == 0:
            built[name] = out
        else:
            print(f"{name} is left out: it does not build here")
    return built


def spent(words, folder):
    """Milliseconds of the processor, seconds by the clock, and the last word printed; none where the run was ended."""
    with tempfile.TemporaryFile() as page:
        began = time.perf_counter()
        run = subprocess.Popen([str(word) for word in words], cwd=folder, stdout=page)
        while True:
            ended, status, usage = os.wait4(run.pid, os.WNOHANG)
            if ended:
                break
            if time.perf_counter() - began > SECONDS:
                run.kill()
                os.wait4(run.pid, 0)
                return None
            time.sleep(0.0005)
        took = time.perf_counter() - began
        if status:
            return None
        page.seek(0)
        lines = page.read().decode().splitlines()
        return (usage.ru_utime + usage.ru_stime) * 1000, took, lines[-1].split()[-1] if lines else ""


class Files:
    """The relations of all rows, each written once, in both forms."""

    def __init__(self, folder):
        self.folder = Path(folder)

    def of(self, relation):
        """The relation file and the file of pairs of a maker and its arguments."""
        stem = "_".join(str(word) for word in (relation[0].__name__, *relation[1:]))
        tree, pairs = self.folder / f"{stem}.k2", self.folder / f"{stem}.pairs"
        if not tree.exists():
            made = relation[0](*relation[1:])
            pairs.write_bytes(flat(made))
            tree.write_bytes(k2(made))
        return tree, pairs


def fitting(folder, files):
    """The words of a run in the smallest table that holds it."""
    for bits in BITS:
        words = [RELVIEW, "--nodes", bits, "a.rv", *files]
        if bits == BITS[-1] or spent(words, folder):
            return words
    return None


def commands_of(work, folder, peers, files):
    """The run of the work by each way, and the same run without the work."""
    loads, names, pairs = "", [], []
    for letter, relation in zip(LETTERS, work.relations):
        tree, flat_file = files.of(relation)
        names.append(f"{letter}.k2")
        (Path(folder) / names[-1]).symlink_to(tree)
        pairs.append(flat_file)
        loads += f'LOAD {letter} "{letter}.k2". '
    (Path(folder) / "a.rv").write_text(loads + work.script)
    (Path(folder) / "start.rv").write_text(loads)
    pairs *= 2 if work.twice else 1
    ours = fitting(folder, names)
    commands = {"relview": (ours, [*ours[:3], "start.rv", *names])}
    for peer in work.peers:
        if peer in peers:
            name = "inclusion" if work.group == "named" else work.group
            given = [ours[2], *pairs] if peer == "lists" else pairs
            before = ["read", *given] if READERS & set(work.peers) else ["start"]
            commands[peer] = ([peers[peer], name, *given, *work.words], [peers[peer], *before])
    return commands


def best(rows):
    """The least milliseconds of some runs, where there was one."""
    rows = [row for row in rows if row]
    return min(rows)[0] if rows else None


def shown(value):
    return "-" if value is None else f"{value:.1f}" if value < 100 else f"{value:.0f}"


def cell(runs, starts):
    """A whole run, and what is left of it without its start."""
    whole, before = best(runs), best(starts)
    return "-" if whole is None or before is None else f"{shown(whole)}, {shown(max(0.0, whole - before))}"


def compare(rounds, wanted, peers):
    print("| work | node words | relview | " + " | ".join(peers) + " |\n|---|---|---|" + "---|" * len(peers))
    with tempfile.TemporaryDirectory() as made:
        files = Files(made)
        for work in works():
            if not wanted or work.group in wanted:
                print(row_of(rounds, work, peers, files), flush=True)


def row_of(rounds, work, peers, files):
    """The row of a work, after its runs."""
    with tempfile.TemporaryDirectory() as folder:
        commands = commands_of(work, folder, peers, files)
        runs, starts = ({name: [] for name in commands} for _ in range(2))
        for _ in range(rounds):
            for name, (words, start_words) in commands.items():
                if not runs[name] or runs[name][-1]:
                    runs[name].append(spent(words, folder))
                    starts[name].append(spent(start_words, folder))
    counts = {run[2] for tried in runs.values() for run in tried if run}
    assert len(counts) <= 1, f"{work.group} {work.what}: the counts differ: {counts}"
    cells = [cell(runs.get(name, []), starts.get(name, [])) for name in ["relview", *peers]]
    return f"| {work.group}: {work.what} | 2^{commands['relview'][0][2]} | " + " | ".join(cells) + " |"


def start(rounds):
    """The floor: a run of an empty script, by the size of the table, beside zeroing and copying such a table once."""
    print("| start | node words | relview | a table zeroed and copied |\n|---|---|---|---|")
    with tempfile.TemporaryDirectory() as folder:
        subprocess.run(["cc", "-O2", "-o", f"{folder}/table", str(HERE / "table.c")], check=True)
        (Path(folder) / "a.rv").write_text("")
        for bits in (10, 20, 22, 24):
            ours, theirs = [], []
            for _ in range(rounds):
                ours.append(spent([RELVIEW, "--nodes", bits, "a.rv"], folder))
                theirs.append(spent([f"{folder}/table", bits], folder))
            print(f"| an empty script | 2^{bits} | {shown(best(ours))} | {shown(best(theirs))} |", flush=True)


def sessions(rounds):
    """Eight sessions at once beside the same eight one after another: seconds by the clock."""
    with tempfile.TemporaryDirectory() as folder:
        names = []
        for number in range(1, 9):
            rows = {}
            for i, j in sorted(steps(1024, 2, number).pairs):
                rows.setdefault(i, []).append(str(j + 1))
            listed = "; ".join(f"{i + 1}:{','.join(columns)}" for i, columns in rows.items())
            names.append(f"a{number}.rv")
            script = f"REL R{number} 1024 1024 {{{listed}}}. LET C{number} = trans(R{number}). "
            (Path(folder) / names[-1]).write_text(script + f"COUNT syq(C{number}, C{number}).")
        together, apart = [], []
        for _ in range(rounds):
            together.append(spent([RELVIEW, "--nodes", 22, *names], folder)[1])
            began = time.perf_counter()
            for name in names:
                spent([RELVIEW, "--nodes", 22, name], folder)
            apart.append(time.perf_counter() - began)
        print("| sessions | seconds by the clock |")
        print(f"| eight at once, closure and quotient of random 1024 each | {min(together):.2f} |")
        print(f"| the same one after another, a run each | {min(apart):.2f} |")


def main():
    rounds = int(sys.argv[1]) if len(sys.argv) > 1 else 3
    wanted = sys.argv[2:]
    with tempfile.TemporaryDirectory() as folder:
        peers = compiled(folder)
        if not wanted or set(wanted) - {"start", "sessions"}:
            compare(rounds, wanted, peers)
        if not wanted or "start" in wanted:
            start(rounds)
        if not wanted or "sessions" in wanted:
            sessions(rounds)


if __name__ == "__main__":
    main()
