#!/usr/bin/env python3
"""What the gate costs, crate by crate, and which functions are slowest.

    bench/gate.py [--into FILE] [COMMAND ..]            runs a command, `rt ci` where none is given, and prints the
                                                        processor minutes of each crate
    bench/gate.py [--into FILE] --functions [CRATE ..]  proves crates, and prints their twenty slowest functions

A process of the run that proves or builds a crate is counted to that crate: to its edits where it works in a folder of
an edit, to its tests where it is given them, and else to its proofs. What is no such process (the command itself, the
compiler of the built code, the programs that are run) is counted as the rest. Times are read from /proc each half
second, so a process that lives shorter is missed. The table goes to FILE too, in Markdown.

With `--functions` the crates that are named, all of `crates.txt` where none is, are proved once more by `rt check`, each
by one job in a copy of the sources, as many at once as there are processors. A function's time is that from the line that
tells of the function before it to its own, so it holds that of lemmas which are checked between both; that of a crate's
first function holds what is read before it. Tests are not among them. The libraries below are those that `./relview` or
`rt lib` left.
"""
import argparse
import collections
import concurrent.futures
import importlib.util
import os
import queue
import re
import subprocess
import sys
import tempfile
import time

TOP = os.path.dirname(os.path.dirname(os.path.abspath(__file__)))
TICK = os.sysconf("SC_CLK_TCK")
KINDS = ("proofs", "tests", "edits")
# how many of the slowest functions are told
SLOWEST = 20


def processes():
    """Each process: its parent, the processor seconds that it took so far, and its words."""
    found = {}
    for name in os.listdir("/proc"):
        if not name.isdigit():
            continue
        try:
            with open(f"/proc/{name}/stat", encoding="utf-8", errors="replace") as file:
                fields = file.read().rpartition(")")[2].split()
            with open(f"/proc/{name}/cmdline", "rb") as file:
                words = file.read().decode("utf-8", "replace").split("\0")
        except OSError:
            continue
        found[int(name)] = (int(fields[1]), (int(fields[11]) + int(fields[12])) / TICK, words)
    return found


def below(root, found):
    """The processes that descend from one, itself with them."""
    children = collections.defaultdict(list)
    for process, (parent, _, _) in found.items():
        children[parent].append(process)
    reached, left = set(), [root]
    while left:
        process = left.pop()
        if process in found and process not in reached:
            reached.add(process)
            left.extend(children[process])
    return reached


def kind_of(process, words):
    """The crate and the kind of work of a process, where it proves or builds a crate."""
    if "--crate-name" not in words or not os.path.basename(words[0]).startswith("rattle"):
        return None
    crate = words[words.index("--crate-name") + 1]
    try:
        folder = os.readlink(f"/proc/{process}/cwd")
    except OSError:
        folder = ""
    if "rt-edit" in folder:
        return crate, "edits"
    return crate, "tests" if "--test" in words else "proofs"


def watch(command):
    """Runs a command; its status, its seconds, and for each process its kind and its processor seconds."""
    begun = time.monotonic()
    run = subprocess.Popen(command)
    seen = {}
    while run.poll() is None:
        found = processes()
        for process in below(run.pid, found):
            _, seconds, words = found[process]
            kind = seen[process][0] if process in seen else None
            seen[process] = (kind or kind_of(process, words), seconds)
        time.sleep(0.5)
    return run.returncode, time.monotonic() - begun, seen


def table(seconds, seen):
    """The table in Markdown: a line for each crate, the dearest first, and the sums."""
    spent = collections.defaultdict(lambda: collections.Counter())
    rest = 0.0
    for kind, used in seen.values():
        if kind is None:
            rest += used
        else:
            spent[kind[0]][kind[1]] += used
    lines = ["| crate | " + " | ".join(KINDS) + " | all |", "|---|" + "---|" * (len(KINDS) + 1)]
    whole = collections.Counter()
    for crate, counter in sorted(spent.items(), key=lambda entry: -sum(entry[1].values())):
        whole.update(counter)
        cells = [f"{counter[kind] / 60:.1f}" for kind in KINDS]
        lines.append(f"| `{crate}` | " + " | ".join(cells) + f" | {sum(counter.values()) / 60:.1f} |")
    cells = [f"{whole[kind] / 60:.1f}" for kind in KINDS]
    lines.append("| all crates | " + " | ".join(cells) + f" | {sum(whole.values()) / 60:.1f} |")
    lines.append("")
    lines.append(f"The rest took {rest / 60:.1f} processor minutes, and the whole run {seconds / 60:.1f} minutes.")
    return "\n".join(lines) + "\n"


def tool(name):
    """A script of tools/ as a module."""
    spec = importlib.util.spec_from_file_location(name, os.path.join(TOP, "tools", f"{name}.py"))
    module = importlib.util.module_from_spec(spec)
    spec.loader.exec_module(module)
    return module


def times_of(folder):
    """The functions of a crate with their seconds, as one job of a check tells of them; None where it is not proved."""
    found = []
    check = subprocess.Popen(["rt", "check", "--jobs", "1"], cwd=folder, stdout=subprocess.PIPE, stderr=subprocess.STDOUT, text=True)
    before = None
    for line in check.stdout:
        now = time.monotonic()
        told = re.match(r"checked (\S+), \d+ of \d+", line)
        if told and before is not None:
            found.append((now - before, told.group(1)))
        if told or before is None and line.startswith("so far:"):
            before = now
    return found if check.wait() == 0 else None


def slowest(names):
    """Proves crates and gives the table of their slowest functions, in Markdown, and the crates that are not proved."""
    build = tool("build")
    crates = {}
    for name in names:
        crates.update(build.crates_below(name))
    found, unproved = [], []
    with tempfile.TemporaryDirectory(prefix="lanes-") as room:
        lanes = queue.SimpleQueue()
        for number in range(build.places()):
            lanes.put(build.make_lane(room, number, crates))

        def prove(name):
            lane = lanes.get()
            try:
                build.stock(lane, crates[name])
                return name, times_of(os.path.join(lane, "crates", name))
            finally:
                lanes.put(lane)

        way = build.ways(crates)
        with concurrent.futures.ThreadPoolExecutor(build.places()) as pool:
            for name, times in pool.map(prove, sorted(names, key=lambda it: -way[it])):
                if times is None:
                    unproved.append(name)
                else:
                    found += times
    lines = ["| function | seconds |", "|---|---|"]
    lines += [f"| `{function}` | {seconds:.0f} |" for seconds, function in sorted(found, reverse=True)[:SLOWEST]]
    return "\n".join(lines) + "\n", unproved


def all_crates():
    """The crates of crates.txt."""
    with open(os.path.join(TOP, "crates.txt"), encoding="utf-8") as file:
        return [line.partition(":")[0].strip() for line in file if ":" in line.split("#")[0]]


def main():
    parser = argparse.ArgumentParser(description=__doc__.splitlines()[0])
    parser.add_argument("--into", metavar="FILE", help="where the table goes too")
    parser.add_argument("--functions", action="store_true", help="the slowest functions of the crates that are named")
    parser.add_argument("command", nargs=argparse.REMAINDER, help="what is run, `rt ci` where nothing is given; or crates")
    given = parser.parse_args()
    if given.functions:
        text, unproved = slowest(given.command or all_crates())
        status = 1 if unproved else 0
        if unproved:
            text += "\nNot proved: " + ", ".join(unproved) + "\n"
    else:
        status, seconds, seen = watch(given.command or ["rt", "ci"])
        text = table(seconds, seen)
    sys.stdout.write(text)
    if given.into:
        with open(given.into, "w", encoding="utf-8") as file:
            file.write(text)
    return status


if __name__ == "__main__":
    sys.exit(main())
