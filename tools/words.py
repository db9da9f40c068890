#!/usr/bin/env python3
"""A slow reader of the words of the command line, and a check that runs the program on random lists of words beside it.

    tools/words.py [--lists N] [--seed S] [--program FILE]

Each list is run in a folder with three scripts and a relation file. Where the reader does not take the words, the usage
line with status 2 is wanted. Where it takes them, the page must have the reply of each script in the order of the
words, and the history, where it is asked for, no event of a part before one of an earlier part; or, where a file is
missing, the line that names the first of them. Of --gen the check looks at the status and the first reply alone.
"""
import argparse
import random
import re
import subprocess
import sys
import tempfile
from pathlib import Path

RELVIEW = Path(__file__).resolve().parent.parent / "relview"
USAGE = "usage: relview [--workers N] [--nodes K] [--turns T] [--history] [--gen NUMBER] FILE... [--then FILE...]..."
RANGES = {"--workers": (1, 64), "--nodes": (10, 24), "--turns": (0, 10**9), "--gen": (0, 2**64 - 1)}
MOST_PARTS, MOST_FILES = 8, 64

# The files of the folder: of a script the name of its relation and the size. Any other name is missing.
SIZES = {"a.rv": ("A", 1), "b.rv": ("B", 2), "--then": ("C", 3), "-d": ("D", 4)}
RELATION_FILE = bytes.fromhex("52564b3100000004000000040200000000000000040000000000000008" + "9081")


# ---- the reader


def parts_of(words):
    """The parts between words --then, of which none counts behind a word --."""
    parts = [[]]
    for place, word in enumerate(words):
        if word == "--":
            parts[-1] += words[place:]
            break
        if word == "--then":
            parts.append([])
        else:
            parts[-1].append(word)
    return parts


def number_of(name, value):
    """The number of an option, or none where the value is not taken."""
    if not 1 <= len(value) <= 20 or any(digit not in "0123456789" for digit in value):
        return None
    least, most = RANGES[name]
    return int(value) if least <= int(value) <= most else None


def read_part(words):
    """The options and the FILE words of a part, or none where it is not taken."""
    options, files, left = {}, [], list(words)
    while left:
        word = left.pop(0)
        if word == "--":
            files += left
            break
        if word == "-" or not word.startswith("-"):
            files.append(word)
            continue
        name, equals, value = word.partition("=")
        if name in options or (name == "--history" and equals) or name not in [*RANGES, "--history"]:
            return None
        if name == "--history":
            options[name] = True
            continue
        if not equals:
            if not left:
                return None
            value = left.pop(0)
        options[name] = number_of(name, value)
        if options[name] is None:
            return None
    return None if "" in files or "-" in files else (options, files)


def is_script(file):
    """Whether a FILE word names a script."""
    return not file.endswith(".k2")


def read(words):
    """The options and the FILE words of each part, or none where the words are not taken."""
    parts = [read_part(part) for part in parts_of(words)]
    if None in parts or len(parts) > MOST_PARTS or any(options for options, _ in parts[1:]):
        return None
    options, groups = parts[0][0], [files for _, files in parts]
    if "--gen" in options:
        return (options, groups) if groups == [[]] else None
    scripts = [sum(is_script(file) for file in files) for files in groups]
    relations = sum(len(files) for files in groups) - sum(scripts)
    if 0 in scripts or sum(scripts) > MOST_FILES or relations > MOST_FILES:
        return None
    return options, groups


# ---- lists of words

VALUES = {
    "--workers": ["1", "2", "03", "64", "0", "65", "2x", "+2", ""],
    "--nodes": ["10", "12", "16", "012", "9", "25", "1e1", "-12"],
    "--turns": ["0", "7", "1000000000", "1000000001", "000000000000000000007", "00000000000000000007"],
    "--gen": ["0", "5", "18446744073709551615", "18446744073709551616", "1 "],
}
ODD = ["--then", "--then", "--", "--", "-", "", "--history", "--history=1", "--the", "--then=a.rv", "-then", "--help", "-d", "---then", "=", "--nodes", "--gen", "--gen=1", "--nodes=12", "a.rv", "k.k2", "no.rv", "5"]


def random_option(draw):
    """An option, mostly with its value, as words."""
    if draw.random() < 0.3:
        return ["--history"]
    name = draw.choices(list(RANGES), [4, 4, 4, 1])[0]
    value = draw.choice(VALUES[name][:4] if draw.random() < 0.8 else VALUES[name])
    return [f"{name}={value}"] if draw.random() < 0.5 else [name, value]


def random_files(draw, most):
    """FILE words of a part, the last of them a script."""
    files = draw.choices(["a.rv", "b.rv", "k.k2", "no.rv", "no.k2"], [8, 8, 5, 0.2, 0.1], k=draw.randint(0, most))
    return files + [draw.choice(["a.rv", "b.rv"])]


def limit_list(draw):
    """A list with about as many scripts and relation files as are taken, over some parts."""
    parts = [["a.rv"] for _ in range(draw.randint(1, MOST_PARTS))]
    for file, count in (("b.rv", draw.randint(62, 66) - len(parts)), ("k.k2", draw.choice([0, 64, 65]))):
        for _ in range(count):
            draw.choice(parts).append(file)
    return [word for part in parts for word in ["--then", *part]][1:]


def random_list(draw):
    """A list of words that is nearly one of the set, or is one."""
    if draw.random() < 0.05:
        return limit_list(draw)
    parts = draw.choices([1, 2, 3, 7, 8, 9], [4, 5, 4, 1, 2, 1])[0]
    most = draw.choices([2, 4, 150 // parts], [6, 3, 1])[0]
    words = []
    for part in range(parts):
        groups = [[file] for file in random_files(draw, most)]
        if part == 0:
            groups += [random_option(draw) for _ in range(draw.choice([0, 0, 1, 2, 3]))]
            draw.shuffle(groups)
        words += (["--then"] if part else []) + [word for group in groups for word in group]
    if draw.random() < 0.05:
        words = random_option(draw) + ["--gen", draw.choice(VALUES["--gen"])]
    for _ in range(draw.choice([0, 0, 0, 1, 1, 2])):
        place = draw.randint(0, len(words))
        words[place : place + draw.choice([0, 0, 1])] = [draw.choice(ODD)] if draw.random() < 0.8 else []
    return words


# ---- the check


def history_fault(lines, scripts, parts):
    """What is wrong with the lines of the history, of which each script has an assignment and a read."""
    wanted = []
    for session, file in enumerate(scripts, 1):
        name, size = SIZES[file]
        wanted += [f"{session}.1 assign {name} {size} x {size}", f"{session}.2 read"]
    if sorted(lines) != sorted(wanted):
        return f"history {lines}, not {wanted} in some order"
    order = [parts[int(line.split(".")[0]) - 1] for line in lines]
    return None if order == sorted(order) else f"parts {order} in the history"


def fault_of(words, status, lines):
    """What is wrong with the status and the lines of a run, or none."""
    said = read(words)
    if said is None:
        return None if (status, lines) == (2, [USAGE]) else "the usage line is wanted"
    options, groups = said
    if "--gen" in options:
        return None if status in (0, 1) and lines and re.match(r"1\.\d+: ", lines[0]) else "replies are wanted"
    files = [file for group in groups for file in group]
    missing = [file for file in files if file not in SIZES and file != "k.k2"]
    if missing:
        return None if (status, lines) == (3, [f"relview: cannot read {missing[0]}"]) else f"{missing[0]} is missing"
    scripts = [file for file in files if is_script(file)]
    parts = [part for part, group in enumerate(groups) for file in group if is_script(file)]
    page = [f"{session}.2: {SIZES[file][1]} x {SIZES[file][1]}" for session, file in enumerate(scripts, 1)]
    if status != 0 or lines[: len(page)] != page:
        return f"the page {page} is wanted"
    if "--history" in options:
        return history_fault(lines[len(page) :], scripts, parts)
    return None if len(lines) == len(page) else "no more lines are wanted"


def run(program, words, folder):
    """The status and the lines of a run of the program."""
    done = subprocess.run([program, *words], cwd=folder, stdin=subprocess.DEVNULL, stdout=subprocess.PIPE, check=False)
    return done.returncode, done.stdout.decode(errors="replace").splitlines()


def main():
    options = argparse.ArgumentParser(description=__doc__.split("\n", maxsplit=1)[0])
    options.add_argument("--lists", type=int, default=1000)
    options.add_argument("--seed", type=int, default=1)
    options.add_argument("--program", type=Path, default=RELVIEW)
    given = options.parse_args()
    draw = random.Random(given.seed)
    wrong = taken = several = 0
    with tempfile.TemporaryDirectory() as folder:
        for file, (name, size) in SIZES.items():
            Path(folder, file).write_text(f"REL {name} {size} {size} {{}}. TYPE {name}.\n", encoding="ascii")
        Path(folder, "k.k2").write_bytes(RELATION_FILE)
        for _ in range(given.lists):
            words = random_list(draw)
            said = read(words)
            taken += said is not None
            several += said is not None and len(said[1]) > 1
            status, lines = run(given.program.resolve(), words, folder)
            fault = fault_of(words, status, lines)
            if fault:
                wrong += 1
                print(f"words: {words}: status {status}, {lines}: {fault}")
    print(f"words: {given.lists} lists, {taken} of them taken, {several} with several parts, {wrong} wrong")
    sys.exit(wrong != 0)


if __name__ == "__main__":
    main()
