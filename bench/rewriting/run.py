#!/usr/bin/env python3
"""How many node words an expression makes as it is written, and as it is rewritten.

    bench/rewriting/run.py crates/relview/out/relview [BITS]

A table of 2^BITS node words, 12 where it is not said, takes two relations A and B of 60 by 60, then as many blocks of other
words as leave room for the command, and then the command. The words that a command makes are those by which there are
fewer blocks with it than without it. Inside a definition an expression is computed as it is written, so `COUNT E.` and
`COUNT F(A,B).` with `F(A,B) = E.` tell both numbers of one program. Each count is exact, and the same in every run.
"""
import random
import subprocess
import sys
import tempfile
from pathlib import Path

EXPRESSIONS = [
    "--A", "(A^)^", "A|B|A", "-(A^*-B)", "-(-A*B^)", "A^*B^", "A^|B^", "A^&B^", "-A&-B", "-A|-B",
    "-(A^*-B)&A^/B^", "-(-A&-B)", "(A^*B^)^", "-(-(A*B)&-A^)",
]
SIZE = 60


def rel(name, rows, columns, pairs):
    """A REL item."""
    return f"REL {name} {rows} {columns} {{{'; '.join(f'{row}:{column}' for row, column in pairs)}}}.\n"


def blocks(count):
    """REL items of so many different blocks of 8 by 8 cells, by a fixed seed."""
    lot, seen, items = random.Random(46), set(), []
    while len(items) < count:
        cells = tuple(sorted(lot.sample(range(64), 6)))
        if cells not in seen:
            seen.add(cells)
            items.append(rel("Block", 8, 8, [(cell // 8 + 1, cell % 8 + 1) for cell in cells]))
    return items


def given(density, lot):
    """The two relations."""
    cells = [(row, column) for row in range(1, SIZE + 1) for column in range(1, SIZE + 1)]
    return "".join(rel(name, SIZE, SIZE, [cell for cell in cells if lot.random() < density]) for name in "AB")


def main():
    program = Path(sys.argv[1]).resolve()
    bits = int(sys.argv[2]) if len(sys.argv) > 2 else 12
    fillers = blocks(2**bits)

    def is_done(folder, first, count, last):
        """Whether the last item is done behind so many blocks."""
        (folder / "a.rv").write_text(first + "".join(fillers[:count]) + last)
        run = subprocess.run([program, "--nodes", str(bits), "a.rv"], cwd=folder, capture_output=True, text=True)
        return run.returncode == 0

    def most(folder, first, last):
        """The greatest number of blocks behind which it is."""
        low, high = 0, 2**bits
        if not is_done(folder, first, 0, last):
            raise SystemExit(f"the table of 2^{bits} words has no room for {last}")
        while high - low > 1:
            middle = (low + high) // 2
            low, high = (middle, high) if is_done(folder, first, middle, last) else (low, middle)
        return low

    print("density  expression           as written  rewritten")
    with tempfile.TemporaryDirectory() as name:
        folder = Path(name)
        for density in (0.01, 0.1, 0.5):
            relations = given(density, random.Random(47))
            free = most(folder, relations, "")
            for expression in EXPRESSIONS:
                definition = f"F(A,B) = {expression}.\n"
                written = free - most(folder, definition + relations, "COUNT F(A,B).\n")
                rewritten = free - most(folder, relations, f"COUNT {expression}.\n")
                print(f"{density:7} {expression:20} {written:11} {rewritten:10}", flush=True)


main()
