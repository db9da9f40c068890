#!/usr/bin/env python3
"""Writes the relation files of the examples in this folder.

    graph.py ring VERTICES FILE              steps from each vertex to both neighbours in a ring
    graph.py later VERTICES FILE             two steps from each vertex to later ones, picked by a fixed lot
    graph.py any VERTICES FIRST LAST FILE    two steps from each of the vertices FIRST to LAST to any, by a fixed lot
    graph.py divisors FIRST LAST FILE        a row for each number from FIRST to LAST: which of 1 to 64 divide it
    graph.py first VERTICES FILE             a vector of the first vertex
"""
import random
import sys
from pathlib import Path

sys.dont_write_bytecode = True
sys.path.insert(0, str(Path(__file__).resolve().parent.parent.parent / "tools"))
from relations import Relation, k2  # noqa: E402

DIVISORS = 64


def ring(vertices):
    """Steps to both neighbours."""
    pairs = [(x, x % vertices + 1) for x in range(1, vertices + 1)]
    return Relation(vertices, vertices, pairs + [(y, x) for x, y in pairs])


def later(vertices):
    """A graph without cycles."""
    lot = random.Random(1)
    return Relation(vertices, vertices, ((x, lot.randrange(x, vertices) + 1) for x in range(1, vertices) for _ in "ab"))


def any_vertex(vertices, first, last):
    """The steps from some vertices of a graph; each vertex has a lot of its own, so pieces of a graph fit together."""
    pairs = ((x, random.Random(2 * x + step).randrange(vertices) + 1) for x in range(first, last + 1) for step in (0, 1))
    return Relation(vertices, vertices, pairs)


def divisors(first, last):
    """The numbers from first to last, each with its divisors."""
    pairs = ((x - first + 1, d) for x in range(first, last + 1) for d in range(1, DIVISORS + 1) if x % d == 0)
    return Relation(last - first + 1, DIVISORS, pairs)


def first_vertex(vertices):
    """The vector of vertex 1."""
    return Relation(vertices, 1, [(1, 1)])


MAKERS = {"ring": ring, "later": later, "any": any_vertex, "divisors": divisors, "first": first_vertex}


def main():
    kind, *numbers, file = sys.argv[1:]
    Path(file).write_bytes(k2(MAKERS[kind](*map(int, numbers)), None))


if __name__ == "__main__":
    main()
