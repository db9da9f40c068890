"""Relations for the runs of bench/peers: by chance and regular ones, and the two files that each of them has.

A relation is its sizes and the set of its pairs, counted from 0.
"""
import random
import struct
from array import array
from collections import namedtuple
from itertools import chain

Relation = namedtuple("Relation", "rows cols pairs")


def steps(size, each, seed, later=False):
    """So many pairs in each row, at columns by chance, or at later ones."""
    lot = random.Random(seed)
    rows = range(size - 1) if later else range(size)
    pairs = {(x, lot.randrange(x + 1 if later else 0, size)) for x in rows for _ in range(each)}
    return Relation(size, size, pairs)


def tree(size, seed):
    """A tree: each element but the first has a parent by chance among those before it."""
    lot = random.Random(seed)
    return Relation(size, size, {(lot.randrange(x), x) for x in range(1, size)})


def sparse(size, chance, seed):
    """Each pair with about this chance."""
    return edges(size, int(size * size * chance), seed)


def edges(size, count, seed):
    """So many pairs by chance, of which a few may be equal."""
    lot = random.Random(seed)
    return Relation(size, size, {(lot.randrange(size), lot.randrange(size)) for _ in range(count)})


def thin(rows, cols, each, seed):
    """So many different pairs in each row."""
    lot = random.Random(seed)
    return Relation(rows, cols, {(i, j) for i in range(rows) for j in lot.sample(range(cols), each)})


def cycle(size):
    """A directed cycle."""
    return Relation(size, size, {(x, (x + 1) % size) for x in range(size)})


def both_ways(relation):
    """The undirected graph of these edges, without loops."""
    pairs = {(x, y) for x, y in relation.pairs if x != y}
    return Relation(relation.rows, relation.cols, pairs | {(y, x) for x, y in pairs})


def graph(size, chance, seed):
    """An undirected graph, with each edge by this chance."""
    lot = random.Random(seed)
    return both_ways(Relation(size, size, {(x, y) for x in range(size) for y in range(x) if lot.random() < chance}))


def grid(height, width):
    """The undirected graph of a grid."""
    right = {(x, x + 1) for x in range(height * width) if (x + 1) % width}
    down = {(x, x + width) for x in range((height - 1) * width)}
    return both_ways(Relation(height * width, height * width, right | down))


def families(elements, count, least, most, seed):
    """Sets of so many elements by chance: (x, k) where x is in set k."""
    lot = random.Random(seed)
    sets = [lot.sample(range(elements), lot.randint(least, most)) for _ in range(count)]
    return Relation(elements, count, {(x, k) for k, members in enumerate(sets) for x in members})


def votes(voters, most, seed):
    """The votes of voters who have 1 to so many by chance: (x, u) where vote u is one of x."""
    lot = random.Random(seed)
    owners = [x for x in range(voters) for _ in range(lot.randint(1, most))]
    return Relation(voters, len(owners), {(x, u) for u, x in enumerate(owners)})


def interleaved():
    """The bits of each number below 4096, each with a zero before it."""
    return [sum((number >> bit & 1) << 2 * bit for bit in range(12)) for number in range(4096)]


def k2(relation):
    """The bytes of a relation file of version 1 (docs/formats.md)."""
    height = max(1, (max(relation.rows, relation.cols) - 1).bit_length())
    spread = interleaved()

    def wide(number):
        return spread[number >> 12] << 24 | spread[number & 4095]

    codes, levels = sorted(2 * wide(i) + wide(j) for i, j in relation.pairs), []
    for _ in range(height):
        codes, groups = grouped(codes)
        levels.append(groups)
    leaves, inner = levels[0], list(chain.from_iterable(reversed(levels[1:])))
    head = struct.pack(">4sIIBQQ", b"RVK1", relation.rows, relation.cols, height, 4 * len(inner), 4 * len(leaves))
    return head + packed(inner) + packed(leaves)


def grouped(codes):
    """The squares of these quarters, in increasing order, and for each of them the four bits of its quarters."""
    above, groups, last = [], [], -1
    for code in codes:
        if code >> 2 != last:
            last = code >> 2
            above.append(last)
            groups.append(0)
        groups[-1] |= 8 >> (code & 3)
    return above, groups


def packed(groups):
    """Groups of four bits as bytes, the first group the high half."""
    groups = groups + [0] * (len(groups) % 2)
    return bytes(high << 4 | low for high, low in zip(groups[::2], groups[1::2]))


def flat(relation):
    """The bytes of a file of pairs (pairs.h)."""
    numbers = array("I")
    for number in sorted(i << 24 | j for i, j in relation.pairs):
        numbers.extend((number >> 24, number & 0xFFFFFF))
    return struct.pack("=3I", relation.rows, relation.cols, len(relation.pairs)) + numbers.tobytes()
