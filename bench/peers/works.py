"""What bench/peers/run.py compares: each work with its script, the relations of its files, and who else does it.

A peer is given the work's name, the files of pairs, and sometimes one number more. It is left out where its matrices
or diagrams would not fit, or where it has no way to do the work. The program's own steps stand beside it only where it
takes them: on large sparse relations.
"""
from dataclasses import dataclass

from inputs import both_ways, cycle, edges, families, graph, grid, sparse, steps, thin, tree, votes

KERNELS = """KERNELS(G) DECL e, breaks BEG e = epsi(Ln1(G)); breaks = (e & G*e) | -(e | G*e); RETURN -ran(breaks) END.
COUNT KERNELS(R)."""
SUBSETS = "SUBSETS(V) DECL e BEG e = epsi(V); RETURN e \\ e END. REL V {size} 1 {{}}. COUNT SUBSETS(V)."
NAMED = "REL V {size} 1 {{}}. LET E = epsi(V). COUNT E \\ E."
EXTREMES = """MAXIMAL(Order, v) = v & -((Order & -I(Order))*v).
MINIMAL(Order, v) = v & -((Order & -I(Order))^*v).
SETS(R) DECL e BEG e = epsi(Ln1(R)); RETURN {which}(e \\ e, {those}) END.
COUNT SETS(R)."""
INDEPENDENT = EXTREMES.format(which="MAXIMAL", those="-ran(e & R*e)")
CLIQUES = EXTREMES.format(which="MAXIMAL", those="-ran(e & -(R | I(R))*e)")
DOMINATING = EXTREMES.format(which="MINIMAL", those="-ran(-(e | R*e))")
HITTING = EXTREMES.format(which="MINIMAL", those="-ran(-(R^*e))")
# (x,u) is in Votes where vote u is one of x. The sums from 1 to the quota are a domain; Less leads to the sum below.
COALITIONS = """MINIMAL(Order, v) = v & -((Order & -I(Order))^*v).
WINNING(Votes, Less, e)
  DECL sums, vote, has
  BEG sums = On1(Less)*O1n(e);
      vote = init(ran(Votes));
      WHILE -empty(vote) DO
        has = (Votes*vote)^*e;
        sums = sums | (Less*sums | init(dom(Less))*L1n(e)) & Ln1(Less)*has;
        vote = next(vote)
      OD
      RETURN sums^*-ran(Less)
  END.
SETS(Votes, Less)
  DECL e BEG e = epsi(Ln1(Votes)); RETURN MINIMAL(e \\ e, WINNING(Votes, Less, e)) END.
REL Q {quota} 1 {{}}. COUNT SETS(R, hasse(less(Q*Q^))^)."""
SEARCH = """SEARCH({graphs}, v)
  DECL found, new
  BEG found = v; new = v;
      WHILE -empty(new) DO new = ({images}) & -found; found = found | new OD
      RETURN found
  END.
REL V {size} 1 {{1:1}}. COUNT SEARCH({graphs}, V)."""
ALL = ("dense", "buddy", "graphblas")
SETS = ("dense", "buddy")
MATRICES = ("dense", "graphblas")
LISTS = ("graphblas", "lists")
EVERY = (*ALL, "lists")


@dataclass
class Work:
    """A row: its relations are makers of inputs.py with their arguments, and are R, S and T of the script."""

    group: str
    what: str
    script: str
    relations: tuple = ()
    peers: tuple = ALL
    words: tuple = ()
    twice: bool = False


def of_relations():
    """Relations of one size."""
    closure, product = "COUNT trans(R).", "COUNT R*S."
    for size in (256, 1024):
        yield Work("closure", f"random, {size}, 2 a row", closure, ((steps, size, 2, 1),))
    for size, peers in ((1024, ALL), (4096, EVERY), (16384, LISTS)):
        yield Work("closure", f"acyclic, {size}, 2 a row", closure, ((steps, size, 2, 1, True),), peers)
    yield Work("closure", "a cycle of 4096", closure, ((cycle, 4096),))
    for size in (4096, 100_000):
        yield Work("closure", f"a tree of {size}", closure, ((tree, size, 1),), LISTS)
    small = ((1024, 8, ALL), (4096, 8, ALL), (16384, 2, EVERY))
    for size, each, peers in (*small, (65536, 2, LISTS), (65536, 8, LISTS), (2**19, 1, LISTS)):
        relations = ((steps, size, each, 1), (steps, size, each, 2))
        yield Work("product", f"{size}, {each} a row", product, relations, peers)
    quotient = "LET C = trans(R). COUNT syq(C, C)."
    yield Work("quotient", "of the closure of random 1024", quotient, ((steps, 1024, 2, 1),))
    for chance in (0.001, 0.01, 0.1):
        relations = ((sparse, 1024, chance, 1), (sparse, 1024, chance, 2))
        yield Work("mix", f"1024, chance {chance}", "COUNT (R | S) & -(R & S^).", relations)


def undirected_cycle(size):
    """A cycle whose edges lead both ways."""
    return both_ways(cycle(size))


def of_sets():
    """Sets of sets."""
    sizes = (16, 20, 24)
    for size in sizes:
        script = f"REL V {size} 1 {{}}. COUNT epsi(V)."
        yield Work("epsi", f"membership in the subsets of {size}", script, (), SETS, (size,))
    for size in sizes:
        peers = SETS if size == 16 else SETS[1:]
        yield Work("inclusion", f"of the subsets of {size}", SUBSETS.format(size=size), (), peers, (size,))
    for size in (16, 20):
        peers, what = SETS if size == 16 else ("buddy",), f"inclusion where membership has a name, {size}"
        yield Work("named", what, NAMED.format(size=size), (), peers, (size,))
    for size in sizes:
        yield Work("kernels", f"of a cycle of {size}", KERNELS, ((cycle, size),), SETS)
    for size in (14, 20, 24):
        what = f"maximal ones of a cycle of {size}"
        yield Work("independent", what, INDEPENDENT, ((undirected_cycle, size),), SETS)
    yield Work("cliques", "maximal ones of a random graph of 20", CLIQUES, ((graph, 20, 0.5, 1),), SETS)
    yield Work("dominating", "minimal ones of a grid of 4 by 5", DOMINATING, ((grid, 4, 5),), SETS)
    for count in (30, 60, 100):
        what = f"minimal ones of {count} random sets over 20"
        yield Work("hitting", what, HITTING, ((families, 20, count, 3, 7, 1),), SETS)
    quota = len(votes(20, 9, 1).pairs) // 2 + 1
    what = f"minimal ones of 20 voters, {quota} votes win"
    yield Work("coalitions", what, COALITIONS.format(quota=quota), ((votes, 20, 9, 1),), SETS, (quota,))


def of_thin(rows, cols, each, other):
    """Each operator on relations of few rows, with so many pairs in each row of R and of S."""
    r, s, is_long = (thin, rows, cols, each, 1), (thin, rows, cols, other, 2), cols > 10000
    square = (steps, cols, 1 if is_long else 8, 3)
    size = f"{rows} by {cols}, {each} a row"
    both = f"{rows} by {cols}, {each} and {other} a row"
    yield Work("union", both, "COUNT R | S.", (r, s), MATRICES)
    yield Work("inter", both, "COUNT R & S.", (r, s), MATRICES)
    yield Work("complement", size, "COUNT -R.", (r,), MATRICES)
    yield Work("transposed", size, "COUNT R^.", (r,), MATRICES)
    peers = ("graphblas",) if is_long else MATRICES
    yield Work("image", f"{size}, {square[2]} a row of the square", "COUNT R*S.", (r, square), peers)
    yield Work("meets", both, "COUNT R*S^.", (r, s), MATRICES)
    yield Work("over", size, "COUNT R / R.", (r,), MATRICES, twice=True)
    yield Work("rows", size, "COUNT syq(R^, R^).", (r,), MATRICES, twice=True)
    if not is_long:
        yield Work("outer", both, "COUNT R^*S.", (r, s), MATRICES)
        yield Work("under", both, "COUNT R \\ S.", (r, s), MATRICES)
        yield Work("columns", size, "COUNT syq(R, R).", (r,), MATRICES, twice=True)


def of_searches():
    """Searches from one vertex, by a loop over vectors. Three million edges are more than one relation file holds."""
    for size, counts in ((100_000, (200_000,)), (1_000_000, (1_000_000, 1_000_000, 1_000_000))):
        letters = "RST"[: len(counts)]
        graphs, images = ", ".join(letters), " | ".join(f"{letter}^*new" for letter in letters)
        relations = tuple((edges, size, count, seed) for seed, count in enumerate(counts, 1))
        script = SEARCH.format(graphs=graphs, images=images, size=size)
        yield Work("search", f"random, {size} vertices, {sum(counts)} edges", script, relations, LISTS)


def of_listings():
    """The listing of a million pairs by chance."""
    for height in (14, 20):
        relations = ((edges, 2**height, 1_000_000, 1),)
        yield Work("listing", f"random, 1000000 pairs in 2^{height}", "LIST R. COUNT R.", relations, ("lists",))


def works():
    """All rows."""
    yield from of_relations()
    yield from of_sets()
    for rows, cols, each, other in ((20, 1_000_000, 30_000, 30_000), (60, 4000, 200, 2000), (200, 4000, 80, 2000)):
        yield from of_thin(rows, cols, each, other)
    yield from of_searches()
    yield from of_listings()
