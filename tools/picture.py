#!/usr/bin/env python3
"""Draws a relation: its matrix as a grid (SVG), its graph for Graphviz (DOT), or the diagram of an order (SVG).

    tools/picture.py svg|dot|diagram [options] INPUT [OUTPUT]

This script is no part of the proved program. It is plain Python 3, and wants `tools/relations.py` beside it and no
package; `tools/check` runs it beside the program.

INPUT is a page of the program, of which the first reply to PRINT or LIST is drawn, or that of --reply S.C; - is a page
on standard input; and a name that ends in .k2 is a relation file, of which, where it has several relations, the one of
--name is drawn. Without OUTPUT the text goes to standard output.

    svg      a square for each pair, on a grid of rows and columns; up to 512 by 512 cell by cell, larger ones by density:
             a square then stands for as many cells as the line below says, darker where more of them are pairs
    dot      a vertex for each element, and an arrow for each pair; edges without heads where the relation is its own
             transpose. Where rows and columns differ in number, rows stand on the left and columns on the right
    diagram  a vertex for each element, and a line for each pair, from its row up to its column: the Hasse diagram of an
             order, where the relation is hasse of it. An element stands as high as the longest way up to it. A relation
             with a cycle, or with a pair of an element and itself, has no such picture

Options: --names FILE writes the names of rows and columns, a name a line, in place of numbers; --rows FILE and
--columns FILE do where they are not the same. --mark S.C, once or more, marks the elements of a vector, a relation of
one column and as many rows, which is another reply of the page: each vector in a colour of its own.
"""
import argparse
import sys
from collections import Counter
from pathlib import Path
from xml.sax.saxutils import escape

sys.dont_write_bytecode = True
from relations import Bad, add_names, content_of, guarded, need_names, read_k2, read_reply, stop, take_names  # noqa: E402

CELLS = 512
PAIR = "#a02020"
GRID = "#c8c8c8"
MARKS = ["#ffe680", "#b0d8ff", "#c0ecc0", "#f4c0e0"]


# ---- SVG

def text_at(x, y, anchor, text, turned=False):
    """A line of text."""
    turn = f' transform="rotate(-90 {x} {y})"' if turned else ""
    return f'<text x="{x}" y="{y}" text-anchor="{anchor}"{turn}>{escape(text)}</text>'


def labels(names, size):
    """The words beside rows or columns."""
    return [names.names[at] if names else str(at + 1) for at in range(size)]


def told_of(relation):
    """What stands below a picture."""
    return f"{relation.rows} x {relation.columns}, pairs {len(relation.pairs)}"


def density(relation, block):
    """For each square of block by block cells that has a pair, how dark it is, from 1 to 8."""
    counts = {}
    for row, column in relation.pairs:
        place = (row - 1) // block, (column - 1) // block
        counts[place] = counts.get(place, 0) + 1
    shades = {}
    for (row, column), count in counts.items():
        area = min(block, relation.rows - row * block) * min(block, relation.columns - column * block)
        shades[row, column] = -(-8 * count // area)
    return shades


def squares(shades, side):
    """The squares, by their shades: one path for each shade."""
    lines = []
    for shade in sorted(set(shades.values())):
        path = "".join(
            f"M{column * side} {row * side}h{side}v{side}h-{side}z"
            for (row, column), here in sorted(shades.items())
            if here == shade
        )
        lines.append(f'<path fill="{PAIR}" fill-opacity="{shade / 8:g}" d="{path}"/>')
    return lines


def bands(marks, rows, columns, side):
    """A band over each marked row, and over the same column where rows and columns are the same elements."""
    lines = []
    for colour, vector in zip(MARKS, marks):
        path = ""
        for element, _ in vector.sorted():
            at = (element - 1) * side
            path += f"M0 {at}h{columns * side}v{side}h-{columns * side}z"
            if rows == columns:
                path += f"M{at} 0h{side}v{rows * side}h-{side}z"
        lines.append(f'<path fill="{colour}" d="{path}"/>')
    return lines


def svg(relation, options, marks, told=None):
    """The picture of a matrix, with a line below it: what `told` says, or else its type and how many pairs it has."""
    block = max(1, -(-max(relation.rows, relation.columns) // CELLS))
    rows, columns = -(-relation.rows // block), -(-relation.columns // block)
    side = max(2, min(16, 768 // max(rows, columns, 1)))
    named = side >= 10
    beside = labels(options.rows, rows) if named else []
    above = labels(options.columns, columns) if named else []
    left = 8 + 7 * max((len(word) for word in beside), default=0)
    top = 8 + 7 * max((len(word) for word in above), default=0)
    told = told or told_of(relation)
    if block > 1:
        told += f"; a square is {block} by {block}"
    # the text below may be wider than the grid
    width, height = left + max(columns * side, 7 * len(told)) + 8, top + rows * side + 28
    lines = [
        f'<svg xmlns="http://www.w3.org/2000/svg" width="{width}" height="{height}" viewBox="0 0 {width} {height}"'
        ' font-family="monospace" font-size="11">',
        f"<title>{told}</title>",
        f'<rect width="{width}" height="{height}" fill="white"/>',
    ]
    lines += [text_at(left - 4, top + at * side + side - 4, "end", word) for at, word in enumerate(beside)]
    lines += [text_at(left + at * side + side - 4, top - 4, "start", word, True) for at, word in enumerate(above)]
    lines.append(f'<g transform="translate({left} {top})">')
    if block == 1:
        lines += bands(marks, rows, columns, side)
    lines += squares(density(relation, block), side)
    step = 1 if side >= 6 else 8 if block == 1 else max(rows, columns, 1)
    across = "".join(f"M0 {at * side}h{columns * side}" for at in range(0, rows + 1, step))
    down = "".join(f"M{at * side} 0v{rows * side}" for at in range(0, columns + 1, step))
    lines.append(f'<path fill="none" stroke="{GRID}" d="{across}{down}"/>')
    lines += [f'<rect width="{columns * side}" height="{rows * side}" fill="none" stroke="black"/>', "</g>"]
    lines += [text_at(left, height - 10, "start", told), "</svg>"]
    return "\n".join(lines) + "\n"


# ---- DOT

def quoted(word):
    """A word in Graphviz's quotes."""
    return '"' + word.replace("\\", "\\\\").replace('"', '\\"') + '"'


def vertex(name, word, colours):
    """A vertex with its label, filled by the colours of its marks."""
    style = ""
    if colours:
        style = f', style={"filled" if len(colours) == 1 else "wedged"}, fillcolor={quoted(":".join(colours))}'
    return f"  {name} [label={quoted(word)}{style}];"


def dot(relation, options, marks):
    """The graph of a relation."""
    square = relation.rows == relation.columns
    plain = square and relation.pairs == {(column, row) for row, column in relation.pairs}
    left, right = ("v", "v") if square else ("r", "c")
    lines = ["digraph relation {", "  node [shape=circle];" if square else "  rankdir=LR;"]
    if plain:
        lines.append("  edge [dir=none];")
    for at, word in enumerate(labels(options.rows, relation.rows), 1):
        colours = [colour for colour, vector in zip(MARKS, marks) if (at, 1) in vector.pairs]
        lines.append(vertex(f"{left}{at}", word, colours))
    if not square:
        words = labels(options.columns, relation.columns)
        lines += [vertex(f"{right}{at}", word, []) for at, word in enumerate(words, 1)]
    for row, column in relation.sorted():
        if not plain or row <= column:
            lines.append(f"  {left}{row} -> {right}{column};")
    return "\n".join(lines + ["}"]) + "\n"


# ---- diagrams of orders

def heights(relation):
    """How long the longest way up to each element is, by their numbers from 1."""
    above = {}
    for row, column in relation.pairs:
        above.setdefault(row, []).append(column)
    waits = Counter(column for _, column in relation.pairs)
    height = dict.fromkeys(range(1, relation.rows + 1), 0)
    done = [element for element in height if not waits[element]]
    for element in done:
        for other in above.get(element, []):
            height[other] = max(height[other], height[element] + 1)
            waits[other] -= 1
            if not waits[other]:
                done.append(other)
    if len(done) < relation.rows:
        raise Bad("a relation with a cycle has no diagram")
    return height


def ranks_of(relation):
    """The elements of each height, from the left: by turns up and down, each stands where those below or above it do."""
    height = heights(relation)
    ranks = [[] for _ in range(max(height.values(), default=-1) + 1)]
    for element in height:
        ranks[height[element]].append(element)
    place = {}
    for turn in range(9):
        for rank in ranks if turn % 2 == 0 else ranks[::-1]:
            if turn:
                wanted = {element: place[element] for element in rank}
                for element in rank:
                    near = [row if turn % 2 == 0 else column for row, column in relation.pairs
                            if (column if turn % 2 == 0 else row) == element]
                    if near:
                        wanted[element] = sum(place[other] for other in near) / len(near)
                rank.sort(key=lambda element: (wanted[element], place[element]))
            for at, element in enumerate(rank):
                place[element] = 2 * at - len(rank)
    return ranks


def diagram(relation, options, marks):
    """The diagram of an order."""
    if relation.rows != relation.columns:
        raise Bad(f"a diagram has as many rows as columns, not {relation.rows} x {relation.columns}")
    ranks, words = ranks_of(relation), labels(options.rows, relation.rows)
    across = 44 + 7 * max((len(word) for word in words), default=0)
    told = told_of(relation)
    width = max(across * max(map(len, ranks), default=0), 7 * len(told)) + 16
    height = 48 * len(ranks) + 28
    places = {}
    for level, rank in enumerate(ranks):
        for at, element in enumerate(rank):
            places[element] = (width + across * (2 * at + 1 - len(rank))) // 2, height - 52 - 48 * level
    lines = [
        f'<svg xmlns="http://www.w3.org/2000/svg" width="{width}" height="{height}" viewBox="0 0 {width} {height}"'
        ' font-family="monospace" font-size="11">',
        f"<title>{told}</title>",
        f'<rect width="{width}" height="{height}" fill="white"/>',
    ]
    path = "".join("M{} {}L{} {}".format(*places[row], *places[column]) for row, column in relation.sorted())
    lines.append(f'<path fill="none" stroke="{PAIR}" d="{path}"/>')
    for element, (x, y) in sorted(places.items()):
        side = 7 * len(words[element - 1]) + 10
        colours = [colour for colour, vector in zip(MARKS, marks) if (element, 1) in vector.pairs] or ["white"]
        for at, colour in enumerate(colours):
            lines.append(
                f'<rect x="{x - side // 2 + 2 * at}" y="{y - 9 + 2 * at}" width="{side - 4 * at}" height="{18 - 4 * at}"'
                f' fill="{colour}" stroke="black"/>'
            )
        lines.append(text_at(x, y + 4, "middle", words[element - 1]))
    lines += [text_at(8, height - 10, "start", told), "</svg>"]
    return "\n".join(lines) + "\n"


# ---- the command line

FORMS = {"svg": svg, "dot": dot, "diagram": diagram}


def vector_of(content, options, reply, relation):
    """The vector of a --mark."""
    vector = guarded(options.input, lambda: read_reply(content, argparse.Namespace(reply=reply)))
    if (vector.rows, vector.columns) != (relation.rows, 1):
        stop(options.input, f"reply {reply} is {vector.rows} x {vector.columns}, no vector of {relation.rows} elements")
    return vector


def main():
    parser = argparse.ArgumentParser(description=__doc__, formatter_class=argparse.RawDescriptionHelpFormatter)
    parser.add_argument("form", choices=list(FORMS))
    add_names(parser)
    parser.add_argument("--name", help="the name of the relation in a file of several")
    parser.add_argument("--mark", action="append", default=[], help="the reply S.C of a vector of elements to mark")
    parser.add_argument("input")
    parser.add_argument("output", nargs="?")
    options = parser.parse_args()
    if len(options.mark) > len(MARKS):
        parser.error(f"at most {len(MARKS)} vectors are marked")
    if options.mark and options.input.endswith(".k2"):
        parser.error("a relation file has no other reply to mark")
    take_names(options)
    content = content_of(options.input)
    reader = read_k2 if options.input.endswith(".k2") else read_reply
    relation = guarded(options.input, lambda: reader(content, options))
    need_names(relation, options)
    marks = [vector_of(content, options, reply, relation) for reply in options.mark]
    text = guarded(options.input, lambda: FORMS[options.form](relation, options, marks))
    if options.output:
        guarded(options.output, lambda: Path(options.output).write_text(text, encoding="utf-8"))
    else:
        sys.stdout.write(text)


if __name__ == "__main__":
    main()
