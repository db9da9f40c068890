"""Replies as pieces of a page of HTML: squares, images, graphs and text, with the names of elements.

The notebook (notebook/) and page.py show replies by this. Squares and vertices are those of picture.py; an image is
made here; graphs are laid out by Graphviz, where it is there.
"""
import base64
import html
import shutil
import struct
import subprocess
import time
import zlib
from argparse import Namespace

import picture
from relations import Relation

SHOWS = ("graph", "matrix", "text", "both")
SQUARES = 64  # up to so many rows and columns a matrix is drawn square by square
VERTICES = 60  # up to so many elements a relation is drawn as a graph
IMAGE = 1024  # an image has at most so many dots each way
LAYOUT = 30  # seconds that a layout may take
LISTED = 100  # so many elements of a vector are told
SMALL = ["-Nfontsize=11", "-Nwidth=0.3", "-Nheight=0.3", "-Nmargin=0.04", "-Granksep=0.3", "-Earrowsize=0.7"]
NO_GRAPHVIZ = "There is no graph, since Graphviz is not on this machine: apt-get install graphviz"


class Sides:
    """The names of the rows and of the columns of a relation, each a list, or None where there are numbers."""

    def __init__(self, rows=None, columns=None):
        self.rows, self.columns = rows, columns

    def row(self, number):
        """What a row is called."""
        return self.rows[number - 1] if self.rows else str(number)

    def column(self, number):
        """What a column is called."""
        return self.columns[number - 1] if self.columns else str(number)

    def options(self):
        """The same as picture.py takes it."""
        rows, columns = (Namespace(names=names) if names else None for names in (self.rows, self.columns))
        return Namespace(rows=rows, columns=columns)


# ---- matrices


def is_vector(relation):
    """Whether a relation is drawn as the set of its elements."""
    return relation.columns == 1 and relation.rows > 1


def elements(relation, sides):
    """The elements of a vector in braces."""
    names = [sides.row(row) for row, _ in relation.sorted()]
    more = [f".. and {len(names) - LISTED} more"] if len(names) > LISTED else []
    return "{" + ", ".join(names[:LISTED] + more) + "}"


def matrix(relation, sides):
    """The picture of a matrix: squares where it is small, and else an image; a vector lies on its side."""
    told = picture.told_of(relation)
    if is_vector(relation):
        relation = Relation(1, relation.rows, [(1, row) for row, _ in relation.pairs])
        sides = Sides([""], sides.rows)
    if max(relation.rows, relation.columns) > SQUARES:
        return image(relation, told)
    return picture.svg(relation, sides.options(), [], told)


def image(relation, told):
    """An image of a matrix, a dot for each cell or for a square of cells, with a slider that makes it larger."""
    block = max(1, -(-max(relation.rows, relation.columns) // IMAGE))
    rows, columns = -(-relation.rows // block), -(-relation.columns // block)
    source = base64.b64encode(png(rows, columns, picture.density(relation, block))).decode()
    width = max(columns, min(512, 8 * columns))
    height = "" if rows >= 8 else "height:24px;"
    if block > 1:
        told += f"; a dot is {block} by {block}"
    return (
        f'<div class="relview-image"><label>zoom <input type="range" min="{width}" max="{16 * width}" value="{width}"'
        " oninput=\"this.closest('.relview-image').querySelector('img').style.width=this.value+'px'\"></label>"
        '<div style="max-width:540px;max-height:540px;overflow:auto;border:1px solid black">'
        f'<img alt="{told}" style="width:{width}px;{height}'
        'max-width:none;image-rendering:pixelated;display:block;margin:0"'
        f' src="data:image/png;base64,{source}"></div><div>{told}</div></div>\n'
    )


def png(rows, columns, shades):
    """The bytes of an image in nine shades, from no pair to all pairs, by the shades of its dots."""
    lines = [bytearray(columns + 1) for _ in range(rows)]
    for (row, column), shade in shades.items():
        lines[row][column + 1] = shade
    full = bytes.fromhex(picture.PAIR[1:])
    palette = bytes(255 - (255 - part) * shade // 8 for shade in range(9) for part in full)

    def chunk(kind, content):
        return struct.pack(">I", len(content)) + kind + content + struct.pack(">I", zlib.crc32(kind + content))

    header = struct.pack(">2I5B", columns, rows, 8, 3, 0, 0, 0)
    pixels = zlib.compress(b"".join(lines), 9)
    return (
        b"\x89PNG\r\n\x1a\n"
        + chunk(b"IHDR", header)
        + chunk(b"PLTE", palette)
        + chunk(b"IDAT", pixels)
        + chunk(b"IEND", b"")
    )


# ---- graphs


def has_graph(relation):
    """Whether a relation is drawn as a graph."""
    return relation.rows == relation.columns and 1 < relation.rows <= VERTICES


def graph(relation, sides, is_stopped):
    """The graph of a relation as SVG, or a sentence why there is none."""
    if not shutil.which("dot"):
        return NO_GRAPHVIZ
    few = len(relation.pairs) <= max(2 * relation.rows, 40)
    words = ["dot", "-Kdot" if few else "-Kneato", "-Goverlap=scale", *SMALL, "-Tsvg"]
    text = picture.dot(relation, sides.options(), []).encode()
    drawn = laid_out(words, text, is_stopped)
    if drawn is None:
        return f"There is no graph, since Graphviz took more than {LAYOUT} seconds, or was interrupted."
    return drawn[drawn.index("<svg") :] if "<svg" in drawn else "There is no graph, since Graphviz failed."


def laid_out(words, text, is_stopped):
    """What Graphviz makes of a text; None where it takes too long or is stopped."""
    process = subprocess.Popen(
        words, stdin=subprocess.PIPE, stdout=subprocess.PIPE, stderr=subprocess.DEVNULL, start_new_session=True
    )
    end = time.monotonic() + LAYOUT
    while True:
        try:
            return process.communicate(text, timeout=0.1)[0].decode()
        except subprocess.TimeoutExpired:
            text = None  # it was handed over, and communicate takes it once
            if is_stopped() or time.monotonic() > end:
                process.kill()
                process.communicate()
                return None


# ---- replies


def listing(reply, sides):
    """The lines of a LIST, by names where there are some."""
    if not (sides.rows or sides.columns):
        return reply.lines
    return [f"{sides.row(row)}:{sides.column(column)}" for row, column in reply.relation.sorted()]


def texts(reply, number, sides):
    """The text of a PRINT, and the shorter one beside its picture: no rows of a vector or of a large matrix."""
    relation, head = reply.relation, f"{number}: {reply.head}"
    if is_vector(relation):
        told = elements(relation, sides)
        return f"{reply.text(number)}\n{told}", f"{head}\n{told}"
    large = max(relation.rows, relation.columns) > SQUARES
    return reply.text(number), f"{head}\n(drawn; %show text writes its rows)" if large else reply.text(number)


def drawn(reply, number, show, sides, is_stopped=lambda: False):
    """The text of a PRINT, and the HTML that shows it, which is None where text is all that is wanted.

    Where `is_stopped` says so, a layout is given up.
    """
    relation, (text, short) = reply.relation, texts(reply, number, sides)
    if show == "text":
        return text, None
    parts = []
    with_graph = show in ("graph", "both") and has_graph(relation)
    if show != "graph" or not with_graph:
        parts.append(matrix(relation, sides))
    parts.append(f'<pre style="margin:0;line-height:1.2">{html.escape(short)}</pre>\n')
    if with_graph:
        parts.append(graph(relation, sides, is_stopped))
    return short if max(relation.rows, relation.columns) > SQUARES else text, beside(parts)


def beside(parts):
    """Pieces that stand beside each other."""
    style = "display:flex;flex-wrap:wrap;gap:24px;align-items:flex-start"
    return f'<div class="relview" style="{style}">\n' + "".join(f"<div>{part}</div>\n" for part in parts) + "</div>"
