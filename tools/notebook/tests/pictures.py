"""Tests of the pictures, without the program: squares, vectors, images and graphs."""
import xml.etree.ElementTree
import zlib

import drawings
from relations import Relation
from replies import replies_of

from .counted import expect, holds

WAYS = Relation(3, 3, [(1, 2), (2, 3)])
SVG = "{http://www.w3.org/2000/svg}"


def drawn(relation, show, sides=None):
    """The text and the HTML of a PRINT."""
    rows = [
        "".join("1" if (row, column) in relation.pairs else "." for column in range(1, relation.columns + 1))
        for row in range(1, relation.rows + 1)
    ]
    page = "\n".join([f"1.1: {relation.rows} x {relation.columns}", *rows]) + "\n"
    return drawings.drawn(replies_of(page)[0][0], "3.1", show, sides or drawings.Sides())


def parsed(text):
    """The pieces of some HTML, which is written as XML is."""
    return xml.etree.ElementTree.fromstring(text.replace("xlink:", ""))


def check_pictures():
    """Squares, vectors, images and graphs."""
    names = ["Anna", "Bo & Co", "<Carl>"]
    text, page = drawn(WAYS, "both", drawings.Sides(names, names))
    found = parsed(page)
    squares, graph = found.iter(f"{SVG}svg")
    expect("squares", [path.get("d") for path in squares.iter(f"{SVG}path")][0], "M16 0h16v16h-16zM32 16h16v16h-16z")
    told = [label.text for label in squares.iter(f"{SVG}text")]
    expect("names of rows and columns", told, [*names, *names, "3 x 3, pairs 2"])
    expect("vertices", sorted(label.text for label in graph.iter(f"{SVG}text")), sorted(names))
    expect(
        "arrows", sorted(title.text for title in graph.iter(f"{SVG}title"))[1:], ["v1", "v1->v2", "v2", "v2->v3", "v3"]
    )
    expect("text beside it", text, "3.1: 3 x 3\n.1.\n..1\n...")
    expect("text alone", drawn(WAYS, "text"), ("3.1: 3 x 3\n.1.\n..1\n...", None))
    counts = {show: page.count("<svg") for show in ("graph", "matrix", "both") for _, page in [drawn(WAYS, show)]}
    expect("pictures by %show", counts, {"graph": 1, "matrix": 1, "both": 2})
    text, page = drawn(Relation(3, 1, [(1, 1), (3, 1)]), "both", drawings.Sides(names))
    expect("a vector as a set", text.split("\n")[-1], "{Anna, <Carl>}")
    expect("beside it", parsed(page).find(".//pre").text, "3.1: 3 x 1\n{Anna, <Carl>}")
    row = parsed(page).find(f".//{SVG}svg")
    expect("a vector as a row", row.find(f".//{SVG}path").get("d"), "M0 0h16v16h-16zM32 0h16v16h-16z")
    expect("a vector's type below", [label.text for label in row.iter(f"{SVG}text")][-1], "3 x 1, pairs 2")
    expect("no graph of a truth", drawn(Relation(1, 1, [(1, 1)]), "both")[1].count("<svg"), 1)
    for size, images, graphs in ((60, 0, 2), (61, 0, 1), (64, 0, 1), (65, 1, 0)):
        page = drawn(Relation(size, size, [(1, size)]), "both")[1]
        expect(f"{size} by {size}", (page.count("<img"), page.count("<svg")), (images, graphs))
    text, page = drawn(Relation(80, 70, [(1, 2)]), "both")
    expect("no rows of a large matrix", text, "3.1: 80 x 70\n(drawn; %show text writes its rows)")
    holds("a slider of a large matrix", 'type="range" min="512" max="8192"' in page, page[:400])


def check_image():
    """The dots of an image, and by how many cells each stands for."""
    content = drawings.png(2, 3, {(0, 1): 8, (1, 2): 4})
    expect(
        "the beginning of an image",
        content[:8] + content[12:24],
        b"\x89PNG\r\n\x1a\nIHDR\x00\x00\x00\x03\x00\x00\x00\x02",
    )
    start = content.index(b"IDAT") + 4
    expect("the dots of an image", zlib.decompress(content[start:-16]), bytes([0, 0, 8, 0, 0, 0, 0, 4]))
    page = drawings.image(Relation(2000, 3, [(1, 1)]), "told")
    holds("dots of several cells", "told; a dot is 2 by 2" in page, page[:300])


def check_layout():
    """A layout that takes long is waited for, and one that is stopped is given up."""
    expect("a slow layout", drawings.laid_out(["sh", "-c", "sleep 1; cat"], b"so", lambda: False), "so")
    expect("a stopped layout", drawings.laid_out(["sleep", "60"], b"", lambda: True), None)


def check():
    """All tests of this file."""
    check_pictures()
    check_image()
    check_layout()
