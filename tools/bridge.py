#!/usr/bin/env python3
"""Turns an edge list, a 0/1 matrix or a Matrix Market file into a relation file or a REL item, and back.

    tools/bridge.py FROM TO [options] INPUT [OUTPUT]

This script is no part of the proved program. It is plain Python 3, and wants `tools/relations.py` beside it and no
package; `tools/check` runs it beside the program.

FROM is one of
    edges    two words a line, between blanks, or commas or tabs where the line has one; the words are numbers from 1,
             or with --names any names; lines that begin with # or %, and empty lines, are passed over
    matrix   a row a line: 0 or . for no pair and 1 for a pair, blanks and commas between them or none
    market   a Matrix Market file of the coordinate form: a pair for each entry that is not zero
    k2       a relation file of the program; of several relations the one of --name is taken, or the only one
    reply    a page of the program: its first reply to PRINT or LIST, or that of --reply S.C
and TO is edges, matrix, market, k2, or
    rel      a REL item for a script, of the relation --name; of a file of several relations without --name an item each
    all      a relation file of several relations: all of such a file, or the one relation, which gets the name --name
INPUT - is standard input. Without OUTPUT the text goes to standard output; k2 and all want an OUTPUT. The name is R where
no --name is said.

Options: --names FILE has the names of rows and columns, a name a line, that of element 1 first; --rows FILE and
--columns FILE do where they are not the same. From edges, names that are not in the file yet are added to it. To edges,
numbers become names. --size M N gives the type of a relation of edges, which is else that of the greatest number.

A file that is bad is named on standard error with its line, and the status is 1; then nothing is written.
"""
import argparse
import re
import sys
from pathlib import Path

sys.dont_write_bytecode = True
from relations import SIZE_LIMIT, Bad, Relation, add_names, content_of, guarded, is_shared, k2, lines_of  # noqa: E402
from relations import need_names, read_k2, read_reply, read_shared, shared, stop, take_names  # noqa: E402

SCRIPT_LIMIT = 2**20
LINE = 100
KEYWORDS = (
    "REL LET PRINT LIST COUNT TYPE DROP SNAP AT LOAD SAVE DECL PROD SUM BEG END RETURN WHILE DO OD IF THEN ELSE FI "
    "ALL ATOMIC COMMIT EXPLAIN L O I Ln1 On1 L1n O1n dom ran trans refl epsi point atom init next inj empty unival "
    "less hasse quot syq eq incl ubd lbd least greatest sup inf"
).split()


# ---- edges

def fields_of(text):
    """The words of a line: between commas where it has one, else between tabs where it has one, else between blanks."""
    for mark in (",", "\t"):
        if mark in text:
            return [field.strip() for field in text.split(mark)]
    return text.split()


def number_of(word, limit, line):
    """A number from 1 to the limit."""
    if not re.fullmatch(r"[0-9]{1,20}", word):
        raise Bad(f"{word!r} is no number", line)
    if not 1 <= int(word) <= limit:
        raise Bad(f"{int(word)} is not from 1 to {limit}", line)
    return int(word)


def read_edges(content, options):
    """The relation of an edge list."""
    rows_limit, columns_limit = options.size or (SIZE_LIMIT, SIZE_LIMIT)
    pairs = []
    for line, text in enumerate(lines_of(content), 1):
        if not text.strip() or text.lstrip()[0] in "#%":
            continue
        fields = fields_of(text)
        if len(fields) != 2 or not all(fields):
            raise Bad(f"two words are wanted, not {len([field for field in fields if field])}", line)
        row = end_of(fields[0], options.rows, rows_limit, line)
        pairs.append((row, end_of(fields[1], options.columns, columns_limit, line)))
    if options.size:
        return Relation(*options.size, pairs)
    rows = len(options.rows.names) if options.rows else max((row for row, _ in pairs), default=0)
    columns = len(options.columns.names) if options.columns else max((column for _, column in pairs), default=0)
    if not options.rows and not options.columns:
        rows = columns = max(rows, columns)
    return Relation(rows, columns, pairs)


def end_of(word, names, limit, line):
    """The number of an end of an edge."""
    if not names:
        return number_of(word, limit, line)
    number = names.number(word)
    if number > limit:
        raise Bad(f"{word} is name number {number}, and the limit is {limit}", line)
    return number


def edges(relation, options):
    """The text of an edge list."""
    def word(number, names):
        return names.names[number - 1] if names else str(number)

    words = [(word(row, options.rows), word(column, options.columns)) for row, column in relation.sorted()]
    mark = " "
    if any(re.search(r"[\s,]", name) for pair in words for name in pair):
        mark = "\t"
    return "".join(f"{row}{mark}{column}\n" for row, column in words)


# ---- matrices

def read_matrix(content, _options):
    """The relation of a matrix of 0 and 1."""
    pairs, width, rows = [], None, 0
    for line, text in enumerate(lines_of(content), 1):
        if not text.strip() or text.lstrip()[0] == "#":
            continue
        cells = re.sub(r"[\s,]", "", text)
        for cell in cells:
            if cell not in "01.":
                raise Bad(f"{cell!r} is neither 0 nor 1", line)
        if width not in (None, len(cells)):
            raise Bad(f"{len(cells)} cells, and {width} in the lines before", line)
        width, rows = len(cells), rows + 1
        pairs += [(rows, column) for column, cell in enumerate(cells, 1) if cell == "1"]
    return Relation(rows, width or 0, pairs)


def matrix(relation, _options):
    """The text of a matrix of 0 and 1."""
    rows = [["0"] * relation.columns for _ in range(relation.rows)]
    for row, column in relation.pairs:
        rows[row - 1][column - 1] = "1"
    return "".join("".join(row) + "\n" for row in rows)


def read_market(content, _options):
    """The relation of a Matrix Market file."""
    lines = lines_of(content)
    head = lines[0].lower().split() if lines else []
    if head[:2] != ["%%matrixmarket", "matrix"] or len(head) != 5:
        raise Bad("a first line `%%MatrixMarket matrix coordinate FIELD SYMMETRY` is wanted", 1)
    if head[2] != "coordinate":
        raise Bad(f"only the coordinate form is read, not {head[2]}", 1)
    if head[3] not in ("pattern", "integer", "real") or head[4] not in ("general", "symmetric", "skew-symmetric"):
        raise Bad(f"{head[3]} {head[4]} is not read", 1)
    kept = [(line, text.split()) for line, text in enumerate(lines, 1) if text.strip() and text[0] != "%"]
    if not kept or len(kept[0][1]) != 3:
        raise Bad("a line with rows, columns and entries is wanted", kept[0][0] if kept else len(lines))
    rows, columns, entries = (sized(word, kept[0][0]) for word in kept[0][1])
    pairs = []
    for line, words in kept[1:]:
        if len(words) != (2 if head[3] == "pattern" else 3):
            raise Bad(f"{2 if head[3] == 'pattern' else 3} words are wanted, not {len(words)}", line)
        pair = number_of(words[0], rows, line), number_of(words[1], columns, line)
        if head[3] == "pattern" or not is_zero(words[2], line):
            pairs += [pair] if head[4] == "general" else [pair, pair[::-1]]
    if len(kept) - 1 != entries:
        raise Bad(f"{entries} entries are announced, and there are {len(kept) - 1}", kept[0][0])
    if head[4] != "general" and rows != columns:
        raise Bad(f"a {head[4]} matrix is square, not {rows} x {columns}", kept[0][0])
    return Relation(rows, columns, pairs)


def sized(word, line):
    """A size or a count."""
    if not re.fullmatch(r"[0-9]{1,20}", word):
        raise Bad(f"{word!r} is no number", line)
    return int(word)


def is_zero(word, line):
    """Whether an entry's value is zero."""
    try:
        return float(word) == 0
    except ValueError:
        raise Bad(f"{word!r} is no value", line) from None


def market(relation, _options):
    """The text of a Matrix Market file."""
    sizes = f"{relation.rows} {relation.columns} {len(relation.pairs)}\n"
    entries = "".join(f"{row} {column}\n" for row, column in relation.sorted())
    return "%%MatrixMarket matrix coordinate pattern general\n" + sizes + entries


# ---- scripts

def word_of(name):
    """A name that is a word, R where there is none."""
    if name is not None and not re.fullmatch(r"[A-Za-z][A-Za-z0-9_]{0,63}", name):
        raise Bad(f"{name!r} is no name of a relation")
    return name or "R"


def rel(relation, options):
    """A REL item, on one line where it is short, and else with a line for each row."""
    name = word_of(options.name)
    if name in KEYWORDS:
        raise Bad(f"{name!r} is no name of a relation")
    by_row = {}
    for row, column in relation.sorted():
        by_row.setdefault(row, []).append(str(column))
    rows = [f"{row}:{','.join(columns)}" for row, columns in by_row.items()]
    head = f"REL {name} {relation.rows} {relation.columns} {{"
    text = head + "; ".join(rows) + "}.\n"
    if len(text) > LINE:
        text = head + ";\n  ".join(rows) + "}.\n"
    if len(text) > SCRIPT_LIMIT:
        raise Bad(f"the item has {len(text)} bytes, and a script at most {SCRIPT_LIMIT}; take a relation file (k2)")
    return text


def all_rel(relations, options):
    """The REL items of named relations."""
    items = [rel(relation, argparse.Namespace(**{**vars(options), "name": name})) for name, relation in relations]
    if sum(map(len, items)) > SCRIPT_LIMIT:
        raise Bad(f"the items have {sum(map(len, items))} bytes, and a script at most {SCRIPT_LIMIT}")
    return "".join(items)


def all_k2(relations, _options):
    """The bytes of a relation file of several relations."""
    return shared(relations)


READERS = {"edges": read_edges, "matrix": read_matrix, "market": read_market, "k2": read_k2, "reply": read_reply}
WRITERS = {"edges": edges, "matrix": matrix, "market": market, "k2": k2, "rel": rel}
WRITERS_OF_ALL = {"rel": all_rel, "all": all_k2}


# ---- the command line

def written(options):
    """What the relation of the input, or all relations of a file of several, are turned into."""
    kind, path = options.source, options.input
    content = content_of(path)
    if kind == "k2" and options.target in WRITERS_OF_ALL and is_shared(content) and options.name is None:
        return guarded(path, lambda: WRITERS_OF_ALL[options.target](read_shared(content), options))
    relation = guarded(path, lambda: READERS[kind](content, options))
    need_names(relation, options)
    if max(relation.rows, relation.columns) > SIZE_LIMIT:
        stop(path, f"{relation.rows} x {relation.columns} passes the limit {SIZE_LIMIT}")
    if options.target == "all":
        return guarded(path, lambda: shared([(word_of(options.name), relation)]))
    return guarded(path, lambda: WRITERS[options.target](relation, options))


def main():
    parser = argparse.ArgumentParser(description=__doc__, formatter_class=argparse.RawDescriptionHelpFormatter)
    parser.add_argument("source", choices=READERS)
    parser.add_argument("target", choices=[*WRITERS, "all"])
    add_names(parser)
    parser.add_argument("--size", nargs=2, type=int, metavar=("M", "N"), help="the type of a relation of edges")
    parser.add_argument("--name", help="the name of the relation in a REL item or in a file of several; R where none is said")
    parser.add_argument("input")
    parser.add_argument("output", nargs="?")
    options = parser.parse_args()
    if options.target in ("k2", "all") and not options.output:
        parser.error(f"{options.target} wants an OUTPUT")
    take_names(options)
    text = written(options)
    for names in (options.rows, options.columns):
        if names:
            names.write()
    if options.output:
        content = text if isinstance(text, bytes) else text.encode()
        guarded(options.output, lambda: Path(options.output).write_bytes(content))
    else:
        sys.stdout.write(text)


if __name__ == "__main__":
    main()
