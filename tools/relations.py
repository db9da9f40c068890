"""Relations, their files and the pages of the program, for the tools beside it; no part of the proved program.

`tools/bridge.py` and `tools/picture.py` are the scripts to call; this is what they share.
"""
import re
import struct
import sys
from pathlib import Path

SIZE_LIMIT = 2**24
BITS_LIMIT = 2**26
HEADER = 29
SHARED_HEADER = 12
HEIGHT_LIMIT = 24
WORD = re.compile(rb"[A-Za-z][A-Za-z0-9_]{0,63}")


def need(holds, kind):
    """Ends the reading of a relation file that fails a test."""
    if not holds:
        raise Bad(f"bad: {kind}")


class Bad(Exception):
    """What is wrong with a file, and the line where it is, if it is at one."""

    def __init__(self, text, line=None):
        super().__init__(text)
        self.line = line


class Relation:
    """A relation: how many rows and columns, and its pairs, counted from 1."""

    def __init__(self, rows, columns, pairs):
        self.rows, self.columns, self.pairs = rows, columns, set(pairs)

    def sorted(self):
        """The pairs by row and then column."""
        return sorted(self.pairs)


class Names:
    """The names of elements, in the order of their numbers, and the file that has them."""

    def __init__(self, path):
        self.path, self.names, self.numbers, self.changed = path, [], {}, False
        if path.exists():
            for line, name in enumerate(lines_of(path.read_bytes()), 1):
                if not name.strip():
                    raise Bad("an empty name", line)
                if name.strip() in self.numbers:
                    raise Bad(f"{name.strip()} is named twice", line)
                self.add(name.strip())
        self.changed = False

    def add(self, name):
        """The number of a name that is new."""
        self.names.append(name)
        self.numbers[name] = len(self.names)
        self.changed = True
        return len(self.names)

    def number(self, name):
        """The number of a name, which is added where it is new."""
        return self.numbers.get(name) or self.add(name)

    def write(self):
        """The file with the names that were added."""
        if self.changed:
            self.path.write_text("".join(f"{name}\n" for name in self.names), encoding="utf-8")


def lines_of(content):
    """The lines of a text."""
    try:
        lines = content.decode("utf-8").split("\n")
    except UnicodeDecodeError as error:
        raise Bad("no text in UTF-8", content[: error.start].count(b"\n") + 1) from None
    if not lines[-1]:
        lines.pop()
    return [line.removesuffix("\r") for line in lines]


# ---- relation files

def height_of(rows, columns):
    """The least height from 1 on whose square holds the relation."""
    height = 1
    while 2**height < max(rows, columns):
        height += 1
    return height


def morton(row, column, height):
    """The number of a cell in the order of quarters, from 0."""
    code = 0
    for bit in range(height - 1, -1, -1):
        code = code * 4 + (row >> bit & 1) * 2 + (column >> bit & 1)
    return code


def levels_of(relation, height):
    """The bits of each level, from the quarters of the whole square down to the cells."""
    codes = sorted(morton(row - 1, column - 1, height) for row, column in relation.pairs)
    levels = []
    for level in range(1, height + 1):
        here = dict.fromkeys(code >> 2 * (height - level) for code in codes)
        above = dict.fromkeys(code >> 2 for code in here)
        levels.append([int(4 * code + quarter in here) for code in above for quarter in range(4)])
    return levels


def packed(bits):
    """Bits as bytes, the first bit the most significant, the rest of the last byte 0."""
    text = "".join(map(str, bits))
    text += "0" * (-len(text) % 8)
    return int(text or "0", 2).to_bytes(len(text) // 8, "big")


def k2(relation, _options):
    """The bytes of a relation file."""
    height = height_of(relation.rows, relation.columns)
    levels = levels_of(relation, height)
    inner = [bit for level in levels[:-1] for bit in level]
    if len(inner) + len(levels[-1]) > BITS_LIMIT:
        raise Bad(f"{len(inner) + len(levels[-1])} bits pass the limit {BITS_LIMIT}")
    head = struct.pack(">4sIIBQQ", b"RVK1", relation.rows, relation.columns, height, len(inner), len(levels[-1]))
    return head + packed(inner) + packed(levels[-1])


def read_k2(content, options):
    """The relation of a relation file of either version; of several it is the one of --name, or the only one."""
    if not is_shared(content):
        return read_tree(content)
    relations = dict(read_shared(content))
    if options.name is None and len(relations) != 1:
        raise Bad(f"{len(relations)} relations are here ({', '.join(relations) or 'none'}); --name takes one")
    need(options.name is None or options.name in relations, "no relation of this name")
    return relations[options.name or min(relations)]


def read_tree(content):
    """The relation of a file of version 1, or the first of the program's tests that it fails, in the program's words."""
    need(len(content) >= HEADER, "short")
    magic, rows, columns, height, inner, leaves = struct.unpack(">4sIIBQQ", content[:HEADER])
    need(magic == b"RVK1", "magic")
    need(max(rows, columns) <= SIZE_LIMIT, "sizes")
    need(height == height_of(rows, columns), "height")
    start = HEADER + (inner + 7) // 8
    end = start + (leaves + 7) // 8
    need(len(content) >= end, "short")
    upper = "".join(f"{byte:08b}" for byte in content[HEADER:start])
    lower = "".join(f"{byte:08b}" for byte in content[start:end])
    bits = upper[:inner] + lower[:leaves]
    codes, at = ([0] if bits else []), 0
    for level in range(1, height + 1):
        last = level == height
        size = 4 * len(codes)
        need(at == inner and leaves == size if last else at + size <= inner, "lengths")
        here = bits[at : at + size]
        codes = [4 * codes[place // 4] + place % 4 for place in range(size) if here[place] == "1"]
        at += size
    for group in range(0, len(bits), 4):
        need("1" in bits[group : group + 4], f"zero group at {group}")
    ones = [place for place in range(inner, len(bits)) if bits[place] == "1"]
    pairs = [cell(code, height) for code in codes]
    for place, (row, column) in zip(ones, pairs):
        need(row <= rows and column <= columns, f"pair outside at {place}")
    need("1" not in upper[inner:] + lower[leaves:], "padding")
    need(len(content) == end, "rest")
    return Relation(rows, columns, pairs)


def cell(code, height):
    """The row and column, from 1, of a cell's number in the order of quarters."""
    row = column = 0
    for bit in range(height):
        row += (code >> 2 * bit + 1 & 1) << bit
        column += (code >> 2 * bit & 1) << bit
    return row + 1, column + 1


# ---- relation files of version 2

def is_shared(content):
    """Whether a relation file is of version 2."""
    return content[:4] == b"RVK2"


def shared(relations):
    """The bytes of a file of version 2 of named relations, a list of names and relations whose names increase."""
    listed, numbers = [], {}

    def visited(codes, height):
        if not codes or not height:
            return len(codes)
        cells = 4 ** (height - 1)
        parts = [[], [], [], []]
        for code in codes:
            parts[code // cells].append(code % cells)
        quarters = tuple(visited(part, height - 1) for part in parts)
        if quarters not in numbers:
            numbers[quarters] = 2 + len(listed)
            listed.append(struct.pack(">4I", *quarters))
        return numbers[quarters]

    entries = b""
    for name, relation in relations:
        height = height_of(relation.rows, relation.columns)
        root = visited([morton(row - 1, column - 1, height) for row, column in relation.pairs], height)
        entries += bytes([len(name)]) + name.encode() + struct.pack(">3I", relation.rows, relation.columns, root)
    content = struct.pack(">4sII", b"RVK2", len(listed), len(relations)) + b"".join(listed) + entries
    if 8 * len(content) > BITS_LIMIT:
        raise Bad(f"{8 * len(content)} bits pass the limit {BITS_LIMIT}")
    return content


def read_shared(content):
    """The named relations of a file of version 2, or the first of the program's tests that it fails, in its words."""
    need(is_shared(content), "magic")
    need(len(content) >= SHARED_HEADER, "short")
    count, entries = struct.unpack(">II", content[4:SHARED_HEADER])
    start = SHARED_HEADER + 16 * count
    need(len(content) >= start, "short")
    quadrants, heights = quadrants_of(content[SHARED_HEADER:start])
    extents = extents_of(quadrants, heights)
    found, roots, earlier = [], [], b""
    for place in range(entries):
        need(len(content) > start, "short")
        length = content[start]
        need(1 <= length <= 64, f"bad name at {place}")
        end = start + 1 + length + 12
        need(len(content) >= end, "short")
        name = content[start + 1 : start + 1 + length]
        need(WORD.fullmatch(name) and name > earlier, f"bad name at {place}")
        rows, columns, root = struct.unpack(">3I", content[end - 12 : end])
        need(max(rows, columns) <= SIZE_LIMIT, "sizes")
        height = height_of(rows, columns)
        need(root == 0 or heights.get(root) == height, f"bad root at {place}")
        need(extents[root][0] <= rows and extents[root][1] <= columns, f"pair outside at {place}")
        found.append((name.decode(), rows, columns, height))
        roots.append(root)
        start, earlier = end, name
    order = visits(quadrants, roots)
    for number in range(2, count + 2):
        need(order[number - 2 : number - 1] == [number], f"order at {number}")
    need(len(content) == start, "rest")
    return [(name, Relation(rows, columns, ((row + 1, column + 1) for row, column in cells_of(quadrants, root, height))))
            for (name, rows, columns, height), root in zip(found, roots)]


def quadrants_of(content):
    """The listed quadrants by their numbers, each with the numbers of its quarters, and the heights of all numbers."""
    quadrants, heights, known = {}, {1: 0}, set()
    for number, quarters in enumerate(struct.iter_unpack(">4I", content), 2):
        below = {heights.get(quarter) for quarter in quarters if quarter}
        good = len(below) == 1 and not below & {None, HEIGHT_LIMIT} and quarters not in known
        need(good, f"bad quadrant at {number}")
        quadrants[number], heights[number] = quarters, 1 + min(below)
        known.add(quarters)
    return quadrants, heights


def extents_of(quadrants, heights):
    """Up to which row and column each number has cells: how many rows and columns a relation of it needs."""
    extents = {0: (0, 0), 1: (1, 1)}
    for number, quarters in quadrants.items():
        half = 2 ** (heights[number] - 1)
        ends = [(extents[quarter][0] + place // 2 * half, extents[quarter][1] + place % 2 * half)
                for place, quarter in enumerate(quarters) if quarter]
        extents[number] = max(row for row, _ in ends), max(column for _, column in ends)
    return extents


def visits(quadrants, roots):
    """The listed quadrants in the order in which the visits of the roots append them."""
    order = {}

    def visit(number):
        if number > 1 and number not in order:
            for quarter in quadrants[number]:
                visit(quarter)
            order[number] = None

    for root in roots:
        visit(root)
    return list(order)


def cells_of(quadrants, number, height):
    """The rows and columns, from 0, of the cells of a number at a height."""
    if number == 0 or height == 0:
        return [(0, 0)] if number else []
    half = 2 ** (height - 1)
    return [(row + place // 2 * half, column + place % 2 * half) for place, quarter in enumerate(quadrants[number])
            for row, column in cells_of(quadrants, quarter, height - 1)]


# ---- pages

def read_reply(content, options):
    """The relation of a reply to PRINT or LIST: that of --reply, else the first in the page."""
    lines = lines_of(content)
    for at, text in enumerate(lines):
        head = re.fullmatch(r"(\d+\.\d+): (?:(\d+) x (\d+)(?:, pairs (\d+))?)?.*", text)
        if not head or (options.reply and head[1] != options.reply):
            continue
        found = reply_at(lines, at, head) if head[2] else None
        if found:
            return found
        if options.reply:
            raise Bad(f"reply {options.reply} is not that of a PRINT or LIST", at + 1)
    raise Bad(f"no reply {options.reply} in this page" if options.reply else "no reply of a PRINT or LIST in this page")


def reply_at(lines, at, head):
    """The relation of the reply whose first line is given, or None where it is that of a TYPE."""
    rows, columns = int(head[2]), int(head[3])
    if head[4]:
        pairs = []
        for line in range(at + 1, at + 1 + int(head[4])):
            pair = re.fullmatch(r"(\d+):(\d+)", lines[line]) if line < len(lines) else None
            if not pair or not (1 <= int(pair[1]) <= rows and 1 <= int(pair[2]) <= columns):
                raise Bad(f"pair {line - at} of {head[4]} is wanted", line + 1)
            pairs.append((int(pair[1]), int(pair[2])))
        return Relation(rows, columns, pairs)
    pairs = []
    for row in range(1, rows + 1):
        line = at + row
        if line >= len(lines) or not re.fullmatch(rf"[1.]{{{columns}}}", lines[line]):
            if row == 1:
                return None
            raise Bad(f"row {row} of {rows} is wanted", line + 1)
        pairs += [(row, column) for column, sign in enumerate(lines[line], 1) if sign == "1"]
    return Relation(rows, columns, pairs)


# ---- the command line

def named(path):
    """The names of a side file, or the end of this run where it is bad."""
    return guarded(path, lambda: Names(Path(path))) if path else None


def guarded(path, work):
    """What work gives; where it finds the file bad, the run ends with the file and the line."""
    try:
        return work()
    except Bad as bad:
        return stop(path if bad.line is None else f"{path}:{bad.line}", bad)
    except OSError as error:
        return stop(path, error.strerror)


def stop(place, text):
    """Ends the run with what is wrong and where."""
    sys.exit(f"{Path(sys.argv[0]).stem}: {place}: {text}")


def content_of(path):
    """The bytes of a file, or of standard input."""
    return guarded(path, lambda: sys.stdin.buffer.read() if path == "-" else Path(path).read_bytes())


def need_names(relation, options):
    """Ends the run where a side file has fewer names than the relation has elements."""
    for names, size, what in ((options.rows, relation.rows, "rows"), (options.columns, relation.columns, "columns")):
        if names and len(names.names) < size:
            stop(names.path, f"{len(names.names)} names for {size} {what}")


def add_names(parser):
    """The options that name the side files."""
    parser.add_argument("--names", help="the names of rows and columns, one a line")
    parser.add_argument("--rows", help="the names of rows")
    parser.add_argument("--columns", help="the names of columns")
    parser.add_argument("--reply", help="the reply S.C of a page")


def take_names(options):
    """Puts the names of the side files in place of their paths; rows and columns of --names are the same names."""
    both = named(options.names)
    options.rows, options.columns = named(options.rows) or both, named(options.columns) or both
