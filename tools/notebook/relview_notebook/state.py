"""What a state has, read off its file quickly: names, types and numbers of pairs (docs/formats.md has the form)."""
import struct

HEADER, QUADRANT = 12, 16


def relations_of(content):
    """The relations of a state: by each name the rows, the columns and how many pairs there are."""
    count, entries = struct.unpack(">II", content[4:HEADER])
    at, pairs = HEADER + QUADRANT * count, [0, 1]
    for quarters in struct.iter_unpack(">4I", content[HEADER:at]):
        pairs.append(sum(pairs[quarter] for quarter in quarters))
    found = {}
    for _ in range(entries):
        end = at + 1 + content[at]
        rows, columns, root = struct.unpack(">3I", content[end : end + 12])
        found[content[at + 1 : end].decode()] = rows, columns, pairs[root]
        at = end + 12
    return found
