"""Cells: their magics and items, the script that a cell becomes, and the places of that script in the cell.

The script of a cell is, piece by piece: LOAD ALL of the state before; the definitions so far; the items of the cell;
and SAVE ALL of the state after. A definition that the cell makes anew takes the place of the earlier one: the earlier
one is left out, and what called it stands behind the new one.
"""
from items import items_of, starts_of

BEFORE, AFTER = "../before.k2", "../after.k2"


class Refused(Exception):
    """Why the kernel does not run a cell, with the line and column of the cell, if it is at one."""

    def __init__(self, text, line=None, column=1):
        super().__init__(text)
        self.line, self.column = line, column


class Definition:
    """A definition: its name and text, what it calls, and the number of its cell."""

    def __init__(self, name, text, calls, cell):
        self.name, self.text, self.calls, self.cell = name, text, calls, cell


class Magic:
    """A line that begins with a percent sign: its number, its first column, and its words behind the sign."""

    def __init__(self, line, column, text):
        self.line, self.column, self.text = line, column, text


class Cell:
    """A cell: its text without blanks at the end, its magics, and the lines that take their place in the script."""

    def __init__(self, code):
        self.text = code.rstrip().encode()
        self.lines = self.text.split(b"\n")
        self.magics = []
        for number, line in enumerate(self.lines, 1):
            inner = line.strip()
            if inner.startswith(b"%"):
                column = 1 + len(line) - len(line.lstrip())
                self.magics.append(Magic(number, column, inner[1:].decode()))
                self.lines[number - 1] = b""

    def put(self, magic, item):
        """Puts an item of the script in the place of a magic."""
        self.lines[magic.line - 1] = item.encode()

    def body(self):
        """The items of the cell as the script has them."""
        return b"\n".join(self.lines)

    def is_magic(self, line):
        """Whether a line is a magic."""
        return any(magic.line == line for magic in self.magics)


class Script:
    """The script of a cell; `origins` has for each item its number in the cell, its definition, or None."""

    def __init__(self, cell, definitions, number):
        self.cell, self.number = cell, number
        self.items = items_of(cell.body())
        self.text, self.pieces, self.origins, self.definitions = b"", [], [], []
        self.add(f'LOAD ALL "{BEFORE}".\n'.encode(), None)
        self.origins.append(None)
        waiting, missing = self.begin(definitions)
        self.go_on(waiting, missing)
        self.add(f'\nSAVE ALL "{AFTER}".\n'.encode(), None)
        self.origins.append(None)

    def add(self, text, origin):
        """Adds a piece of the text; its origin is a place of the cell, in bytes, or a definition, or None."""
        self.pieces.append((len(self.text), origin))
        self.text += text

    def add_definition(self, definition):
        """Adds a definition of an earlier cell."""
        self.add(definition.text, definition)
        self.origins.append(definition)
        self.definitions.append(definition)

    def begin(self, definitions):
        """Adds the definitions that call nothing new; gives the others, and the names that are not there yet."""
        again = {item.name for item in self.items if item.kind == "DEFINITION"}
        missing, waiting = set(again), []
        for definition in definitions:
            if definition.name in again:
                continue
            if definition.calls & missing:
                missing.add(definition.name)
                waiting.append(definition)
            else:
                self.add_definition(definition)
                self.add(b"\n", None)
        return waiting, missing

    def go_on(self, waiting, missing):
        """Adds the items of the cell; behind a definition stand those that waited for it."""
        body, at = self.cell.body(), 0
        for number, item in enumerate(self.items, 1):
            self.origins.append(number)
            if item.kind != "DEFINITION":
                continue
            text = body[item.start : item.end]
            self.definitions.append(Definition(item.name, text, item.calls(), self.number))
            missing.discard(item.name)
            ready = [definition for definition in waiting if self.is_ready(definition, missing)]
            if ready:
                self.add(body[at : item.end], at)
                at = item.end
            for definition in ready:
                waiting.remove(definition)
                self.add(b" ", None)
                self.add_definition(definition)
        self.add(body[at:], at)

    @staticmethod
    def is_ready(definition, missing):
        """Whether all that a definition calls is there; it is there itself then."""
        if definition.calls & missing:
            return False
        missing.discard(definition.name)
        return True

    def place(self, line, column):
        """Where a place of the script is: the definition or None for the cell, and the line and column there."""
        at = starts_of(self.text)[line - 1] + column - 1
        start, origin = max(
            ((start, origin) for start, origin in self.pieces if start <= at), key=lambda piece: piece[0]
        )
        if isinstance(origin, Definition):
            return (origin, *line_and_column(origin.text, at - start))
        body = self.cell.body()
        return (None, *line_and_column(body, len(body) if origin is None else min(len(body), origin + at - start)))


def line_and_column(text, at):
    """The line and the column, from 1, of a byte of a text."""
    line = text.count(b"\n", 0, at)
    return line + 1, at - (text.rfind(b"\n", 0, at) + 1) + 1
