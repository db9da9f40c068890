"""The items of a script, each with its place, for the tools that show scripts with their replies.

A text is cut into items at its full stops, by the tokens of grammar.py. Whether the text is a script, the program says:
what stands behind a text's first flaw is no item here, and a text with a fault of grammar is cut all the same.
"""
import grammar


class Item:
    """An item: its tokens, and where in the text its bytes begin and end."""

    def __init__(self, tokens, start, end, line):
        self.tokens, self.start, self.end, self.line = tokens, start, end, line

    @property
    def kind(self):
        """The first word of a command; DEFINITION of a definition."""
        return "DEFINITION" if self.tokens[0][0] == "NAME" else self.tokens[0][0]

    @property
    def name(self):
        """The name that stands first or second: that of a definition, a relation or a snapshot; else None."""
        at = 0 if self.kind == "DEFINITION" else 1
        return self.tokens[at][1] if len(self.tokens) > at and self.tokens[at][0] == "NAME" else None

    def calls(self):
        """The names that are called in a definition."""
        pairs = zip(self.tokens[1:], self.tokens[2:])
        return {text for (kind, text, *_), (after, *_) in pairs if kind == "NAME" and after == "("}

    def files(self):
        """The file texts, each with its place."""
        return [(text, place) for kind, text, place in self.tokens if kind == "FILE"]

    def shown(self):
        """The name that PRINT, LIST or AT shows, and whether it is transposed, where all else are signs; else None."""
        words = [(kind, text) for kind, text, _ in self.tokens[:-1]]
        start = 3 if self.kind == "AT" else 1
        if self.kind not in ("PRINT", "LIST", "AT") or any(
            kind not in ("NAME", "-", "^", "(", ")") for kind, _ in words[start:]
        ):
            return None
        names = [text for kind, text in words[start:] if kind == "NAME"]
        turned = sum(kind == "^" for kind, _ in words[start:]) % 2 == 1
        return (names[0], turned) if len(names) == 1 else None


def starts_of(text):
    """Where each line of a text begins, in bytes."""
    return [0] + [at + 1 for at, byte in enumerate(text) if byte == 10]


def items_of(text):
    """The items of a text of bytes, up to its first flaw of tokens; what is no item at the end is left out."""
    lines, found, tokens = starts_of(text), [], []
    try:
        for token in grammar.tokens(text):
            tokens.append(token)
            if token[0] == ".":
                first, last = tokens[0][2], token[2]
                start, end = lines[first[0] - 1] + first[1] - 1, lines[last[0] - 1] + last[1]
                found.append(Item(tokens, start, end, first[0]))
                tokens = []
    except grammar.Fault:
        pass
    return found


def marked(text, line, column):
    """A line of a text of bytes, and a mark below the byte of a column; nothing where there is no such line."""
    lines = text.split(b"\n")
    if not 1 <= line <= len(lines):
        return []
    shown = lines[line - 1].rstrip(b"\r")
    before = shown[: column - 1].decode(errors="replace")
    blanks = "".join("\t" if letter == "\t" else " " for letter in before)
    return ["    " + shown.decode(errors="replace"), "    " + blanks + "^"]
