"""The words of the language for Tab and Shift-Tab: what may stand at a place, and what a word means.

The lists of words are those of grammar.py, and the meanings are the tables of docs/language.md, as they stand there.
"""
import functools
import re

import grammar
from drawings import SHOWS

from . import TOP
from .magics import HELP

WORD = re.compile(r"[A-Za-z][A-Za-z0-9_]*")
DOMOPS = sorted(operator.decode() for operator in grammar.DOMOPS)
HEADS = ("call", "operator", "written", "command")
ABOUT = "R has the type m x n and S the type p x q; i, j and k are counted from 0."


@functools.cache
def meanings():
    """What each base name, operator and command is: the rows of the tables of docs/language.md, as lines of text."""
    found = {}
    lines = (TOP / "docs" / "language.md").read_text(encoding="utf-8").split("\n")
    for at, line in enumerate(lines):
        if re.fullmatch(r"\|(?:---\|)+", line) and cells_of(lines[at - 1])[0] in HEADS:
            names = cells_of(lines[at - 1])
            for row in lines[at + 1 : next(end for end in range(at + 1, len(lines)) if not lines[end].startswith("|"))]:
                cells = dict(zip(names, cells_of(row)))
                for word in key_of(cells[names[0]], names[0]):
                    found.setdefault(word, {}).setdefault(cells[names[0]], told(names, cells))
    return {word: "\n\n".join(texts.values()) for word, texts in found.items()}


def cells_of(line):
    """The cells of a row of a table, without their backticks."""
    cells = [cell.strip().replace("\\|", "|") for cell in re.split(r"(?<!\\)\|", line.strip()[1:-1])]
    return [re.sub(r"\[([^]]*)\]\([^)]*\)", r"\1", cell).replace("`", "") for cell in cells]


def key_of(written, head):
    """The words that a first cell explains: the first of a command, the name of a call, the sign of an operator."""
    if head == "command":
        return WORD.findall(written)[:1]
    call = re.match(r"([A-Za-z][A-Za-z0-9]*(?:-[12])?)\(", written)
    return [call[1] if call else re.sub(r"[\sA-Z]", "", written)[0]]


def told(names, cells):
    """A row as text: its first cells in a line, and the others below it, but for examples."""
    shown = [f"{name}: {cells[name]}" for name in names[1:] if cells[name] and name not in ("script", "prints")]
    return "\n".join([cells[names[0]], *("  " + line for line in shown)])


def inspected(code, cursor, session):
    """What the word at a place means, or None."""
    word = word_at(code, cursor)
    if word is None:
        return None
    if word.startswith("%"):
        return HELP.get(word[1:])
    for definition in session.definitions:
        if definition.name == word:
            return definition.text.decode(errors="replace")
    text = meanings().get(word)
    if text:
        return text + ("" if word in grammar.KEYWORDS else f"\n\n{ABOUT}")
    relation = session.relations().get(word)
    return relation and "{}: {} x {}, pairs {}".format(word, *relation)


def word_at(code, cursor):
    """The word that stands at a place or ends there, or the sign before it; else None."""
    for found in re.finditer(r"%?[A-Za-z](?:[A-Za-z0-9_]|(?<=[pi])-[12](?![A-Za-z0-9_]))*", code):
        if found.start() <= cursor <= found.end():
            return found[0]
        if code[found.end() : cursor] == "(":
            return found[0]
    before = code[:cursor].rstrip()
    return before[-1] if before and before[-1] in "|&-^*\\/[" else None


def completed(code, cursor, session):
    """The words that may stand at a place, and where the word begins that they complete."""
    line = code[:cursor].split("\n")[-1]
    start = cursor - len(re.search(r"(?<![A-Za-z0-9_])[pi]-[12]?$|[A-Za-z0-9_]*$", line)[0])
    begun = code[start:cursor]
    magic = re.fullmatch(r"\s*%(\w*)(\s.*)?", line)
    if magic and magic[2] is None:
        words = HELP
    elif magic:
        words = {"show": SHOWS, "names": session.relations(), "save": session.relations()}.get(magic[1], ())
    else:
        names = [definition.name for definition in session.definitions]
        words = [*grammar.KEYWORDS, *grammar.BASE1, *grammar.BASE2, *DOMOPS, *session.relations(), *names]
    return sorted(word for word in {*words} if word.startswith(begun)), start
