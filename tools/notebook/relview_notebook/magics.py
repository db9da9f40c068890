"""Magics: the lines of a cell that begin with a percent sign.

Each magic is a function of the cell's plan, the magic and its words. It sets how replies below it are shown, an
option of the run, or puts an item of the script in its own place; what it finds wrong it raises.
"""
import difflib
import shlex
from argparse import Namespace
from pathlib import Path

import bridge
from drawings import SHOWS, Sides
from relations import SIZE_LIMIT, Bad, Names, is_shared, k2

from .cells import Refused

FILE_LIMIT = 8388638
OPTIONS = {"nodes": (10, 24), "workers": (1, 64), "turns": (0, 1000000000)}
FORMS = {
    ".mtx": "market",
    ".txt": "edges",
    ".edges": "edges",
    ".csv": "edges",
    ".tsv": "edges",
    ".01": "matrix",
    ".k2": "k2",
}
HELP = {
    "show": "%show graph, matrix, text or both: how PRINT is shown from here on.",
    "names": "%names 5 FILE or %names 5 a b c d e names the elements of size 5; %names A FILE those of the rows of A.",
    "nodes": "%nodes K gives each cell from here on a table of 2^K node words, 10 to 24.",
    "workers": "%workers N lets N threads share large operators, 1 to 64.",
    "turns": "%turns T allows T turns of loops in a command, 0 to 1000000000.",
    "load": "%load FILE [NAME] [edges|matrix|market|k2] gives names the relations of a file.",
    "save": "%save FILE [NAME] [edges|matrix|market|k2] writes a relation into a file, or all of them.",
    "history": "%history tells which names were read and assigned, cell by cell.",
}


class Display:
    """How replies are shown: the picture, and the names of elements by size and by relation."""

    def __init__(self):
        self.show, self.sizes, self.relations = "both", {}, {}

    def copy(self):
        """The same, to be changed."""
        other = Display()
        other.show, other.sizes, other.relations = self.show, dict(self.sizes), dict(self.relations)
        return other

    def sides(self, shown, relation):
        """The names of a shown relation; `shown` is the name behind it and whether it is turned, where there is one."""
        sides = Sides(self.sizes.get(relation.rows), self.sizes.get(relation.columns))
        names = self.relations.get(shown[0]) if shown else None
        square = relation.rows == relation.columns
        if names and len(names) == (relation.columns if shown[1] else relation.rows):
            if square or not shown[1]:
                sides.rows = names
            if square or shown[1]:
                sides.columns = names
        return sides


class Plan:
    """What the magics of a cell want: displays from lines on, options, files to be saved, notes, and the history."""

    def __init__(self, cell, folder, here, display, options):
        self.cell, self.folder, self.here = cell, folder, Path(here)
        self.displays, self.options = [(0, display)], dict(options)
        self.saves, self.loads, self.notes, self.history = [], {}, [], False

    def display(self):
        """The display, which is changed from here on."""
        return self.displays[-1][1]

    def change(self, line):
        """A copy of the display that holds from a line on."""
        self.displays.append((line, self.display().copy()))
        return self.display()

    def at(self, line):
        """The display of a line."""
        return [display for start, display in self.displays if start <= line][-1]


def plan_of(cell, folder, here, display, options):
    """The plan of a cell, from its magics in their order."""
    plan = Plan(cell, folder, here, display, options)
    for magic in cell.magics:
        try:
            do(plan, magic)
        except Bad as bad:
            where = "" if bad.line is None else f"line {bad.line} of the file: "
            raise Refused(f"{where}{bad}", magic.line, magic.column) from None
        except OSError as error:
            raise Refused(f"{error.filename}: {error.strerror}", magic.line, magic.column) from None
        except ValueError as error:
            raise Refused(str(error), magic.line, magic.column) from None
    return plan


def do(plan, magic):
    """Does a magic."""
    words = shlex.split(magic.text)
    name = words[0] if words else ""
    if name not in HELP:
        near = difflib.get_close_matches(name, HELP, 1)
        hint = f"; is it %{near[0]}? There" if near else "; there"
        raise Bad(f"there is no %{name}{hint} are {', '.join('%' + known for known in HELP)}")
    {"show": show, "names": names, "load": load, "save": save, "history": history}.get(name, option)(
        plan, magic, words[1:]
    )


def usage(name):
    """Ends a magic whose words are wrong."""
    raise Bad(HELP[name])


def show(plan, magic, words):
    """%show: how PRINT is shown."""
    if len(words) != 1 or words[0] not in SHOWS:
        usage("show")
    plan.change(magic.line).show = words[0]


def option(plan, magic, words):
    """%nodes, %workers and %turns: an option of the runs."""
    name = shlex.split(magic.text)[0]
    least, most = OPTIONS[name]
    if not words:
        plan.notes.append((magic.line, f"%{name} is {plan.options.get(name, 'as the program has it')}"))
    elif len(words) != 1 or not words[0].isdecimal() or not words[0].isascii() or not least <= int(words[0]) <= most:
        usage(name)
    else:
        plan.options[name] = int(words[0])


def history(plan, _magic, words):
    """%history: the events of all cells."""
    if words:
        usage("history")
    plan.history = True


# ---- names


def names(plan, magic, words):
    """%names: the names of elements; without words those that are known, without names none any more."""
    if not words:
        plan.notes.append((magic.line, known_names(plan.display())))
        return
    known = plan.change(magic.line)
    whose, *listed = words
    if whose.isdecimal():
        size = int(whose)
        if listed:
            known.sizes[size] = counted(listed_names(plan, listed), size)
        else:
            known.sizes.pop(size, None)
    elif len(listed) > 1:
        usage("names")
    elif listed:
        known.relations[named(whose)] = Names(existing(plan, listed[0])).names
    else:
        known.relations.pop(whose, None)


def listed_names(plan, listed):
    """The names that stand in the words, or in the file that the one word names."""
    if len(listed) == 1 and (plan.here / listed[0]).is_file():
        return Names(plan.here / listed[0]).names
    twice = [name for at, name in enumerate(listed) if name in listed[:at]]
    if twice:
        raise Bad(f"{twice[0]} is named twice")
    return listed


def counted(listed, size):
    """Names of a size."""
    if len(listed) != size:
        raise Bad(f"{size} names are wanted, and here {'is' if len(listed) == 1 else 'are'} {len(listed)}")
    return listed


def known_names(display):
    """The names that are known, as text."""
    known = {**{f"size {size}": listed for size, listed in sorted(display.sizes.items())}, **display.relations}
    return "\n".join(f"{whose}: {', '.join(listed)}" for whose, listed in known.items()) or "No names are known."


def existing(plan, name):
    """The path of a file that is there."""
    path = plan.here / name
    if not path.is_file():
        raise Bad(f"there is no file {name}")
    return path


# ---- files


def file_words(name, words):
    """The file, the name of a relation or None, and the form of %load or %save."""
    if not words or len(words) > 3:
        usage(name)
    path, *rest = words
    forms = [word for word in rest if word in FORMS.values()]
    other = [word for word in rest if word not in FORMS.values()]
    if len(forms) > 1 or len(other) > 1:
        usage(name)
    form = forms[0] if forms else FORMS.get(Path(path).suffix)
    if form is None:
        raise Bad(f"the name of {path} does not tell its form; write edges, matrix, market or k2 behind it")
    return path, other[0] if other else None, form


def named(name):
    """A name that a script may write."""
    if name in bridge.KEYWORDS:
        raise Bad(f"{name!r} is no name of a relation")
    return bridge.word_of(name)


def load(plan, magic, words):
    """%load: a file becomes a relation file of the private folder, and the line the LOAD of it."""
    path, name, form = file_words("load", words)
    content = existing(plan, path).read_bytes()
    if form == "k2":
        if len(content) > FILE_LIMIT:
            raise Bad(f"{path} has more than {FILE_LIMIT} bytes")
        whole = is_shared(content) and name is None
        target = "ALL" if whole else named(name or Path(path).stem)
    else:
        target = named(name or Path(path).stem)
        content = read_text(plan, magic, content, form, target)
    inner = f"../load{len(plan.loads) + 1}.k2"
    (plan.folder.files / inner).write_bytes(content)
    plan.loads[inner] = path
    plan.cell.put(magic, f'LOAD {target} "{inner}".')


def read_text(plan, magic, content, form, target):
    """The relation file of an edge list, a matrix or a Matrix Market file; words of edges become names of elements."""
    options = Namespace(rows=None, columns=None, size=None, reply=None, name=target)
    if form == "edges" and has_words(content):
        options.rows = options.columns = Names(plan.folder.path / "no file")
    relation = bridge.READERS[form](content, options)
    if max(relation.rows, relation.columns) > SIZE_LIMIT:
        raise Bad(f"{relation.rows} x {relation.columns} passes the limit {SIZE_LIMIT}")
    if options.rows:
        known, names_of_edges = plan.change(magic.line), options.rows.names
        known.relations[target] = names_of_edges
        known.sizes.setdefault(len(names_of_edges), names_of_edges)
    return k2(relation, None)


def has_words(content):
    """Whether an edge list has ends that are no numbers."""
    lines = content.decode(errors="replace").split("\n")
    kept = [line for line in lines if line.strip() and line.lstrip()[0] not in "#%"]
    return any(not field.isdecimal() for line in kept for field in bridge.fields_of(line))


def save(plan, magic, words):
    """%save: the line becomes a SAVE into the private folder, and the file is made of that after the run."""
    path, name, form = file_words("save", words)
    if name is None and form != "k2":
        raise Bad("the name of a relation is wanted behind the file's, as in %save ways.txt Ways")
    inner = f"../save{len(plan.saves) + 1}.k2"
    plan.cell.put(magic, f'SAVE {named(name) if name else "ALL"} "{inner}".')
    plan.saves.append((magic, plan.here / path, name, form, plan.folder.files / inner))
