"""Tests that want neither the program nor a server: cells, places, names, magics, words and colours."""
import os
import tempfile
from pathlib import Path
from types import SimpleNamespace

import grammar
import wanted as packages
from items import items_of, marked
from pygments.token import Comment, Keyword, Name
from relations import Relation, k2, shared
from relview_notebook import runs, words
from relview_notebook.cells import Cell, Definition, Refused, Script
from relview_notebook.files import check_saves, is_inside
from relview_notebook.lexer import RelviewLexer
from relview_notebook.magics import Display, plan_of
from relview_notebook.state import relations_of
from replies import replies_of

from .counted import expect, holds

PAGE = """\
1.2: 2 x 3
1.1
.1.
1.3: 2 x 3, pairs 1
2:3
1.4: 3
1.5: 3 x 2
1.6: 1 steps
1: --A -> A
1.7: 2 x 0


1.8: refused: 9:7: unknown name A
1.9: refused: no free node word
1.1 assign A 2 x 3
1.2 read
"""
WAYS = Relation(3, 3, [(1, 2), (2, 3)])


def definition(text, number=1):
    """A definition of an earlier cell."""
    item = items_of(text.encode())[0]
    return Definition(item.name, text.encode(), item.calls(), number)


def check_items():
    """Items of a script: their kinds, names, lines and what they show."""
    text = b'F(R) = G(R) | R.  # a full stop. in a comment\nREL A 2 2 {1:2}.\nLOAD B "a.b.k2". PRINT -(A^)^^.\nPRINT A*A. SNAP t. AT t PRINT A. PRINT "'
    found = items_of(text)
    kinds = ["DEFINITION", "REL", "LOAD", "PRINT", "PRINT", "SNAP", "AT"]
    expect("kinds of items", [item.kind for item in found], kinds)
    expect("names of items", [item.name for item in found], ["F", "A", "B", None, "A", "t", "t"])
    expect("lines of items", [item.line for item in found], [1, 2, 3, 3, 4, 4, 4])
    expect("calls of a definition", found[0].calls(), {"G"})
    expect("files of an item", found[2].files(), [("a.b.k2", (3, 8))])
    expect("what is shown", [item.shown() for item in found[3:]], [("A", True), None, None, ("A", False)])
    expect("the text of an item", text[found[1].start : found[1].end], b"REL A 2 2 {1:2}.")


def check_replies():
    """The replies of a page, and its events."""
    replies, events = replies_of(PAGE)
    expect("numbers of replies", [reply.item for reply in replies], [2, 3, 4, 5, 6, 7, 8, 9])
    relations = [
        reply.relation and (reply.relation.rows, reply.relation.columns, reply.relation.sorted()) for reply in replies
    ]
    first = [(2, 3, [(1, 1), (1, 3), (2, 2)]), (2, 3, [(2, 3)]), None, None, None, (2, 0, []), None, None]
    expect("relations of replies", relations, first)
    refusals = [reply.refusal for reply in replies[6:]]
    expect("refusals", refusals, [(9, 7, "unknown name A"), (None, None, "no free node word")])
    expect("lines of a reply", replies[4].text("3.4"), "3.4: 1 steps\n1: --A -> A")
    expect("events", events, [(1, 1, "assign A 2 x 3"), (1, 2, "read")])


def check_scripts():
    """The script of a cell: where it stands between both states, and the places of the cell."""
    cell = Cell("%show text\nREL A 2 2 {}.\n  PRINT B.\n\n")
    script = Script(cell, [definition("F(R) = R.")], 4)
    wanted = 'LOAD ALL "../before.k2".\nF(R) = R.\n\nREL A 2 2 {}.\n  PRINT B.\nSAVE ALL "../after.k2".\n'
    expect("the script of a cell", script.text.decode(), wanted)
    expect(
        "its items",
        [origin if not isinstance(origin, Definition) else "F" for origin in script.origins],
        [None, "F", 1, 2, None],
    )
    expect("a place of a cell", script.place(5, 9), (None, 3, 9))
    expect("a place behind a cell", script.place(6, 1), (None, 3, 11))
    found, line, column = script.place(2, 3)
    expect("a place of a definition", (found.name, line, column), ("F", 1, 3))
    expect("a mark", marked(b"A\n\tPRINT \xc3\xa9B.", 2, 10), ["    \tPRINT éB.", "    \t       ^"])
    expect("a mark nowhere", marked(b"A", 2, 1), [])


def check_definitions():
    """A later definition takes the place of an earlier one, and what calls that one stands behind it."""
    earlier = [
        definition("F(R) = R."),
        definition("G(R) = F(R)."),
        definition("H(R) = R^."),
        definition("K(R) = G(R) & H(R)."),
    ]
    script = Script(Cell("REL A 1 1 {}. F(R) = H(R). PRINT K(A)."), earlier, 2)
    body = script.text.decode().split("\n", 1)[1].rsplit("\n", 2)[0]
    wanted = "H(R) = R^.\nREL A 1 1 {}. F(R) = H(R). G(R) = F(R). K(R) = G(R) & H(R). PRINT K(A)."
    expect("a definition anew", body, wanted)
    expect("definitions after it", [kept.name for kept in script.definitions], ["H", "F", "G", "K"])
    at = wanted.split("\n")[1].index("PRINT")
    expect("a place behind inserted text", script.place(3, at + 1), (None, 1, 28))
    origins = [getattr(origin, "name", origin) for origin in script.origins]
    expect("items with inserted ones", origins, [None, "H", 1, 2, "G", "K", 3, None])
    round_about = Script(Cell("F(R) = G(R)."), earlier[:2], 2).text.decode()
    expect("no definition calls itself", round_about.index("F(R) = G(R).") < round_about.index("G(R) = F(R)."), True)


def plan(code, here, display=None):
    """The plan of a cell, or its refusal as text."""
    folder = SimpleNamespace(path=Path(here), files=Path(here) / "files")
    folder.files.mkdir(exist_ok=True)
    cell = Cell(code)
    try:
        return plan_of(cell, folder, here, display or Display(), {})
    except Refused as refused:
        return f"{refused.line}:{refused.column}: {refused}"


def check_magics():
    """Magics: what each sets, the item that it becomes, and what is said of a wrong one."""
    with tempfile.TemporaryDirectory() as here:
        for name, content in (
            ("ways.txt", b"Anna Bo\nBo Carl\n"),
            ("ways.mtx", b"%%MatrixMarket matrix coordinate pattern general\n2 2 1\n1 2\n"),
        ):
            (Path(here) / name).write_bytes(content)
        (Path(here) / "all.k2").write_bytes(shared([("A", WAYS)]))
        (Path(here) / "one.k2").write_bytes(k2(WAYS, None))
        (Path(here) / "who.names").write_text("Anna\nBo\nCarl\n")
        loads = "%load ways.txt Ways\n  %load ways.mtx\n%load all.k2\n%load all.k2 A\n%load one.k2 B\n%save out.txt Ways\n%save all2.k2"
        made = plan(loads, here)
        expect(
            "items of files",
            made.cell.body().decode().split("\n"),
            [
                'LOAD Ways "../load1.k2".',
                'LOAD ways "../load2.k2".',
                'LOAD ALL "../load3.k2".',
                'LOAD A "../load4.k2".',
                'LOAD B "../load5.k2".',
                'SAVE Ways "../save1.k2".',
                'SAVE ALL "../save2.k2".',
            ],
        )
        expect("edges as a file", (Path(here) / "load1.k2").read_bytes(), k2(WAYS, None))
        sides = made.display().sides(("Ways", False), WAYS)
        expect("names of edges", (sides.rows, sides.columns), (["Anna", "Bo", "Carl"],) * 2)
        expect("names of their size", made.display().sizes, {3: ["Anna", "Bo", "Carl"]})
        options = plan('%nodes 12\n%"workers" 2\n%turns 0', here).options
        expect("options", options, {"nodes": 12, "workers": 2, "turns": 0})
        made = plan('%names 3 who.names\n%names 2 x "y z"\n%show graph\nPRINT A.\n%show text', here)
        expect("names by size", made.display().sizes, {3: ["Anna", "Bo", "Carl"], 2: ["x", "y z"]})
        expect("shows by line", [made.at(line).show for line in (1, 4, 5)], ["both", "graph", "text"])
        for code, wanted in WRONG:
            expect(f"wrong: {code}", plan(code, here), wanted)


WRONG = [
    (
        "REL A 1 1 {}.\n %shwo text",
        "2:2: there is no %shwo; is it %show? There are %show, %names, %nodes, %workers, %turns, %load, %save, %history",
    ),
    ("%", "1:1: there is no %; there are %show, %names, %nodes, %workers, %turns, %load, %save, %history"),
    ("%show pie", "1:1: %show graph, matrix, text or both: how PRINT is shown from here on."),
    ("%nodes 25", "1:1: %nodes K gives each cell from here on a table of 2^K node words, 10 to 24."),
    ("%turns 1e6", "1:1: %turns T allows T turns of loops in a command, 0 to 1000000000."),
    ("%names 3 a b", "1:1: 3 names are wanted, and here are 2"),
    ("%names 2 a a", "1:1: a is named twice"),
    ("%names A no.names", "1:1: there is no file no.names"),
    ("%names REL who.names", "1:1: 'REL' is no name of a relation"),
    ("%load no.k2", "1:1: there is no file no.k2"),
    (
        "%load who.names A",
        "1:1: the name of who.names does not tell its form; write edges, matrix, market or k2 behind it",
    ),
    ("%load who.names A edges", "1:1: line 1 of the file: two words are wanted, not 1"),
    ("%load ways.txt 1a", "1:1: '1a' is no name of a relation"),
    ("%save out.txt", "1:1: the name of a relation is wanted behind the file's, as in %save ways.txt Ways"),
    ('%names 2 "a b', "1:1: No closing quotation"),
]


def check_files():
    """Where SAVE of a cell may write."""
    names = ["a.k2", "sub/a.k2", "..a.k2", "../a.k2", "a/../../b", "/tmp/a.k2"]
    expect("files inside", [is_inside(name) for name in names], [True, True, True, False, False, False])
    with tempfile.TemporaryDirectory() as here:
        made = plan('%save out.k2\nREL A 1 1 {}. SAVE A "in.k2".\nSAVE A "/tmp/out.k2".', here)
        try:
            check_saves(Script(made.cell, [], 1), made)
            place = None
        except Refused as refused:
            place = refused.line, refused.column
        expect("a SAVE outside", place, (3, 8))


def check_program():
    """Where there is no program yet, the kernel says so, and builds none."""
    kept, runs.TOP = runs.TOP, Path("/nowhere")
    named = os.environ.pop("RELVIEW", None)
    try:
        told = runs.program()
    except runs.Trouble as trouble:
        told = str(trouble)
    finally:
        runs.TOP = kept
        if named:
            os.environ["RELVIEW"] = named
    wanted = "The program is not built yet: call /nowhere/relview once in a terminal, which takes its time."
    expect("a program that is not built", told, wanted)


def check_packages():
    """What is missing is told with the line by which it comes."""
    kept, packages.is_there = packages.is_there, lambda module, program: program not in ("dot", "chromium")
    try:
        absent = packages.missing("notebook"), packages.missing("notebook", "check")
    finally:
        packages.is_there = kept
    expect("what is missing", absent, (["graphviz"], ["graphviz", "chromium"]))
    line = "notebook: no graphviz, chromium; apt-get install --no-install-recommends graphviz chromium"
    expect("how it comes", packages.sentence(absent[1]), line)


def check_names():
    """Which names a shown relation has."""
    display = Display()
    display.sizes = {2: ["x", "y"], 3: ["1", "2", "3"]}
    display.relations = {"A": ["a", "b", "c"], "V": ["u", "v"]}
    cases = [
        (("A", False), WAYS, (["a", "b", "c"], ["a", "b", "c"])),
        (("A", True), WAYS, (["a", "b", "c"], ["a", "b", "c"])),
        (("B", False), WAYS, (["1", "2", "3"], ["1", "2", "3"])),
        (("V", False), Relation(2, 3, []), (["u", "v"], ["1", "2", "3"])),
        (("V", True), Relation(3, 2, []), (["1", "2", "3"], ["u", "v"])),
        (("V", False), WAYS, (["1", "2", "3"], ["1", "2", "3"])),
        (None, Relation(2, 4, []), (["x", "y"], None)),
    ]
    for shown, relation, wanted in cases:
        sides = display.sides(shown, relation)
        expect(f"names of {shown}, {relation.rows} x {relation.columns}", (sides.rows, sides.columns), wanted)


def check_states():
    """What a state has, in the words of its file."""
    relations = [("A", WAYS), ("B", Relation(0, 7, [])), ("C", Relation(20, 9, [(20, 9), (1, 1), (2, 2)]))]
    wanted = {name: (relation.rows, relation.columns, len(relation.pairs)) for name, relation in relations}
    expect("the relations of a state", relations_of(shared(relations)), wanted)
    expect("an empty state", relations_of(shared([])), {})


def check_words():
    """Tab and Shift-Tab."""
    session = SimpleNamespace(definitions=[definition("PATHS(R) = trans(R).")], relations=lambda: {"Ways": (3, 3, 2)})
    for code, wanted in (
        ("PR", ["PRINT", "PROD"]),
        ("PRINT tra", ["trans"]),
        ("PRINT Wa", ["Ways"]),
        ("COUNT PAT", ["PATHS"]),
        ("x = p-", ["p-1", "p-2"]),
        ("%sh", ["show"]),
        ("%show ", ["both", "graph", "matrix", "text"]),
        ("%names W", ["Ways"]),
    ):
        expect(f"completion of {code}", words.completed(code, len(code), session)[0], wanted)
    expect("where a word begins", words.completed("PRINT tra", 9, session)[1], 6)
    for code, at, wanted in (
        ("PRINT trans(A).", 11, "trans(R)\n  is: the transitive closure: walks of one step or more\n  needs: m = n"),
        ("PRINT Ways.", 8, "Ways: 3 x 3, pairs 2"),
        ("PRINT PATHS(", 12, "PATHS(R) = trans(R)."),
        ("x = p-2(D)", 7, "p-2(D)\n  name: second projection"),
        ("A \\ B", 3, "R \\ S\n  name: right residual"),
        ("%turns 5", 3, "%turns T allows"),
        ("SNAP t", 2, "SNAP t\n  what it does: keeps"),
    ):
        holds(
            f"meaning at {at} of {code}",
            (words.inspected(code, at, session) or "").startswith(wanted),
            words.inspected(code, at, session),
        )
    expect("no meaning", words.inspected("PRINT Nothing.", 8, session), None)
    every = grammar.BASE1 | grammar.BASE2 | set(words.DOMOPS)
    expect("base names without a formula", [word for word in every if word not in words.meanings()], [])


def check_colours():
    """The lexer."""
    kinds = {text: kind for kind, text in RelviewLexer().get_tokens("%show text\nLET A = F(trans(B)). # so\n")}
    wanted = {
        "%show text": Comment.Preproc,
        "LET": Keyword,
        "A": Name,
        "F": Name.Function,
        "trans": Name.Builtin,
        "# so": Comment.Single,
    }
    expect("colours", {text: kinds.get(text) for text in wanted}, wanted)


def check():
    """All tests of this file."""
    for test in (
        check_items,
        check_replies,
        check_scripts,
        check_definitions,
        check_magics,
        check_files,
        check_names,
        check_packages,
        check_program,
        check_states,
        check_words,
        check_colours,
    ):
        test()
