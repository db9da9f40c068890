"""Cells with the program, without a server: what goes on from cell to cell, files, and all that can go wrong."""
import os
import tempfile
from contextlib import contextmanager
from pathlib import Path

from relations import Relation, k2, read_shared, shared
from relview_notebook.session import Session

from .counted import Noted, expect, holds

WAYS = Relation(3, 3, [(1, 2), (2, 3)])
STAYS = "The state of the cell before stays."
# A program that answers whatever it is asked; the page and the end stand in place of {}.
FAKE = "#!/bin/sh\ncp ../before.k2 ../after.k2\n{}\n"


class Cells:
    """Cells of one notebook, one after another, in a folder of its own."""

    def __init__(self, here):
        self.here, self.session, self.number, self.out = Path(here), Session(here), 0, None

    def run(self, code, stop=None):
        """What a cell shows; `stop` is called when it has run for a second."""
        self.number, self.out = self.number + 1, Noted(stop)
        self.error = self.session.execute(code, self.number, self.out)
        return self.out.shown

    def names(self):
        """The names of the workspace."""
        return list(self.session.relations())

    def file(self, name):
        """The bytes of a file of the notebook's folder."""
        return (self.here / name).read_bytes()


@contextmanager
def cells():
    """Cells in a fresh folder, which is gone afterwards, as the private one is."""
    with tempfile.TemporaryDirectory() as here:
        made = Cells(here)
        try:
            yield made
        finally:
            made.session.end()
        expect("the private folder is removed", made.session.folder.path.exists(), False)


def check_going_on():
    """The workspace and the definitions go on from cell to cell; what is refused changes nothing."""
    with cells() as notebook:
        expect("a cell that shows nothing", notebook.run("REL A 3 3 {1:2; 2:3}.\nF(R) = R.\nG(R) = F(R) | R."), [])
        expect("a name of the cell before", notebook.run("LET B = trans(A).\nPRINT B."), ["2.2: 3 x 3\n.11\n..1\n..."])
        wanted = ["3.0: refused: 2:11: expected an expression\n    LET A = B|.\n              ^"]
        expect("a refused text", notebook.run("DROP A.\nLET A = B|."), wanted)
        expect("a refused text is an error", notebook.error, ("refused", "2:11: expected an expression"))
        expect("names after a refused text", notebook.names(), ["A", "B"])
        expect(
            "an item without its end",
            notebook.run("COUNT A"),
            ["4.0: refused: 1:8: expected .\n    COUNT A\n           ^"],
        )
        wanted = ["5.2: refused: 2:9: unknown name Nobody\n    LET D = Nobody.\n            ^", "5.4: 2"]
        expect("a refused command", notebook.run("LET C = A.\nLET D = Nobody.\nLET E = A.\nCOUNT E."), wanted)
        expect("names after a refused command", notebook.names(), ["A", "B", "C", "E"])
        expect("an earlier definition", notebook.run("PRINT G(A)."), ["6.1: 3 x 3\n.1.\n..1\n..."])
        expect("its function made anew", notebook.run("F(R) = R^. PRINT G(A)."), ["7.2: 3 x 3\n.1.\n1.1\n.1."])
        expect("and it stays", notebook.run("PRINT G(A)."), ["8.1: 3 x 3\n.1.\n1.1\n.1."])
        told = "9.0: refused: 1:8 of the definition of G in cell 1: F takes 2 arguments, not 1\n"
        told += "    G(R) = F(R) | R.\n           ^"
        expect("a definition that does not fit any more", notebook.run("F(R,S) = R | S."), [told])
        expect(
            "nothing calls itself",
            notebook.run("F(R) = G(R)."),
            ["10.0: refused: 1:8: unknown name G\n    F(R) = G(R).\n           ^"],
        )
        told = notebook.run("F(R) = R. F(R) = R^.")
        expect(
            "a name twice in a cell",
            told,
            ["11.0: refused: 1:11: F is defined twice\n    F(R) = R. F(R) = R^.\n              ^"],
        )


def check_snapshots():
    """Snapshots end with their cell, and the cell says so."""
    with cells() as notebook:
        shown = notebook.run("REL A 1 2 {1:1}.\nSNAP old.\nLET A = -A.\nAT old PRINT A.")
        expect("a snapshot", shown, ["1.4: 1 x 2\n1.", "The snapshot old ends with this cell."])
        expect(
            "a cell later",
            notebook.run("AT old PRINT A."),
            ["2.1: refused: 1:4: unknown name old\n    AT old PRINT A.\n       ^"],
        )


def check_shown():
    """Magics hold from their line on; names are in matrices and lists; the history has the cell's numbers."""
    with cells() as notebook:
        code = (
            "%names 3 Anna Bo Carl\nREL A 3 3 {1:2; 2:3}.\nPRINT A.\n%show text\nPRINT A.\nLIST A.\nCOUNT A.\nTYPE A."
        )
        shown = notebook.run(code)
        wanted = [
            "1.2: 3 x 3\n.1.\n..1\n...",
            "1.3: 3 x 3\n.1.\n..1\n...",
            "1.4: 3 x 3, pairs 2\nAnna:Bo\nBo:Carl",
            "1.5: 2",
            "1.6: 3 x 3",
        ]
        expect("replies with names", shown, wanted)
        pictures = [picture.count("<svg") if picture else 0 for picture in notebook.out.pictures]
        expect("a picture by line", pictures, [2, 0])
        wanted = ["1.1 assign A 3 x 3\n1.2 read\n1.3 read\n1.4 read\n1.5 read\n1.6 read\n2.1 read\n2.1 assign B 3 x 3"]
        expect("the history", notebook.run("LET B = A.\n%history"), wanted)
        wanted = [
            "3.0: refused: 1:1: there is no %histroy; is it %history? There are %show, %names, %nodes, %workers, %turns, "
            "%load, %save, %history\n    %histroy\n    ^"
        ]
        expect("a misspelt magic", notebook.run("%histroy\nDROP A."), wanted)
        expect("it changes nothing", notebook.names(), ["A", "B"])
        expect(
            "turns",
            notebook.run("%turns 0\nON(R) DECL a BEG a = R; WHILE empty(O(R)) DO a = R OD RETURN a END.\nPRINT ON(A).")[
                0
            ].split("\n")[0],
            "4.2: refused: 2:25: more than 0 turns",
        )


MARKET = b"%%MatrixMarket matrix coordinate pattern general\n3 3 2\n1 2\n2 3\n"
FILES = {
    "one.k2": k2(WAYS, None),
    "all.k2": shared([("P", WAYS), ("Q", WAYS)]),
    "bad.k2": b"RVK1",
    "ways.txt": b"Anna Bo\nBo Carl\n",
    "ways.mtx": MARKET,
    "ways.01": b"010\n001\n000\n",
}
LOADS = "%load one.k2\n%load all.k2\n%load ways.txt Edges\n%load ways.mtx Market\n%load ways.01 Matrix\nLIST Edges."
SAVES = "%save out.k2\n%save p.k2 one\n%save e.txt Edges\n%save m.01 one\n%save m.mtx one"
SAVED = {"p.k2": k2(WAYS, None), "e.txt": FILES["ways.txt"], "m.01": FILES["ways.01"], "m.mtx": MARKET}


def check_files():
    """Files of the notebook's folder and of the private one; nothing else is written."""
    with cells() as notebook:
        for name, content in FILES.items():
            (notebook.here / name).write_bytes(content)
        check_loads(notebook)
        check_saves(notebook)
        check_inner(notebook)
        there = {path.name for path in notebook.here.iterdir()}
        expect("nothing else in the notebook's folder", there, {"out.k2", *SAVED, *FILES})


def check_loads(notebook):
    """Relation files of both versions, edges, a matrix and Matrix Market come in, and a bad file is told."""
    expect("files of five forms", notebook.run(LOADS), ["1.6: 3 x 3, pairs 2\nAnna:Bo\nBo:Carl"])
    relations = notebook.session.relations()
    expect("their names", list(relations), ["Edges", "Market", "Matrix", "P", "Q", "one"])
    expect("their types and pairs", set(relations.values()), {(3, 3, 2)})
    shown = notebook.run("LIST one & P & Q & Edges & Market & Matrix.")
    expect("their lists", shown, ["2.1: 3 x 3, pairs 2\nAnna:Bo\nBo:Carl"])
    wanted = ['3.2: refused: file "bad.k2" is bad: short\n    %load bad.k2\n    ^', "3.3: 2"]
    expect("a bad file", notebook.run("DROP P.\n%load bad.k2\nCOUNT one."), wanted)


def check_saves(notebook):
    """They go out in all forms; a file that has no place is told."""
    expect("files out", notebook.run(SAVES), [])
    names = [name for name, _ in read_shared(notebook.file("out.k2"))]
    expect("all relations out", names, ["Edges", "Market", "Matrix", "Q", "one"])
    for name, content in SAVED.items():
        expect(f"{name} out", notebook.file(name), content)
    lines = notebook.run("%save nowhere/a.k2 one")[0].split("\n")
    expect("no place for a file", lines[1:], ["    %save nowhere/a.k2 one", "    ^"])


def check_inner(notebook):
    """SAVE and LOAD of cells: in the private folder, and from the notebook's folder without a copy that stays."""
    expect("a SAVE of a cell", notebook.run('SAVE one "inner.k2". SAVE ALL "sets.k2".'), [])
    shown = notebook.run('LOAD In "inner.k2". LOAD Q "sets.k2". LOAD Out "one.k2". COUNT In | Q | Out.')
    expect("and the LOAD of a later one", shown, ["7.4: 2"])
    inner = sorted(path.name for path in notebook.session.folder.files.iterdir())
    expect("no copies stay", inner, ["inner.k2", "sets.k2"])
    wanted = ['8.1: refused: no file "absent.k2"\n    LOAD A "absent.k2".\n    ^']
    expect("no file", notebook.run('LOAD A "absent.k2".'), wanted)
    told = notebook.run('SAVE one "../x.k2".')[0].split(";")[0]
    wanted = "9.0: refused: 1:10: SAVE of a cell writes into the private folder of the kernel alone"
    expect("a SAVE outside", told, wanted)


def check_interrupt():
    """An interrupt ends the process of the cell, and the state before stays."""
    with cells() as notebook:
        notebook.run("REL A 2 2 {1:2}.\nON(R) DECL a BEG a = R; WHILE empty(O(R)) DO a = -a OD RETURN a END.")
        code = "%turns 1000000000\nCOUNT ON(A | A^).\nDROP A."
        shown = notebook.run(code, lambda: setattr(notebook.session, "stopped", True))
        expect("an interrupted cell", shown, [f"The cell was interrupted. {STAYS}"])
        holds("its seconds", notebook.out.ticks and notebook.out.ticks[-1] > 1, notebook.out.ticks[-3:])
        expect("names after an interrupt", notebook.names(), ["A"])
        expect("the next cell", notebook.run("COUNT A."), ["3.1: 1"])


def check_room():
    """A state that does not fit into the table, and one that is too long for a file."""
    with cells() as notebook:
        lot = [(row, column) for row in range(1, 401) for column in range(1 + row * row % 7, 401, 3 + row % 5)]
        (notebook.here / "lot.k2").write_bytes(k2(Relation(400, 400, lot), None))
        expect("a large relation", notebook.run("%load lot.k2\nCOUNT lot."), [f"1.2: {len(lot)}"])
        wanted = [
            f"The state of the cell before cannot be read: no free node word. %nodes gives a larger table. {STAYS}"
        ]
        expect("a small table", notebook.run("%nodes 10\nDROP lot."), wanted)
        expect("the state is there", notebook.run("COUNT lot."), [f"3.1: {len(lot)}"])


@contextmanager
def fake(notebook, text):
    """Another program in place of relview."""
    path = notebook.here / "fake"
    path.write_text(text)
    path.chmod(0o755)
    kept = os.environ.get("RELVIEW")
    os.environ["RELVIEW"] = str(path)
    try:
        yield path
    finally:
        os.environ.pop("RELVIEW")
        if kept:
            os.environ["RELVIEW"] = kept


ENDS = [
    ("a run that dies", "kill -9 $$", [f"The program died (status -9). {STAYS}"]),
    ("a run that dies with a word", "echo broken >&2; exit 70", [f"The program died (status 70). broken {STAYS}"]),
    (
        "a full disk",
        "echo '1.2: 5'; exit 4",
        [
            "4.1: 5",
            f"The page or a file could not be written; is a disk full, or a folder missing that SAVE names? {STAYS}",
        ],
    ),
    ("no memory", "rm ../after.k2; exit 5", [f"Memory ran out. {STAYS}"]),
    ("wrong words", "echo usage; exit 2", [f"The words of the run were wrong: usage {STAYS}"]),
    (
        "a file that cannot be read",
        "echo 'relview: x is too long'; exit 3",
        [f"A file of the run could not be read, or is too long: relview: x is too long {STAYS}"],
    ),
    (
        "a state over the limit",
        "echo '1.3: refused: 67108872 bits pass the limit 67108864'; rm ../after.k2; exit 1",
        [
            f"The state after the cell cannot be kept: 67108872 bits pass the limit 67108864. DROP what need not be kept. {STAYS}"
        ],
    ),
    (
        "no state after",
        "rm ../after.k2",
        [f"The state after the cell was not written: No such file or directory. {STAYS}"],
    ),
]


def check_ends():
    """A run that dies, a full disk, a missing program: each is told in a sentence, and the state before stays."""
    with cells() as notebook:
        notebook.run("REL A 2 2 {1:2}.")
        before = notebook.session.folder.before.read_bytes()
        for what, text, wanted in ENDS:
            notebook.number = 3
            with fake(notebook, FAKE.format(text)):
                expect(what, notebook.run("COUNT A."), wanted)
            expect(f"{what}: the state", notebook.session.folder.before.read_bytes(), before)
        with fake(notebook, FAKE.format('echo "$@" > words; rm ../after.k2')) as path:
            notebook.run('%nodes 12\n%workers 2\nLOAD A "absent.k2".')
            path.unlink()
            expect(
                "a missing program",
                notebook.run("COUNT A."),
                [f"The program is missing: {path} cannot be run. {STAYS}"],
            )
        words = (notebook.session.folder.files / "words").read_text()
        expect("words of a run", words, "--history --nodes 12 --workers 2 -- ../cell.rv ../before.k2\n")
        script = notebook.session.folder.script
        notebook.session.folder.script = Path("/dev/full")
        full = f"The private folder {notebook.session.folder.path} could not be used: No space left on device. {STAYS}"
        expect("a disk that is full before", notebook.run("COUNT A."), [full])
        notebook.session.folder.script = script
        notebook.number = 20
        expect("the state after all of that", notebook.run("LIST A."), ["21.1: 2 x 2, pairs 1\n1:2"])


def check():
    """All tests of this file."""
    for test in (check_going_on, check_snapshots, check_shown, check_files, check_interrupt, check_room, check_ends):
        test()
