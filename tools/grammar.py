"""The tokens of scripts and the grammar, for the slow reader of scripts (scripts.py), written from docs/language.md.

A text is read token by token, beside a list of the grammar parts that are still to come; what does not fit that list is the
fault.
"""
SPACE = b"\t\n\r "
LETTERS = frozenset(b"ABCDEFGHIJKLMNOPQRSTUVWXYZabcdefghijklmnopqrstuvwxyz")
DIGITS = frozenset(b"0123456789")
IN_WORDS = LETTERS | DIGITS | frozenset(b"_")
SIGNS = frozenset(b"()[]{},;:.=^-*\\/&|")
KEYWORDS = frozenset(
    "REL LET PRINT LIST COUNT TYPE DROP SNAP AT LOAD SAVE DECL PROD SUM BEG END RETURN WHILE DO OD IF THEN ELSE FI "
    "ATOMIC COMMIT EXPLAIN ALL".split()
)
BASE1 = frozenset(
    "L O I Ln1 On1 L1n O1n dom ran trans refl epsi point atom init next inj empty unival less hasse quot".split()
)
BASE2 = frozenset("syq eq incl ubd lbd least greatest sup inf".split())
DOMOPS = frozenset((b"p-1", b"p-2", b"i-1", b"i-2"))
DEEPEST = 40
MOST = 16


class Fault(Exception):
    """A fault: its line and column from 1, and its words."""

    def __init__(self, place, words):
        super().__init__(place, words)
        self.place, self.words = place, words

    def __str__(self):
        return f"{self.place[0]}:{self.place[1]}: {self.words}"


# ---- tokens: (kind, text, place); the kind of a keyword or a sign is its spelling

def is_allowed(byte):
    """Whether a byte may stand in a script."""
    return 32 <= byte <= 126 or byte in SPACE


def file_text(text, at, place):
    """The end of the file text that begins at a quote."""
    end = at + 1
    while end < len(text) and 32 <= text[end] <= 126 and text[end] != 34:
        end += 1
        if end - at - 1 > 255:
            raise Fault(place(at), "name too long")
    if end == len(text) or text[end] != 34:
        if end < len(text) and not is_allowed(text[end]):
            raise Fault(place(end), f"byte {text[end]} is not allowed")
        raise Fault(place(end), 'expected "')
    if end == at + 1:
        raise Fault(place(at), "expected a file text")
    return end + 1


def kind_of(word):
    """The kind of a word."""
    if word in KEYWORDS:
        return word
    return "BASE1" if word in BASE1 else "BASE2" if word in BASE2 else "NAME"


def tokens(text):
    """The tokens of a text one after another, then the end; a fault where there is no token."""
    lines, at = [0] + [k + 1 for k, byte in enumerate(text) if byte == 10], 0
    line = 0

    def place(where):
        nonlocal line
        while line + 1 < len(lines) and lines[line + 1] <= where:
            line += 1
        return line + 1, where - lines[line] + 1

    while at < len(text):
        byte, start = text[at], at
        if byte in SPACE:
            at += 1
        elif byte == 35:
            while at < len(text) and text[at] != 10:
                if not is_allowed(text[at]):
                    raise Fault(place(at), f"byte {text[at]} is not allowed")
                at += 1
        elif byte == 34:
            at = file_text(text, at, place)
            yield "FILE", text[start + 1 : at - 1].decode(), place(start)
        elif byte in DIGITS:
            while at < len(text) and text[at] in DIGITS:
                at += 1
            if int(text[start:at]) >= 2**64:
                raise Fault(place(start), "number over 64 bits")
            yield "NUMBER", text[start:at].decode(), place(start)
        elif text[at : at + 3] in DOMOPS and (at + 3 == len(text) or text[at + 3] not in IN_WORDS):
            at += 3
            yield "DOMOP", text[start:at].decode(), place(start)
        elif byte in LETTERS:
            while at < len(text) and text[at] in IN_WORDS:
                at += 1
            if at - start > 64:
                raise Fault(place(start), "name too long")
            word = text[start:at].decode()
            yield kind_of(word), word, place(start)
        elif byte in SIGNS:
            at += 1
            yield chr(byte), chr(byte), place(start)
        else:
            raise Fault(place(at), f"byte {byte} is not allowed")
    yield "END_OF_TEXT", "", place(len(text))


# ---- the grammar
# A part is a word of the grammar. `[..]` and `{..}` are lists of parts behind "opt" and "rep"; "alt" has choices; "few" is
# a repeated part that is entered so many times at most; an opener is a token that begins a construct, and `CLOSED` stands
# where a construct ends.

def opener(kind):
    """A token that opens a construct."""
    return "open", kind


CLOSED = ("closed",)


def group(*parts):
    """Parts in the parentheses of an expression or of a call."""
    return [opener("("), *parts, ")", CLOSED]


def more(*parts, most=None):
    """Parts that are repeated, at most so many times."""
    return ("few", most, list(parts)) if most is not None else ("rep", list(parts))


GRAMMAR = {
    "script": [more("item", ".")],
    "item": [("alt", [["def"], ["command"]])],
    "def": ["NAME", "(", "NAME", more(",", "NAME", most=MOST - 1), ")", ("alt", [["=", "expr"], ["program"]])],
    "program": [("opt", ["DECL", "decl", more(",", "decl")]), "BEG", "stmts", "RETURN", "expr", "END"],
    "decl": ["NAME", ("opt", ["=", ("alt", [["PROD"], ["SUM"]]), "(", "NAME", ",", "NAME", ")"])],
    "stmts": [("opt", ["stmt", ("opt", [";", "stmts"])])],
    "stmt": [("alt", [
        ["NAME", "=", "expr"],
        [opener("WHILE"), "expr", "DO", "stmts", "OD", CLOSED],
        [opener("IF"), "expr", "THEN", "stmts", ("opt", ["ELSE", "stmts"]), "FI", CLOSED],
    ])],
    "command": [("alt", [
        ["REL", "NAME", "NUMBER", "NUMBER", "{", ("opt", ["row", more(";", "row")]), "}"],
        ["LET", "NAME", "=", "expr"],
        *([word, "expr"] for word in ("PRINT", "LIST", "COUNT", "TYPE", "EXPLAIN")),
        ["DROP", "NAME"], ["SNAP", "NAME"], ["AT", "NAME", "PRINT", "expr"],
        ["LOAD", ("alt", [["NAME"], ["ALL"]]), "FILE"], ["SAVE", ("alt", [["expr"], ["ALL"]]), "FILE"],
        ["ATOMIC", "lets", "COMMIT"],
    ])],
    "lets": ["LET", "NAME", "=", "expr", ("opt", [";", ("opt", ["lets"])])],
    "row": ["POSITIVE", ":", "POSITIVE", more(",", "POSITIVE")],
    "expr": ["meet", more("|", "meet")],
    "meet": ["prod", more("&", "prod")],
    "prod": ["unary", more(("alt", [["*"], ["\\"], ["/"]]), "unary")],
    "unary": [("alt", [[opener("-"), "unary", CLOSED], ["post"]])],
    "post": ["prim", more("^")],
    "prim": [("alt", [
        ["NAME", ("opt", group("expr", more(",", "expr", most=MOST - 1)))],
        ["BASE1", *group("expr")],
        ["BASE2", *group("expr", ",", "expr")],
        ["DOMOP", *group("NAME")],
        [opener("["), "expr", ",", "expr", "]", CLOSED],
        group("expr"),
    ])],
}
OPERANDS = frozenset(("expr", "meet", "prod", "unary", "post", "prim"))
WORDS = {"NAME": "a name", "NUMBER": "a number", "POSITIVE": "a number", "FILE": "a file text"}


def firsts(parts):
    """The tokens that can begin these parts."""
    found = set()
    for part in parts:
        if isinstance(part, str) and part in GRAMMAR:
            found |= firsts(GRAMMAR[part])
            if part not in ("script", "stmts"):
                return found
        elif isinstance(part, str):
            return found | {"NUMBER" if part == "POSITIVE" else part}
        elif part[0] == "open":
            return found | {part[1]}
        elif part[0] == "alt":
            return found.union(*(firsts(choice) for choice in part[1]))
        elif part[0] != "closed":
            found |= firsts(part[-1])
    return found


CACHE = {}


def begins(parts, kind):
    """Whether a token of this kind can begin these parts."""
    if id(parts) not in CACHE:
        CACHE[id(parts)] = parts, frozenset(firsts(parts))
    return kind in CACHE[id(parts)][1]


def needed(rest):
    """What is needed next, where all that may be left out is left out."""
    stack = list(rest)
    while stack:
        part = stack.pop()
        if isinstance(part, str):
            if part in OPERANDS:
                return "an expression"
            if part in GRAMMAR:
                stack.extend(reversed(GRAMMAR[part]))
            else:
                return WORDS.get(part, part)
        elif part[0] == "open":
            return part[1]
        elif part[0] == "alt":
            stack.extend(reversed(part[1][0]))
    return "an item"


class Rest:
    """The parts that are still to come, the next one last, and how many constructs are open."""

    def __init__(self):
        self.parts, self.depth = ["script"], 0

    def take(self, token):
        """Takes a token off, or raises the fault."""
        kind, text, place = token
        before = list(self.parts)
        while self.parts:
            part = self.parts.pop()
            if isinstance(part, str) and part in GRAMMAR:
                self.parts.extend(reversed(GRAMMAR[part]))
            elif isinstance(part, str):
                if part == "POSITIVE" and kind == "NUMBER":
                    if int(text) == 0:
                        raise Fault(place, "expected a number from 1")
                    return
                if part == kind:
                    return
                break
            elif part[0] == "open":
                if part[1] != kind:
                    break
                self.depth += 1
                if self.depth > DEEPEST:
                    raise Fault(place, "nested deeper than 40")
                return
            elif part[0] == "closed":
                self.depth -= 1
            elif not self.enter(part, kind):
                break
        if kind == "END_OF_TEXT" and not self.parts:
            return
        raise Fault(place, f"expected {needed(before)}")

    def enter(self, part, kind):
        """Goes into a part that has parts, or passes it over; false where it has to begin here and cannot."""
        if part[0] == "alt":
            for choice in part[1]:
                if begins(choice, kind):
                    self.parts.extend(reversed(choice))
                    return True
            return False
        if begins(part[-1], kind):
            if part[0] == "rep":
                self.parts.append(part)
            elif part[0] == "few":
                if part[1] == 0:
                    return True
                self.parts.append(("few", part[1] - 1, part[2]))
            self.parts.extend(reversed(part[-1]))
        return True


def fitting(text):
    """The tokens of a script; its first fault is raised."""
    rest, taken = Rest(), []
    for token in tokens(text):
        rest.take(token)
        taken.append(token)
    return taken
