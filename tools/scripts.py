"""A slow reader of scripts, written from docs/language.md: whether a text is a script, and else its first fault.

It follows the definitions and not the program. The text is read by the grammar (grammar.py). A text that fits is read
once more, as definitions and commands, and its names are checked.
"""
from grammar import Fault, fitting

RANKS = 16
# The rules on names, in the order in which they are told at one place.
UNKNOWN, ARITY, UNASSIGNED, RANK, TWICE = range(5)


# ---- names
# In text that fits, an expression is the list of its names in their order: ("ref", name, place), ("call", name, place,
# number of arguments) and ("domain", operator, place, domain).

class Items:
    """Reads definitions and commands off tokens that fit."""

    def __init__(self, taken):
        self.taken, self.at = taken, 0

    def next(self):
        """The next token."""
        self.at += 1
        return self.taken[self.at - 1]

    def sees(self, *kinds):
        """Whether the next token is of one of these kinds."""
        return self.taken[self.at][0] in kinds

    def passes(self, kind):
        """Passes a token of this kind, if it is next."""
        found = self.sees(kind)
        self.at += found
        return found

    def expression(self, names):
        """An expression: operands with signs before, between and behind them."""
        while True:
            while self.passes("-"):
                pass
            self.operand(names)
            while self.passes("^"):
                pass
            if not self.sees("|", "&", "*", "\\", "/"):
                return
            self.next()

    def operand(self, names):
        """A name, a call, a pairing or an expression in parentheses."""
        kind, text, place = self.next()
        if kind == "NAME" and not self.sees("("):
            names.append(("ref", text, place))
        elif kind == "NAME":
            at = len(names)
            names.append(None)
            names[at] = ("call", text, place, self.arguments(names))
        elif kind == "DOMOP":
            self.next()
            names.append(("domain", text, place, self.next()[1]))
            self.next()
        elif kind in ("BASE1", "BASE2"):
            self.arguments(names)
        else:
            self.expression(names)
            while self.passes(","):
                self.expression(names)
            self.next()

    def arguments(self, names):
        """The arguments of a call, and how many there are."""
        count = 0
        while self.next()[0] != ")":
            self.expression(names)
            count += 1
        return count

    def statements(self, out):
        """Statements, up to a word that is none of theirs."""
        while self.sees("NAME", "WHILE", "IF"):
            kind, text, place = self.next()
            names, first, second = [], [], None
            if kind == "NAME":
                self.next()
            self.expression(names)
            if kind != "NAME":
                self.next()
                self.statements(first)
                if self.passes("ELSE"):
                    second = []
                    self.statements(second)
                self.next()
            out.append((kind, text, place, names, first, second))
            if not self.passes(";"):
                return


def flow(statements, known, assigned, read):
    """Goes along the paths of statements: `read` is told of each name with what is assigned before it."""
    for kind, text, place, names, first, second in statements:
        read(names, assigned)
        if kind == "NAME":
            if text not in known:
                read([("unknown", text, place)], assigned)
            assigned = assigned | {text}
        elif kind == "WHILE":
            flow(first, known, assigned, read)
        else:
            after = flow(first, known, assigned, read)
            other = assigned if second is None else flow(second, known, assigned, read)
            assigned = after & other
    return assigned


class Checker:
    """The definitions that stand before, and the faults: place, number of the rule, words."""

    def __init__(self):
        self.arity, self.rank, self.faults = {}, {}, []

    def fault(self, place, rule, words):
        """Notes a fault of a rule: at one place the first rule comes first, and of one rule the fault that was noted first."""
        self.faults.append((place, rule, len(self.faults), words))

    def calls(self, names):
        """Checks calls, and gives the rank of what they call."""
        rank = 0
        for what, text, place, *more_of in names:
            if what == "call":
                if text not in self.arity:
                    self.fault(place, UNKNOWN, f"unknown name {text}")
                else:
                    rank = max(rank, self.rank[text])
                    if self.arity[text] != more_of[0]:
                        self.fault(place, ARITY, f"{text} takes {self.arity[text]} arguments, not {more_of[0]}")
        return rank

    def command(self, items):
        """A command."""
        names = []
        kind, *_ = items.next()
        if kind == "LET":
            items.next(), items.next()
            items.expression(names)
        elif kind == "ATOMIC":
            while items.passes("LET"):
                items.next(), items.next()
                items.expression(names)
                items.passes(";")
        elif kind == "AT":
            items.next(), items.next()
            items.expression(names)
        elif kind in ("PRINT", "LIST", "COUNT", "TYPE", "EXPLAIN") or kind == "SAVE" and not items.sees("ALL"):
            items.expression(names)
        while not items.sees("."):
            items.next()
        self.calls(names)
        for what, text, place, *_ in names:
            if what == "domain":
                self.fault(place, UNKNOWN, f"unknown name {text}")

    def definition(self, items):
        """A definition of a function or a program."""
        _, name, place = items.next()
        parameters, ranks = [], [0]
        if name in self.arity:
            self.fault(place, TWICE, f"{name} is defined twice")
        while items.next()[0] != ")":
            parameter = items.next()[1]
            if parameter in parameters:
                self.fault(place, TWICE, f"{parameter} is defined twice")
            parameters.append(parameter)
        variables, domains = set(), {}

        def read(names, assigned):
            ranks.append(self.calls(names))
            for what, text, where, *more_of in names:
                if what == "ref" and text in variables:
                    if text not in assigned and text not in parameters:
                        self.fault(where, UNASSIGNED, f"{text} may be read before it is assigned")
                elif what == "unknown" or what == "ref" and text not in parameters:
                    self.fault(where, UNKNOWN, f"unknown name {text}")
                elif what == "domain" and domains.get(more_of[0]) != text[0]:
                    self.fault(where, UNKNOWN, f"unknown name {text}")

        if items.passes("="):
            names = []
            items.expression(names)
            read(names, set())
        else:
            if items.passes("DECL"):
                self.declarations(items, parameters, variables, domains)
            items.next()
            statements, names = [], []
            items.statements(statements)
            items.next()
            items.expression(names)
            items.next()
            read(names, flow(statements, variables, frozenset(), read))
        rank = 1 + max(ranks)
        if rank > RANKS:
            self.fault(place, RANK, f"{name} has a rank over 16")
        self.arity[name], self.rank[name] = len(parameters), rank

    def declarations(self, items, parameters, variables, domains):
        """The declarations of a program."""
        while True:
            _, text, where = items.next()
            if text in parameters or text in variables or text in domains:
                self.fault(where, TWICE, f"{text} is defined twice")
            if items.passes("="):
                domains.setdefault(text, "p" if items.next()[0] == "PROD" else "i")
                items.next()
                left = items.next()[1]
                items.next()
                right = items.next()[1]
                items.next()
                strange = [part for part in (left, right) if part not in parameters]
                if strange:
                    self.fault(where, UNKNOWN, f"unknown name {strange[0]}")
            else:
                variables.add(text)
            if not items.passes(","):
                return


def first_fault(text):
    """The first fault of a text as the page tells it, or None where it is a script that can be run."""
    try:
        items, checker = Items(fitting(text)), Checker()
    except Fault as fault:
        return str(fault)
    while not items.sees("END_OF_TEXT"):
        if items.sees("NAME"):
            checker.definition(items)
        else:
            checker.command(items)
        items.next()
    if not checker.faults:
        return None
    place, _, _, words = min(checker.faults)
    return str(Fault(place, words))
