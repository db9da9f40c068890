"""What a kernel keeps from cell to cell, and what a cell does to it; without Jupyter, so that it can be tried alone.

A cell is executed in four steps: its magics make a plan; the program runs its script; the state after takes the place
of the state before; and the replies are shown. Whatever goes wrong is told, and leaves the state of the cell before.
"""
import os

from drawings import drawn, listing
from items import marked
from relations import Bad
from replies import replies_of

from .cells import Cell, Refused, Script
from .files import Loaded, check_saves, converted, write_whole
from .magics import Display, plan_of
from .runs import Folder, Trouble, run
from .state import relations_of

KEPT = "The state of the cell before stays."


class Session:
    """The private folder, the definitions so far, the display and the options, and the events of all cells."""

    def __init__(self, here):
        self.folder, self.here = Folder(), here
        self.definitions, self.display, self.options = [], Display(), {}
        self.events, self.stopped = [], False

    def end(self):
        """Removes the private folder."""
        self.folder.remove()

    def relations(self):
        """The relations of the workspace: by each name the rows, the columns and how many pairs there are."""
        return relations_of(self.folder.before.read_bytes())

    def execute(self, code, number, out):
        """Executes a cell; `out` is told what it shows. Gives the name and the text of the first error, or None."""
        self.stopped, cell = False, Cell(code)
        try:
            self.folder.clear()
            plan = plan_of(cell, self.folder, self.here, self.display, self.options)
            script = Script(cell, self.definitions, number)
            check_saves(script, plan)
            ended = self.run(plan, script, out)
            return self.finish(plan, script, ended, out)
        except Refused as refused:
            place = f"{refused.line}:{refused.column}: " if refused.line else ""
            lines = marked(cell.text, refused.line, refused.column) if refused.line else []
            return out.error("refused", f"{place}{refused}", [f"{number}.0: refused: {place}{refused}", *lines])
        except Trouble as trouble:
            return out.error("not run", str(trouble), [f"{trouble} {KEPT}"])
        except OSError as error:
            text = f"The private folder {self.folder.path} could not be used: {error.strerror}."
            return out.error("not run", text, [f"{text} {KEPT}"])

    def run(self, plan, script, out):
        """Runs the script of a cell; a cell of magics alone needs none."""
        if not script.cell.body().strip():
            return None
        loaded = Loaded(script, plan, self.folder, self.here)
        words = [word for name, value in plan.options.items() for word in (f"--{name}", str(value))]
        try:
            return run(self.folder, words, script.text, loaded.words, out.seconds, lambda: self.stopped)
        finally:
            out.done()
            loaded.give_back()

    def finish(self, plan, script, ended, out):
        """Takes the state after a run, and shows what it answered."""
        if ended is None:
            self.keep(plan, script)
            self.tell(plan, script, [], out)
            return self.tell_end(plan, script, {}, out)
        replies, events = replies_of(ended.page)
        refused, last = {reply.item: reply for reply in replies if reply.refusal}, len(script.origins)
        if 1 in refused:
            text = f"The state of the cell before cannot be read: {refused[1].refusal[2]}."
            hint = " %nodes gives a larger table." if "node word" in text else ""
            return out.error("not run", text, [f"{text}{hint} {KEPT}"])
        if 0 in refused:
            return self.refuse(script, refused[0], out)
        problem = self.take_state(ended, refused.get(last))
        if not problem:
            self.keep(plan, script)
            self.events += numbered(events, script)
        error = self.tell(plan, script, [reply for reply in replies if 1 < reply.item < last], out)
        if not problem:
            self.tell_end(plan, script, refused, out)
            return self.save_files(plan, script, out) or error
        name = "interrupted" if ended.status is None else "not kept" if replies else "not run"
        return error or out.error(name, problem, [f"{problem} {KEPT}"])

    def take_state(self, ended, refused):
        """Puts the state after in the place of the state before, or gives a sentence why it cannot be."""
        if refused:
            return f"The state after the cell cannot be kept: {refused.refusal[2]}. DROP what need not be kept."
        whole = ended.status == 5 and self.folder.after.exists()
        if ended.sentence() and not whole:
            return ended.sentence()
        try:
            os.replace(self.folder.after, self.folder.before)
        except OSError as error:
            return f"The state after the cell was not written: {error.strerror}."
        return None

    def keep(self, plan, script):
        """Keeps what a cell that was run has set."""
        self.definitions = script.definitions
        self.display, self.options = plan.display(), plan.options

    # ---- what is shown

    def refuse(self, script, reply, out):
        """A cell that is refused as a text."""
        line, column, why = reply.refusal
        head, lines = placed(script, line, column, why) if line else (why, [])
        return out.error("refused", head, [f"{script.number}.0: refused: {head}", *lines])

    def tell(self, plan, script, replies, out):
        """Shows the replies of a cell and the notes of its magics, in their order. Gives the first error, or None."""
        entries = [(script.items[number - 1].line, number, reply) for reply, number in of_cell(replies, script)]
        entries += [(line, 0, note) for line, note in plan.notes]
        first = None
        for _, number, what in sorted(entries, key=lambda entry: entry[:2]):
            error = self.tell_reply(plan, script, what, number, out) if number else out.text(what)
            first = first or error
        return first

    def tell_end(self, plan, script, refused, out):
        """Tells that snapshots end with the cell, and the history where it is asked for."""
        for place, origin in enumerate(script.origins, 1):
            item = script.items[origin - 1] if isinstance(origin, int) else None
            if item and item.kind == "SNAP" and place not in refused:
                out.text(f"The snapshot {item.name} ends with this cell.")
        if plan.history:
            out.text("\n".join(self.events) or "There are no events yet.")

    def tell_reply(self, plan, script, reply, number, out):
        """Shows a reply. Gives its error, or None."""
        told, item = f"{script.number}.{number}", script.items[number - 1]
        if reply.refusal:
            line, column, why = reply.refusal
            for inner, path in plan.loads.items():
                why = why.replace(f'"{inner}"', f'"{path}"')
            head, lines = placed(script, line, column, why) if line else (why, marked(script.cell.text, item.line, 1))
            return out.error("refused", head, [f"{told}: refused: {head}", *lines])
        display = plan.at(item.line)
        if reply.relation is None or item.kind not in ("PRINT", "AT", "LIST"):
            return out.text(reply.text(told))
        sides = display.sides(item.shown(), reply.relation)
        if item.kind == "LIST":
            return out.text("\n".join([f"{told}: {reply.head}", *listing(reply, sides)]))
        return out.picture(*drawn(reply, told, display.show, sides, lambda: self.stopped))

    def save_files(self, plan, script, out):
        """Makes the files of %save of what the run saved. Gives the first error, or None."""
        first = None
        for magic, path, name, form, inner in plan.saves:
            try:
                if inner.exists():
                    write_whole(path, converted(plan, magic, name, form, inner.read_bytes()))
            except (Bad, OSError) as error:
                text = f"{path} could not be written: {getattr(error, 'strerror', None) or error}."
                error = out.error("not saved", text, [text, *marked(script.cell.text, magic.line, magic.column)])
                first = first or error
        return first


def placed(script, line, column, why):
    """A refusal with its place in the cell, or in the definition of an earlier one, and its line with the mark."""
    definition, line, column = script.place(line, column)
    if definition:
        head = f"{line}:{column} of the definition of {definition.name} in cell {definition.cell}: {why}"
        return head, marked(definition.text, line, column)
    column = 1 if script.cell.is_magic(line) else column
    return f"{line}:{column}: {why}", marked(script.cell.text, line, column)


def of_cell(replies, script):
    """The replies to items of the cell, with the numbers of the items."""
    pairs = [(reply, script.origins[reply.item - 1]) for reply in replies]
    return [(reply, number) for reply, number in pairs if isinstance(number, int)]


def numbered(events, script):
    """The events of the items of the cell as lines, with the number of the cell."""
    pairs = [(script.origins[item - 1], what) for _, item, what in events]
    return [f"{script.number}.{number} {what}" for number, what in pairs if isinstance(number, int)]
