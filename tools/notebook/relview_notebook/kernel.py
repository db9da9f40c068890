"""The kernel: what Jupyter asks, answered by a session. Protocol and sockets are those of ipykernel."""
import atexit
import os
import signal
import sys

from ipykernel.kernelbase import Kernel

from .session import KEPT, Session
from .words import completed, inspected

QUIET = 2.0  # a cell shows its seconds when it has run so long


class Output:
    """What a cell shows, as messages to the notebook."""

    def __init__(self, send, silent):
        self.send = (lambda kind, content: None) if silent else send
        self.told = 0

    def text(self, text):
        """Shows a text."""
        self.send("stream", {"name": "stdout", "text": text + "\n"})

    def picture(self, text, drawn):
        """Shows a picture, or the text where none is wanted."""
        if drawn is None:
            self.text(text)
        else:
            self.send("display_data", {"data": {"text/plain": text, "text/html": drawn}, "metadata": {}})

    def error(self, name, text, lines):
        """Shows an error, and gives its name and text."""
        coloured = [f"\x1b[31m{lines[0]}\x1b[0m", *lines[1:]]
        self.send("error", {"ename": name, "evalue": text, "traceback": coloured})
        return name, text

    def seconds(self, seconds):
        """Shows how long a cell runs, once a second."""
        if seconds >= max(QUIET, self.told + 1):
            kind = "update_display_data" if self.told else "display_data"
            self.told = int(seconds)
            self.send(
                kind,
                {
                    "data": {"text/plain": f"running, {self.told} seconds"},
                    "metadata": {},
                    "transient": {"display_id": f"relview-seconds-{id(self)}"},
                },
            )

    def done(self):
        """Takes the seconds away."""
        if self.told:
            self.send("clear_output", {"wait": False})
            self.told = 0


class RelviewKernel(Kernel):
    """A kernel whose cells are scripts of relview."""

    implementation = "relview"
    implementation_version = "1"
    language = "relview"
    language_version = "1"
    language_info = {
        "name": "relview",
        "mimetype": "text/x-relview",
        "file_extension": ".rv",
        "pygments_lexer": "relview",
        "codemirror_mode": "relview",
    }
    banner = "Relation algebra: cells are scripts of relview. A line that begins with % is a magic."

    def __init__(self, **options):
        super().__init__(**options)
        self.relations = Session(os.getcwd())
        atexit.register(self.relations.end)
        signal.signal(signal.SIGTERM, lambda *_: sys.exit(0))

    def do_execute(self, code, silent, store_history=True, user_expressions=None, allow_stdin=False):
        """Executes a cell. An interrupt ends its process, at the next look, and nothing else."""
        out = Output(lambda kind, content: self.send_response(self.iopub_socket, kind, content), silent)
        earlier = signal.signal(signal.SIGINT, lambda *_: setattr(self.relations, "stopped", True))
        try:
            error = self.relations.execute(code, self.execution_count, out)
        except Exception as failure:  # a fault of this kernel is told, too, so that the cell ends
            self.log.exception("a cell failed")
            error = out.error("failed", repr(failure), [f"The notebook itself failed: {failure!r}. {KEPT}"])
        finally:
            signal.signal(signal.SIGINT, earlier)
        answer = {"status": "error" if error else "ok", "execution_count": self.execution_count}
        if error:
            return {**answer, "ename": error[0], "evalue": error[1], "traceback": []}
        return {**answer, "payload": [], "user_expressions": {}}

    def do_complete(self, code, cursor_pos):
        """Tab."""
        words, start = completed(code, cursor_pos, self.relations)
        return {"status": "ok", "matches": words, "cursor_start": start, "cursor_end": cursor_pos, "metadata": {}}

    def do_inspect(self, code, cursor_pos, detail_level=0, omit_sections=()):
        """Shift-Tab."""
        text = inspected(code, cursor_pos, self.relations)
        return {"status": "ok", "found": bool(text), "data": {"text/plain": text} if text else {}, "metadata": {}}

    def do_is_complete(self, code):
        """Whether a cell may be executed as it stands, for a console."""
        ends = not code.strip() or code.rstrip().endswith(".") or code.strip().split("\n")[-1].startswith("%")
        return {"status": "complete" if ends else "incomplete", "indent": ""}

    def do_shutdown(self, restart):
        """Removes the private folder; a run ends with the kernel."""
        self.relations.stopped = True
        self.relations.end()
        return {"status": "ok", "restart": restart}
