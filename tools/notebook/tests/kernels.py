"""The kernel itself: what it answers, how it is interrupted and begun again, and that nothing of it is left."""
import os
import signal
from pathlib import Path

from cluster import below, until
from jupyter_client.manager import KernelManager

from .counted import expect, holds

SECONDS = 90
LONG = "ON(R) DECL a BEG a = R; WHILE empty(O(R)) DO a = -a OD RETURN a END.\nCOUNT ON(A)."


class Kernel:
    """A kernel that runs, and a client of it."""

    def __init__(self, place):
        self.manager = KernelManager(kernel_name="relview")
        self.manager.start_kernel(cwd=str(place))
        self.client = self.manager.client()
        self.client.start_channels()
        self.ready()

    def ready(self):
        """Waits until the kernel answers."""
        self.client.wait_for_ready(timeout=SECONDS)

    def run(self, code):
        """The status of a cell, and the texts that it shows."""
        shown = []

        def note(message):
            content = message["content"]
            if message["msg_type"] in ("stream", "error"):
                shown.append(content.get("text") or "\n".join(content["traceback"]))

        reply = self.client.execute_interactive(code, timeout=SECONDS, output_hook=note)
        return reply["content"]["status"], shown

    def end(self):
        """Ends the kernel as a notebook does."""
        self.client.stop_channels()
        self.manager.shutdown_kernel()


def programs():
    """The runs of the program that are below this process."""
    found = []
    for process in below(os.getpid()):
        try:
            words = Path(f"/proc/{process}/cmdline").read_bytes()
        except OSError:
            continue
        if b"../cell.rv" in words:
            found.append(process)
    return found


def private():
    """The private folders that are there."""
    return sorted(path.name for path in Path(os.environ["TMPDIR"]).glob("relview-notebook-*"))


def check_answers(kernel):
    """A cell, a refused one, Tab and Shift-Tab, and a new beginning."""
    expect("a cell by a client", kernel.run("REL A 1 2 {1:2}.\nCOUNT A."), ("ok", ["1.2: 1\n"]))
    wanted = ["\x1b[31m2.1: refused: 1:7: unknown name B\x1b[0m\n    COUNT B.\n          ^"]
    expect("a refused cell by a client", kernel.run("COUNT B."), ("error", wanted))
    content = kernel.client.complete("PRINT tra", 9, reply=True, timeout=SECONDS)["content"]
    told = [content[name] for name in ("matches", "cursor_start", "cursor_end")]
    expect("Tab by a client", told, [["trans"], 6, 9])
    content = kernel.client.inspect("PRINT A.", 7, reply=True, timeout=SECONDS)["content"]
    expect("Shift-Tab by a client", content["data"], {"text/plain": "A: 1 x 2, pairs 1"})
    first = private()
    kernel.manager.restart_kernel()
    kernel.ready()
    expect("the first cell of a new beginning", kernel.run("COUNT A.")[0], "error")
    second = private()
    holds("its private folder", len(second) == 1 and first != second, [first, second])


def check_killed(kernel):
    """Where the kernel is killed, the run of its cell ends."""
    kernel.run("REL A 1 1 {}.")
    kernel.client.execute("%turns 1000000000\n" + LONG)
    until(programs, SECONDS, "the program runs")
    kernel.manager.signal_kernel(signal.SIGKILL)
    until(lambda: not programs(), SECONDS, "the program ends with its kernel")
    expect("runs of a killed kernel", programs(), [])


def check(folder):
    """All tests of this file."""
    place = folder / "kernels"
    place.mkdir()
    kernel = Kernel(place)
    try:
        check_answers(kernel)
    finally:
        kernel.end()
    expect("private folders after the end", private(), [])
    kernel = Kernel(place)
    try:
        check_killed(kernel)
    finally:
        kernel.end()
    for name in private():  # a kernel that is killed cannot remove its own
        for path in sorted((Path(os.environ["TMPDIR"]) / name).rglob("*"), reverse=True):
            path.rmdir() if path.is_dir() else path.unlink()
        (Path(os.environ["TMPDIR"]) / name).rmdir()
