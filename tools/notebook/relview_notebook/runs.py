"""One run of the program for a cell, in the private folder of the kernel.

The folder has `files`, where the program is started and where SAVE of a cell writes; beside it are the script, the
page and the states of the cell before and after. It is the user's alone, and is removed when the kernel ends.
"""
import os
import shutil
import signal
import subprocess
import tempfile
import time
from pathlib import Path

from relations import shared

from . import TOP

POLL = 0.05
LARGE_PAGES = "glibc.malloc.hugetlb=1"  # as ./relview asks for them
ENDED = {
    2: "The words of the run were wrong: PAGE",
    3: "A file of the run could not be read, or is too long: PAGE",
    4: "The page or a file could not be written; is a disk full, or a folder missing that SAVE names?",
    5: "Memory ran out.",
}


class Trouble(Exception):
    """Why there was no run, or no answer, in a sentence."""


class Folder:
    """The private folder of a kernel, with an empty state."""

    def __init__(self):
        self.path = Path(tempfile.mkdtemp(prefix="relview-notebook-"))
        self.files = self.path / "files"
        self.files.mkdir()
        self.script, self.page, self.errors = (self.path / name for name in ("cell.rv", "page.txt", "errors.txt"))
        self.before, self.after = self.path / "before.k2", self.path / "after.k2"
        self.before.write_bytes(shared([]))

    def remove(self):
        """Removes the folder with all that is in it."""
        shutil.rmtree(self.path, ignore_errors=True)

    def clear(self):
        """Removes what an earlier run left, but for the state and the files of SAVE."""
        for path in self.path.iterdir():
            if path not in (self.files, self.before):
                path.unlink()


class Ended:
    """How a run ended: its status, or None where it was interrupted; its page and what it said as an error."""

    def __init__(self, status, page, errors, seconds):
        self.status, self.page, self.errors, self.seconds = status, page, errors, seconds

    def sentence(self):
        """Why there is no answer, or no state after; None where all was done."""
        if self.status in (0, 1):
            return None
        if self.status is None:
            return "The cell was interrupted."
        if self.status not in ENDED:
            return f"The program died (status {self.status}). {self.errors.strip()}".strip()
        return ENDED[self.status].replace("PAGE", self.page.strip().split("\n")[0])


def program():
    """The program: that of the variable RELVIEW, or the one that this repository built last; no cell builds it."""
    named = os.environ.get("RELVIEW")
    if named:
        return os.path.abspath(named)
    built = TOP / "crates" / "relview" / "out" / "relview"
    if not built.exists():
        raise Trouble(f"The program is not built yet: call {TOP / 'relview'} once in a terminal, which takes its time.")
    return str(built)


def run(folder, words, text, files, tick, is_stopped):
    """Runs the program on a script and relation files, with words before them.

    `tick` is told the seconds now and then; where `is_stopped` says so, the run is ended.
    """
    command = [program(), "--history", *words, "--", f"../{folder.script.name}", f"../{folder.before.name}"]
    folder.script.write_bytes(text)
    begun = time.monotonic()
    with open(folder.page, "wb") as page, open(folder.errors, "wb") as errors:
        process = start([*command, *files], folder.files, page, errors)
        try:
            status = wait(process, begun, tick, is_stopped)
        finally:
            end(process)
    told = (path.read_bytes().decode(errors="backslashreplace") for path in (folder.page, folder.errors))
    return Ended(status, *told, time.monotonic() - begun)


def start(command, cwd, page, errors):
    """Starts a command in a group of its own, which ends with the kernel where there is `setpriv`."""
    ends = ["setpriv", "--pdeathsig", "KILL"] if shutil.which("setpriv") else []
    if not os.access(command[0], os.X_OK):
        raise Trouble(f"The program is missing: {command[0]} cannot be run.")
    around = {"GLIBC_TUNABLES": LARGE_PAGES, **os.environ}
    streams = {"stdin": subprocess.DEVNULL, "stdout": page, "stderr": errors}
    try:
        return subprocess.Popen([*ends, *command], cwd=cwd, env=around, start_new_session=True, **streams)
    except OSError as error:
        raise Trouble(f"The program cannot be started: {error.strerror}.") from None


def wait(process, begun, tick, is_stopped):
    """The status of a process that has ended, or None where it was stopped."""
    while True:
        try:
            return process.wait(POLL)
        except subprocess.TimeoutExpired:
            if is_stopped():
                return None
            tick(time.monotonic() - begun)


def end(process):
    """Ends a process that still runs, with all of its group."""
    if process.poll() is None:
        os.killpg(process.pid, signal.SIGKILL)
        process.wait()
