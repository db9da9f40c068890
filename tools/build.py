#!/usr/bin/env python3
"""Proves and builds a program and the crates below it, side by side, with a line of progress on standard error.

    tools/build.py [NAME]     NAME is a crate of crates.txt, `relview` where none is given

Crates that do not stand on each other are proved at once, as many as there are processors, those with the longest way to the
program first. `rt` lets one command work on a crate and those below it, so each lane has a copy of the sources; a library that
is proved in one lane is given to the repository, where the other lanes find it and the program is built at last. What is done
is kept: after an interrupt the next call goes on with the crates that are left. Nothing is written to standard output. Exit
status 0, or 70 where a crate was not proved or built, with the end of its report and the name of the file that has the whole
of it.
"""
import concurrent.futures
import contextlib
import os
import shutil
import signal
import subprocess
import sys
import tempfile
import threading
import time

TOP = os.path.dirname(os.path.dirname(os.path.abspath(__file__)))
# what one proof may take at once, in GiB
ROOM = 3


def crates_below(name):
    """Each crate of crates.txt that NAME stands on, and itself, with those that it stands on; none where there is no such
    crate."""
    named = {}
    with open(os.path.join(TOP, "crates.txt"), encoding="utf-8") as lines:
        for line in lines:
            head, colon, deps = line.split("#")[0].partition(":")
            if colon:
                named[head.split()[0]] = deps.split()

    def below(crate):
        """The crates that a crate stands on, and those that these stand on."""
        found, wanted = set(), list(named[crate])
        while wanted:
            other = wanted.pop()
            if other in named and other not in found:
                found.add(other)
                wanted.extend(named[other])
        return found

    if name not in named:
        return {}
    return {crate: below(crate) for crate in [name, *below(name)]}


def places():
    """How many crates may be worked on at once: as many as there are processors, as memory allows."""
    cores = len(os.sched_getaffinity(0))
    try:
        with open("/proc/meminfo", encoding="ascii") as lines:
            free = next(int(line.split()[1]) for line in lines if line.startswith("MemAvailable:"))
    except (OSError, StopIteration):
        return cores
    return max(1, min(cores, free // (ROOM << 20)))


def ways(crates):
    """How much is to be proved from each crate on up to the program, in bytes of code along the longest way. Tests are not
    proved here, and bytes of definitions and lemmas tell less of the time that a crate takes."""
    size = {crate: 0 for crate in crates}
    for crate in crates:
        for folder, folders, files in os.walk(os.path.join(TOP, "crates", crate, "src")):
            folders[:] = [it for it in folders if it != "tests"]
            size[crate] += sum(os.path.getsize(os.path.join(folder, it)) for it in files if it.endswith(".rt"))
    way = {}
    for crate in sorted(crates, key=lambda it: -len(crates[it])):
        way[crate] = size[crate] + max((way[it] for it in way if crate in crates[it]), default=0)
    return way


class Progress:
    """The one line that says how far the work is: rewritten in place on a terminal, a line a crate elsewhere."""

    def __init__(self, total):
        self.total = total
        self.done = 0
        self.begun = time.monotonic()
        self.in_place = sys.stderr.isatty()
        self.clock = threading.Event()
        if self.in_place:
            threading.Thread(target=self.tick, daemon=True).start()

    def tell(self):
        minutes = int(time.monotonic() - self.begun) // 60
        line = f"relview: {self.done} of {self.total} crates proved, {minutes} min"
        sys.stderr.write("\r" + line + "  " if self.in_place else line + "\n")
        sys.stderr.flush()

    def tick(self):
        """Rewrites the line from time to time, so that its minutes go on while a long proof runs."""
        while not self.clock.wait(15):
            self.tell()

    def one_more(self):
        self.done += 1
        self.tell()

    def end(self):
        self.clock.set()
        if self.in_place:
            sys.stderr.write("\n")


class Commands:
    """The commands that run, each in a process group of its own; all of them write to one report."""

    def __init__(self, report):
        self.report = report
        self.running = set()

    def run(self, words, folder):
        """Runs a command in a folder to its end; whether it succeeded."""
        process = subprocess.Popen(words, cwd=folder, stdin=subprocess.DEVNULL, stdout=subprocess.PIPE, stderr=subprocess.STDOUT, start_new_session=True)
        self.running.add(process)
        try:
            said = process.stdout.read()
            self.report.write(b"== " + " ".join([*words, os.path.basename(folder)]).encode() + b"\n" + said)
            return process.wait() == 0
        finally:
            self.running.discard(process)

    def end(self):
        """Ends all commands that still run, with all that they started."""
        for process in list(self.running):
            try:
                os.killpg(process.pid, signal.SIGTERM)
            except ProcessLookupError:
                pass


def link_or_copy(source, target):
    """Gives a file of a library a second name, since all libraries together have some gigabytes. `rt` removes such a file
    before it makes it anew, and does not write into it."""
    try:
        os.link(source, target)
    except OSError:
        shutil.copy2(source, target)


def give(library, at, to):
    """Gives the library of a crate that one copy of the sources has to another, whole or not at all, where there is one."""
    source, target = (os.path.join(top, "crates", library, "out", "rlib") for top in (at, to))
    if os.path.isdir(source):
        new, old = target + ".new", target + ".old"
        shutil.rmtree(new, ignore_errors=True)
        shutil.rmtree(old, ignore_errors=True)
        shutil.copytree(source, new, copy_function=link_or_copy)
        # a folder of which a part is removed would still have its stamp
        with contextlib.suppress(FileNotFoundError):
            os.rename(target, old)
        os.rename(new, target)
        shutil.rmtree(old, ignore_errors=True)


def make_lane(room, number, crates):
    """A copy of the sources of crates, with no libraries."""
    lane = os.path.join(room, f"lane{number}")
    os.makedirs(lane)
    shutil.copy2(os.path.join(TOP, "HANDLES"), lane)
    with open(os.path.join(TOP, "crates.txt"), encoding="utf-8") as lines:
        named = [line for line in lines if line.partition(":")[0].strip() in crates]
    with open(os.path.join(lane, "crates.txt"), "w", encoding="utf-8") as file:
        file.writelines(named)
    for crate in crates:
        shutil.copytree(os.path.join(TOP, "crates", crate), os.path.join(lane, "crates", crate), ignore=shutil.ignore_patterns("out", "must-fail"))
    return lane


def stock(lane, libraries):
    """Gives a copy of the sources the libraries that it lacks and the repository has."""
    for library in libraries:
        if not os.path.isdir(os.path.join(lane, "crates", library, "out", "rlib")):
            give(library, TOP, lane)


class Lanes:
    """Copies of the sources, in each of which one crate is proved at a time."""

    def __init__(self, crates, room, commands, progress):
        self.crates = crates
        self.commands = commands
        self.progress = progress
        self.all = [make_lane(room, number, crates) for number in range(places())]
        self.idle = list(self.all)
        self.way = ways(crates)

    def prove(self, crate, lane, jobs):
        """Proves a crate in a lane, and gives its library to the repository, from which other lanes take it; whether it is
        proved."""
        stock(lane, [*self.crates[crate], crate])
        if not self.commands.run(["rt", "lib", "--jobs", str(jobs)], os.path.join(lane, "crates", crate)):
            return False
        give(crate, lane, TOP)
        self.progress.one_more()
        return True

    def next(self, left, done):
        """The crates that can be begun, the one with the longest way first."""
        ready = [crate for crate in left if self.crates[crate] <= done]
        return sorted(ready, key=lambda crate: -self.way[crate])

    def prove_all(self, wanted):
        """Proves crates, each once those below it are; whether all are proved."""
        left, done, running = set(wanted), set(), {}
        with concurrent.futures.ThreadPoolExecutor(len(self.all)) as pool:
            try:
                while left or running:
                    self.begin_ready(pool, left, done, running)
                    for it in concurrent.futures.wait(running, return_when=concurrent.futures.FIRST_COMPLETED).done:
                        crate, lane, _ = running.pop(it)
                        self.idle.append(lane)
                        if not it.result():
                            return False
                        done.add(crate)
            finally:
                self.commands.end()
        return True

    def begin_ready(self, pool, left, done, running):
        """Begins as many of the crates that can be begun as there are processors for. Those that no crate waits for are given
        to the first of them, which has the longest way."""
        ready = self.next(left, done)
        free = len(self.all) - sum(jobs for _, _, jobs in running.values())
        while ready and free > 0:
            crate, lane = ready.pop(0), self.idle.pop()
            jobs = max(1, free - len(ready))
            left.remove(crate)
            running[pool.submit(self.prove, crate, lane, jobs)] = crate, lane, jobs
            free -= jobs


def build_program(program, jobs, commands):
    """Builds a program over the libraries of the repository, which proves it; whether it is there."""
    folder = os.path.join(TOP, "crates", program)
    built = os.path.join(folder, "out", program)
    with contextlib.suppress(FileNotFoundError):
        os.remove(built)
    # the status is that of the program, which runs once with no words
    commands.run(["rt", "run", "--jobs", str(jobs)], folder)
    return os.access(built, os.X_OK)


def prove_and_build(program, crates, room, commands, progress):
    """Proves the crates below a program, and then builds it; whether it is there."""
    lanes = Lanes(crates, room, commands, progress)
    if not lanes.prove_all(crates.keys() - {program}):
        return False
    # the lanes have some gigabytes, for whose removal nobody is to wait
    sweep = threading.Thread(target=shutil.rmtree, args=(room,), kwargs={"ignore_errors": True})
    sweep.start()
    # nothing else is left to be proved, so all processors are the program's own
    is_built = build_program(program, len(lanes.all), commands)
    sweep.join()
    if is_built:
        progress.one_more()
    return is_built


@contextlib.contextmanager
def room_for_lanes():
    """A folder for the lanes, in no crate's folder, since `rt` looks through those while the lanes are removed."""
    out = os.path.join(TOP, "out")
    os.makedirs(out, exist_ok=True)
    try:
        with tempfile.TemporaryDirectory(prefix="lanes-", dir=out) as room:
            yield room
    finally:
        with contextlib.suppress(OSError):
            os.rmdir(out)


def build(program):
    crates = crates_below(program)
    if not crates:
        sys.stderr.write(f"relview: crates.txt has no crate {program}\n")
        return 70
    path = os.path.join(tempfile.mkdtemp(prefix="relview-"), "report")
    progress = Progress(len(crates))
    progress.tell()
    with open(path, "wb", buffering=0) as report, room_for_lanes() as room:
        commands = Commands(report)
        try:
            is_built = prove_and_build(program, crates, room, commands, progress)
        finally:
            commands.end()
            progress.end()
    if is_built:
        return 0
    with open(path, "rb") as report:
        said = report.read().decode("utf-8", "replace").splitlines()[-20:]
    sys.stderr.write("\n".join(said) + f"\nrelview: {program} was not proved and built; the whole report is in {path}\n")
    return 70


if __name__ == "__main__":
    # a terminal that is closed interrupts too, so that no lanes are left and nothing runs on
    for ending in (signal.SIGTERM, signal.SIGHUP):
        if signal.getsignal(ending) is signal.SIG_DFL:
            signal.signal(ending, signal.default_int_handler)
    try:
        sys.exit(build(sys.argv[1] if len(sys.argv) > 1 else "relview"))
    except KeyboardInterrupt:
        sys.stderr.write("\nrelview: interrupted; the next call goes on where this one was\n")
        sys.exit(130)
