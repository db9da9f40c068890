"""The relation files of a cell: those that its LOAD reads, where SAVE may write, and the files of %save."""
import os
import shutil
from argparse import Namespace
from pathlib import Path, PurePosixPath

import bridge
from relations import read_tree

from .cells import Refused

MOST = 63


def is_inside(name):
    """Whether a file name stays in the folder where the program is started."""
    path = PurePosixPath(name)
    return not path.is_absolute() and ".." not in path.parts


def own_names(plan):
    """The names of files that the kernel itself put into the script."""
    return {*plan.loads, *(f"../{inner.name}" for *_, inner in plan.saves)}


def check_saves(script, plan):
    """Refuses a cell whose SAVE would write outside of the private folder."""
    own = own_names(plan)
    for item in script.items:
        for name, (line, column) in item.files() if item.kind == "SAVE" else []:
            if name not in own and not is_inside(name):
                text = "SAVE of a cell writes into the private folder of the kernel alone; %save writes where you say"
                raise Refused(text, line, column)


class Loaded:
    """The relation files that the run of a cell names: those that its LOAD reads, where they are there.

    A file of the private folder comes first; one of the notebook's folder is copied for as long as the cell runs.
    """

    def __init__(self, script, plan, folder, here):
        self.words, self.copies = list(plan.loads), []
        own, here = folder.files, Path(here)
        for name, place in loaded_names(script):
            if name in self.words or not name.endswith(".k2") or not (is_there(own / name) or is_readable(here, name)):
                continue
            self.words.append(name)
            if len(self.words) > MOST:
                raise Refused(f"a cell loads at most {MOST} files", *place)
        saved = {name for item in script.items if item.kind == "SAVE" for name, _ in item.files()}
        for name in self.words:
            if is_inside(name) and not is_there(own / name):
                (own / name).parent.mkdir(parents=True, exist_ok=True)
                shutil.copyfile(here / name, own / name)
                self.copies += [own / name] if name not in saved else []

    def give_back(self):
        """Removes the copies."""
        for path in self.copies:
            path.unlink(missing_ok=True)


def loaded_names(script):
    """The files that LOAD of a cell names, each with its place."""
    return [found for item in script.items if item.kind == "LOAD" for found in item.files()]


def is_there(path):
    """Whether a path leads to a file."""
    try:
        return path.is_file()
    except OSError:  # such as a name that is too long
        return False


def is_readable(here, name):
    """Whether a name leads to a file in the notebook's folder, or from the top of all folders."""
    return (is_inside(name) or PurePosixPath(name).is_absolute()) and is_there(here / name)


def write_whole(path, content):
    """Writes a file beside its place, and puts it there when it is whole."""
    beside = path.with_name(f".{path.name}.{os.getpid()}")
    try:
        beside.write_bytes(content)
        os.replace(beside, path)
    finally:
        beside.unlink(missing_ok=True)


def converted(plan, magic, name, form, content):
    """The bytes of a saved relation in a form of %save."""
    if form == "k2":
        return content
    relation = read_tree(content)
    sides = plan.at(magic.line).sides((name, False), relation)
    return bridge.WRITERS[form](relation, Namespace(**vars(sides.options()), name=name)).encode()
