"""A description as scripts, files and needs: which runs there are, what each is given, and what each saves.

The Snakefile beside this file makes jobs of them. Files stand in the folder of the work: `layer1/part3.k2` is what part 3
of layer 1 saves, `layer1/join2_1.k2` the first join of the second level of its tree, `layer1/joined.k2` the last join.
"""
import re
from string import Template

NODES, MINUTES, AT = 20, 60, 16
BESIDE = 256  # MiB of a job beside the table of its run: the files, the page, and Snakemake itself on a node


class Wrong(Exception):
    """What is wrong with a description."""


class Description:
    """All runs of a description."""

    def __init__(self, config, top):
        self.config = config
        self.values = {"top": top, **config.get("values", {})}
        self.parts = self.parts_of(config["parts"])
        self.layers = self.number(config.get("layers", 1))
        self.at = self.number(config["join"].get("at", AT), 2, 64)
        if self.layers > 1 and "start" not in config:
            raise Wrong("with layers, `start` names the relation file that the first layer takes as its state")
        self.make = dict(self.made())
        self.joins = {layer: dict(self.tree(layer)) for layer in range(1, self.layers + 1)}
        self.try_texts()

    # ---- parts

    def number(self, value, least=1, most=10**9):
        """A number, or the value of that name."""
        text = self.filled(str(value), {})
        if not text.isdecimal() or not least <= int(text) <= most:
            raise Wrong(f"{value} is {text}, and a number from {least} to {most} is wanted")
        return int(text)

    def parts_of(self, said):
        """The parameters of each part, in their order."""
        if isinstance(said, list):
            parts = said
        elif isinstance(said, dict):
            parts = blocks(self.number(said["blocks"]), self.number(said["of"]))
        else:
            parts = [{} for _ in range(self.number(said))]
        return [{**part, "part": number} for number, part in enumerate(parts, 1)]

    def filled(self, text, more):
        """A text with its parameters put in."""
        try:
            return Template(text).substitute(self.values, **more)
        except KeyError as error:
            raise Wrong(f"nothing is called ${error.args[0]} in: {text.strip()[:60]}") from None
        except ValueError as error:
            raise Wrong(f"{error}; a dollar sign itself is $$") from None

    def try_texts(self):
        """Fills all texts once, so that what is wrong with them is told before anything runs."""
        for part in range(1, len(self.parts) + 1):
            self.part_script(1, part), self.part_files(1, part)
        self.join_script(1, "joined"), self.page_script(), self.page_files()
        if "whole" in self.config:
            self.whole_script(), self.files("whole", {})

    def label(self, layer, part):
        """A part as a message names it."""
        own = {name: value for name, value in self.parts[part - 1].items() if name != "part"}
        told = ", ".join(f"{name} {value!r}" for name, value in own.items())
        return f"part {part}" + (f" of layer {layer}" if self.layers > 1 else "") + (f" ({told})" if told else "")

    # ---- files

    def made(self):
        """Each relation file that a command makes, with its command; a name with `$part` is one file for each part."""
        for name, command in self.config.get("make", {}).items():
            for part in self.parts if "$part" in name or "${part}" in name else [{}]:
                file = self.filled(name, part)
                yield file, self.filled(command, {**part, "file": file})

    def state(self, layer):
        """The file that the layer before this one left, or the one to start with."""
        if layer > 1:
            return f"layer{layer - 1}/joined.k2"
        return self.filled(self.config["start"], {}) if "start" in self.config else None

    def saved(self, layer, part):
        """The file that a part saves."""
        return f"layer{layer}/part{part}.k2"

    def tree(self, layer):
        """The joins of a layer: the name of each, and the files that it joins, some at a time, in their order."""
        files, level = [self.saved(layer, part["part"]) for part in self.parts], 1
        while len(files) > self.at:
            groups = [files[start : start + self.at] for start in range(0, len(files), self.at)]
            names = [f"join{level}_{number}" for number in range(1, len(groups) + 1)]
            yield from zip(names, groups)
            files, level = [f"layer{layer}/{name}.k2" for name in names], level + 1
        yield "joined", files

    def files(self, run, more, *also):
        """The relation files that a run is given."""
        named = [self.filled(name, more) for name in self.config[run].get("files", [])]
        files = list(dict.fromkeys(named + [name for name in also if name]))
        if len(files) > 64:
            raise Wrong(f"`{run}` names {len(files)} relation files, and a run takes 64")
        return files

    def around(self, layer):
        """The parameters that a script of a layer may name."""
        state = self.state(layer)
        return {"layer": layer, **({"state": state} if state else {})}

    def part_files(self, layer, part):
        """The relation files of a part."""
        return self.files("part", {**self.parts[part - 1], **self.around(layer)}, self.state(layer))

    def page_files(self):
        """The relation files of the last page."""
        return self.files("page", {}, f"layer{self.layers}/joined.k2", self.state(self.layers))

    # ---- scripts

    def part_script(self, layer, part):
        """The script of a part."""
        more = {**self.parts[part - 1], **self.around(layer), "saved": self.saved(layer, part)}
        return self.filled(self.config["part"]["script"], more)

    def join_script(self, layer, name):
        """The script of a join: from the left, two relations at a time."""
        lines = [self.filled(self.config["join"]["script"], {"layer": layer}).rstrip("\n")]
        for number, file in enumerate(self.joins[layer][name], 1):
            lines.append(f'LOAD {"All" if number == 1 else "One"} "{file}".')
            if number > 1:
                lines.append("LET All = JOIN(All, One).")
        return "\n".join([*lines, f'SAVE All "layer{layer}/{name}.k2".', ""])

    def page_script(self):
        """The script of the last page."""
        more = {**self.around(self.layers), "joined": f"layer{self.layers}/joined.k2"}
        return self.filled(self.config["page"]["script"], more)

    def whole_script(self):
        """The script that does the same by one run, which is wanted for small sizes alone."""
        return self.filled(self.config["whole"]["script"], {"layers": self.layers})

    def script(self, name):
        """The script whose file is `name.rv`."""
        found = re.fullmatch(r"layer(\d+)/(?:part(\d+)|(join.+))", name)
        if not found:
            return self.page_script() if name == "page" else self.whole_script()
        layer = int(found[1])
        return self.part_script(layer, int(found[2])) if found[2] else self.join_script(layer, found[3])

    # ---- needs

    def need(self, run, name, default, least=1, most=10**9):
        """A number that the runs of a kind need."""
        return self.number(self.config[run].get(name, default), least, most)

    def nodes(self, run):
        """The table of a run has two to this power of node words."""
        return self.need(run, "nodes", NODES, 10, 24)

    def options(self, run):
        """The words that a run is given before its files."""
        words = f"--nodes {self.nodes(run)}"
        if "turns" in self.config[run]:
            words += f" --turns {self.need(run, 'turns', 0, 0)}"
        return f"{words} --workers {self.workers(run)}"

    def memory(self, run):
        """The memory of a job in MiB: what is said, else that of its table and something beside it."""
        return self.need(run, "memory", 16 * (2 ** self.nodes(run) + 2**20) // 2**20 + BESIDE)

    def minutes(self, run):
        """The time of a job."""
        return self.need(run, "minutes", MINUTES)

    def workers(self, run):
        """The workers of a run, with a processor for each."""
        return self.need(run, "workers", 1, 1, 64)


def blocks(count, elements):
    """The elements from 1 on in blocks one after another: the first and last of each, its size, and what stands around."""
    if count > elements:
        raise Wrong(f"{elements} elements cannot be cut into {count} blocks")
    ends = [elements * number // count for number in range(count + 1)]
    for before, last in zip(ends, ends[1:]):
        size, after = last - before, elements - last
        yield {"first": before + 1, "last": last, "size": size, "before": before, "after": after}
