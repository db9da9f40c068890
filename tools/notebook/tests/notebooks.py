"""The install, and the notebooks of examples: each is executed, and what its cells show is compared."""
import base64
import hashlib
import re
import subprocess
import xml.etree.ElementTree
import zlib

import nbclient
import nbformat
from jupyter_client.kernelspec import KernelSpecManager
from relview_notebook import TOP

from .counted import expect, holds

NAMES = ["orders", "game", "voting"]
SECONDS = 120


def installed(around, *words):
    """Calls the install; gives its status, and what it says as an error."""
    command = [str(TOP / "tools" / "notebook" / "install"), *words]
    done = subprocess.run(command, env=around, capture_output=True, timeout=SECONDS, text=True)
    return done.returncode, done.stderr


def install(around):
    """The kernel, its colours and its exports are installed into the home of this check."""
    expect("the install", installed(around), (0, ""))
    expect("the kernel is there", "relview" in KernelSpecManager().find_kernel_specs(), True)


def remove(folder, around):
    """And they are taken away again."""
    expect("the removal", installed(around, "--remove"), (0, ""))
    left = [str(path) for path in (folder / "home").rglob("*") if path.name.startswith("relview")]
    expect("what is left of the install", left, [])


def path_of(name):
    """The file of a notebook."""
    return TOP / "examples" / "notebooks" / f"{name}.ipynb"


def executed(notebook):
    """A notebook with the outputs of a fresh run."""
    bare = nbformat.from_dict(notebook.copy())
    for cell in bare.cells:
        if cell.cell_type == "code":
            cell.outputs, cell.execution_count = [], None
    client = nbclient.NotebookClient(
        bare,
        timeout=SECONDS,
        startup_timeout=SECONDS,
        kernel_name="relview",
        record_timing=False,
        resources={"metadata": {"path": str(TOP / "examples" / "notebooks")}},
    )
    client.execute()
    bare.metadata.pop("widgets", None)
    return bare


def graph_of(drawn):
    """What a picture by Graphviz says, whatever its fonts and places: vertices, edges and words."""
    found = list(drawn.iter())
    return sorted(part.text for part in found if part.tag.endswith(("}title", "}text")) and part.text)


def dots(found):
    """The dots of an image, whatever way they were packed."""
    content = base64.b64decode(found[1])
    start = content.index(b"IDAT") + 4
    return hashlib.sha256(content[:33] + zlib.decompress(content[start:-16])).hexdigest()


def shown(output):
    """What an output shows, to be compared: text and squares to the letter, graphs by what they say."""
    if output.output_type == "stream":
        return [output.text]
    if output.output_type == "error":
        return [output.ename, output.evalue, *output.traceback]
    told, page = [output.data["text/plain"]], output.data.get("text/html", "")
    rest = re.sub(r"<svg.*?</svg>", "(svg)", page, flags=re.S)
    for text in re.findall(r"<svg.*?</svg>", page, re.S):
        drawn = xml.etree.ElementTree.fromstring(text.replace("xlink:", ""))
        told.append(graph_of(drawn) if 'class="graph"' in text else text)
    return [*told, re.sub(r"data:image/png;base64,([\w+/=]+)", dots, rest)]


def outputs(notebook):
    """What all cells show, each with its number."""
    return [
        (cell.execution_count, [shown(output) for output in cell.outputs])
        for cell in notebook.cells
        if cell.cell_type == "code"
    ]


def compare(name, held, fresh):
    """Compares a notebook with its fresh run, cell by cell."""
    for number, (wanted, got) in enumerate(zip(outputs(held), outputs(fresh)), 1):
        expect(f"{name}.ipynb, cell {number}", got, wanted)
    code = [cell for cell in held.cells if cell.cell_type == "code"]
    prose = [cell for cell in held.cells if cell.cell_type == "markdown"]
    holds(f"{name}.ipynb: prose beside the cells", len(prose) >= len(code) >= 5, (len(prose), len(code)))
    drawn = sum("<svg" in str(output) for cell in code for output in cell.outputs)
    holds(f"{name}.ipynb: pictures", drawn >= 4, drawn)


def check(around, write=False):
    """All notebooks; `write` keeps what they show in place of comparing it."""
    for name in NAMES:
        held = nbformat.read(path_of(name), as_version=4)
        fresh = executed(held)
        if write:
            nbformat.write(fresh, path_of(name))
        else:
            compare(name, held, fresh)
    if write:
        install(around)
