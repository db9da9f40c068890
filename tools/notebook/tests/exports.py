"""A notebook as a page and as a PDF, by `jupyter nbconvert`."""
import re
import shutil
import subprocess

from .counted import expect, holds
from .notebooks import path_of

SECONDS = 240


def converted(folder, around, *words):
    """Runs nbconvert in a folder."""
    done = subprocess.run(
        ["jupyter", "nbconvert", *words], cwd=folder, env=around, capture_output=True, timeout=SECONDS, text=True
    )
    expect(f"nbconvert {' '.join(words)}", done.returncode, 0)
    if done.returncode:
        print(done.stderr[-2000:])


def check(folder, around):
    """Both exports of a notebook as it stands."""
    place = folder / "exports"
    place.mkdir()
    shutil.copyfile(path_of("orders"), place / "orders.ipynb")
    converted(place, around, "--to", "html", "orders.ipynb")
    page = (place / "orders.html").read_text(encoding="utf-8")
    holds("pictures on the page", page.count('<svg xmlns="http://www.w3.org/2000/svg"') >= 4 and 'class="node"' in page)
    coloured = re.findall(r'<span class="(\w+)">(LET|refl|# reflexive)</span>', page)
    expect("colours on the page", sorted(set(coloured)), [("c1", "# reflexive"), ("k", "LET"), ("nb", "refl")])
    converted(place, around, "--to", "chromiumpdf", "orders.ipynb")
    content = (place / "orders.pdf").read_bytes()
    expect("the beginning of the PDF", content[:5], b"%PDF-")
    pages = len(re.findall(rb"/Type\s*/Page\b", content))
    holds("pages of the PDF", pages >= 2 and len(content) > 20000, (pages, len(content)))
