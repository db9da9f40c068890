"""A notebook as a PDF: nbconvert's page, printed by Chromium. `jupyter nbconvert --to chromiumpdf FILE` calls it."""
import os
import shutil
import subprocess
import tempfile
from pathlib import Path

from nbconvert.exporters import HTMLExporter

SECONDS = 120


class ChromiumPdf(HTMLExporter):
    """HTML, printed into a PDF."""

    export_from_notebook = "PDF by Chromium"

    def from_notebook_node(self, notebook, resources=None, **options):
        """The bytes of the PDF."""
        page, resources = super().from_notebook_node(notebook, resources=resources, **options)
        resources["output_extension"] = ".pdf"
        return printed(page), resources


def printed(page):
    """The PDF of a page."""
    chromium = shutil.which("chromium")
    if not chromium:
        raise RuntimeError("A PDF wants Chromium: apt-get install chromium")
    with tempfile.TemporaryDirectory(prefix="relview-pdf-", ignore_cleanup_errors=True) as folder:
        source, target = Path(folder) / "page.html", Path(folder) / "page.pdf"
        source.write_text(page, encoding="utf-8")
        as_root = ["--no-sandbox"] if os.getuid() == 0 else []
        words = ["--headless", "--disable-gpu", "--disable-dev-shm-usage", "--no-pdf-header-footer"]
        words += ["--virtual-time-budget=10000", f"--user-data-dir={folder}/profile"]
        command = [chromium, *as_root, *words, f"--print-to-pdf={target}", source.as_uri()]
        done = subprocess.run(command, stdin=subprocess.DEVNULL, capture_output=True, timeout=SECONDS)
        if not target.exists():
            raise RuntimeError(f"Chromium made no PDF: {done.stderr.decode(errors='replace')[-400:]}")
        return target.read_bytes()
