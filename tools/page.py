#!/usr/bin/env python3
"""Runs scripts and writes one page of HTML with the scripts, their replies and pictures; the page needs no other file.

    tools/page.py [options] FILE... > PAGE.html

The FILEs are scripts and relation files, as the program takes them, and all run at once. Each item of a script stands
above its reply: a PRINT as squares, as text and, where it has as many rows as columns, as a graph, which Graphviz
lays out where it is there.

Options: --output PAGE.html writes that file. --show graph, matrix, text or both says how PRINT is shown. --names
FILE, once or more, has a name a line: the elements of each domain with as many elements are called so. --workers,
--nodes, --turns and --history are handed to the program, which is ./relview, or what the variable RELVIEW names.

The status is the program's. Where there is no page of it, its line is told on standard error, and nothing is written.

This script is no part of the proved program. It is plain Python 3 and shares what it draws with the notebook.
"""
import argparse
import html
import os
import subprocess
import sys
from pathlib import Path

sys.dont_write_bytecode = True
from drawings import SHOWS, Sides, drawn, listing  # noqa: E402
from items import items_of, marked  # noqa: E402
from relations import content_of, guarded, named  # noqa: E402
from replies import replies_of  # noqa: E402

TOP = Path(__file__).resolve().parent.parent
STYLE = """\
body { font-family: sans-serif; margin: 2em; }
pre { font-family: monospace; }
.script { background: #f4f4f4; padding: 6px; margin: 16px 0 4px; }
.reply { margin: 4px 0 4px 24px; }
.refused { color: #a02020; }
"""


def element(kind, text):
    """A text as it stands, in a class of its own."""
    return f'<pre class="{kind}">{html.escape(text)}</pre>\n'


class Page:
    """The HTML of a run, made from its scripts and its page."""

    def __init__(self, show, sizes):
        self.show, self.sizes, self.parts = show, sizes, []

    def script(self, number, name, text, replies):
        """A script, item by item, each above its reply."""
        self.parts.append(f"<h1>{html.escape(name)}</h1>\n")
        whole = [reply for reply in replies if reply.item == 0]
        if whole:
            self.parts.append(element("script", text.decode(errors="replace")))
            self.refused(whole[0], text)
            return
        at, by_item = 0, {reply.item: reply for reply in replies}
        for item_number, item in enumerate(items_of(text), 1):
            end = text.find(b"\n", item.end)
            end = end if end >= 0 and not text[item.end : end].split(b"#")[0].strip() else item.end
            self.parts.append(element("script", text[at:end].decode(errors="replace").strip("\r\n")))
            at = end
            if item_number in by_item:
                self.reply(item, by_item[item_number], text)
        if text[at:].strip():
            self.parts.append(element("script", text[at:].decode(errors="replace").strip("\r\n")))

    def reply(self, item, reply, text):
        """A reply of an item."""
        if reply.refusal:
            self.refused(reply, text)
            return
        relation, told = reply.relation, f"{reply.session}.{reply.item}"
        if relation is None or item.kind not in ("PRINT", "AT", "LIST"):
            self.parts.append(element("reply", reply.text()))
            return
        sides = Sides(self.sizes.get(relation.rows), self.sizes.get(relation.columns))
        if item.kind == "LIST":
            self.parts.append(element("reply", "\n".join([f"{told}: {reply.head}", *listing(reply, sides)])))
            return
        shown, picture = drawn(reply, told, self.show, sides)
        self.parts.append(f'<div class="reply">{picture}</div>\n' if picture else element("reply", shown))

    def refused(self, reply, text):
        """A refusal, with the line that it is about and the place marked below."""
        line, column, _ = reply.refusal
        lines = marked(text, line, column) if line else []
        self.parts.append(element("reply refused", "\n".join([reply.text(), *lines])))

    def text(self, title):
        """The whole page."""
        head = f'<meta charset="utf-8"><title>{html.escape(title)}</title>\n<style>\n{STYLE}</style>'
        body = "".join(self.parts)
        return f"<!DOCTYPE html>\n<html><head>{head}</head>\n<body>\n{body}</body></html>\n"


def run(options):
    """The status and the page of the program."""
    program = os.environ.get("RELVIEW", str(TOP / "relview"))
    words = [
        f"--{name}={value}" for name in ("workers", "nodes", "turns") if (value := getattr(options, name)) is not None
    ]
    words += ["--history"] if options.history else []
    done = guarded(program, lambda: subprocess.run([program, *words, "--", *options.files], stdout=subprocess.PIPE))
    page = done.stdout.decode(errors="backslashreplace")
    if done.returncode not in (0, 1, 4, 5):
        print(f"page: {page.splitlines()[0] if page else 'the program gave no page'}", file=sys.stderr)
        sys.exit(done.returncode if done.returncode > 0 else 1)
    return done.returncode, page


def html_of(options, page):
    """The HTML of a run."""
    replies, events = replies_of(page)
    for name in options.names:
        content_of(name)  # a file that is not there has no names
    lists = [named(name).names for name in options.names]
    made = Page(options.show, {len(names): names for names in lists})
    scripts = [name for name in options.files if not name.endswith(".k2")]
    for number, name in enumerate(scripts, 1):
        made.script(number, name, content_of(name), [reply for reply in replies if reply.session == number])
    if events:
        lines = [f"{session}.{item} {what}" for session, item, what in events]
        made.parts.append("<h1>History</h1>\n" + element("reply", "\n".join(lines)))
    return made.text(", ".join(scripts))


def main():
    parser = argparse.ArgumentParser(description=__doc__, formatter_class=argparse.RawDescriptionHelpFormatter)
    parser.add_argument("--output")
    parser.add_argument("--show", choices=SHOWS, default="both")
    parser.add_argument("--names", action="append", default=[], help="names of elements, one a line")
    for name in ("workers", "nodes", "turns"):
        parser.add_argument(f"--{name}")
    parser.add_argument("--history", action="store_true")
    parser.add_argument("files", nargs="+", metavar="FILE")
    options = parser.parse_args()
    status, page = run(options)
    text = html_of(options, page)
    if options.output:
        guarded(options.output, lambda: Path(options.output).write_text(text, encoding="utf-8"))
    else:
        sys.stdout.write(text)
    sys.exit(status)


if __name__ == "__main__":
    main()
