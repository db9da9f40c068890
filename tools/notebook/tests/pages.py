"""tools/page.py: scripts with their replies and pictures on one page."""
import re
import subprocess

from relview_notebook import TOOLS, TOP

from .counted import expect, holds

SECONDS = 120
NAMES = "1 2 3 4 5 6 10 12 15 20 30 60".split()
BROKEN = "REL A 2 2 {1:2}.\nPRINT A|B.\nPRINT A & A^.\n"


def paged(folder, *words):
    """Runs page.py in a folder."""
    command = [str(TOOLS / "page.py"), *words]
    return subprocess.run(command, cwd=folder, capture_output=True, timeout=SECONDS, text=True)


def check(folder):
    """A page with pictures and names, one with a refusal, one of a text that is none, and no page."""
    place = folder / "pages"
    place.mkdir()
    (place / "divisors.txt").write_text("".join(f"{name}\n" for name in NAMES))
    script = TOP / "examples" / "orders.rv"
    done = paged(place, "--names", "divisors.txt", "--output", "orders.html", str(script))
    expect("page.py", (done.returncode, done.stdout, done.stderr), (0, "", ""))
    page = (place / "orders.html").read_text(encoding="utf-8")
    replies = re.findall(r"^(?:<pre[^>]*>|<div><pre[^>]*>)(1\.\d+: .*?)(?:</pre>)?$", page, re.M)
    wanted = [line for line in script.with_suffix(".out").read_text().split("\n") if ": " in line]
    expect("replies on the page", replies, wanted)
    holds("names on the page", "12:60" in page and "<svg" in page)
    holds("nothing from elsewhere", not re.search(r'(src|href)="(?!data:|#)', page))
    (place / "broken.rv").write_text(BROKEN)
    done = paged(place, "--show", "text", "--history", "broken.rv")
    expect("a refusal: status", (done.returncode, done.stderr), (1, ""))
    holds(
        "a refusal: its mark",
        "1.2: refused: 2:9: unknown name B\n    PRINT A|B.\n            ^</pre>" in done.stdout,
        done.stdout,
    )
    holds("the history", "<h1>History</h1>" in done.stdout and "1.1 assign A 2 x 2" in done.stdout, done.stdout)
    (place / "none.rv").write_text("REL A 2 2 {1:2}.\nPRINT [A,A.\n")
    done = paged(place, "none.rv")
    holds(
        "a text that is no script",
        "1.0: refused: 2:11: expected ]\n    PRINT [A,A.\n              ^</pre>" in done.stdout,
        done.stdout,
    )
    done = paged(place, "--names", "absent.txt", "broken.rv")
    expect(
        "absent names",
        (done.returncode, done.stdout, done.stderr),
        (1, "", "page: absent.txt: No such file or directory\n"),
    )
    done = paged(place, "absent.rv")
    expect(
        "an absent script",
        (done.returncode, done.stdout, done.stderr),
        (3, "", "page: relview: cannot read absent.rv\n"),
    )
    done = paged(place, "--turns", "many", "broken.rv")
    expect("wrong words", (done.returncode, done.stdout, done.stderr[:20]), (2, "", "page: usage: relview"))
