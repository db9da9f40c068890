"""The real notebook in a real browser: a server on the loopback address with its token, and headless Chromium.

A notebook is opened, cells are typed into it and run, and what they show is read off the page. All waits are bounded,
and look again and again in place of sleeping.
"""
import json
import os
import secrets
import shutil
import subprocess
from pathlib import Path

from cluster import Trouble, until
from selenium import webdriver
from selenium.common.exceptions import WebDriverException
from selenium.webdriver.chrome.service import Service
from selenium.webdriver.common.action_chains import ActionChains
from selenium.webdriver.common.by import By
from selenium.webdriver.common.keys import Keys

from .counted import expect, holds
from .notebooks import path_of

SECONDS = 90
CELL = """\
%names 4 Anna Bo Carl Dora
REL Knows 4 4 {1:2; 2:3,4; 3:4}.
PRINT trans(Knows)."""
REFUSED = "COUNT Knows.\nPRINT Knows*Nobody."
LOOP = """\
LOOP(R) DECL a BEG a = R; WHILE empty(O(empty(a))) DO a = R OD RETURN a END.
COUNT LOOP(Knows)."""
IDLE = """
var n = Jupyter.notebook;
return n && n.kernel && n.kernel.is_connected() && !n.kernel_busy && n.kernel.info_reply.status == 'ok'"""
COLOURED = """
var cell = Jupyter.notebook.get_selected_cell().element[0];
return Array.from(cell.querySelectorAll('.cm-' + arguments[0])).map(e => e.textContent)"""
TIP = "var t = document.querySelector('#tooltip'); return t && t.style.display != 'none' && t.textContent"
INTERRUPT = "#run_int button[data-jupyter-action='jupyter-notebook:interrupt-kernel']"
EMPTY = {
    "cells": [],
    "metadata": {"kernelspec": {"name": "relview", "display_name": "relview", "language": "relview"}},
    "nbformat": 4,
    "nbformat_minor": 5,
}


class Server:
    """The notebook server, in a folder, on a port that it finds free."""

    def __init__(self, folder, around):
        self.runtime = folder / "runtime"
        words = ["jupyter-notebook", "--no-browser", "--ip=127.0.0.1", "--allow-root", f"--notebook-dir={folder}"]
        self.token = secrets.token_hex(24)
        around = {**around, "JUPYTER_TOKEN": self.token, "JUPYTER_RUNTIME_DIR": str(self.runtime)}
        with open(folder / "server.log", "wb") as log:
            self.process = subprocess.Popen(
                words, cwd=folder, env=around, stdin=subprocess.DEVNULL, stdout=log, stderr=log
            )
        self.folder = folder

    def described(self):
        """What the server tells of itself, when it is up."""
        if self.process.poll() is not None:
            raise Trouble(
                "the notebook server ended: " + (self.folder / "server.log").read_text(errors="replace")[-2000:]
            )
        for path in self.runtime.glob("nbserver-*.json"):
            try:
                return json.loads(path.read_text())
            except ValueError:
                return None
        return None

    def url(self):
        """Where the server is; its token is handed over with the first page."""
        return until(self.described, SECONDS, "the notebook server is up")["url"]

    def stop(self):
        """Ends the server, and with it its kernels."""
        self.process.terminate()
        try:
            self.process.wait(30)
        except subprocess.TimeoutExpired:
            self.process.kill()
            self.process.wait()


def browser_of(folder, around):
    """Headless Chromium with a profile of its own."""
    options = webdriver.ChromeOptions()
    options.binary_location = "/usr/bin/chromium"
    words = [
        "--headless",
        "--disable-gpu",
        "--disable-dev-shm-usage",
        "--window-size=1100,900",
        f"--user-data-dir={folder}/profile",
    ]
    for word in words + (["--no-sandbox"] if os.getuid() == 0 else []):
        options.add_argument(word)
    browser = webdriver.Chrome(service=Service("/usr/bin/chromedriver", env=around), options=options)
    browser.set_page_load_timeout(SECONDS)
    browser.set_script_timeout(SECONDS)
    return browser


class Page:
    """A notebook on the screen."""

    def __init__(self, browser):
        self.browser = browser

    def script(self, text, *arguments):
        """What a script says in the page."""
        return self.browser.execute_script(text, *arguments)

    def wait(self, holds_now, what, seconds=SECONDS):
        """Waits until something holds in the page; a page that is being built may be looked at too early."""

        def looked():
            try:
                return holds_now()
            except WebDriverException:
                return None

        return until(looked, seconds, what)

    def is_idle(self):
        """Whether the kernel waits."""
        return self.script(IDLE)

    def new_cell(self):
        """A new last cell, chosen for typing."""
        self.script(
            """
            var n = Jupyter.notebook; n.insert_cell_at_bottom('code'); n.select(n.ncells() - 1); n.edit_mode();
            n.get_selected_cell().element[0].scrollIntoView()"""
        )

    def typed(self, text):
        """Types a text into a new cell, as somebody would."""
        self.new_cell()
        self.script("Jupyter.notebook.get_selected_cell().code_mirror.setOption('autoCloseBrackets', false)")
        ActionChains(self.browser).send_keys(text).perform()
        self.wait(
            lambda: self.code().replace(" ", "") == text.replace(" ", ""),
            f"{text!r} stands in the cell, not {self.code()!r}",
        )

    def code(self):
        """The text of the chosen cell."""
        return self.script("return Jupyter.notebook.get_selected_cell().get_text()")

    def press(self, *keys):
        """Presses keys at once."""
        chain = ActionChains(self.browser)
        for key in keys[:-1]:
            chain.key_down(key)
        chain.send_keys(keys[-1])
        for key in reversed(keys[:-1]):
            chain.key_up(key)
        chain.perform()

    def run(self):
        """Runs the chosen cell by Ctrl-Enter."""
        self.press(Keys.CONTROL, Keys.ENTER)

    def output(self):
        """The output of the chosen cell, as an element."""
        cell = self.script("return Jupyter.notebook.get_selected_cell().element[0]")
        return cell.find_element(By.CSS_SELECTOR, ".output")

    def shows(self, text):
        """Waits until the chosen cell was run and its output has a text, and gives the output."""
        number = "return Jupyter.notebook.get_selected_cell().input_prompt_number"
        done = (
            lambda: str(self.script(number)).isdecimal() and self.is_idle() and text in self.output().text
        )  # noqa: E731
        self.wait(done, f"{text!r} is shown")
        return self.output()


def check_colours(page):
    """The words of a typed cell are coloured."""
    page.wait(lambda: page.script(COLOURED, "keyword") == ["REL", "PRINT"], "REL and PRINT are coloured as keywords")
    expect("coloured base names", page.script(COLOURED, "builtin"), ["trans"])
    expect("a coloured magic", page.script(COLOURED, "meta"), ["%names 4 Anna Bo Carl Dora"])


def check_picture(page):
    """A typed cell shows its relation as squares, as a graph and as text."""
    page.typed(CELL)
    check_colours(page)
    page.run()
    output = page.shows("1.2: 4 x 4")
    squares, graph = output.find_elements(By.CSS_SELECTOR, ".relview svg")
    path = squares.find_element(By.CSS_SELECTOR, "g path").get_attribute("d")
    expect(
        "squares on the page",
        path,
        "M16 0h16v16h-16zM32 0h16v16h-16zM48 0h16v16h-16zM32 16h16v16h-16zM48 16h16v16h-16zM48 32h16v16h-16z",
    )
    names = [text.text for text in graph.find_elements(By.CSS_SELECTOR, ".node text")]
    expect("names in the graph", sorted(names), ["Anna", "Bo", "Carl", "Dora"])
    expect("text on the page", output.find_element(By.CSS_SELECTOR, "pre").text, "1.2: 4 x 4\n.111\n..11\n...1\n....")
    holds("both pictures are seen", squares.size["width"] > 50 and graph.size["width"] > 50, [squares.size, graph.size])


def check_refusal(page):
    """A refused command is told with its line and the mark."""
    page.typed(REFUSED)
    page.run()
    lines = page.shows("^").text.rstrip().split("\n")
    wanted = ["2.1: 4", "2.2: refused: 2:13: unknown name Nobody", "    PRINT Knows*Nobody.", "                ^"]
    expect("a refusal on the page", [line.rstrip() for line in lines if line.strip()], wanted)


def check_keys(page):
    """Tab completes, and Shift-Tab shows a formula."""
    page.typed("PRINT hass")
    page.press(Keys.TAB)
    page.wait(lambda: page.code() == "PRINT hasse", "Tab makes hass hasse")
    expect("Tab", page.code(), "PRINT hasse")
    page.press(Keys.SHIFT, Keys.TAB)
    told = page.wait(
        lambda: "hasse(R)" in (page.script(TIP) or "") and page.script(TIP), "Shift-Tab shows the formula of hasse"
    )
    holds("Shift-Tab", "the Hasse diagram: the pairs (x,y) of R with x other than y" in told, told)
    page.press(Keys.ESCAPE)
    page.script("Jupyter.notebook.edit_mode(); Jupyter.notebook.get_selected_cell().set_text('')")


def check_interrupt(page):
    """A long loop shows its seconds, is interrupted by the button of the notebook, and the state before is there."""
    page.typed("%turns 1000000000\n" + LOOP)
    page.run()
    seconds = page.wait(
        lambda: "running" in page.output().text and page.output().text, "the running cell shows its seconds"
    )
    holds("seconds of a running cell", seconds.startswith("running, "), seconds)
    page.browser.find_element(By.CSS_SELECTOR, INTERRUPT).click()
    page.wait(lambda: "interrupted" in page.output().text, "the loop is interrupted")
    page.wait(page.is_idle, "the kernel waits again")
    expect(
        "an interrupted cell",
        page.output().text.strip(),
        "The cell was interrupted. The state of the cell before stays.",
    )
    page.typed("COUNT Knows.")
    page.run()
    page.wait(lambda: "4.1: 4" in page.output().text, "the state of the cell before is there")
    expect("the state after an interrupt", page.output().text.strip(), "4.1: 4")


def check_zoom(page):
    """A large matrix is an image, and its slider makes it larger."""
    page.typed("%show matrix\nREL Wide 100 100 {}.\nPRINT Wide | I(Wide).")
    page.run()
    page.wait(lambda: page.output().find_elements(By.CSS_SELECTOR, "img"), "there is an image")
    image, slider = (
        page.output().find_element(By.CSS_SELECTOR, kind) for kind in (".relview-image img", "input[type=range]")
    )
    before = image.size["width"]
    page.script("arguments[0].value = 1600; arguments[0].dispatchEvent(new Event('input'))", slider)
    page.wait(lambda: image.size["width"] == 1600, "the image is larger")
    expect("an image that is made larger", (before, image.size["width"]), (512, 1600))


def check_example(page, url):
    """A notebook of examples shows its pictures as soon as it is opened, since the install has signed it."""
    page.browser.get(f"{url}notebooks/orders.ipynb")
    drawn = "return document.querySelectorAll('.output .relview svg').length"
    page.wait(lambda: page.script(drawn) >= 4, "the pictures of orders.ipynb are drawn")
    holds("pictures of a notebook that is opened", page.script("return Jupyter.notebook.trusted"), "it is not trusted")


def check(folder, around, screenshot):
    """All of it; the screenshot is that of the first cells."""
    (folder / "new.ipynb").write_text(json.dumps(EMPTY))
    shutil.copyfile(path_of("orders"), folder / "orders.ipynb")
    server, browser = Server(folder, around), None
    try:
        url = server.url()
        expect("the address of the server", url.startswith("http://127.0.0.1:"), True)
        browser = browser_of(folder, around)
        browser.get(f"{url}notebooks/new.ipynb")
        holds("no page without the token", "/login" in browser.current_url, browser.current_url)
        browser.get(f"{url}notebooks/new.ipynb?token={server.token}")
        page = Page(browser)
        page.wait(page.is_idle, "the notebook is open, and its kernel waits", 2 * SECONDS)
        check_picture(page)
        check_refusal(page)
        page.script(
            "Jupyter.notebook.delete_cell(0); Jupyter.notebook.scroll_to_top(); Jupyter.notebook.command_mode()"
        )
        browser.save_screenshot(str(screenshot))
        holds("a screenshot", Path(screenshot).read_bytes()[:8] == b"\x89PNG\r\n\x1a\n")
        check_interrupt(page)
        check_keys(page)
        check_zoom(page)
        check_example(page, url)
    finally:
        if browser:
            browser.quit()
        server.stop()
