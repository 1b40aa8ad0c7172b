"""A trial of the page of tools/look: the tool with a script, a page of it in a browser, and what is expected of what the page shows."""

from __future__ import annotations

import os
import re
import shutil
import signal
import subprocess
import tempfile
import time
from collections.abc import Callable, Iterable
from typing import Any

from asking import Client
from browser import Browser
from patience import PATIENCE, waited
from programs import TOP
ISLAND = "axiom F-F-F-F\nproduction f: F => F-F+F+FF-F-F+F\nproduction g: G => GG\ndepth 2\nsvg\n"
# What the page shows, as one value.
PAGE = """
const at = id => document.getElementById(id), look = lookPage, canvas = at('picture'), state = look.state || {};
return {script: look.lines().join('\\n').toWellFormed(), lines: Number(canvas.dataset.lines || -1), level: canvas.dataset.level,
  lattice: canvas.dataset.lattice,
  view: ['scale', 'x', 'y', 'turn', 'tilt', 'spin'].map(name => Number(canvas.dataset[name])), fitted: canvas.dataset.fitted,
    told: at('told').textContent,
  counts: at('counts').dataset.counts, sent: state.sent, how: state.how, kept: at('kept').textContent, name: at('name').textContent,
  notice: at('notice').hidden ? '' : at('notice').querySelector('span').textContent, question: at('question').hidden ? ''
    : at('question').querySelector('span').textContent,
  stale: !at('stale').hidden, large: at('large').hidden ? '' : at('large').textContent, pending: look.desk.isPending(),
    levels: at('level_value').textContent,
  refused: Array.from(document.querySelectorAll('.caret-reply'), each => each.textContent),
    replies: Array.from(document.querySelectorAll('.reply'), each => each.dataset.reply ?? each.textContent),
  gallery: at('gallery').open, answer: at('answer').textContent, string: at('string').textContent, cut: at('string_cut').hidden ? ''
    : at('string_cut').textContent,
  depth: at('depth_value').textContent, plain: at('editor').textContent.toWellFormed()};
"""


def address_from(said: Iterable[str]) -> str:
    """The address that tools/look prints."""
    for line in said:
        found = re.search("http://[^ ]*", line)
        if found:
            return found.group()
    return ""


class Trial:
    """tools/look with a script, a page of it, and what is expected of it."""

    def __init__(self, browser: Browser, program: str, keep: str | None) -> None:
        self.browser, self.program, self.keep = browser, program, keep
        self.failed, self.made, self.folder = 0, 0, ""
        # The running tools/look, or None.
        self.look: Any = None

    def begin(self, script: str | None = None, *words: str) -> None:
        """Starts tools/look with a script, and opens its page."""
        self.end()
        self.folder = tempfile.mkdtemp(prefix="lsys-look-")
        self.path = os.path.join(self.folder, "island.lsys")
        if script is not None:
            self.save(script)
        named = [self.path] if script is not None else []
        self.look = subprocess.Popen([os.path.join(TOP, "tools", "look"), *named, "--program", self.program, "--no-browser", *words],
                                     cwd=self.folder, stderr=subprocess.PIPE, text=True)
        self.address = address_from(self.look.stderr or ())
        self.browser.errors()
        self.browser.open(self.address)
        self.expect("the page comes", lambda page: page["name"] != "lsys", False)

    def address_again(self) -> str:
        """Where the page is opened in a browser that has its cookie."""
        return self.address.partition("?")[0]

    def end(self) -> None:
        if self.look and self.look.poll() is None:
            self.look.send_signal(signal.SIGINT)
            try:
                self.look.wait(PATIENCE)
            except subprocess.TimeoutExpired:
                self.told("tools/look ends at a signal", False)
                self.look.kill()
                self.look.wait()
        if self.look:
            self.look.stderr.close()
        if self.folder:
            shutil.rmtree(self.folder)
        self.look, self.folder = None, ""

    def save(self, script: str) -> None:
        with open(self.path, "w", newline="") as file:
            file.write(script)

    def page(self) -> dict[str, Any]:
        try:
            return self.browser.run(PAGE)
        except RuntimeError as error:
            return {"name": "lsys", "error": str(error)}

    def told(self, what: str, holds: object, shown: object = "") -> None:
        self.made += 1
        self.failed += not holds
        print("  %s: %s" % (what, "yes" if holds else "NO, it shows %s" % str(shown)[:900]), flush=True)

    def expect(self, what: str, holds: Callable[[Any], object], is_told: bool = True) -> dict[str, Any]:
        """Waits until the page shows what it should."""

        def is_so(page: dict[str, Any]) -> bool:
            return "error" not in page and bool(holds(page))

        page = waited(self.page, is_so)
        if is_told or not is_so(page):
            self.told(what, is_so(page), page)
        return page

    def seen(self, script: str, holds: Callable[[Any], object] = bool) -> Any:
        """What a script of the page gives, once it holds."""
        return waited(lambda: self.browser.run(script), holds)

    def at_rest(self, selector: str) -> list[float]:
        """The top and the bottom of an element once it moves no more and no picture above it is on its way, and the height of what is seen."""
        # What is far below isn't fetched before one comes there.
        script = ("const box = document.querySelector('%s').getBoundingClientRect(), isAbove = each => each.getClientRects().length && "
                  "each.getBoundingClientRect().top <= box.bottom;"
                  " return [Array.from(document.images).some(each => !each.complete && isAbove(each)), box.top, box.bottom, innerHeight]" % selector)
        before: Any = None
        place: Any = None
        self.seen("return Boolean(document.querySelector('%s'))" % selector)
        for _ in range(100):
            place = self.browser.run(script)
            if place == before and not place[0]:
                break
            before = place
            time.sleep(0.1)
        return list(place[1:])

    def is_quiet(self) -> None:
        complaints = [line for line in self.browser.errors() if "Failed to load resource" not in line]
        self.told("the page complains of nothing", not complaints, complaints)

    def shot(self, name: str) -> None:
        if self.keep:
            self.browser.picture_of_page(os.path.join(self.keep, name + ".png"))

    def caret_to(self, line: int, column: int) -> None:
        """Puts the cursor into the text, at a line from 0."""
        self.browser.run("const field = lookPage.field; field.focus(); if (field.field) field.field.setCursor(%d, %d); else {"
                         " const lines = field.lines(); let at = %d; for (let n = 0; n < %d; n++) at += lines[n].length + 1; "
                         "field.area.setSelectionRange(at, at); }"
                         % (line, column, column, line))

    def client(self) -> Client:
        """A client that has what the page has."""
        client = Client(self.address)
        client.own = {"Cookie": self.browser.cookies(), "X-Token": self.browser.run("return document.querySelector('meta[name=token]').content")}
        return client

    def programs(self) -> list[str]:
        """The numbers of the processes that tools/look has started."""
        return subprocess.run(["ps", "-o", "pid=", "--ppid", str(self.look.pid)], stdout=subprocess.PIPE, text=True).stdout.split()
