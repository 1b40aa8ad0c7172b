"""Trials of the page's first minute: a new script, the limit's field, a mark at the head of a file, and a server that was begun anew."""

from __future__ import annotations

import os
import subprocess

from patience import PATIENCE
from trial import Trial


def first_minute(trial: Trial) -> None:
    """A new script, the limit, the licence, a byte order mark."""
    browser = trial.browser
    trial.begin(None, "new.lsys")
    path = os.path.join(trial.folder, "new.lsys")
    page = trial.expect("a script that isn't there yet is begun",
                        lambda page: page["name"] == "new.lsys" and page["script"] == "" and not page["gallery"])
    trial.told("its file isn't there", not os.path.exists(path), page)
    trial.told("the address holds no key any more", "key=" not in browser.run("return location.href"), browser.run("return location.href"))
    trial.told("scripts of the page can't read its cookie", browser.run("return document.cookie") == "", browser.run("return document.cookie"))
    browser.run("lookPage.put(['axiom F', 'production f: F => F+F', 'depth 16', 'svg'], '')")
    trial.expect("the limit is in the way", lambda page: page["refused"] and page["refused"][0].startswith("refused limit level "))
    browser.run("const field = document.getElementById('limit'); field.focus(); field.value = '1000000'; field.dispatchEvent(new Event('change'))")
    trial.expect("its field raises it", lambda page: not page["refused"] and "ok 65535/65535" in page["replies"])
    browser.run("const field = document.getElementById('limit'); field.value = '2000000'; field.dispatchEvent(new Event('change'))")
    trial.expect("to its greatest value", lambda page: "from 1 to 1,000,000" in page["notice"]
                 and browser.run("return document.getElementById('limit').value") == "1000000")
    browser.keys("Control+s")
    trial.expect("saved", lambda page: page["kept"] == "saved" and os.path.exists(path))
    trial.told("the page names its licences", "Apache-2.0 or MIT" in browser.run("return document.querySelector('footer').textContent"))
    trial.begin("\ufeffaxiom F+F\nsvg\n")
    trial.expect("a mark at the head is left out, and said",
                 lambda page: page["lines"] == 2 and page["script"].startswith("axiom") and "byte order mark" in page["notice"])
    trial.is_quiet()


def begun_anew(trial: Trial) -> None:
    """Another tools/look at the same port doesn't know the page, which keeps its text."""
    trial.begin("axiom F+F\nsvg\n")
    trial.expect("drawn", lambda page: page["lines"] == 2)
    port = trial.address.split(":")[2].split("/")[0]
    trial.look.terminate()
    trial.look.wait(PATIENCE)
    again = subprocess.Popen([*trial.look.args, "--port", port], cwd=trial.folder, stderr=subprocess.PIPE, text=True)
    assert again.stderr
    again.stderr.readline()
    trial.expect("the page says that it is another one", lambda page: "started anew" in page["question"])
    trial.expect("and has its text", lambda page: page["script"] == "axiom F+F\nsvg\n")
    again.terminate()
    again.wait(PATIENCE)
    again.stderr.close()


TRIALS = [first_minute, begun_anew]
