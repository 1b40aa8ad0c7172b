"""Trials of what serves the page: undo, programs and pages that go or come, files that others write, requests from elsewhere, large
scripts, and the ends of the tool."""

from __future__ import annotations

import json
import os
import shutil
import signal
import subprocess
import tempfile
import time

from patience import PATIENCE, is_within, waited
from programs import TOP
from trial import ISLAND, Trial


def undoing(trial: Trial) -> None:
    """Undo and redo."""
    browser = trial.browser
    trial.begin(ISLAND)
    trial.expect("nothing to undo", lambda page: page["lines"] == 256)
    trial.told("undo is off", browser.run("return document.getElementById('undo').disabled"))
    browser.click("#more_depth")
    trial.expect("more depth", lambda page: page["lines"] == 2048)
    browser.click("#undo")
    trial.expect("undone", lambda page: page["lines"] == 256 and page["script"] == ISLAND and page["kept"] == "saved")
    browser.click("#redo")
    trial.expect("redone", lambda page: page["lines"] == 2048)
    trial.caret_to(1, 100)
    browser.type("+F")
    trial.expect("typed", lambda page: "F-F-F+F+F" in page["script"])
    browser.keys("Control+z")
    trial.expect("a typed word is undone at once", lambda page: "F-F-F+F\n" in page["script"] and "depth 3" in page["script"])
    browser.click("#open_gallery")
    trial.expect("the gallery", lambda page: page["gallery"])
    browser.click("[data-name=dragon]")
    trial.expect("another script, with a word on the one before",
                 lambda page: page["name"] == "dragon" and "Undo" in page["notice"] and page["lines"] > 500)
    browser.click("#undo")
    trial.expect("the one before comes back", lambda page: "F-F-F+F\n" in page["script"] and page["lines"] == 2048)
    trial.expect("and belongs to its file again", lambda page: page["name"] == "island.lsys" and page["kept"] == "not saved")
    with open(trial.path) as file:
        trial.told("which is as it was", file.read() == ISLAND)
    browser.click("#redo")
    trial.expect("the other one is an example again", lambda page: page["name"] == "dragon")


def killed(trial: Trial) -> None:
    """A program that is killed."""
    browser = trial.browser
    trial.begin(ISLAND)
    trial.expect("the island is drawn", lambda page: page["lines"] == 256)
    before = trial.programs()
    os.kill(int(before[0]), signal.SIGKILL)
    trial.expect("the page says that it was started again", lambda page: "started again" in page["notice"])
    trial.told("there is another program", trial.programs() and trial.programs() != before, trial.programs())
    browser.click("#more_depth")
    trial.expect("and it goes on", lambda page: page["lines"] == 2048)
    os.kill(int(trial.programs()[0]), signal.SIGKILL)
    browser.click("#less_depth")
    trial.expect("killed while one works, too", lambda page: page["lines"] == 256 and "started again" in page["notice"])
    browser.run("lookPage.put(['axiom F', 'quit', 'depth 70'], '')")
    trial.expect("quit ends the script and no program", lambda page: page["lines"] == 1 and page["replies"] == ["ok 0/0"])


def two_pages(trial: Trial) -> None:
    """Two pages on one script."""
    browser = trial.browser
    trial.begin(ISLAND)
    first = browser.windows()[0]
    trial.expect("the first page", lambda page: page["lines"] == 256)
    second = browser.new_window()
    browser.open(trial.address)
    trial.expect("the second page", lambda page: page["lines"] == 256)
    browser.click("#more_depth")
    trial.expect("it changes the script", lambda page: page["lines"] == 2048)
    browser.use(first)
    trial.expect("the first one sees it", lambda page: page["lines"] == 2048 and "depth 3" in page["script"])
    browser.run("lookPage.desk.number = 1; lookPage.put(lookPage.lines().map(line => line.replace('axiom F-', 'axiom F+')), '')")
    trial.expect("a clash is asked about", lambda page: "changed elsewhere" in page["question"])
    browser.click("#question button + button")
    trial.expect("this page's text is put", lambda page: page["question"] == "" and "axiom F+F-F-F" in page["script"] and not page["pending"])
    browser.use(second)
    trial.expect("the other one sees that", lambda page: "axiom F+F-F-F" in page["script"])
    browser.close_window()
    browser.use(first)


def other_programs(trial: Trial) -> None:
    """Another program that saves the file."""
    browser = trial.browser
    trial.begin(ISLAND)
    trial.expect("the island is drawn", lambda page: page["lines"] == 256)
    changed = ISLAND.replace("depth 2", "depth 1")
    trial.save(changed)
    trial.expect("its text is taken over with a word",
                 lambda page: page["lines"] == 32 and "taken over" in page["notice"] and page["kept"] == "saved")
    browser.click("#more_depth")
    trial.expect("this one is not saved", lambda page: page["kept"] == "not saved" and page["lines"] == 256)
    trial.save(ISLAND.replace("depth 2", "depth 0"))
    trial.expect("of two texts it is asked", lambda page: "Another program" in page["question"] and page["lines"] == 256)
    browser.keys("Control+s")
    trial.expect("nothing is written over", lambda page: "Another program" in page["question"] and "depth 0" in open(trial.path).read())
    browser.click("#question button + button")
    trial.expect("this text is kept", lambda page: page["question"] == "" and page["lines"] == 256 and page["kept"] == "not saved")
    os.chmod(trial.path, 0o640)
    before = os.stat(trial.path)
    browser.keys("Control+s")
    trial.expect("saved", lambda page: page["kept"] == "saved" and open(trial.path).read() == ISLAND)
    after = os.stat(trial.path)
    names = os.listdir(trial.folder)
    trial.told("by a new file with the same rights", after.st_ino != before.st_ino and after.st_mode == before.st_mode and names == ["island.lsys"],
               names)
    browser.click("#more_depth")
    trial.expect("more depth", lambda page: page["lines"] == 2048)
    trial.save(changed)
    trial.expect("asked again", lambda page: "Another program" in page["question"])
    browser.click("#question button")
    trial.expect("the file's text is taken", lambda page: page["script"] == changed and page["lines"] == 32 and page["kept"] == "saved")
    browser.click("#undo")
    trial.expect("what was typed is one undo away", lambda page: page["lines"] == 2048)
    trial.begin(ISLAND.replace("\n", "\r\n"))
    trial.expect("line ends of two bytes", lambda page: page["lines"] == 256 and page["script"] == ISLAND)
    browser.click("#less_depth")
    trial.expect("changed", lambda page: page["lines"] == 32)
    browser.keys("Control+s")
    trial.expect("stay when it is saved", lambda page: open(trial.path, newline="").read() == changed.replace("\n", "\r\n"))


def foreign(trial: Trial) -> None:
    """Requests from elsewhere."""
    trial.begin(ISLAND)
    trial.expect("the island is drawn", lambda page: page["lines"] == 256)
    client = trial.client()
    number = trial.browser.run("return lookPage.state.text")
    body = json.dumps({"base": number, "first": 0, "removed": 1, "lines": ["axiom F"]}).encode()
    here = trial.address[:trial.address.index("/?")]
    expected: list[tuple[str, str, str, dict[str, str | None], bytes | None, int]] = [
        ("a foreign host", "GET", "/", {"Host": "evil.example"}, None, 403),
        ("a foreign origin", "GET", "/state?turn=0", {"Origin": "http://evil.example"}, None, 403),
        ("a foreign page that draws a picture of it", "GET", "/export/svg", {"Sec-Fetch-Site": "cross-site"}, None, 403),
        ("a change without a token", "POST", "/change", {"X-Token": None}, body, 403),
        ("a change with another token", "POST", "/change", {"X-Token": "x" * 32}, body, 403),
        ("a change without a cookie", "POST", "/change", {"Cookie": None}, body, 403),
        ("a change with the token from a foreign origin", "POST", "/change", {"Origin": "http://evil.example"}, body, 403),
        ("a change with the token from a foreign host", "POST", "/change", {"Host": "evil.example"}, body, 403),
        ("a file beside the page", "GET", "/web/../look", {}, None, 404),
        ("a file of the machine", "GET", "/codemirror/../../../../etc/passwd", {}, None, 404),
        ("an example that is none", "POST", "/open", {}, json.dumps({"name": "../look"}).encode(), 404),
        ("a save into another folder", "POST", "/save", {}, json.dumps({"text": number, "name": "../x.lsys"}).encode(), 400),
        ("a request without sense", "POST", "/change", {}, b"[", 400),
        ("no such lines", "POST", "/change", {}, json.dumps({"base": number, "first": 99, "removed": 1, "lines": []}).encode(), 400)]
    for what, method, path, headers, sent, wanted in expected:
        status = client.ask(method, path, headers, sent)[0]
        trial.told("%s gets %d" % (what, wanted), status == wanted, status)
    trial.browser.open("data:text/html,<title>elsewhere</title>")
    trial.browser.run("fetch(arguments[0] + '/change', {method: 'POST', mode: 'no-cors', body: arguments[1]}).catch(() => {})"
                      " .finally(() => { window.isAnswered = true; }); document.body.innerHTML = '<img src=\"' + arguments[0] + '/export/svg\">'",
                      here, body.decode())
    trial.seen("return window.isAnswered && document.images[0].complete")
    trial.told("a foreign page gets no picture", trial.browser.run("return document.images[0].naturalWidth") == 0)
    trial.browser.open(trial.address)
    trial.expect("and nothing was changed", lambda page: page["script"] == ISLAND)
    status = client.ask("POST", "/change", {"Origin": here}, body)[0]
    trial.told("a change with the token is taken", status == 200, status)
    trial.expect("and seen", lambda page: page["script"].startswith("axiom F\nproduction"))


def large(trial: Trial) -> None:
    """A picture of a million lines, a line of 65,536 bytes and one more, a script of 16 MB."""
    browser = trial.browser
    trial.begin("axiom A\nproduction a: A => AA\nhom h: A => %s\ndepth 10\nsvg\n" % ("F" * 30))
    trial.expect("a small one is drawn", lambda page: page["lines"] == 30720)
    browser.run("lookPage.put(lookPage.lines().map(line => line === 'depth 10' ? 'depth 15' : line), '')")
    trial.expect("one of 983,040 lines is asked about", lambda page: "983,040 lines" in page["large"] and page["lines"] == 30720)
    trial.shot("large")
    browser.click("#large button")
    trial.expect("and drawn where one wants it", lambda page: page["lines"] == 983040 and page["large"] == "")
    browser.run("lookPage.put(['axiom F', 'svg', ';' + 'x'.repeat(65535), 'axiom ' + 'F'.repeat(65531)], '')")
    trial.expect("a comment of 65,536 bytes is none, and a line of one more is refused",
                 lambda page: len(page["refused"]) == 1 and page["refused"][0].startswith("refused syntax long"))
    trial.caret_to(3, 65531)
    browser.type("F+F")
    browser.keys("Backspace")
    trial.expect("one can type in it", lambda page: page["script"].split("\n")[3].count("+") == 1 and not page["pending"])
    browser.run("lookPage.put(['axiom F+F', 'svg'], '')")
    trial.expect("and it goes again", lambda page: not page["refused"] and page["lines"] == 2)
    trial.begin(("; " + "x" * 60 + "\n") * 266300 + ISLAND)
    trial.expect("a script of 16 MB is drawn, and not put into the field unasked", lambda page: page["lines"] == 256 and "16,7" in page["question"])
    browser.click("#less_depth")
    trial.expect("its depth can be changed all the same", lambda page: page["lines"] == 32)
    browser.click("#undo")
    trial.expect("and set back", lambda page: page["lines"] == 256)
    browser.click("#question button")
    trial.expect("it is put there where one wants it", lambda page: page["script"].count("\n") == 266305)
    browser.click("#less_depth")
    trial.expect("and can be changed", lambda page: page["lines"] == 32)


def ends(trial: Trial) -> None:
    """tools/look ends at a signal, its program with it."""
    trial.begin(ISLAND)
    trial.expect("the island is drawn", lambda page: page["lines"] == 256)
    trial.browser.click("#more_depth")
    trial.expect("changed", lambda page: page["kept"] == "not saved")
    below = trial.programs()
    begun = time.monotonic()
    trial.look.send_signal(signal.SIGINT)
    status = trial.look.wait(PATIENCE)
    seconds = time.monotonic() - begun
    trial.told("it ends soon", is_within(seconds, 3), seconds)
    told = trial.look.stderr.read()
    left = [number for number in below if os.path.exists("/proc/" + number)]
    trial.told("it ends with status 0 and leaves no program", status == 0 and below and not left, (status, below, left))
    trial.told("and says that the script was not saved", "not saved" in told, told)
    trial.expect("the page says that it has ended", lambda page: "ended" in page["notice"])
    trial.browser.click("#export summary")
    trial.browser.click("#export_script")
    trial.told("and still gives the script", b"depth 3" in trial.browser.downloaded("island.lsys"))


def opening(trial: Trial) -> None:
    """The page is opened in a browser where there is one."""
    trial.end()
    folder = tempfile.mkdtemp(prefix="lsys-look-")
    opener, told = os.path.join(folder, "xdg-open"), os.path.join(folder, "told")
    with open(opener, "w") as file:
        file.write("#!/bin/sh\necho \"$1\" > '%s'\n" % told)
    os.chmod(opener, 0o755)
    words = {**os.environ, "PATH": folder + os.pathsep + os.environ["PATH"], "DISPLAY": ":99"}
    trial.look = subprocess.Popen([os.path.join(TOP, "tools", "look"), "--program", trial.program], env=words, stderr=subprocess.PIPE, text=True)
    assert trial.look.stderr
    line = trial.look.stderr.readline()
    waited(lambda: os.path.exists(told) and os.path.getsize(told), bool)
    with open(told) as file:
        trial.told("its address is opened, and printed", file.read().strip() in line, line)
    shutil.rmtree(folder)


TRIALS = [undoing, killed, two_pages, other_programs, foreign, large, ends, opening]
