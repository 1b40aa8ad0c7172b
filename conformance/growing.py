"""Trials of what the page has for watching growth and comparing: play in one frame, the module under the pointer, large pictures, sheets,
two versions beside each other, and films."""

from __future__ import annotations

import json
import os
import re
import shutil
import subprocess
import time
from collections.abc import Iterator
from typing import Any

from asking import Looking
from patience import stretch
from trial import Trial

TOP = os.path.dirname(os.path.dirname(os.path.abspath(__file__)))
ISLAND = "axiom F-F-F-F\nproduction f: F => F-F+F+FF-F-F+F\nproduction g: G => GG\ndepth 3\nsvg\n"
PLANT = ("lattice hexagonal\naxiom !(2)+A(3)\nproduction a: A(n) : n > 0 => F(n)[+A(n-1)]A(n-1)\nproduction f: F(n) => F(n+1)\nhom up: F(n) => "
         "F(n)+f-\ndepth 3\nsvg\n")
SEEN = ("window.seen = []; new MutationObserver(() => { const value = document.getElementById('level_value').textContent;"
        " if (seen.at(-1) !== value) seen.push(value); }).observe(document.getElementById('level_value'), {childList: true, characterData: true, "
        "subtree: true})")
# A dragon curve of 131,072 segments, one of nearly a million, and one in space.
DRAGON = "axiom L\nproduction l: L => L+R\nproduction r: R => L-R\nhom hl: L => %s\nhom hr: R => %s\ndepth %d\nsvg\n"
LARGE = [("131,072 lines", DRAGON % (("F+F-F-F+" * 8,) * 2 + (12,)), 30), ("a million", DRAGON % (("F" * 60,) * 2 + (14,)), 10),
         ("131,072 in space", "lattice cubic\n" + DRAGON % ("F&F^" * 16, "F^F&" * 16, 12), 30)]
# Moves the picture for two seconds, and gives how many frames a second were drawn.
MOVED = ("""
const { picture } = lookPage, { dataset } = picture.canvas, begun = performance.now(), first = Number(dataset.drawn);
return new Promise(done => {
  const step = () => {
    const spent = performance.now() - begun;
    if (spent > 2000) return done(1000 * (Number(dataset.drawn) - first) / spent);
    %s;
    return requestAnimationFrame(step);
  };
  step();
});
""")
# The middle of a segment as it is seen, from the picture's middle.
MIDDLE = ("const {points, view, canvas} = lookPage.picture, at = 4 * arguments[0];"
          " return [Math.round(view.x + view.scale * (points[at] + points[at + 2]) / 2 - canvas.clientWidth / 2),"
          " Math.round(view.y + view.scale * (points[at + 1] + points[at + 3]) / 2 - canvas.clientHeight / 2)]")
MODULE = ("return [document.getElementById('module').hidden, document.getElementById('module_told').textContent, "
          "document.getElementById('module_way').textContent, lookPage.picture.lit.length]")


def point_at(trial: Trial, segment: int) -> list[Any]:
    """Lets the mouse rest on a segment, and gives what is told of its module."""
    x, y = trial.browser.run(MIDDLE, segment)
    origin = {"element-6066-11e4-a52e-4f735466cecf": trial.browser.element("#picture")}
    trial.browser.act("pointer", [{"type": "pointerMove", "x": 0, "y": 0, "origin": "viewport", "duration": 0},
                                  {"type": "pointerMove", "x": x, "y": y, "origin": origin, "duration": 30}])
    for _ in range(100):
        told = trial.browser.run(MODULE)
        if not told[0]:
            return told
        time.sleep(0.1)
    return told


def growth(trial: Trial) -> None:
    """Play keeps the frame of the last level, by speed, loop and keys."""
    browser = trial.browser
    trial.begin(ISLAND)
    last = trial.expect("the island's last level fits", lambda page: page["lines"] == 2048 and page["fitted"] == "true")
    browser.run("document.getElementById('picture').focus()")
    browser.keys("Home")
    trial.expect("a key leads to level 0, in the frame of the last level",
                 lambda page: page["lines"] == 4 and page["view"][0] == last["view"][0] and page["fitted"] == "true")
    browser.keys(".")
    trial.expect("another one to the next level", lambda page: page["lines"] == 32 and page["view"][:3] == last["view"][:3])
    browser.click("#one_frame")
    trial.expect("without one frame it fits by itself", lambda page: page["lines"] == 32 and page["view"][0] > 2 * last["view"][0])
    browser.click("#one_frame")
    browser.run("document.getElementById('picture').focus()")
    browser.keys("End")
    trial.expect("the last level", lambda page: page["lines"] == 2048 and page["levels"] == "3 of 3")
    browser.click("#loop")
    browser.run("const pace = document.getElementById('pace'); pace.value = 4; pace.dispatchEvent(new Event('input'));" + SEEN)
    browser.run("document.getElementById('picture').focus()")
    browser.keys(" ")
    for _ in range(100):
        seen = browser.run("return window.seen")
        if len(seen) > 8:
            break
        time.sleep(0.1)
    trial.told("in a loop all levels are seen again and again", seen[:8] == ["%d of 3" % level for level in (0, 1, 2, 3)] * 2, seen)
    trial.told("at the speed that was chosen", browser.run("return document.getElementById('pace_value').textContent") == "10 levels a second")
    browser.keys(" ")
    trial.told("the space bar ends it", browser.run("return document.getElementById('play').textContent") == "Play")
    trial.shot("growth")
    trial.is_quiet()


def modules(trial: Trial) -> None:
    """The module under the pointer: where it comes from and what becomes of it."""
    browser = trial.browser
    trial.begin(PLANT)
    trial.expect("the plant is drawn", lambda page: page["lines"] > 0 and page["levels"] == "3 of 3")
    browser.run("document.getElementById('picture').focus()")
    browser.keys("Home", ".")
    trial.expect("level 1", lambda page: page["levels"] == "1 of 3" and page["lines"] == 1)
    told = point_at(trial, 0)
    trial.told("the first line's module, its rule, its image and its child are told", told[1] == "F(3), module 3 of level 1. It came from"
               " `production main a: A(n) : n>0 => F(n)[+A(n-1)]A(n-1)`. It is drawn by hom up. On level 2 it is F(4), by f.", told)
    trial.told("its lineage too", told[2] == "level 0A(3), symbol 2 of the axiomlevel 1F(3), child 0 by a", told)
    trial.expect("it and its child light up", lambda page: browser.run(MODULE)[3] == 2)
    trial.shot("module")
    browser.keys("End")
    page = trial.expect("level 3", lambda page: page["levels"] == "3 of 3" and page["lines"] > 5)
    browser.keys("n")
    trial.expect("a key tells of the first module", lambda page: "module 3 of level 3" in browser.run(MODULE)[1])
    browser.keys("n")
    trial.expect("and of the next one", lambda page: "F(3), module " in browser.run(MODULE)[1] and "level 3" in browser.run(MODULE)[2])
    trial.told("nothing becomes of the last level", "On level" not in browser.run(MODULE)[1], browser.run(MODULE))
    answer = trial.client().ask("GET", "/module?text=%d&level=3&segment=%d" % (browser.run("return lookPage.state.text"), page["lines"]))
    trial.told("of a line that there isn't nothing is told", answer[0] == 404, answer)
    trial.is_quiet()


def plates(trial: Trial) -> None:
    """Large pictures are moved by a kept bitmap, and drawn beside the page."""
    browser = trial.browser
    is_whole = "return lookPage.picture.plate.shown !== null && lookPage.picture.plate.isWhole()"
    for name, script, wanted in LARGE:
        trial.begin(script)
        if name == "a million":
            trial.expect("a million is asked about", lambda page: page["large"])
            browser.click("#large button")
        trial.expect("%s come" % name, lambda page: page["lines"] >= 131072)
        trial.told("and are drawn", trial.seen(is_whole))
        frames = browser.run(MOVED % "picture.move(3 * Math.sin(spent / 200), 3 * Math.cos(spent / 200))")
        trial.told("moved, %s have %d frames a second, and at least %d on a free machine" % (name, frames, wanted),
                   frames >= wanted or frames * stretch() >= wanted)
        frames = browser.run(MOVED % "picture.turnBy(0.01, 0)")
        trial.told("turned, they have %d, and at least 10" % frames, frames >= 10 or frames * stretch() >= 10)
        trial.told("and are whole again", trial.seen(is_whole))
        trial.shot("plate_" + name.replace(" ", "_").replace(",", ""))
    trial.is_quiet()


def alone(program: str, lines: list[str]) -> str:
    """The segments of a script that is run by itself."""
    script = "\n".join([line for line in lines if line not in ("svg", "segments")] + ["segments", ""])
    replies = subprocess.run([program], input=script.encode(), stdout=subprocess.PIPE).stdout.decode()
    return replies[replies.index("segments "):]


def exported(trial: Trial, script: str) -> str:
    """The SVG that tools/export writes of a script."""
    made = os.path.join(trial.folder, "alone.svg")
    subprocess.run([os.path.join(TOP, "tools", "export"), "-", made, "--program", trial.program], input=script.encode(), stderr=subprocess.DEVNULL)
    with open(made) as file:
        return file.read()


def sheets(trial: Trial) -> None:
    """Variants beside each other are those of single runs, and a click takes one."""
    browser = trial.browser
    trial.begin(PLANT)
    trial.expect("the plant is drawn", lambda page: page["lines"] > 0)
    trial.caret_to(1, PLANT.split("\n")[1].index("3"))
    browser.keys("Alt+v")
    shown = browser.run("return [document.getElementById('sheet').open, document.querySelector('#sheet_form select').selectedOptions[0].textContent]")
    trial.told("the number at the cursor is chosen", shown[0] and "A(\u20393\u203a)" in shown[1], shown)
    browser.run("const set = (input, value) => { input.value = value; input.dispatchEvent(new Event('change')); }, [first, second] = "
                "lookPage.sheet.sides;"
                " set(first.inputs[0], 1), set(first.inputs[1], 4), set(first.inputs[2], 1);"
                " set(second.select, [...second.select.options].find(option => option.textContent === 'the depth').value);"
                " set(second.inputs[0], 1), set(second.inputs[1], 3), set(second.inputs[2], 1)")
    browser.click("#sheet_form button")
    trial.expect("twelve pictures are drawn",
                 lambda page: browser.run("return document.getElementById('sheet_told').textContent") == "12 of 12 drawn")
    told = browser.run("return [...document.querySelectorAll('#cells li')].map(item => [item.querySelector('strong').textContent, "
                       "Number(item.querySelector('small').dataset.count),"
                       " item.querySelector('small').textContent])")
    names = ["line 2: %d, depth %d" % (value, depth) for depth in (1, 2, 3) for value in (1, 2, 3, 4)]
    trial.told("each with its values and its counts", [cell[0] for cell in told] == names and all("asked anew" in cell[2] for cell in told), told)
    client, number, wrong = trial.client(), browser.run("return lookPage.sheet.number"), []
    for place, (value, depth) in enumerate((value, depth) for depth in (1, 2, 3) for value in (1, 2, 3, 4)):
        body = client.ask("GET", "/sheet?sheet=%d&cell=%d" % (number, place))[2].decode()
        lines = PLANT.replace("A(3)", "A(%d)" % value).replace("depth 3", "depth %d" % depth).split("\n")
        wrong += [place] * (body.split("\n", 1)[1] != alone(trial.program, lines) or told[place][1] != body.count("\n") - 2)
    trial.told("and equal to a single run", not wrong, wrong)
    trial.shot("sheet")
    taken_from_a_sheet(trial)


def taken_from_a_sheet(trial: Trial) -> None:
    """A click takes a picture's values, and a sheet of too many pictures is refused."""
    browser = trial.browser
    browser.click("#cells li:nth-child(6) button")
    trial.expect("a click takes its values into the script",
                 lambda page: "A(2)" in page["script"] and "depth 2" in page["script"] and not page["pending"])
    browser.click("#undo")
    trial.expect("and one undo takes them back", lambda page: page["script"] == PLANT)
    browser.run("return lookPage.sheet.open()")
    browser.run("lookPage.sheet.sides[0].inputs[1].value = 100000")
    browser.click("#sheet_form button")
    trial.expect("too many are refused with a word",
                 lambda page: "at most 100 pictures" in browser.run("return document.getElementById('sheet_told').textContent"))
    browser.click("#close_sheet")
    trial.is_quiet()


def sheets_written(trial: Trial) -> None:
    """tools/export writes the same pictures as one file (without a page)."""
    trial.begin(PLANT)
    made = os.path.join(trial.folder, "sheet.svg")
    ran = subprocess.run([os.path.join(TOP, "tools", "export"), trial.path, made, "--program", trial.program, "--sheet", "2.2=1..3", "--sheet",
                          "depth=1..2"], stderr=subprocess.PIPE, text=True)
    with open(made) as file:
        text = file.read()
    cells = re.findall(r"<svg x=[^>]* (viewBox=\"[^\"]*\")>\n<g [^>]*>\n(.*?)</g>\n</svg>\n", text, re.S)
    wanted = []
    for depth in (1, 2):
        for value in (1, 2, 3):
            svg = exported(trial, PLANT.replace("A(3)", "A(%d)" % value).replace("depth 3", "depth %d" % depth))
            wanted.append((re.findall("viewBox=\"[^\"]*\"", svg)[0], svg[svg.index("<path"):svg.rindex("</g>")]))
    trial.told("an SVG has six pictures, each that of a single run", ran.returncode == 0 and cells == wanted,
               (ran.stderr, len(cells), cells[:1], wanted[:1]))
    ran = subprocess.run([os.path.join(TOP, "tools", "export"), trial.path, os.path.join(trial.folder, "sheet.png"), "--program", trial.program,
                          "--sheet", "seed=1..2"], stderr=subprocess.PIPE, text=True)
    is_made = os.path.exists(os.path.join(trial.folder, "sheet.png"))
    trial.told("a PNG is written, or it is said by what it would be", is_made if ran.returncode == 0 else "rsvg-convert" in ran.stderr, ran.stderr)
    ran = subprocess.run([os.path.join(TOP, "tools", "export"), trial.path, made, "--program", trial.program, "--sheet", "9.9=1..2"],
                         stderr=subprocess.PIPE, text=True)
    trial.told("a number that there isn't is told", ran.returncode == 2 and "line 9 has no number 9" in ran.stderr, ran.stderr)


def beside(trial: Trial) -> None:
    """A version that is held, beside what the script becomes."""
    browser = trial.browser
    trial.begin(ISLAND.replace("depth 3", "depth 1"))
    trial.expect("the island is drawn", lambda page: page["lines"] == 32)
    browser.keys("Alt+a")
    trial.expect("A is held", lambda page: browser.run("return !document.getElementById('held').hidden && "
                                                       "document.getElementById('held').dataset.lines") == "32")
    before = set(ends(trial.program, ISLAND.replace("depth 3", "depth 1")))
    browser.run("lookPage.put(lookPage.lines().map(line => line.replace('F-F-F-F', 'F-F-F')), '')")
    trial.expect("B is drawn", lambda page: page["lines"] == 24)
    after = set(ends(trial.program, ISLAND.replace("depth 3", "depth 1").replace("F-F-F-F", "F-F-F")))
    wanted = ["%d" % len(before - after), "%d" % len(after - before)]
    trial.expect("what went and what came is counted",
                 lambda page: browser.run("const {went, came} = document.getElementById('beside_told').dataset; return [went, came]") == wanted)
    browser.click("#differences summary")
    trial.expect("the lines that differ are told",
                 lambda page: "-    1  axiom F-F-F-F\n+    1  axiom F-F-F\n" in browser.run(
                     "return document.getElementById('differences_text').textContent"))
    views = browser.run("return [lookPage.picture.view.scale, lookPage.beside.picture.view.scale, lookPage.picture.marked.length, "
                        "lookPage.beside.picture.marked.length]")
    trial.told("both are seen in one frame", views[0] == views[1] and views[2:] == [1, 1], views)
    trial.shot("beside")
    browser.run("lookPage.put(['lattice hexagonal', ...lookPage.lines()], '')")
    trial.expect("on another lattice lines are not compared, which is said",
                 lambda page: "not compared" in browser.run("return document.getElementById('beside_told').textContent"))
    browser.click("#back_to_a")
    trial.expect("back to A", lambda page: page["script"] == ISLAND.replace("depth 3", "depth 1") and page["lines"] == 32)
    browser.click("#let_go")
    trial.told("A is let go", browser.run("return document.getElementById('held').hidden"))
    trial.is_quiet()


def ends(program: str, script: str) -> Iterator[tuple[Any, ...]]:
    """The segments of a script, each the same whichever end it begins at."""
    for line in alone(program, script.split("\n")).split("\n")[1:-1]:
        numbers = tuple(map(int, line.split()))
        yield min(numbers[:3], numbers[3:6]), max(numbers[:3], numbers[3:6]), numbers[6]


def films(trial: Trial) -> None:
    """Films of the levels, and a file that is opened without a server and taken back."""
    browser, found = trial.browser, {}
    trial.begin(ISLAND.replace("depth 3", "depth 2"))
    trial.expect("the island is drawn", lambda page: page["lines"] == 256)
    for kind, name in [("svg", "island_levels.svg"), ("html", "island.html"), ("webm", "island.webm")]:
        browser.click("#film summary")
        browser.click("#film_" + kind)
        found[kind] = browser.downloaded(name)
    trial.told("an SVG has a group for each level, one after another",
               found["svg"].count(b"<animate ") == 3 and found["svg"].count(b"id=\"level_") == 3, found["svg"][:200])
    trial.told("a WebM is recorded", found["webm"].startswith(b"\x1aE\xdf\xa3") and b"webm" in found["webm"][:64] and len(found["webm"]) > 2000,
               found["webm"][:64])
    browser.click("#film summary")
    browser.click("#film_gif")
    if makes_gifs():
        gif = next(filter(None, (browser.downloaded("island.gif") for _ in range(6))), b"")
        trial.told("a GIF of three frames is made", gif.startswith(b"GIF89a") and gif.count(b"\x21\xf9\x04") == 3, gif[:20])
    else:
        trial.expect("where no program makes a GIF, that is said", lambda page: "ImageMagick or ffmpeg" in page["notice"])
    trial.is_quiet()
    single(trial, found["html"])


def makes_gifs() -> bool:
    """Whether there is a program that makes a GIF."""
    magick = shutil.which("magick") or shutil.which("convert")
    says = subprocess.run([magick, "-version"], stdout=subprocess.PIPE, stderr=subprocess.STDOUT).stdout if magick else b""
    return says.startswith(b"Version: ImageMagick") or bool(shutil.which("ffmpeg"))


def single(trial: Trial, page: bytes) -> None:
    """The one HTML file: opened with the network off, and taken back."""
    browser, path = trial.browser, os.path.join(trial.folder, "island.html")
    with open(path, "wb") as file:
        file.write(page)
    browser.tell("Network.enable", {})
    browser.tell("Network.emulateNetworkConditions", {"offline": True, "latency": 0, "downloadThroughput": 0, "uploadThroughput": 0})
    try:
        browser.open("file://" + path)
        told = ("return [document.getElementById('told').textContent, document.getElementById('script').textContent, "
                "document.getElementById('picture').width > 100, performance.getEntriesByType('resource').length]")
        shown = browser.run(told)
        trial.told("with the network off it shows the last level, the script and its replies",
                   shown[0] == "256 lines, level 2 of 2" and "depth 2  ok 36/36\n" in shown[1] and shown[2], shown)
        trial.told("and has asked for nothing", shown[3] == 0, shown)
        browser.click("#less")
        trial.told("a level back", browser.run(told)[0] == "32 lines, level 1 of 2", browser.run(told))
        browser.click("#play")
        time.sleep(1)
        trial.told("it plays", browser.run("return document.getElementById('play').textContent") == "Stop")
        trial.shot("single")
        trial.is_quiet()
    finally:
        browser.tell("Network.emulateNetworkConditions", {"offline": False, "latency": 0, "downloadThroughput": -1, "uploadThroughput": -1})
    script = ISLAND.replace("depth 3", "depth 2")
    browser.open(trial.address_again())
    trial.expect("the page again", lambda page: page["lines"] == 256)
    browser.run("lookPage.openFile(new File([arguments[0]], 'kept.html'))", page.decode())
    trial.expect("Open takes the script of the file back", lambda page: page["name"] == "kept.lsys" and page["script"] == script)
    browser.run("lookPage.openFile(new File(['<p>'], 'other.html'))")
    trial.expect("another HTML file holds none", lambda page: "holds no script" in page["notice"])
    link = browser.run("return import('/web/files.js').then(({linkOf}) => linkOf(arguments[0])).then(link => location.origin + '/' + link)", script)
    for named in (path, link):
        looking = Looking([os.path.join(TOP, "tools", "look"), named, "--program", trial.program, "--no-browser"], trial.folder)
        state = json.loads(looking.get("/state?turn=0"))
        looking.end()
        trial.told("tools/look takes the script of %s" % ("the file" if named == path else "a link"),
                   state["script"] == script and state["path"] is None, state)


def taking_back(trial: Trial) -> None:
    """Files and links that hold no script are refused by tools/look (without a page)."""
    trial.begin(ISLAND)
    with open(os.path.join(trial.folder, "none.html"), "w") as file:
        file.write("<script type=\"application/json\" id=\"lsys\">{</script>")
    for named, word in [("none.html", "holds no script"), ("http://127.0.0.1/#script=@", "holds no script"),
                        ("http://127.0.0.1/#script=AAAA", "holds no script")]:
        ran = subprocess.run([os.path.join(TOP, "tools", "look"), named, "--no-browser", "--program", trial.program], cwd=trial.folder,
                             stderr=subprocess.PIPE, text=True, timeout=60)
        trial.told("%s is refused" % named, ran.returncode == 2 and word in ran.stderr, ran.stderr)


TRIALS = [growth, modules, plates, sheets, sheets_written, beside, films, taking_back]
