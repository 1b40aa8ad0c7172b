"""Trials of the page by itself: typing, dragged numbers, levels, several pictures, space, the plain field, places of refusals, and widths."""

from __future__ import annotations

import os
import random

from trial import ISLAND, Trial


def walk(trial: Trial) -> None:
    """From the gallery to a file, by the page alone."""
    browser = trial.browser
    trial.begin(None)
    trial.expect("without a script the gallery is open", lambda page: page["gallery"])
    place = trial.at_rest("[data-name=koch_island]")
    trial.told("the first example is seen without scrolling", place[0] >= 0 and place[1] <= place[2], place)
    trial.shot("gallery")
    browser.click("[data-name=koch_island]")
    trial.expect("the island has 256 lines", lambda page: page["lines"] == 256 and not page["gallery"] and "256 lines" in page["told"])
    browser.click("#less_depth")
    trial.expect("with less depth it has 32", lambda page: page["lines"] == 32 and "depth 1" in page["script"] and page["depth"] == "1")
    trial.caret_to(3, "production f: F => F-F+F".index("+") + 1)
    browser.keys("Backspace", "-")
    before = trial.expect("a + of the production is a -",
                          lambda page: "F => F-F-F+FF" in page["script"] and page["counts"] == "4/4" and page["lines"] == 32 and not page["pending"])
    browser.run("document.getElementById('picture').focus()")
    browser.keys("+", "Right")
    trial.expect("it is seen from nearer and moved", lambda page: page["view"][0] > 1.2 * before["view"][0] and page["fitted"] == "false")
    browser.click("#turn_right")
    trial.expect("and turned", lambda page: page["view"][5] > 0.2)
    trial.shot("walk")
    browser.click("#export summary")
    browser.click("#export_svg")
    drawn = browser.downloaded("koch_island.svg")
    trial.told("an SVG comes", drawn.startswith(b"<svg ") and drawn.count(b"<path ") == 1, drawn[:200])
    browser.keys("Control+s")
    browser.prompted("mine.lsys")
    trial.expect("the script is saved by a name", lambda page: page["kept"] == "saved" and page["name"] == "mine.lsys")
    with open(os.path.join(trial.folder, "mine.lsys")) as file:
        trial.told("its file has the text", "F => F-F-F+FF" in file.read())


def typing(trial: Trial) -> None:
    """Lines that are typed, refused, mended and gone."""
    browser = trial.browser
    trial.begin(ISLAND)
    trial.expect("the island is drawn", lambda page: page["lines"] == 256 and "ok 36/36" in page["replies"] and page["counts"] == "36/36")
    trial.caret_to(1, 100)
    browser.type("(")
    trial.expect("a wrong line is refused, and the picture stays", lambda page: page["lines"] == 256 and page["stale"] and page["refused"]
                        and page["refused"][0].startswith("refused syntax token 35: "))
    trial.shot("refused")
    colour = browser.run("return [getComputedStyle(document.querySelector('.caret-reply')).color, "
                         "getComputedStyle(document.querySelector('#picture')).opacity]")
    trial.told("the refusal is red and the picture grey", colour == ["rgb(176, 0, 32)", "0.3"], colour)
    places = browser.run("const sign = document.querySelector('.caret-sign').getBoundingClientRect(), cm = lookPage.field.field, box = "
                         "cm.charCoords({line: 1, ch: 33}, 'window');"
                         "return [sign.left, box.right, sign.top, box.top]")
    trial.told("the caret is under its column", abs(places[0] - places[1]) < 6 and places[2] > places[3], places)
    browser.keys("Backspace")
    trial.expect("the mended line's reply is another one",
                 lambda page: not page["refused"] and not page["stale"] and "ok 0/36" in page["replies"] and page["lines"] == 256)
    browser.keys("Backspace", "Backspace")
    trial.expect("the changed line is sent alone", lambda page: page["how"] == "edited" and page["counts"] == "32/32"
                 and [line for line, _ in page["sent"]] == ["production f: F => F-F+F+FF-F-F"])
    trial.caret_to(2, 0)
    browser.keys("Shift+Down", "Delete")
    trial.expect("a line that is gone is dropped", lambda page: page["sent"] == [["drop g", "ok 0/32"]] and page["how"] == "edited"
                 and len(page["replies"]) == 4)
    typed_at_the_end(trial)


def typed_at_the_end(trial: Trial) -> None:
    """Lines after the others, a query below the text, and a line that is saved at once."""
    browser = trial.browser
    trial.caret_to(3, 10)
    browser.keys("Enter")
    browser.type("depth 3")
    browser.keys("Enter")
    browser.type("svg")
    trial.expect("lines at the end are asked in turn", lambda page: page["lines"] > 1000 and page["told"].endswith("level 3"))
    browser.click("#line")
    browser.type("string 0")
    browser.keys("Enter")
    trial.expect("a query is answered", lambda page: page["answer"].strip() == "F-F-F-F")
    trial.caret_to(0, 100)
    browser.keys("+", "F", "Control+s")
    trial.expect("what was typed just before is saved",
                 lambda page: page["kept"] == "saved" and open(trial.path).read() == page["script"] and "axiom F-F-F-F+F\n" in page["script"])
    trial.is_quiet()


def dragging(trial: Trial) -> None:
    """A number that is pulled."""
    browser = trial.browser
    trial.begin("axiom F(3)+F(2)\ndepth 0\nsvg\n")
    trial.expect("two lines", lambda page: page["lines"] == 2)
    box = browser.run("const box = document.querySelector('.cm-number').getBoundingClientRect(); return [Math.round(box.left + box.width / 2), "
                      "Math.round(box.top + box.height / 2)]")
    browser.drag(box, [(8, 0)] * 5)
    trial.expect("a number is dragged to 8", lambda page: page["script"].startswith("axiom F(8)+F(2)") and page["how"] == "edited"
                 and "ok 0/0" in page["replies"] and not page["pending"])
    browser.keys("Control+z")
    trial.expect("one undo takes the whole drag back", lambda page: page["script"].startswith("axiom F(3)+F(2)"))
    trial.caret_to(0, 8)
    browser.keys("Alt+Up", "Alt+Up")
    trial.expect("keys change it", lambda page: page["script"].startswith("axiom F(5)+F(2)"))
    browser.run("const slider = document.getElementById('number_slider'); slider.value = 7; slider.dispatchEvent(new Event('input'))")
    trial.expect("a slider changes it", lambda page: page["script"].startswith("axiom F(7)+F(2)"))
    browser.run("lookPage.put(['lattice hexagonal', ...lookPage.lines()], '')")
    trial.expect("the lattice is another one", lambda page: page["lattice"] == "hexagonal")
    browser.run("for (let n = 0; n < 200; n++) lookPage.setNumber(1, 8, n)")
    trial.expect("of two hundred values the last one stays",
                 lambda page: page["script"].split("\n")[1] == "axiom F(199)+F(2)" and not page["pending"])


def levels(trial: Trial) -> None:
    """Levels, depth and play."""
    browser = trial.browser
    trial.begin(ISLAND.replace("depth 2", "depth 3"))
    trial.expect("three levels", lambda page: page["lines"] == 2048 and page["levels"] == "3 of 3")
    browser.click("#less_level")
    browser.click("#less_level")
    trial.expect("level 1 is seen", lambda page: page["lines"] == 32 and page["levels"] == "1 of 3" and "depth 3" in page["script"])
    browser.click("#string_pane summary")
    trial.expect("its string is read", lambda page: page["string"].startswith("F-F+F+FF-F-F+F-F-F+F"))
    browser.click("#more_level")
    browser.click("#more_level")
    trial.expect("a long string is cut with a word", lambda page: page["cut"].startswith("cut") or len(page["string"]) < 20000)
    browser.click("#less_level")
    browser.click("#less_depth")
    browser.click("#less_depth")
    trial.expect("a level past the depth is none any more", lambda page: page["levels"] == "1 of 1" and page["lines"] == 32)
    browser.click("#more_depth")
    browser.click("#more_depth")
    trial.expect("more depth", lambda page: page["lines"] == 2048)
    browser.run("window.seen = []; let last = document.getElementById('level_value').textContent;"
                " new MutationObserver(() => { const value = document.getElementById('level_value').textContent; if (last !== value) seen.push(last "
                "= value); }).observe(document.getElementById('level_value'), {childList: true, characterData: true, subtree: true})")
    browser.keys("Alt+p")
    seen = trial.seen("return window.seen", lambda seen: seen[-1:] == ["3 of 3"])
    trial.told("play goes from level 0 to the depth", seen == ["0 of 3", "1 of 3", "2 of 3", "3 of 3"], seen)
    trial.expect("and ends there", lambda page: page["lines"] == 2048)
    browser.run("lookPage.put(lookPage.lines().map(line => line === 'svg' ? 'string 64' : line), '')")
    trial.expect("a level that there isn't is refused", lambda page: page["refused"] and page["refused"][0].startswith("refused level 8"))
    browser.run("lookPage.put(lookPage.lines().map(line => line === 'string 64' ? 'string' : line.replace('depth 3', 'depth 4')), '')")
    trial.expect("a long reply is cut beside its line",
                 lambda page: page["lines"] == 16384 and any(reply.endswith(" ..") for reply in page["replies"]))


def pictures(trial: Trial) -> None:
    """A script whose own lines ask for several pictures."""
    browser = trial.browser
    trial.begin(ISLAND.replace("depth 2", "depth 1\nsvg\ndepth 2"))
    trial.expect("the last one is seen", lambda page: page["lines"] == 256 and page["replies"].count("a picture of 32 lines") == 1)
    browser.run("const select = document.querySelector('#which select'); select.value = '4'; select.dispatchEvent(new Event('change'))")
    trial.expect("another one is chosen", lambda page: page["lines"] == 32)
    browser.run("const select = document.querySelector('#which select'); select.value = ''; select.dispatchEvent(new Event('change'))")
    trial.expect("and the end again", lambda page: page["lines"] == 256)
    browser.click("#line")
    browser.type("seed 7")
    browser.keys("Enter")
    trial.expect("a line below the text that is no query changes nothing, and is told so",
                 lambda page: "is no query, and nothing was changed" in page["answer"] and "seed" not in page["script"])


def space(trial: Trial) -> None:
    """The picture in space."""
    browser = trial.browser
    trial.begin("lattice cubic\naxiom F&F^F+F\ndepth 0\nsvg\n")
    before = trial.expect("four lines in space", lambda page: page["lines"] == 4 and page["lattice"] == "cubic")
    browser.run("document.getElementById('picture').focus()")
    browser.keys("Shift+Right", "Shift+Down")
    trial.expect("keys turn it", lambda page: page["view"][3] > before["view"][3] and page["view"][4] > before["view"][4])
    turned = trial.page()["view"][3]
    browser.drag((0, 0), [(30, 0), (30, 0)], "#picture")
    trial.expect("the mouse turns it", lambda page: page["view"][3] > turned + 0.2)
    browser.keys("0")
    trial.expect("all of it is seen again", lambda page: page["view"][3] == before["view"][3] and page["fitted"] == "true")
    browser.run("for (const lattice of ['square', 'cubic', 'hexagonal', 'cubic', 'square', 'cubic', 'hexagonal'])"
                " lookPage.put(['lattice ' + lattice, ...lookPage.lines().slice(1)], '')")
    trial.expect("of many lattices the last one is seen", lambda page: page["lattice"] == "hexagonal" and not page["pending"] and page["lines"] == 4)
    browser.run("window.count = 0; window.timer = setInterval(() => { count++;"
                " lookPage.put(['lattice ' + (count % 2 ? 'cubic' : 'square'), 'axiom ' + 'F&'.repeat(count % 7 + 1), 'depth 0', 'svg'], '');"
                " if (count === 40) clearInterval(timer); }, 5)")
    trial.seen("return window.count === 40")
    trial.expect("a race ends with what was wanted last",
                 lambda page: page["lattice"] == "square" and page["lines"] == 40 % 7 + 1 and not page["pending"])
    trial.is_quiet()


def plain(trial: Trial) -> None:
    """The plain field."""
    browser = trial.browser
    trial.begin(ISLAND, "--plain")
    trial.expect("the island is drawn, its replies below",
                 lambda page: page["lines"] == 256 and "line 4: asked anew 36 of 36" in page["plain"] and "1\n2\n3" in page["plain"])
    trial.caret_to(1, 33)
    browser.type("(")
    trial.expect("a refusal with its line and a caret",
                 lambda page: page["stale"] and "refused syntax token 35" in page["plain"] and "\n" + " " * 34 + "^" in page["plain"])
    colour = browser.run("return getComputedStyle(document.querySelector('.plain-replies .refused')).color")
    trial.told("in red", colour == "rgb(176, 0, 32)", colour)
    trial.shot("plain")
    browser.keys("Control+z")
    trial.expect("undone", lambda page: page["script"] == ISLAND and not page["stale"] and page["lines"] == 256)
    trial.caret_to(3, 7)
    browser.keys("Alt+Down")
    trial.expect("a number by keys", lambda page: page["lines"] == 32)
    browser.click("#more_depth")
    trial.expect("and by the page", lambda page: page["lines"] == 256 and page["kept"] == "saved")


def places(trial: Trial) -> None:
    """A refusal within a line that takes several rows, and after signs of several bytes."""
    browser = trial.browser
    trial.begin("axiom %s$F\n" % ("F" * 300))
    trial.expect("it is refused", lambda page: page["refused"] and page["refused"][0].startswith("refused syntax byte 307"))
    found = browser.run("const part = document.querySelector('.caret-part').textContent, front = "
                        "document.querySelector('.caret-front').textContent; return part[front.length]")
    trial.told("the part around it stands above the caret, under the sign that is wrong", found == "$", found)
    trial.shot("long")
    browser.run("lookPage.put([';', 'axiom F\u00e9\u20ac$'], '')")
    trial.expect("a sign of two bytes is refused", lambda page: page["refused"] and page["refused"][0].startswith("refused syntax byte 8")
                 and page["script"].endswith("F\u00e9\u20ac$"))
    trial.begin("")
    with open(trial.path, "wb") as file:
        file.write(b"; \xff\xfe is no text\naxiom F+F\nsvg\n")
    trial.expect("bytes that are no text are taken", lambda page: page["lines"] == 2)
    browser.run("lookPage.gallery.open && document.getElementById('gallery').close(); lookPage.put(lookPage.lines().map(line => line.replace('F+F', "
                "'F')), '')")
    trial.expect("changed", lambda page: page["lines"] == 1 and not page["pending"])
    browser.keys("Control+s")
    trial.expect("and stay what they are", lambda page: open(trial.path, "rb").read() == b"; \xff\xfe is no text\naxiom F\nsvg\n")


# The replies that don't stand at the end of their line as the state has them.
BESIDE = """
const field = lookPage.field.field, wanted = new Map(lookPage.state.replies), wrong = [];
for (const mark of field.getAllMarks().filter(mark => mark.type === 'bookmark')) {
  const {line, ch} = mark.find(), reply = wanted.get(line), text = mark.widgetNode.textContent, refused = reply && reply.startsWith('refused ');
  const isRed = mark.widgetNode.outerHTML.includes('reply refused');
  if (reply === undefined || ch !== field.getLine(line).length || isRed !== Boolean(refused)) wrong.push([line, ch, text, reply]);
  wanted.delete(line);
  const below = (field.lineInfo(line).widgets || []).map(each => each.node.querySelector('.caret-reply').textContent.split(':')[0]);
  if (JSON.stringify(below) !== JSON.stringify(refused ? [reply] : [])) wrong.push([line, below, reply]);
}
return {wrong: [...wrong, ...wanted], text: field.getValue(), known: lookPage.desk.lines.join('\\n')};
"""


def shown(trial: Trial) -> None:
    """Random changes in the text field: the server has the text, and each reply stands beside its line."""
    browser, choice = trial.browser, random.Random(3)
    trial.begin(ISLAND)
    trial.expect("the island is drawn", lambda page: page["lines"] == 256)
    wrong = []
    for turn in range(60):
        line, text = choice.randrange(8), choice.choice(["F", "(", "+", "\\n", "\\nsvg\\n", "9", " ", "$", "", "", "", "", "hom h: F => FF\\n"])
        end = "{line, ch}" if text else "{line: Math.min(last, line + %d), ch}" % choice.randrange(2)
        browser.run("const field = lookPage.field.field, last = field.lastLine(), line = Math.min(%d, last);"
                    " const ch = Math.min(%d, field.getLine(line).length); field.replaceRange('%s', {line, ch}, %s)"
                    % (line, choice.randrange(30), text, end))
        if turn % 7 == 6:
            browser.click(choice.choice(["#undo", "#more_depth", "#less_depth"]) if turn < 50 else "#undo")
        trial.seen("return !lookPage.desk.isPending() && !lookPage.desk.isSending")
        found = browser.run(BESIDE)
        if found["wrong"] or found["text"] != found["known"]:
            wrong.append(found)
    trial.told("of 60 changes all are known, and all replies are at their lines", not wrong, wrong[:1])
    trial.is_quiet()


def widths(trial: Trial) -> None:
    """The page at three widths, light and dark."""
    browser = trial.browser
    try:
        for width, height in [(1400, 1000), (800, 1000), (390, 844)]:
            trial.begin(ISLAND)
            browser.size(width, height)
            trial.expect("drawn at %d columns" % width, lambda page: page["lines"] == 256)
            found = browser.run("return [document.documentElement.scrollWidth, innerWidth, ...Array.from(document.querySelectorAll('button, "
                                "summary, input'))"
                                ".filter(each => each.offsetParent && (each.getBoundingClientRect().right > innerWidth + 1 || "
                                "each.getBoundingClientRect().left < -1))"
                                ".map(each => each.id)]")
            trial.told("nothing is wider than %d columns" % width, found[0] <= width and len(found) == 2, found)
            trial.shot("page_%d" % width)
            browser.dark(True)
            trial.seen("return matchMedia('(prefers-color-scheme: dark)').matches")
            trial.shot("page_%d_dark" % width)
            browser.dark(False)
            browser.click("#open_gallery")
            trial.seen("return document.querySelector('[data-name=koch_island]')")
            place = trial.at_rest("[data-name=koch_island]")
            trial.told("the gallery's first example is seen at %d columns" % width, place[0] >= 0 and place[1] <= place[2], place)
            trial.shot("gallery_%d" % width)
    finally:
        browser.tell("Emulation.clearDeviceMetricsOverride", {})


TRIALS = [walk, typing, dragging, levels, pictures, space, plain, places, shown, widths]
