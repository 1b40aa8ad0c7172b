"""Trials of what the page tells and how it helps: refused lines, long work, and a server that goes."""

from __future__ import annotations

import os
import signal
import time
from collections.abc import Callable
from typing import Any

from browser import Browser
from patience import PATIENCE, is_within
from trial import Trial

LONG = "axiom A(1)\nproduction a: A(x) < A(y) : x+y*x-y > x*y*x => A(x)A(y)\nproduction b: A(x) => A(x+1)A(x)\ndepth 5\n"
ISLAND = "axiom F-F-F-F\nproduction f: F => F-F+F+FF-F-F+F\ndepth 2\nsvg\n"
TOLD = """
const at = id => document.getElementById(id);
return {to_refused: at('stale').hidden ? '' : at('to_refused').textContent, drawn: at('stale').hidden ? ''
  : at('stale').querySelector('span').textContent,
  busy: at('busy').hidden ? '' : at('busy').textContent, meaning: at('counts_meaning').hidden ? '' : at('counts_meaning').textContent,
  counts: at('counts').textContent, beside: Array.from(document.querySelectorAll('.reply'), each => each.textContent),
    meant: Array.from(document.querySelectorAll('.meant'), each => each.textContent),
  notice: at('notice').hidden ? '' : at('notice').querySelector('span').textContent, question: at('question').hidden ? ''
    : at('question').textContent,
  caret: lookPage.field.caret(), script: lookPage.lines().join('\\n'), lines: Number(at('picture').dataset.lines || -1),
    levels: at('level_value').textContent, depth: at('depth_value').textContent,
  running: (lookPage.state || {}).running, replies: (lookPage.state || {replies: []}).replies.length, stopped: (lookPage.state || {}).stopped,
    pending: lookPage.desk.isPending()};
"""


def expect(trial: Trial, what: str, holds: Callable[[Any], object]) -> Any:
    """Waits until the page tells what it should."""
    told = trial.seen(TOLD, holds)
    trial.told(what, bool(holds(told)), told)
    return told


def refusals(trial: Trial) -> None:
    """What was expected, the line that was meant, and of which lines the picture is."""
    browser = trial.browser
    trial.begin(ISLAND)
    expect(trial, "counts are told in words", lambda told: "asked anew 36 of 36" in told["beside"] and "asked anew 36 of 36" in told["counts"])
    browser.click("#counts")
    expect(trial, "and what they mean on a click", lambda told: "Of the 36 modules that have a rule, 36 had to be asked anew" in told["meaning"])
    browser.click("#counts")
    expect(trial, "which hides it again", lambda told: told["meaning"] == "")
    browser.run("document.querySelectorAll('.reply')[2].click()")
    expect(trial, "also at the reply beside a line", lambda told: "Of the 36 modules" in told["meaning"])
    trial.caret_to(2, 0)
    browser.keys("Delete")
    expect(trial, "while a line is being typed, depth, level and picture stay",
           lambda told: told["to_refused"].startswith("line 3 is refused: did you mean `depth`?") and told["levels"] == "2 of 2"
           and told["depth"] == "2" and told["lines"] == 256)
    expect(trial, "the line that was meant is offered", lambda told: told["meant"] == ["Take: depth 2"])
    expect(trial, "it is told of which script the picture is",
           lambda told: told["drawn"] == "The picture is of the script before line 3 was changed.")
    trial.shot("hint")
    browser.click(".meant")
    expect(trial, "and taken by a click", lambda told: told["script"] == ISLAND and not told["meant"] and told["to_refused"] == "")
    trial.caret_to(4, 0)
    browser.type("F=F+F")
    expect(trial, "a rule in another notation is offered as a production",
           lambda told: told["meant"] == ["Take: production f2: F => F+F"] or told["meant"] == ["Take: production f: F => F+F"])
    expect(trial, "and the picture is of the lines before it", lambda told: told["drawn"] == "The picture is of lines 1 to 4.")
    browser.keys("Alt+Enter")
    expect(trial, "one key takes it", lambda told: "production f" in told["script"].split("\n")[4] and not told["meant"])
    far_below(trial)


def far_below(trial: Trial) -> None:
    """A refused line that isn't seen, and a picture without lines."""
    browser = trial.browser
    rest = "\n".join("; line %d" % number for number in range(3, 201))
    trial.begin("axiom F+F\nproduction f: F => F+F\n%s\ndeph 3\n" % rest)
    expect(trial, "a refused line far below is told in the status", lambda told: told["to_refused"].startswith("line 201 is refused: did you mean"))
    expect(trial, "with the lines that are drawn", lambda told: told["drawn"] == "The picture is of lines 1 to 200." and told["lines"] == 2)
    browser.click("#to_refused")
    expect(trial, "a click goes there", lambda told: told["caret"]["line"] == 200)
    browser.run("lookPage.put(['axiom G+G', 'svg'], '')")
    told = trial.seen("return document.getElementById('told').textContent", lambda told: "only names" in told)
    trial.told("of a letter that draws in other tools it is told",
               told == "0 lines, level 0: only names that begin with F draw; G is a letter like others here", told)
    trial.is_quiet()


# The page notes itself, in seconds, when a change was wanted, when long work was told, when it was to be stopped and when it was.
NOTED = """
window.noted = {};
window.note = what => { noted[what] = noted[what] || performance.now() / 1000; };
const at = id => document.getElementById(id);
new MutationObserver(() => { if (!at('busy').hidden) note('busy'); }).observe(at('busy'), {attributes: true});
new MutationObserver(() => { if (at('notice').textContent.includes('was stopped')) note('stopped'); })
  .observe(at('notice'), {attributes: true, childList: true, characterData: true, subtree: true});
at('cancel').addEventListener('click', () => note('cancel'), true);
"""


def long_work(trial: Trial) -> None:
    """What takes long says so after half a second, and can be stopped; the limit of a million symbols and a refusal by it."""
    browser = trial.browser
    trial.begin(LONG, "--limit", "1000000")
    expect(trial, "a short derivation", lambda told: told["replies"] == 4)
    browser.run(NOTED)
    browser.run("note('wanted'); lookPage.put(lookPage.lines().map(line => line === 'depth 5' ? 'depth 18' : line), '')")
    expect(trial, "what takes long is told, with what it is", lambda told: "Working at `depth 18`" in told["busy"] and "Cancel" in told["busy"])
    trial.shot("busy")
    browser.click("#cancel")
    expect(trial, "Cancel leaves the page at the last answered line",
           lambda told: told["stopped"] == [3, "depth 18"] and told["replies"] == 3 and told["busy"] == "")
    noted = browser.run("return noted")
    seconds = noted["busy"] - noted["wanted"]
    trial.told("it is told after half a second", seconds > 0.45 and is_within(seconds, 1), noted)
    seconds = noted["stopped"] - noted["cancel"]
    trial.told("and stopped within a second", is_within(seconds, 1), noted)
    expect(trial, "and says so", lambda told: "Line 4, `depth 18`, was stopped" in told["notice"])
    expect(trial, "the program is begun again", lambda told: told["running"])
    browser.run("lookPage.put(lookPage.lines().map(line => line === 'depth 18' ? 'depth 6' : line), '')")
    expect(trial, "and goes on", lambda told: told["replies"] == 4 and told["stopped"] is None and not told["pending"])
    browser.run("lookPage.put(['axiom ' + 'A'.repeat(61), 'production a: A => AA', 'depth 13'], '')")
    expect(trial, "a depth of a million symbols, 999,363, is answered",
           lambda told: told["replies"] == 3 and told["beside"][-1].endswith(" of 499,651") and not told["notice"])
    browser.run("lookPage.put(['axiom A', 'production a: A => AA', 'depth 19'], '')")
    expect(trial, "one of more is past the limit, and told so",
           lambda told: "levels 0 to 19 have together more than 1,000,000 symbols" in told["to_refused"] and "the greatest one" in told["to_refused"])
    trial.is_quiet()


# Seconds after which what a control does has ended.
MOMENT = 0.2
# All controls of the page that can be used but those of the notice, the question, the help and the text, and undo and redo: their names, in the
# order in which each has a number from now on.
CONTROLS = """
const all = Array.from(document.querySelectorAll('header, main, footer'), part => Array.from(part.querySelectorAll('button, summary, select, input')))
  .flat();
const used = all.filter(each => !each.disabled && !each.closest('#notice, #question, #help, #editor, dialog')
  && !['undo', 'redo', 'line', 'file'].includes(each.id)
  && (each.offsetParent || each.closest('.menu') && each.closest('.menu').offsetParent));
return used.map((each, number) => { each.dataset.tried = number; return each.id || each.parentElement.id + ' ' + each.textContent.trim(); });
"""
# Uses a control, with nothing told before.
USED = """
lookPage.notice('');
const control = document.querySelector('[data-tried="' + arguments[0] + '"]');
if (control.matches('input, select')) control.dispatchEvent(new Event('change', {bubbles: true}));
else control.click();
for (const menu of document.querySelectorAll('.menu[open]')) menu.open = false;
for (const dialog of document.querySelectorAll('dialog[open]')) dialog.close();
return false;
"""
TELLS_GONE = "return document.getElementById('notice').textContent.includes(\"can't be reached\")"


def silent_controls(trial: Trial, names: list[str]) -> list[str]:
    """The controls at whose use the page doesn't tell that the server is gone, or soon tells something else."""
    silent = []
    for number, name in enumerate(names):
        trial.browser.run(USED, number)
        # What a control does may end a moment later.
        is_told = trial.seen(TELLS_GONE)
        time.sleep(MOMENT)
        if not is_told or not trial.browser.run(TELLS_GONE):
            silent.append(name)
    return silent


def offline(trial: Trial) -> None:
    """The network goes and comes back: the page goes on with what was typed meanwhile."""
    browser = trial.browser
    trial.begin(ISLAND)
    expect(trial, "drawn", lambda told: told["lines"] == 256)

    def is_off(is_offline: bool) -> None:
        browser.tell("Network.emulateNetworkConditions", {"offline": is_offline, "latency": 0, "downloadThroughput": -1, "uploadThroughput": -1})

    browser.tell("Network.enable", {})
    try:
        is_off(True)
        browser.run("lookPage.put(lookPage.lines().map(line => line === 'depth 2' ? 'depth 1' : line), '')")
        expect(trial, "the page says that tools/look can't be reached, and offers the text",
               lambda told: "can't be reached" in told["notice"] and "Save the text as a file" in told["question"])
        expect(trial, "what was typed is in it", lambda told: "depth 1" in told["script"] and told["lines"] == 256)
    finally:
        is_off(False)
    expect(trial, "with the network what was typed is answered, and nothing is told any more",
           lambda told: told["lines"] == 32 and told["notice"] == "" and told["question"].strip() == "" and not told["pending"])
    complaints = [line for line in browser.errors() if "Failed to load resource" not in line and "ERR_INTERNET_DISCONNECTED" not in line]
    trial.told("no error is left uncaught", not complaints, complaints)


def gone(trial: Trial) -> None:
    """The server goes: the page keeps the text, offers it as a file, and each control tells the same."""
    browser = trial.browser
    trial.begin(ISLAND)
    expect(trial, "drawn", lambda told: told["lines"] == 256)
    trial.look.send_signal(signal.SIGKILL)
    trial.look.wait(PATIENCE)
    expect(trial, "the page says that it is gone, and offers the text",
           lambda told: "can't be reached" in told["notice"] and "Save the text as a file" in told["question"])
    browser.click("#question button")
    trial.told("as a file", browser.downloaded("island.lsys") == ISLAND.encode())
    # A person's click: of what a script asks for the browser lets one have the first file alone.
    browser.click("#export summary")
    browser.click("#export_script")
    trial.told("so does Export", browser.downloaded("island.lsys") == ISLAND.encode())
    names = browser.run(CONTROLS)
    silent = silent_controls(trial, names)
    trial.told("each of %d controls tells the same" % len(names), len(names) > 30 and not silent, (silent, names))
    browser.run("lookPage.help.close(); document.getElementById('notice').querySelector('span').textContent = ''")
    browser.keys("Control+s")
    expect(trial, "so does a key", lambda told: "can't be reached" in told["notice"])
    browser.run("lookPage.notice(''); document.getElementById('line').value = 'show'; document.getElementById('ask').requestSubmit()")
    expect(trial, "a query tells the same", lambda told: "can't be reached" in told["notice"])
    expect(trial, "and the text is there", lambda told: told["script"].startswith("axiom F-F-F-F"))
    complaints = [line for line in browser.errors() if "Failed to load resource" not in line and "ERR_CONNECTION_REFUSED" not in line
                  and "beforeunload" not in line]
    trial.told("no error is left uncaught", not complaints, complaints)


# The examples of the help that open another script than theirs, each opened by its button.
EXAMPLES = """
const wrong = [], open = lookPage.help.onOpen;
for (const each of document.querySelectorAll('#help .help-lsys')) {
  let opened = null;
  lookPage.help.onOpen = script => { opened = script; };
  each.querySelector('button').click();
  if (opened === null || opened !== each.querySelector('pre').textContent) wrong.push(each.textContent.slice(0, 60));
}
lookPage.help.onOpen = open;
return wrong;
"""
# The commands and the turtle's signs of which nothing is told.
UNTOLD = """
const commands = Array.from(document.querySelectorAll('#help_commands a'), each => each.textContent), signs = [...'Ff+-&^\\\\/|![]%'];
return [...commands.filter(word => !lookPage.help.tipAt(word, 1).startsWith(word)),
  ...signs.filter(sign => !lookPage.help.tipAt('axiom ' + sign, 6).startsWith(sign + ': '))];
"""


def side_panel(trial: Trial) -> None:
    """The language at the side: commands, a search, examples that open, and what a word is."""
    browser = trial.browser
    trial.begin(ISLAND)
    expect(trial, "drawn", lambda told: told["lines"] == 256)
    browser.click("#help_button")
    found = trial.seen("return [document.getElementById('help').hidden, document.querySelectorAll('#help_commands a').length, "
                       "document.querySelectorAll('#help_text section').length,"
                       " document.querySelectorAll('#help .help-lsys button').length, document.activeElement.id]", lambda found: found[1] > 20)
    trial.told("the panel has all commands, sections and examples",
               found[0] is False and found[1] >= 23 and found[2] > 40 and found[3] > 30 and found[4] == "help_search", found)
    trial.shot("help")
    browser.type("schedule")
    found = browser.run("return [Array.from(document.querySelectorAll('#help_text section')).filter(each => !each.hidden).length, "
                        "document.getElementById('help_found').textContent]")
    trial.told("a search leaves the sections that have it", 0 < found[0] < 20 and found[1] == "%d sections" % found[0], found)
    browser.run("document.querySelectorAll('#help_commands a')[1].click()")
    found = browser.run("const box = document.getElementById('language_production').getBoundingClientRect(); return [Math.round(box.top), "
                        "document.activeElement.textContent]")
    trial.told("a command leads to its section", abs(found[0]) < 60 and found[1] == "production", found)
    browser.run("document.querySelector('#language_production .help-lsys button').click()")
    expect(trial, "an example opens as a new script", lambda told: "production grow" in told["script"] and told["replies"] > 3)
    wrong = browser.run(EXAMPLES)
    trial.told("so does each of them, by its own text", wrong == [], wrong)
    browser.run("document.getElementById('close_help').click()")
    trial.told("Close closes it", browser.run("return document.getElementById('help').hidden"))
    place = browser.run("const box = document.querySelector('.cm-keyword').getBoundingClientRect(); return [Math.round(box.left + 12), "
                        "Math.round(box.top + 8)]")
    browser.act("pointer", [{"type": "pointerMove", "x": place[0], "y": place[1], "origin": "viewport", "duration": 30}])
    told = trial.seen("return document.getElementById('tip').hidden ? '' : document.getElementById('tip').textContent", bool)
    trial.told("a command under the mouse is told", told.startswith("axiom STRING: sets the axiom"), told)
    untold = browser.run(UNTOLD)
    trial.told("as is each command and each sign of the turtle", untold == [], untold)
    line = browser.run("return lookPage.lines()[1]")
    trial.caret_to(1, line.index("F(x*x)"))
    told = trial.seen("return document.getElementById('tip_line').textContent", bool)
    trial.told("and a turtle's letter at the cursor", told.startswith("F: moves by as many steps"), told)
    trial.is_quiet()


PIECES = ["bracketed plant", "context signal", "stochastic", "table schedule", "homomorphism"]


# What is offered, and what stands in the script where a piece of it was put.
COMPLETIONS = "return Array.from(document.querySelectorAll('#completions:not([hidden]) li'), each => each.textContent)"
PUT = ["production left: F @ 1 => F[+F]F", "production right: F @ 1 => F[-F]F", "seed 1"]


def completing(trial: Trial) -> None:
    """Ctrl+Space, with CodeMirror and without."""
    browser = trial.browser
    choices: tuple[list[str], ...] = ([], ["--plain"])
    for words in choices:
        trial.begin("version 2\naxiom AB_x\nproduction winter grow: A => B_x\nproduction stop: B_x => A\n\n", *words)
        expect(trial, "a script %s" % " ".join(words), lambda told: told["replies"] == 4)
        trial.caret_to(4, 0)
        browser.keys("Control+ ")
        found = trial.seen(COMPLETIONS, bool)
        trial.told("commands and pieces of scripts are offered",
                   "axiom command" in found and all(name + " piece of a script" in found for name in PIECES) and len(found) > 25, found)
        browser.type("dr")
        found = trial.seen(COMPLETIONS, lambda found: len(found) < 2)
        trial.told("what is typed narrows them", found == ["drop command"], found)
        trial.shot("completing%s" % "".join(words))
        browser.keys("Enter")
        completed_names(trial)
        browser.run("lookPage.put([...lookPage.lines().slice(0, 4), 'stoch'], ''); lookPage.field.goTo(4, 5)")
        browser.keys("Control+ ")
        trial.seen(COMPLETIONS, bool)
        browser.keys("Enter")
        expect(trial, "a piece of a script is put", lambda told: told["script"].split("\n")[4:] == PUT and told["replies"] == 7)
        trial.is_quiet()


def completed_names(trial: Trial) -> None:
    """Labels, tables and names, after the words that they belong to."""
    browser = trial.browser
    browser.keys("Control+ ")
    found = trial.seen(COMPLETIONS, bool)
    trial.told("labels after drop", found == ["grow label", "stop label"], found)
    browser.keys("Down", "Tab")
    expect(trial, "Tab takes one", lambda told: told["script"].split("\n")[4] == "drop stop")
    browser.run("lookPage.put([...lookPage.lines().slice(0, 4), 'schedule '], ''); lookPage.field.goTo(4, 9)")
    browser.keys("Control+ ")
    trial.told("tables after schedule", trial.seen(COMPLETIONS, bool) == ["main table", "winter table"], browser.run(COMPLETIONS))
    browser.keys("Escape")
    browser.run("lookPage.put([...lookPage.lines().slice(0, 4), 'axiom A'], ''); lookPage.field.goTo(4, 7)")
    browser.keys("Control+ ")
    found = trial.seen(COMPLETIONS, bool)
    trial.told("names after axiom", found == ["A name"], found)
    browser.keys("Escape")
    trial.told("Escape closes the list", browser.run(COMPLETIONS) == [], browser.run(COMPLETIONS))


def beginnings(trial: Trial) -> None:
    """Templates, files that are opened and dropped, and the field that asks."""
    browser = trial.browser
    trial.begin("axiom F\nsvg\n")
    names = browser.run("return Array.from(document.querySelectorAll('#templates button'), each => each.textContent)")
    trial.told("New offers templates", len(names) == 7 and names[0] == "Empty", names)
    for number, name in list(enumerate(names))[1:]:
        browser.run("document.querySelectorAll('#templates button')[%d].click()" % number)
        expect(trial, "%s draws" % name, lambda told: told["lines"] > 3 and told["to_refused"] == "" and not told["pending"])
    path = os.path.join(trial.folder, "opened.lsys")
    with open(path, "wb") as file:
        file.write(b"\xef\xbb\xbfaxiom F+F+F\nsvg\n")
    browser.call("/element/%s/value" % browser.element("#file"), {"text": path})
    expect(trial, "a file is opened, and a mark at its head left out", lambda told: told["script"] == "axiom F+F+F\nsvg\n" and told["lines"] == 3)
    browser.run("const data = new DataTransfer(); data.items.add(new File(['axiom F\\nsvg\\n'], 'dropped.lsys'));"
                " document.body.dispatchEvent(new DragEvent('drop', {dataTransfer: data, bubbles: true, cancelable: true}))")
    expect(trial, "a file that is dropped on the page, too", lambda told: told["script"] == "axiom F\nsvg\n" and told["lines"] == 1)
    ask = "document.getElementById('line').value = '%s'; document.getElementById('ask').requestSubmit()"
    answer = "return document.getElementById('answer').textContent"
    browser.run(ask % "depth 3")
    told = trial.seen(answer, bool)
    trial.told("what is no query is told so, and changes nothing",
               "is no query, and nothing was changed" in told and "depth" not in browser.run(TOLD)["script"], told)
    browser.run(ask % "bounds")
    told = trial.seen(answer, lambda text: text.startswith("bounds"))
    trial.told("a query is answered", told.startswith("bounds 0 0 0 "), told)
    browser.run(ask % "undo")
    expect(trial, "undo undoes", lambda told: told["script"] == "axiom F+F+F\nsvg\n")
    browser.run(ask % "redo")
    expect(trial, "redo does again", lambda told: told["script"] == "axiom F\nsvg\n")
    browser.run(ask % "help")
    trial.told("help opens the help", trial.seen("return !document.getElementById('help').hidden", bool))
    trial.is_quiet()


# What of the page has no name, can't be reached, or is hard to read: each as a word.
ACCESS = """
const found = [];
const seen = element => element.getClientRects().length > 0 && getComputedStyle(element).visibility !== 'hidden';
const nameOf = element => (element.getAttribute('aria-label') || element.textContent || element.title
  || (element.labels && element.labels[0] && element.labels[0].textContent) || '').trim();
for (const element of document.querySelectorAll(
  'button, summary, input, select, textarea, canvas, a, [role=listbox], dialog, aside, section[aria-label]')) {
  if (seen(element) && element.type !== 'file' && !nameOf(element)) found.push('no name: ' + element.outerHTML.slice(0, 90));
  if (seen(element) && element.matches('button, input, select, textarea') && element.tabIndex < 0
    && !element.disabled) found.push('no focus: ' + element.outerHTML.slice(0, 90));
}
const channel = value => { const part = value / 255; return part <= 0.03928 ? part / 12.92 : ((part + 0.055) / 1.055) ** 2.4; };
const light = ([r, g, b]) => 0.2126 * channel(r) + 0.7152 * channel(g) + 0.0722 * channel(b);
const pen = Object.assign(document.createElement('canvas'), {width: 1, height: 1}).getContext('2d', {willReadFrequently: true});
const once = (of, known = new Map()) => key => { if (!known.has(key)) known.set(key, of(key)); return known.get(key); };
const colourOf = once(text => { pen.clearRect(0, 0, 1, 1); pen.fillStyle = text; pen.fillRect(0, 0, 1, 1);
  return [...pen.getImageData(0, 0, 1, 1).data]; });
const groundOf = once(element => { const below = element ? groundOf(element.parentElement) : colourOf('Canvas');
  const [r, g, b, a] = element ? colourOf(getComputedStyle(element).backgroundColor) : below;
  return [r, g, b].map((value, place) => (value * a + below[place] * (255 - a)) / 255); });
const told = new Set();
const compare = (element, colour, text) => {
  const ink = light(colourOf(colour)), ground = light(groundOf(element)), ratio = (Math.max(ink, ground) + 0.05) / (Math.min(ink, ground) + 0.05);
  const key = element.className + colour + ratio.toFixed(1);
  if (ratio < 4.5 && !told.has(key)) { told.add(key); found.push('contrast ' + ratio.toFixed(2) + ': ' + element.className + ' '
    + text.slice(0, 40)); }
};
for (const element of document.querySelectorAll('[placeholder]')) if (seen(element)) compare(element,
  getComputedStyle(element, '::placeholder').color, element.placeholder);
const walker = document.createTreeWalker(document.body, NodeFilter.SHOW_TEXT);
for (let node; (node = walker.nextNode());) {
  const element = node.parentElement;
  if (!node.textContent.trim() || !seen(element) || element.closest(':disabled, .CodeMirror-measure, .unseen, option')
    || element.closest('[hidden]')) continue;
  compare(element, getComputedStyle(element).color, node.textContent);
}
const ids = Array.from(document.querySelectorAll('[id]'), each => each.id);
for (const id of ids) if (ids.indexOf(id) !== ids.lastIndexOf(id)) found.push('twice: ' + id);
return found;
"""


def access(trial: Trial) -> None:
    """Names of controls, focus and contrast, light and dark, at three widths, with a refusal, the help and the gallery."""
    browser = trial.browser
    try:
        for width, height in [(1400, 1000), (800, 1000), (390, 844)]:
            trial.begin("; a comment\n" + ISLAND + "prodution g: G => GG\n")
            browser.size(width, height)
            expect(trial, "a refusal at %d columns" % width, lambda told: told["meant"])
            for is_dark in (False, True):
                browser.dark(is_dark)
                trial.seen("return matchMedia('(prefers-color-scheme: %s)').matches" % ("dark" if is_dark else "light"))
                name = "%d_%s" % (width, "dark" if is_dark else "light")
                trial.shot("refused_" + name)
                found = browser.run(ACCESS)
                trial.told("nothing is without name, focus or contrast: %s" % name, not found, found)
                browser.run("lookPage.help.open()")
                trial.seen("return document.querySelectorAll('#help_text section').length", bool)
                trial.shot("help_" + name)
                found = browser.run(ACCESS)
                trial.told("nor in the help: %s" % name, not found, found)
                wide = browser.run("return document.documentElement.scrollWidth")
                trial.told("nothing is wider than the page: %s" % name, wide <= width, wide)
                browser.run("lookPage.help.close(); document.getElementById('new_menu').open = true")
                trial.shot("menu_" + name)
                found = browser.run(ACCESS)
                trial.told("nor in a menu: %s" % name, not found, found)
                browser.run("document.getElementById('new_menu').open = false; lookPage.openGallery()")
                trial.seen("return document.querySelectorAll('#examples button').length", bool)
                trial.at_rest("[data-name=koch_island]")
                trial.shot("gallery_" + name)
                found = browser.run(ACCESS)
                trial.told("nor in the gallery: %s" % name, not found, found)
                browser.run("document.getElementById('gallery').close()")
            browser.dark(False)
        order = focus_order(browser)
        trial.told("Tab leads through all controls", len(order) > 20 and "help_button" in order and "limit" in order and "line" in order, order)
    finally:
        browser.dark(False)
        browser.tell("Emulation.clearDeviceMetricsOverride", {})


def focus_order(browser: Browser) -> list[str]:
    """The controls that Tab leads to, from the first one on."""
    browser.run("document.getElementById('open_gallery').focus()")
    order: list[str] = []
    for _ in range(60):
        here = browser.run("const here = document.activeElement; return here.id || here.className || here.tagName")
        if here in order[:1] and len(order) > 5:
            break
        order.append(here)
        browser.keys("Escape" if here in ("TEXTAREA",) else "Tab")
        if here == "TEXTAREA":
            browser.keys("Tab")
    return order


TRIALS = [refusals, long_work, side_panel, completing, beginnings, access, offline, gone]
