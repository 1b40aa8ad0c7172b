// What the page tells of a script's state: counts, refused lines, what the picture is of, what stands at the cursor,
// questions and words.

import { GONE } from "/web/desk.js";
import { QUERIES, beginOfNames, columnOf, countsMeaning, placeOf, wordOf } from "/web/language.js";
import { ASKED_ABOVE } from "/web/picture.js";

const page = globalThis.document;
const at = id => page.getElementById(id);
const numeral = number => number.toLocaleString("en");

export class Telling {
    // What takes long is told, with what it is and for how long, and can be stopped.
    tellBusy(told) {
        at("busy").hidden = told === null;
        if (told === null) return;
        const what = told.line ? "Working at `" + told.line + "`, " + Math.round(told.seconds) + " s so far."
            : "Working ..";
        at("busy").querySelector("span").textContent = what;
    }

    // What a person stopped, until the script is another one.
    tellStopped(stopped) {
        const key = JSON.stringify(stopped);
        if (key === this.stoppedTold) return;
        const before = this.stoppedWord, [line, text] = stopped || [null, ""];
        this.stoppedTold = key;
        this.stoppedWord = !stopped ? "" : line === null
            ? "`" + text + "` was stopped. The script is answered; the picture stays as it was."
            : "Line " + (line + 1) + ", `" + text
                + "`, was stopped. The lines before it are answered: change it to go on.";
        if (stopped || before && at("notice").querySelector("span").textContent === before)
            this.notice(this.stoppedWord);
    }

    tellCounts(counts) {
        const [asked, all] = counts || [0, 0];
        at("bar").style.width = (all ? 100 * asked / all : 0) + "%";
        at("counts_text").textContent = counts ? "last edit: asked anew " + numeral(asked) + " of " + numeral(all)
            : "no edit yet";
        at("counts").dataset.counts = counts ? asked + "/" + all : "";
        if (!at("counts_meaning").hidden) this.tellMeaning(null, true);
    }

    // What the counts of a reply, or those of the last edit, mean; once more, hides it.
    tellMeaning(reply, stays = false) {
        const counts = reply ? /^ok (\d+)\/(\d+)$/.exec(reply).slice(1)
            : (at("counts").dataset.counts || "0/0").split("/");
        const text = countsMeaning(...counts), isShown = !at("counts_meaning").hidden
            && at("counts_meaning").textContent === text && !stays;
        at("counts_meaning").hidden = isShown;
        at("counts_meaning").textContent = text;
        at("counts").setAttribute("aria-expanded", String(!isShown));
    }

    // What helps where lines are refused, by their numbers.
    hints() {
        return new Map(this.state.hints.map(([line, told, meant]) => [line, { told, meant }]));
    }

    // The refused lines, each [number, reply].
    refused() {
        return this.state.replies.filter(([, reply]) => reply.startsWith("refused "));
    }

    // Whether the only refused line is the one that is being typed.
    isTyping() {
        const refused = this.refused();
        return refused.length === 1 && this.state.refused === 1 && this.field.hasFocus()
            && this.field.caret().line === refused[0][0];
    }

    tellNotice(state) {
        if (this.noticed !== null && state.notice[0] > this.noticed) this.notice(state.notice[1]);
        else if (this.noticed === null && state.notice[0]) this.notice(state.notice[1]);
        this.noticed = state.notice[0];
        const isOfFile = this.question === "file";
        if (state.asked && !isOfFile) {
            const word = "Another program changed the file, and this text isn't saved.";
            this.ask(word, "Take the file's text", () => this.settle(true), "Keep this text", () => this.settle(false),
                "file");
        } else if (!state.asked && isOfFile) {
            this.ask(null);
        }
    }

    // Shows a word. While the server is gone, that is the word, whatever else there were to tell.
    notice(word) {
        at("notice").hidden = !word;
        at("notice").querySelector("span").textContent = word && this.isGone ? GONE : word;
    }

    // Asks for one of two deeds; without a word, asks nothing any more.
    ask(word, first, onFirst, second, onSecond, kind = "") {
        this.question = word ? kind : "";
        at("question").hidden = !word;
        at("question").querySelector("span").textContent = word || "";
        const buttons = at("question").querySelectorAll("button");
        for (const [button, text, deed] of [[buttons[0], first, onFirst], [buttons[1], second, onSecond]]) {
            button.textContent = text || "";
            button.hidden = !text;
            button.onclick = () => {
                this.ask(null);
                deed();
            };
        }
    }

    askOfClash() {
        const settle = takesOther => () => this.desk.settleClash(takesOther);
        this.ask("The script was changed elsewhere while this page changed it.", "Take the other text", settle(true),
            "Put this page's text", settle(false));
    }

    askOfNewDesk() {
        this.ask("tools/look was started anew, and its terminal has the address of a new page. This page's text is "
            + "still here: Export has it.", null, null, null, null);
    }

    tellGone(isGone) {
        if (isGone === this.isGone) return;
        this.isGone = isGone;
        if (isGone) this.notice(GONE);
        else if (at("notice").querySelector("span").textContent === GONE) this.notice("");
        if (isGone) this.askToKeep();
        else if (this.question === "gone") this.ask(null);
    }

    // Offers the text as a file as long as the server is gone.
    askToKeep() {
        this.ask("The text can be kept as a file.", "Save the text as a file", () => {
            this.exports.export("script");
            this.askToKeep();
        }, null, null, "gone");
    }

    // The pictures that the script's own lines ask for, where there are several.
    tellWhich() {
        const lines = this.state.pictures;
        at("which").hidden = lines.length < 2;
        const select = at("which").querySelector("select"), chosen = select.value;
        const names = lines.map(line => ["" + line, "line " + (line + 1)]);
        if (select.dataset.lines !== lines.join()) {
            select.dataset.lines = lines.join();
            select.replaceChildren(...[["", "the end"], ...names].map(([value, text]) => new Option(text, value)));
            select.value = lines.includes(Number(chosen)) && chosen !== "" ? chosen : "";
        }
    }

    line() {
        const { value } = at("which").querySelector("select");
        return at("which").hidden || value === "" ? null : Number(value);
    }

    tellPicture() {
        this.beside.tell();
        const { data, large, refusal } = this.picture;
        const isStale = Boolean(this.state.refused && data && this.drawnFrom
            && this.drawnFrom.text !== this.state.text);
        at("picture").classList.toggle("stale", isStale || Boolean(large));
        this.tellRefused(data);
        at("large").hidden = !large;
        if (large)
            at("large").querySelector("span").textContent = "This picture has " + numeral(large.count)
                + " lines, more than " + numeral(ASKED_ABOVE) + ".";
        const count = data ? numeral(data.count) + (data.count === 1 ? " line" : " lines") : "";
        const isElsewhere = () => this.lines().some(line => !line.startsWith(";")
            && /[^A-Za-z_]G/.test(line.slice(beginOfNames(line))));
        const none = data && data.count === 0 ? ": only names that begin with F draw"
            + (isElsewhere() ? "; G is a letter like others here" : "") : "";
        const word = refusal ? "no picture: " + refusal : data ? count + ", level " + data.level + none : "";
        at("told").textContent = word;
        at("picture").setAttribute("aria-label", word || "no picture yet");
    }

    // The first refused line, to go to, and of which lines the picture is.
    tellRefused(data) {
        const [first] = this.refused();
        at("stale").hidden = !first;
        if (!first) return;
        const [line, reply] = first, hint = this.hints().get(line);
        const told = "line " + numeral(line + 1) + " is refused: " + (hint && hint.told || reply);
        if (at("to_refused").textContent !== told) at("to_refused").textContent = told;
        at("to_refused").onclick = () => this.field.goTo(line,
            Math.max(0, placeOf(this.lines()[line] || "", columnOf(reply))));
        const more = this.state.refused > 1 ? "So are " + numeral(this.state.refused - 1) + " more. " : "";
        at("stale").querySelector("span").textContent = more
            + (data ? "The picture is of " + this.drawnLines(line) + "." : "");
    }

    // Of which lines the picture is, where line number `first` is the first that is refused.
    drawnLines(first) {
        const front = first === 0 ? "no line" : first === 1 ? "line 1" : "lines 1 to " + numeral(first);
        const isCommand = line => line.trim() !== "" && !line.startsWith(";") && !QUERIES.includes(wordOf(line));
        const { text, lines } = this.drawnFrom || { text: 0, lines: [] };
        if (text === this.state.text)
            return lines.slice(first + 1).some(isCommand) ? "all lines but those that are refused" : front;
        const isFront = lines.slice(0, first).join("\n") === this.lines().slice(0, first).join("\n")
            && !lines.slice(first).some(isCommand);
        return isFront ? front : "the script before line " + numeral(first + 1) + " was changed";
    }

    // What stands at the cursor: a number, and a word or a turtle's sign that is told.
    tellCaret() {
        this.tellNumber();
        const { line, column } = this.field.caret(), text = this.isHeld ? "" : this.lines()[line] || "";
        at("tip_line").textContent = this.help.tipAt(text, column);
    }

    // What stands under the mouse.
    tellHover(event) {
        const place = this.isHeld ? null : this.field.placeUnder(event), text = place
            ? this.help.tipAt(this.lines()[place.line] || "", place.column) : "";
        at("tip").hidden = !text;
        at("tip").textContent = text;
        at("tip").style.left = Math.max(4, Math.min(event.clientX + 12,
            globalThis.innerWidth - at("tip").offsetWidth - 8)) + "px";
        at("tip").style.top = event.clientY + 18 + "px";
    }
}
