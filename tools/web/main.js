// The page: a script and what the program says of it.

import { Picture } from "/web/picture.js";
import { Beside } from "/web/beside.js";
import { Busy, Desk, GONE, post } from "/web/desk.js";
import { Completion } from "/web/completing.js";
import { CodeMirrorField } from "/web/field_codemirror.js";
import { Exports } from "/web/exports.js";
import { Gallery } from "/web/gallery.js";
import { Growth } from "/web/growth.js";
import { Help } from "/web/help.js";
import { History } from "/web/history.js";
import { Levels } from "/web/levels.js";
import { PlainField } from "/web/field_plain.js";
import { QUERIES, numberAt, wordOf } from "/web/language.js";
import { Sheet } from "/web/sheet.js";
import { TEMPLATES, heldBy, listenForFiles } from "/web/starting.js";
import { Film } from "/web/film.js";
import { Telling } from "/web/telling.js";
import { scriptOf } from "/web/files.js";

const page = globalThis.document;
const at = id => page.getElementById(id);
// A longer script is put into the field only where a person says so.
const LONG_SCRIPT = 1000000;
const numeral = number => number.toLocaleString("en");

class Page extends Telling {
    constructor() {
        super();
        this.state = null;
        this.history = null;
        this.isHeld = false;
        this.noticed = null;
        this.desk = new Desk({ onState: state => this.take(state), onScript: script => this.takeScript(script),
            onClash: () => this.askOfClash(),
            onGone: isGone => this.tellGone(isGone), onWrong: word => this.notice(word),
                onNewDesk: () => this.askOfNewDesk() });
        const handlers = { onChange: lines => this.change(lines, "typing"), onCaret: () => this.tellCaret(),
            onUndo: () => this.undo(), onRedo: () => this.redo(),
            onDrag: (line, column) => this.dragOf(line, column), onCounts: reply => this.tellMeaning(reply),
                onMeant: (line, meant) => this.takeMeant(line, meant) };
        this.field = globalThis.CodeMirror ? new CodeMirrorField(at("editor"), handlers)
            : new PlainField(at("editor"), handlers);
        this.picture = new Picture(at("picture"), () => this.tellPicture());
        this.levels = new Levels(() => this.lines(), lines => this.put(lines, "depth"), () => this.seeLevel());
        this.exports = new Exports(this);
        this.growth = new Growth(() => ({ state: this.state, levels: this.levels, picture: this.picture,
            line: () => this.line() }));
        this.gallery = new Gallery(name => this.open({ name }));
        this.beside = new Beside(() => ({ picture: this.picture, lines: () => this.lines() }),
            lines => this.put(lines, ""));
        this.picture.onDrawn = () => this.beside.picture && this.beside.held && this.beside.picture.draw();
        this.film = new Film(() => ({ isGone: this.isGone, state: this.state, desk: this.desk, growth: this.growth,
            pace: this.levels.pace() }), deed => this.deed(deed), word => this.notice(word));
        this.sheet = new Sheet({ desk: this.desk, lines: () => this.lines(), caret: () => this.field.caret(),
            onTaken: lines => this.put(lines, "") });
        this.help = new Help(script => this.open({ name: "from the help", script }));
        this.completion = new Completion(() => ({ lines: this.lines(), caret: this.field.caret(),
            box: this.field.caretBox() }), (...choice) => this.complete(...choice));
        this.listen();
        // The key of the address is spent.
        if (location.search) globalThis.history.replaceState(null, "", location.pathname + location.hash);
        this.desk.listen();
    }

    lines() {
        return this.isHeld ? this.desk.wanted || this.desk.lines : this.field.lines();
    }

    // The text was changed in the field.
    change(lines, kind) {
        if (this.isHeld) return;
        this.history.note(lines.join("\n"), kind);
        this.desk.want(lines);
        this.tellHistory();
    }

    // Puts a text into the field, as an own change.
    put(lines, kind) {
        this.history.note(lines.join("\n"), kind);
        this.putLines(lines);
    }

    undo() {
        this.putAgain(this.history.undo());
    }

    redo() {
        this.putAgain(this.history.redo());
    }

    putAgain(script) {
        if (script === null) return;
        this.hold(script);
        this.putLines(script.split("\n"));
    }

    putLines(lines) {
        if (!this.isHeld) this.field.setLines(lines);
        this.desk.want(lines);
        this.tellHistory();
        this.tellNumber();
    }

    tellHistory() {
        at("undo").disabled = !this.history || !this.history.canUndo();
        at("redo").disabled = !this.history || !this.history.canRedo();
    }

    // A text that came from the server.
    takeScript(script) {
        if (this.history === null) this.history = new History(script);
        else this.history.note(script, "");
        this.hold(script);
        if (!this.isHeld) this.field.setLines(script.split("\n"));
        this.tellHistory();
    }

    // Keeps a long script out of the field, unless a person has let it in.
    hold(script) {
        const wasHeld = this.isHeld, size = numeral(script.length);
        this.isHeld = script.length > LONG_SCRIPT && !this.isLetIn;
        this.field.allow(!this.isHeld);
        if (!this.isHeld || wasHeld) return;
        this.field.setLines(["; This script has " + size
            + " signs. It is derived and drawn, and not put into this field."]);
        this.field.showReplies([], new Map());
        this.ask("This script has " + size + " signs.", "Edit it all the same", () => this.letIn(), "Leave it",
            () => {});
    }

    letIn() {
        this.isLetIn = true;
        this.isHeld = false;
        this.field.allow(true);
        this.field.setLines(this.desk.wanted || this.desk.lines);
        this.field.showReplies(this.state.replies, this.hints());
    }

    // All that a new state changes on the page.
    take(state) {
        const isFirst = this.state === null;
        const isNewText = isFirst || state.text !== this.state.text
            || state.replies.length !== this.state.replies.length || state.refused !== this.state.refused;
        this.state = state;
        at("name").textContent = state.name || "a new script";
        page.title = (state.kept ? "" : "* ") + (state.name || "lsys");
        at("kept").textContent = state.saved ? "saved" : state.kept ? "" : "not saved";
        if (!this.desk.isPending() && !this.isHeld) this.field.showReplies(state.replies, this.hints());
        if (page.activeElement !== at("limit")) at("limit").value = state.limit;
        this.tellCounts(state.counts);
        this.tellNotice(state);
        this.tellStopped(state.stopped);
        this.levels.take(state, this.lines(), this.isTyping());
        this.tellWhich();
        if (isNewText) this.growth.frame();
        const isStopped = state.stopped && (state.stopped[0] === null || !state.running);
        if (!isStopped && (isNewText || this.picture.asked === null || this.picture.asked.text !== state.text))
            this.wantPicture();
        this.tellPicture();
        page.body.dataset.turn = state.turn;
        page.body.dataset.pending = this.desk.isPending();
        if (isFirst) this.begin();
        if (isFirst) this.help.load().catch(() => {});
    }

    async begin() {
        this.tellHistory();
        if (!await this.takeLink() && !this.state.path && this.state.size === 0) this.openGallery();
    }

    openGallery() {
        this.deed(() => this.gallery.open());
    }

    cancel() {
        this.deed(() => post("/cancel", {}, false));
    }

    // Takes the script of the address, where it holds one; asks before that where there is another one.
    async takeLink() {
        const script = await scriptOf(location.hash);
        if (script === null || script === this.lines().join("\n")) return false;
        globalThis.history.replaceState(null, "", location.pathname);
        const take = () => this.open({ name: "from a link", script });
        if (at("gallery").open) at("gallery").close();
        if (this.state.kept && !this.state.path) take();
        else this.ask("The link holds a script.", "Take it", take, "Leave it", () => {});
        return true;
    }

    // Puts the line that was meant in the place of a refused one.
    takeMeant(line, meant) {
        this.put(this.lines().with(line, meant), "");
        this.field.goTo(line, meant.length);
    }

    takeMeantHere() {
        const { line } = this.field.caret(), hint = this.hints().get(line);
        if (hint && hint.meant && !this.isHeld) this.takeMeant(line, hint.meant);
    }

    settle(take) {
        this.deed(() => this.desk.deed("/settle", { take }));
    }

    async deed(deed) {
        try {
            return await deed();
        } catch (error) {
            this.notice(error.message);
            return null;
        }
    }

    // Takes another script. The one before can be had again by undo.
    async open(asked) {
        if (this.isGone) return this.notice(GONE);
        await this.desk.settled();
        const wasKept = this.state.kept;
        this.ask(null);
        this.levels.stop();
        this.levels.chosen = null;
        this.picture.fit();
        await this.deed(() => this.desk.deed("/open", asked));
        this.field.begin(Math.max(0, this.lines().findIndex(line => line !== "" && !line.startsWith(";"))));
        if (!wasKept) this.notice("The script before was not saved. Undo brings it back.");
    }

    async save() {
        if (this.isGone) return this.notice(GONE);
        const { path } = this.state;
        await this.desk.settled();
        if (path) {
            await this.deed(() => this.desk.deed("/save", { text: this.desk.number }));
            return;
        }
        const stem = (this.state.name || "script").replace(/\.lsys$/, "").replace(/\W+/g, "_");
        const name = globalThis.prompt("The file's name, in the folder in which tools/look was started:",
            stem + ".lsys");
        if (name) await this.saveAs(name);
    }

    // Saves under a name; over another file only where a person says so.
    async saveAs(name) {
        try {
            await this.desk.deed("/save", { text: this.desk.number, name });
        } catch (error) {
            const isThere = error.status === 409 && /^there is a file/.test(error.message);
            if (!isThere) this.notice(error.message);
            if (!isThere || !globalThis.confirm(error.message + ". Write over it?")) return;
            await this.deed(() => this.desk.deed("/save", { text: this.desk.number, name, replace: true }));
        }
    }

    // While a line is being typed that is refused as it is, the picture stays.
    wantPicture() {
        if (this.picture.data && this.isTyping()) return this.tellPicture();
        this.drawnFrom = { text: this.state.text, lines: this.lines() };
        const level = this.levels.chosen;
        return this.picture.want(this.state.text, level, level === null ? this.line() : null);
    }

    // Another level is to be seen, in the frame of all.
    async seeLevel() {
        this.growth.forget();
        await Promise.all([this.growth.frame(), this.wantPicture()]);
    }

    // Puts a choice in the place of what was begun.
    complete(line, from, column, text) {
        const lines = this.lines(), old = lines[line] || "",
            parts = (old.slice(0, from) + text + old.slice(column)).split("\n");
        this.put([...lines.slice(0, line), ...parts, ...lines.slice(line + 1)], "");
        const last = parts.length - 1;
        this.field.goTo(line + last, parts.length > 1 ? parts[last].length : from + text.length);
    }

    async openFile(file) {
        const { name, script } = await heldBy(file);
        return script === null ? this.notice(name + " holds no script of this page's.") : this.open({ name, script });
    }

    // The number at the cursor, and what it is to be.
    tellNumber() {
        const { line, column } = this.field.caret();
        const number = this.isHeld ? null : numberAt(this.lines()[line] || "", column);
        at("number").hidden = !number;
        if (!number) return;
        const value = Number(number.text), slider = at("number_slider");
        if (page.activeElement !== slider) slider.max = Math.max(10, 2 * value);
        slider.value = value;
        at("number").querySelector("label").textContent = "Number of line " + (line + 1);
        at("number").querySelector("output").textContent = number.text;
        this.numbered = { line, column: number.from };
    }

    setNumber(line, column, value) {
        const lines = this.lines(), number = numberAt(lines[line] || "", column);
        if (!number) return;
        const wanted = String(Math.max(0, Math.round(value)));
        if (wanted !== number.text)
            this.put(lines.with(line, lines[line].slice(0, number.from) + wanted + lines[line].slice(number.to)),
                "number " + line);
    }

    dragOf(line, column) {
        const number = this.isHeld ? null : numberAt(this.lines()[line] || "", column);
        if (!number) return null;
        const value = Number(number.text), step = Math.max(1, value / 50);
        return { by: distance => this.setNumber(line, number.from, value + step * Math.round(distance / 8)) };
    }

    stepNumber(step) {
        this.tellNumber();
        if (at("number").hidden) return;
        const { line, column } = this.numbered, number = numberAt(this.lines()[line], column);
        this.setNumber(line, column, Number(number.text) + step);
    }

    // How many symbols all levels may have together.
    async setLimit(limit) {
        await this.deed(() => this.desk.deed("/limit", { limit }));
        if (this.state.limit !== limit) at("limit").value = this.state.limit;
    }

    // A query is answered below the text, and nothing is changed; undo, redo and help do what they say.
    async askLine(line) {
        const word = line.trim().split(/\s+/)[0], deeds = { undo: () => this.undo(), redo: () => this.redo(),
            help: () => this.deed(() => this.help.open()) };
        at("answer").hidden = false;
        at("answer").textContent = "";
        if (deeds[word]) {
            at("answer").textContent = word === "help" ? "The language is told at the side."
                : this.history[word === "undo" ? "canUndo" : "canRedo"]() ? word + ": done."
                : "There is nothing to " + word + ".";
            return deeds[word]();
        }
        if (!QUERIES.includes(wordOf(line))) {
            at("answer").textContent = "`" + line.trim().slice(0, 200)
                + "` is no query, and nothing was changed: a line of the script stands in the text above. Queries are "
                + QUERIES.join(", ") + "; undo, redo and help do what they say.";
            return null;
        }
        const told = await this.deed(() => post("/ask", { line }));
        if (!told) return null;
        const cut = told.length > told.reply.length + 1 && !told.reply.startsWith("segments ");
        at("answer").textContent = told.reply + (cut ? "\n.. cut: " + numeral(told.length) + " signs in all" : "");
        return null;
    }

    listen() {
        at("undo").onclick = () => this.undo();
        at("redo").onclick = () => this.redo();
        at("save").onclick = () => this.save();
        at("open_gallery").onclick = () => this.openGallery();
        at("open_sheet").onclick = () => this.sheet.open();
        at("cancel").onclick = () => this.cancel();
        Busy.onLong = told => this.tellBusy(told);
        for (const { name, script } of TEMPLATES) {
            const button = page.createElement("button");
            button.textContent = name;
            if (!script) button.id = "new";
            button.addEventListener("click", () => {
                at("new_menu").open = false;
                this.open({ name: script ? name.toLowerCase().replace(/ /g, "_") : "", script });
            });
            at("templates").append(button);
        }
        listenForFiles(page, file => this.openFile(file));
        at("help_button").onclick = () => this.deed(() => this.help.toggle());
        at("editor").addEventListener("mousemove", event => this.tellHover(event));
        at("editor").addEventListener("mouseleave", () => { at("tip").hidden = true; });
        at("nearer").onclick = () => this.picture.near(1.25);
        at("farther").onclick = () => this.picture.near(0.8);
        at("turn_left").onclick = () => this.picture.turnBy(-Math.PI / 12, 0);
        at("turn_right").onclick = () => this.picture.turnBy(Math.PI / 12, 0);
        at("fit").onclick = () => this.picture.fit();
        at("notice").querySelector("button").onclick = () => this.notice("");
        at("large").querySelector("button").onclick = () => this.picture.allow();
        at("counts").onclick = () => this.tellMeaning(null);
        at("limit").onchange = () => this.setLimit(Number(at("limit").value));
        at("which").querySelector("select").onchange = () => this.wantPicture();
        at("number_slider").addEventListener("input", () =>
            this.setNumber(this.numbered.line, this.numbered.column, Number(at("number_slider").value)));
        at("ask").addEventListener("submit", event => {
            event.preventDefault();
            if (at("line").value.trim()) this.askLine(at("line").value);
        });
        globalThis.addEventListener("keydown", event => this.key(event));
        globalThis.addEventListener("hashchange", () => this.takeLink());
        globalThis.addEventListener("beforeunload", event => {
            if (this.desk.isPending() || this.isGone && !this.state.saved) event.preventDefault();
        });
        // Whatever is used while the server is gone tells the same.
        for (const kind of ["click", "change"]) page.addEventListener(kind, event => {
            if (this.isGone && !event.target.closest("#notice, #question, #help, #editor")) this.notice(GONE);
        });
        page.addEventListener("click", event => {
            for (const menu of page.querySelectorAll(".menu[open]"))
                if (!menu.contains(event.target)) menu.open = false;
        });
    }

    key(event) {
        const isControl = event.ctrlKey || event.metaKey, key = event.key.toLowerCase();
        const deeds = {};
        if (isControl) deeds.s = () => this.save();
        if (isControl && key === " " && at("editor").contains(page.activeElement))
            deeds[" "] = () => this.completion.open();
        if (key === "f1") deeds.f1 = () => this.deed(() => this.help.toggle());
        if (event.altKey)
            Object.assign(deeds, { g: () => this.openGallery(), v: () => this.sheet.open(),
                a: () => this.beside.hold(), p: () => this.levels.play(), arrowup: () => this.stepNumber(1),
                arrowdown: () => this.stepNumber(-1), enter: () => this.takeMeantHere() });
        const isInText = at("editor").contains(page.activeElement) || page.activeElement === at("line");
        if (isControl && !isInText)
            Object.assign(deeds, { z: () => event.shiftKey ? this.redo() : this.undo(), y: () => this.redo() });
        if (key === "escape") for (const menu of page.querySelectorAll(".menu[open]")) menu.open = false;
        if (!deeds[key]) return;
        event.preventDefault();
        deeds[key]();
    }
}

globalThis.lookPage = new Page();
