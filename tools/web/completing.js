// What may stand where the cursor is: commands, labels, tables, names, and pieces of scripts, in a list that keys
// choose from.

import { COMMANDS, wordOf } from "/web/language.js";
import { SNIPPETS } from "/web/starting.js";

const page = globalThis.document;
const at = id => page.getElementById(id);
const MOST = 40;
const RULE = /^[ \t]*(production|hom)[ \t]+(?:(\w+)[ \t]+)?(\w+)[ \t]*:(.*)/;
const SETTINGS = { lattice: ["square", "hexagonal", "cubic"], lineage: ["places", "names"], version: ["1", "2"] };

// The labels, tables and names of a script.
export function knownOf(lines) {
    const labels = new Set(), tables = new Set(["main"]), names = new Set();
    for (const line of lines) {
        const rule = RULE.exec(line);
        if (rule) labels.add(rule[3]);
        if (rule && rule[2]) tables.add(rule[2]);
        const text = rule ? rule[4] : /^[ \t]*axiom/.test(line) ? line.replace(/^[ \t]*axiom/, "") : "";
        for (const name of text.match(/[A-Za-z](?:_[A-Za-z0-9]{1,6})?/g) || []) names.add(name);
    }
    return { labels: [...labels], tables: [...tables], names: [...names] };
}

// What may stand at a place of a script: where it begins, and the choices, each a word that is put and what it is.
export function choicesAt(lines, line, column) {
    const before = (lines[line] || "").slice(0, column), prefix = /[A-Za-z0-9_]*$/.exec(before)[0];
    const front = before.slice(0, before.length - prefix.length), word = wordOf(front + " "), known = knownOf(lines);
    const as = (kind, words) => words.map(text => ({ text, kind, name: text }));
    let all;
    if (front.trim() === "") {
        all = [...as("command", COMMANDS).map(each => ({ ...each, text: each.text + " " })),
            ...SNIPPETS.map(({ name, text }) => ({ name, text, kind: "piece of a script" }))];
    } else if (SETTINGS[word]) {
        all = as("setting", SETTINGS[word]);
    } else if (word === "drop") {
        all = as("label", known.labels);
    } else if (["schedule", "ignoring", "consider", "common"].includes(word) && !front.includes(":")) {
        all = as("table", known.tables);
    } else if (["production", "hom"].includes(word) && !front.includes(":")) {
        all = [...as("label", known.labels), ...as("table", known.tables.filter(table => table !== "main"))];
    } else {
        all = as("name", known.names);
    }
    const found = all.filter(each => each.name.startsWith(prefix) || each.kind === "piece of a script"
        && each.name.includes(prefix));
    return { from: column - prefix.length, choices: found.slice(0, MOST) };
}

export class Completion {
    // `look` gives the lines and the cursor and its place on the page; `onChosen` puts a choice.
    constructor(look, onChosen) {
        Object.assign(this, { look, onChosen, chosen: 0, shown: null });
        page.addEventListener("keydown", event => this.key(event), true);
        page.addEventListener("mousedown", event => {
            if (!at("completions").contains(event.target)) this.close();
        });
    }

    isOpen() {
        return this.shown !== null;
    }

    open() {
        const { lines, caret, box } = this.look(), found = choicesAt(lines, caret.line, caret.column);
        this.shown = { ...found, line: caret.line, column: caret.column };
        this.chosen = 0;
        if (!found.choices.length) return this.close();
        const items = found.choices.map((choice, number) => {
            const item = page.createElement("li"), kind = page.createElement("small");
            item.setAttribute("role", "option");
            item.id = "completion_" + number;
            item.textContent = choice.name;
            kind.textContent = choice.kind;
            item.append(" ", kind);
            item.addEventListener("mousedown", event => event.preventDefault());
            item.addEventListener("click", () => this.choose(number));
            return item;
        });
        at("completions").replaceChildren(...items);
        at("completions").hidden = false;
        at("completions").style.left = Math.max(4, Math.min(box.left,
            globalThis.innerWidth - at("completions").offsetWidth - 8)) + "px";
        at("completions").style.top = Math.max(4, Math.min(box.bottom + 2,
            globalThis.innerHeight - at("completions").offsetHeight - 8)) + "px";
        return this.tell();
    }

    tell() {
        for (const [number, item] of [...at("completions").children].entries())
            item.setAttribute("aria-selected", String(number === this.chosen));
        const item = at("completions").children[this.chosen];
        if (item) item.scrollIntoView({ block: "nearest" });
        at("completion_told").textContent = item ? item.textContent : "";
    }

    close() {
        if (this.shown === null) return;
        this.shown = null;
        at("completions").hidden = true;
        at("completion_told").textContent = "";
    }

    choose(number) {
        const { line, from, column, choices } = this.shown;
        this.close();
        this.onChosen(line, from, column, choices[number].text);
    }

    key(event) {
        if (!this.isOpen()) return;
        const count = this.shown.choices.length;
        const deeds = { ArrowDown: () => { this.chosen = (this.chosen + 1) % count; this.tell(); },
            ArrowUp: () => { this.chosen = (this.chosen + count - 1) % count; this.tell(); },
            Enter: () => this.choose(this.chosen), Tab: () => this.choose(this.chosen), Escape: () => this.close() };
        if (!deeds[event.key]) {
            // What is typed narrows the list, once it is in the text.
            if (event.key.length === 1 && !event.ctrlKey || event.key === "Backspace")
                setTimeout(() => this.isOpen() && this.open());
            else if (!["Shift", "Control"].includes(event.key)) this.close();
            return;
        }
        event.preventDefault();
        event.stopPropagation();
        deeds[event.key]();
    }
}
