// The language's page, docs/LANGUAGE.md, at the side: its sections with a search, its commands, and its examples to be
// opened; and what a word
// or a turtle's letter under the mouse or at the cursor is.

import { COMMANDS, beginOfNames, wordOf } from "/web/language.js";
import { get } from "/web/desk.js";

const page = globalThis.document;
const at = id => page.getElementById(id);
const anchorOf = title => "language_" + title.toLowerCase().replace(/[^\w]+/g, "-");

function element(name, text, kind = "") {
    const made = page.createElement(name);
    if (text) made.textContent = text;
    if (kind) made.className = kind;
    return made;
}

// The parts of a text with `code`, **strong**, *slanted* and [links](#to).
function inline(text) {
    const parts = [];
    const pattern = /`([^`]+)`|\*\*([^*]+)\*\*|\*([^*]+)\*|\[((?:`[^`]*`|[^\]])+)\]\(([^)]+)\)/g;
    let from = 0;
    for (let found; (found = pattern.exec(text));) {
        parts.push(text.slice(from, found.index));
        from = found.index + found[0].length;
        if (found[1]) parts.push(element("code", found[1]));
        else if (found[2]) parts.push(element("strong", found[2]));
        else if (found[3]) parts.push(element("em", found[3]));
        else if (found[5].startsWith("#")) parts.push(link(found[4], found[5].slice(1)));
        else parts.push(...inline(found[4]));
    }
    return [...parts, text.slice(from)];
}

function link(text, to) {
    const made = element("a");
    made.href = "#" + anchorOf(to);
    made.append(...inline(text));
    made.addEventListener("click", event => {
        event.preventDefault();
        showSection(anchorOf(to));
    });
    return made;
}

function showSection(anchor) {
    const section = page.getElementById(anchor);
    if (!section) return;
    at("help_search").value = "";
    at("help_search").dispatchEvent(new Event("input"));
    section.scrollIntoView({ block: "start" });
    section.querySelector("h3, h4").focus({ preventScroll: true });
}

function cellsOf(row) {
    return row.replace(/^\|\s*|\s*\|$/g, "").split(/(?<!\\)\|/)
        .map(cell => cell.trim().replace(/\\\|/g, "|").replace(/\\\\/g, "\\"));
}

function table(rows) {
    const made = element("table"), head = element("thead"), body = element("tbody");
    for (const [number, row] of rows.entries()) {
        if (number === 1) continue;
        const line = element("tr");
        for (const cell of cellsOf(row)) {
            const part = element(number ? "td" : "th");
            part.append(...inline(cell));
            line.append(part);
        }
        (number ? body : head).append(line);
    }
    made.append(head, body);
    return made;
}

// A script of the page, to be opened as a new one; or other text as it is.
function block(kind, text, onOpen) {
    const made = element("div", "", "help-" + (kind || "text")), pre = element("pre", text);
    pre.tabIndex = 0;
    made.append(pre);
    if (kind === "lsys") {
        const button = element("button", "Open as a new script");
        button.addEventListener("click", () => onOpen(text));
        made.append(button);
    }
    return made;
}

// The sections of a text in this notation.
export function sectionsOf(text, onOpen) {
    const sections = [], lines = text.split("\n");
    let section = null;
    const take = (from, isPart) => {
        let to = from;
        while (to < lines.length && isPart(lines[to])) to++;
        return to;
    };
    for (let number = 0; number < lines.length;) {
        const line = lines[number], heading = /^(#+) (.*)/.exec(line);
        let end = number + 1;
        if (heading || section === null) {
            const title = heading ? heading[2] : "", made = element(heading && heading[1].length > 2 ? "h4" : "h3",
                title);
            made.tabIndex = -1;
            section = element("section");
            section.id = anchorOf(title);
            section.append(made);
            sections.push(section);
        } else if (line.startsWith("```")) {
            end = take(number + 1, each => !each.startsWith("```"));
            section.append(block(line.slice(3), lines.slice(number + 1, end).join("\n") + "\n", onOpen));
            end++;
        } else if (line.startsWith("|")) {
            end = take(number, each => each.startsWith("|"));
            section.append(table(lines.slice(number, end)));
        } else if (line.trim() !== "") {
            end = take(number, each => each.trim() !== "" && !/^(#|\||```)/.test(each)
                && (each === line || !each.startsWith("- ")));
            const made = element(line.startsWith("- ") ? "li" : "p");
            made.append(...inline(lines.slice(number, end).join(" ").replace(/^- /, "")));
            section.append(made);
        }
        number = end;
    }
    return sections;
}

// What the tables of the page say of each command and of each turtle's sign.
export function tipsOf(text) {
    const commands = new Map(), signs = new Map();
    for (const row of text.split("\n").filter(line => line.startsWith("| "))) {
        const [head, told] = cellsOf(row), word = /^\[?`([a-z]+)\b([^`]*)`\]?(?:\(#\w+\))?/.exec(head);
        const plain = (told || "").replace(/[`*]|\[|\]\([^)]*\)/g, "");
        if (word && COMMANDS.includes(word[1]) && !commands.has(word[1]))
            commands.set(word[1], word[1] + word[2] + ": " + plain);
        const isTurtle = /^(a name that begins with `[Ff]`|(`[-+&^\\/|!]`\s*)+)$/.test(head);
        if (isTurtle)
            for (const [, sign] of head.matchAll(/`([^`])`/g))
                if (!signs.has(sign)) signs.set(sign, sign + ": " + plain);
    }
    signs.set("[", "[: a branch begins; the turtle's place is kept")
        .set("]", "]: the branch ends; the turtle goes back to where it began")
        .set("%", "%: a cut, which takes what follows in its branch away");
    return { commands, signs };
}

export class Help {
    constructor(onOpen) {
        this.onOpen = onOpen;
        this.tips = null;
        at("close_help").addEventListener("click", () => this.close());
        at("help_search").addEventListener("input", () => this.search());
        page.addEventListener("keydown", event => {
            if (event.key === "Escape" && at("help").contains(page.activeElement)) this.close();
        });
    }

    async load() {
        if (this.text) return;
        this.text = await (await get("/language", false)).text();
        this.tips = tipsOf(this.text);
    }

    async open() {
        await this.load();
        if (!at("help_text").children.length) this.fill();
        at("help").hidden = false;
        page.body.classList.add("has-help");
        at("help_button").setAttribute("aria-expanded", "true");
        at("help_search").focus();
    }

    fill() {
        const sections = sectionsOf(this.text, script => this.onOpen(script));
        at("help_text").replaceChildren(...sections);
        const there = COMMANDS.filter(word => page.getElementById(anchorOf(word)));
        at("help_commands").replaceChildren(...there.map(word => {
            const item = element("li");
            item.append(link("`" + word + "`", word));
            return item;
        }));
    }

    close() {
        at("help").hidden = true;
        page.body.classList.remove("has-help");
        at("help_button").setAttribute("aria-expanded", "false");
        at("help_button").focus();
    }

    toggle() {
        return at("help").hidden ? this.open() : this.close();
    }

    // Only the sections that hold all words.
    search() {
        const words = at("help_search").value.toLowerCase().split(/\s+/).filter(Boolean);
        let count = 0;
        for (const section of at("help_text").children) {
            const text = section.textContent.toLowerCase();
            section.hidden = !words.every(word => text.includes(word));
            count += section.hidden ? 0 : 1;
        }
        at("help_found").textContent = words.length ? count + (count === 1 ? " section" : " sections") : "";
    }

    // What stands at a place of a line, in a sentence, or nothing.
    tipAt(line, column) {
        if (!this.tips || line.startsWith(";")) return "";
        const word = wordOf(line), begin = line.indexOf(word);
        if (word && column >= begin && column <= begin + word.length) return this.tips.commands.get(word) || "";
        if (column < beginOfNames(line)) return "";
        const name = /[A-Za-z](?:_[A-Za-z0-9]*)?$/.exec(line.slice(0, column + 1)), sign = line[column];
        if (/[A-Za-z_0-9]/.test(sign || "")) return this.tips.signs.get(name ? name[0][0] : "") || "";
        return this.tips.signs.get(sign) || "";
    }
}
