// The text field by a plain text area with line numbers, where CodeMirror isn't installed. The replies stand below it.

import { columnOf, placeOf, refusalText, shortReply } from "/web/language.js";

const page = globalThis.document;
const WIDEST = 90;

function row(kind, text) {
    const made = page.createElement("div");
    made.className = kind;
    made.textContent = text;
    return made;
}

// A line with a caret under a place, cut where it is long.
function withCaret(line, place) {
    const begin = Math.max(0, place - WIDEST / 2);
    const front = begin ? ".. " : "";
    const shown = line.slice(begin, begin + WIDEST).replace(/\t/g, " ");
    return front + shown + (begin + WIDEST < line.length ? " .." : "") + "\n"
        + " ".repeat(front.length + place - begin) + "^";
}

export class PlainField {
    constructor(place, handlers) {
        const box = row("plain", "");
        this.numbers = row("numbers", "1");
        this.numbers.setAttribute("aria-hidden", "true");
        this.area = page.createElement("textarea");
        this.area.spellcheck = false;
        this.area.autocapitalize = "off";
        this.area.wrap = "off";
        this.area.setAttribute("aria-label", "the script");
        box.append(this.numbers, this.area);
        this.replies = row("plain-replies", "");
        place.append(box, this.replies);
        this.handlers = handlers;
        this.area.addEventListener("input", () => {
            this.number();
            handlers.onChange(this.lines());
        });
        this.area.addEventListener("scroll", () => { this.numbers.scrollTop = this.area.scrollTop; });
        for (const kind of ["keyup", "click", "select"]) this.area.addEventListener(kind, () => handlers.onCaret());
        this.area.addEventListener("keydown", event => this.key(event, handlers));
    }

    key(event, handlers) {
        if (event.key === "Escape") this.area.blur();
        const key = (event.ctrlKey || event.metaKey) && !event.altKey ? event.key.toLowerCase() : "";
        if (key !== "z" && key !== "y") return;
        event.preventDefault();
        event.stopPropagation();
        if (key === "y" || event.shiftKey) handlers.onRedo();
        else handlers.onUndo();
    }

    number() {
        const count = this.lines().length;
        if (count === this.count) return;
        this.count = count;
        this.numbers.textContent = Array.from({ length: count }, (_, place) => place + 1).join("\n");
        this.numbers.scrollTop = this.area.scrollTop;
    }

    lines() {
        return this.area.value.split("\n");
    }

    setLines(lines) {
        const text = lines.join("\n");
        if (text === this.area.value) return;
        const { selectionStart, selectionEnd, scrollTop } = this.area;
        this.area.value = text;
        this.area.setSelectionRange(Math.min(selectionStart, text.length), Math.min(selectionEnd, text.length));
        this.area.scrollTop = scrollTop;
        this.number();
    }

    caret() {
        const before = this.area.value.slice(0, this.area.selectionStart).split("\n");
        return { line: before.length - 1, column: before[before.length - 1].length };
    }

    focus() {
        this.area.focus();
    }

    hasFocus() {
        return page.activeElement === this.area;
    }

    // Where the cursor is on the page, by the size of its letters.
    caretBox() {
        const box = this.area.getBoundingClientRect(), style = getComputedStyle(this.area),
            height = parseFloat(style.lineHeight), { line, column } = this.caret();
        const top = box.top + 4 + line * height - this.area.scrollTop;
        return { left: box.left + 8 + column * parseFloat(style.fontSize) * 0.6 - this.area.scrollLeft, top,
            bottom: top + height };
    }

    // What is under the mouse isn't known of a plain area.
    placeUnder() {
        return null;
    }

    // Puts the cursor at a place, and lets it be seen.
    goTo(line, column) {
        const lines = this.lines(), place = lines.slice(0, line).join("\n").length + (line ? 1 : 0) + column;
        this.area.setSelectionRange(place, place);
        if (this.area.scrollHeight > this.area.clientHeight)
            this.area.scrollTop = Math.max(0, line - 3) * this.area.scrollHeight / lines.length;
        this.area.focus();
    }

    // Puts the cursor before a line, and lets it be seen with what stands after it.
    begin(line) {
        const lines = this.lines(), place = lines.slice(0, line).join("\n").length + (line ? 1 : 0);
        this.area.setSelectionRange(place, place);
        if (this.area.scrollHeight > this.area.clientHeight)
            this.area.scrollTop = line * this.area.scrollHeight / lines.length;
    }

    // Whether one may write in it.
    allow(isAllowed) {
        this.area.readOnly = !isAllowed;
    }

    showReplies(replies, hints) {
        const lines = this.lines();
        this.replies.replaceChildren(...replies.map(([number, reply]) => {
            const line = lines[number] || "", column = columnOf(reply);
            if (!reply.startsWith("refused ")) return this.replyRow(number, reply);
            const shown = column ? "\n" + withCaret(line, placeOf(line, column)) : "", hint = hints.get(number);
            const made = row("reply refused", "line " + (number + 1) + ": " + refusalText(reply, hint) + shown);
            if (hint && hint.meant) made.append(this.meantButton(number, hint.meant));
            return made;
        }));
    }

    replyRow(number, reply) {
        const made = row("reply", "line " + (number + 1) + ": " + shortReply(reply));
        made.dataset.reply = "line " + (number + 1) + ": " + (reply.startsWith("ok ") ? reply : shortReply(reply));
        if (reply.startsWith("ok ")) made.addEventListener("click", () => this.handlers.onCounts(reply));
        return made;
    }

    // The line that was meant, to be taken by a click.
    meantButton(number, meant) {
        const made = page.createElement("button");
        made.className = "meant";
        made.textContent = "Take: " + meant;
        made.title = "Take this line (Alt+Enter on the refused one)";
        made.addEventListener("click", () => this.handlers.onMeant(number, meant));
        return made;
    }
}
