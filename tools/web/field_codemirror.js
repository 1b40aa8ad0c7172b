// The text field by CodeMirror, where that is installed: colours, and the replies within the text.

import { COMMANDS, beginOfNames, columnOf, placeOf, refusalText, shortReply, wordOf } from "/web/language.js";

const page = globalThis.document;
const LONGEST_COLOURED = 4000;

function colours() {
    return {
        startState: () => ({ line: "", names: 0, isFirst: true }),
        token(stream, state) {
            if (stream.sol())
                Object.assign(state, { line: stream.string, names: beginOfNames(stream.string), isFirst: true });
            if (stream.sol() && stream.peek() === ";") return stream.skipToEnd(), "comment";
            if (stream.eatSpace()) return null;
            const hasNames = stream.pos >= state.names;
            const isFirst = state.isFirst;
            state.isFirst = false;
            if (isFirst && stream.match(wordOf(state.line) || /[A-Za-z]\w*/))
                return COMMANDS.includes(stream.current()) ? "keyword" : "error";
            if (stream.match(/\d+/)) return "number";
            if (stream.match(hasNames ? /[A-Za-z](?:_[A-Za-z0-9]{1,6})?/ : /[A-Za-z]\w*/))
                return hasNames ? "variable" : "def";
            if (stream.match(/=>|==|!=|<=|>=/)) return "operator";
            if (stream.match(/[()[\],]/)) return "bracket";
            return stream.match(/[:@+\-*/\\%&|^!<>=]/) ? "operator" : (stream.next(), "error");
        },
    };
}

function element(name, kind, text) {
    const made = page.createElement(name);
    made.className = kind;
    made.textContent = text;
    return made;
}

// The reply after a line. What its counts mean is told by a click.
function besides(reply, onCounts) {
    const refused = reply.startsWith("refused ");
    const made = element("span", refused ? "reply refused" : "reply", refused ? "" : shortReply(reply));
    made.dataset.reply = refused ? "" : shortReply(reply) === reply || !reply.startsWith("ok ") ? made.textContent
        : reply;
    if (reply.startsWith("ok ")) made.addEventListener("click", () => onCounts(reply));
    return made;
}

// The line that was meant, to be taken by a click.
function meantButton(meant, onTaken) {
    const made = element("button", "meant", "Take: " + meant);
    made.title = "Take this line (Alt+Enter on the refused one)";
    made.addEventListener("click", onTaken);
    return made;
}

// A refusal below its line: a caret under the column, the reply, what helps, and the line that was meant. Of a line
// that takes several rows
// the part around the column stands above the caret.
function below(field, number, reply, hint, onMeant) {
    const line = field.getLine(number), column = columnOf(reply), place = column ? placeOf(line, column) : 0;
    const made = element("div", "caret", "");
    const fits = Math.floor(field.getScrollInfo().clientWidth / field.defaultCharWidth()) - 8;
    const begin = line.length > fits ? Math.max(0, place - Math.floor(fits / 2)) : 0;
    if (column && line.length > fits)
        made.append(element("div", "caret-part", line.slice(begin, begin + Math.max(10, fits))));
    if (column)
        made.append(element("span", "caret-front", line.slice(begin, place).replace(/[^\t]/g, " ")),
            element("span", "caret-sign", "^ "));
    made.append(element("span", "caret-reply", refusalText(reply, hint)));
    if (hint && hint.meant)
        made.append(element("span", "", " "), meantButton(hint.meant, () => onMeant(number, hint.meant)));
    made.dataset.line = number + 1;
    return made;
}

export class CodeMirrorField {
    constructor(place, handlers) {
        globalThis.CodeMirror.defineMode("lsys", colours);
        this.field = globalThis.CodeMirror(place, {
            mode: "lsys", theme: "lsys", lineNumbers: true, lineSeparator: "\n", lineWrapping: true,
                maxHighlightLength: LONGEST_COLOURED,
            extraKeys: { Tab: false, "Shift-Tab": false, Esc: field => field.getInputField().blur(),
                "Ctrl-Z": handlers.onUndo, "Ctrl-Y": handlers.onRedo,
                "Shift-Ctrl-Z": handlers.onRedo, "Cmd-Z": handlers.onUndo, "Shift-Cmd-Z": handlers.onRedo },
        });
        this.field.getInputField().setAttribute("aria-label", "the script");
        this.shown = new Map();
        this.isOwn = false;
        this.field.on("changes", () => this.isOwn || handlers.onChange(this.lines()));
        this.field.on("cursorActivity", () => handlers.onCaret());
        this.handlers = handlers;
        place.addEventListener("mousedown", event => this.beginDrag(event), true);
        place.addEventListener("touchstart", () => {}, { passive: true });
    }

    lines() {
        return this.field.getValue("\n").split("\n");
    }

    // Takes other lines and leaves the cursor and all that stays where it is.
    setLines(lines) {
        const before = this.lines();
        const least = Math.min(before.length, lines.length);
        let first = 0, last = 0;
        while (first < least && before[first] === lines[first]) first++;
        if (first === before.length && first === lines.length) return;
        while (last < least - first && before[before.length - 1 - last] === lines[lines.length - 1 - last]) last++;
        this.isOwn = true;
        this.field.operation(() => this.putLines(first, before, lines, last));
        this.isOwn = false;
    }

    putLines(first, before, lines, last) {
        const end = before.length - last, wanted = lines.slice(first, lines.length - last);
        const cursor = this.field.getCursor();
        if (end > first && wanted.length) {
            this.field.replaceRange(wanted.join("\n"), { line: first, ch: 0 },
                { line: end - 1, ch: before[end - 1].length });
        } else if (wanted.length) {
            const isLast = first === before.length;
            const place = isLast ? { line: first - 1, ch: before[first - 1].length } : { line: first, ch: 0 };
            this.field.replaceRange(isLast ? "\n" + wanted.join("\n") : wanted.join("\n") + "\n", place);
        } else {
            const isLast = end === before.length;
            const from = isLast && first ? { line: first - 1, ch: before[first - 1].length } : { line: first, ch: 0 };
            this.field.replaceRange("", from, isLast ? { line: end - 1, ch: before[end - 1].length }
                : { line: end, ch: 0 });
        }
        if (end - first === wanted.length) this.field.setCursor(cursor, null, { scroll: false });
    }

    caret() {
        const { line, ch } = this.field.getCursor();
        return { line, column: ch };
    }

    focus() {
        this.field.focus();
    }

    hasFocus() {
        return this.field.hasFocus();
    }

    // Where the cursor is on the page.
    caretBox() {
        return this.field.cursorCoords(null, "window");
    }

    // The place of the text under the mouse, or null.
    placeUnder(event) {
        if (!this.field.getWrapperElement().contains(event.target) || !event.target.closest(".CodeMirror-line"))
            return null;
        const { line, ch } = this.field.coordsChar({ left: event.clientX, top: event.clientY }, "window");
        const box = this.field.charCoords({ line, ch }, "window"), column = box.left > event.clientX ? ch - 1 : ch;
        return column < 0 || column >= this.field.getLine(line).length ? null : { line, column };
    }

    // Puts the cursor at a place, and lets it be seen.
    goTo(line, column) {
        this.field.setCursor(line, column);
        this.field.scrollIntoView(null, 80);
        this.field.focus();
    }

    // Puts the cursor before a line, and lets it be seen with what stands after it.
    begin(line) {
        this.field.setCursor(line, 0);
        const { clientHeight, height } = this.field.getScrollInfo();
        if (height > clientHeight) this.field.scrollTo(null, this.field.charCoords({ line, ch: 0 }, "local").top);
    }

    // Whether one may write in it.
    allow(isAllowed) {
        this.field.setOption("readOnly", !isAllowed);
    }

    // Puts the replies beside their lines, each [number, reply], with the hints where there are some; what stands
    // already stays.
    showReplies(replies, hints) {
        this.field.operation(() => {
            const wanted = new Map(replies.map(([number, reply]) => [number, reply]));
            for (const [number, shown] of this.shown) {
                const isSame = wanted.get(number) === shown.reply && JSON.stringify(hints.get(number)) === shown.hint;
                if (!isSame || !this.stands(number, shown)) this.takeAway(number, shown);
            }
            for (const [number, reply] of wanted) {
                if (!this.shown.has(number) && number < this.field.lineCount())
                    this.putReply(number, reply, hints.get(number));
            }
        });
    }

    stands(number, shown) {
        const place = shown.beside.find();
        return place && place.line === number && place.ch === this.field.getLine(number).length
            && shown.text === this.field.getLine(number);
    }

    takeAway(number, shown) {
        shown.beside.clear();
        if (shown.below) shown.below.clear();
        this.field.removeLineClass(shown.handle, "wrap", "refused-line");
        this.shown.delete(number);
    }

    putReply(number, reply, hint) {
        const text = this.field.getLine(number), refused = reply.startsWith("refused ");
        const beside = this.field.setBookmark({ line: number, ch: text.length },
            { widget: besides(reply, this.handlers.onCounts), insertLeft: true, handleMouseEvents: true });
        const handle = this.field.getLineHandle(number);
        if (refused) this.field.addLineClass(handle, "wrap", "refused-line");
        const made = refused ? this.field.addLineWidget(number,
            below(this.field, number, reply, hint, this.handlers.onMeant)) : null;
        this.shown.set(number, { reply, hint: JSON.stringify(hint), text, beside, handle, below: made });
    }

    // A number that is pulled sideways changes; one that is only clicked gets the cursor.
    beginDrag(event) {
        if (event.button !== 0 || event.shiftKey || !event.target.classList.contains("cm-number")) return;
        const begun = this.field.coordsChar({ left: event.clientX, top: event.clientY });
        const drag = this.handlers.onDrag(begun.line, begun.ch);
        if (!drag) return;
        event.preventDefault();
        event.stopPropagation();
        let isDragged = false;
        const move = moved => {
            const distance = moved.clientX - event.clientX;
            isDragged = isDragged || Math.abs(distance) > 3;
            if (isDragged) drag.by(distance);
        };
        const end = () => {
            globalThis.removeEventListener("mousemove", move);
            globalThis.removeEventListener("mouseup", end);
            if (!isDragged) this.field.setCursor(begun);
            this.field.focus();
        };
        globalThis.addEventListener("mousemove", move);
        globalThis.addEventListener("mouseup", end);
    }
}
