// Variants of the script beside each other: for seeds, depths, or a number of the script, or two of these as a grid.
// Each is drawn by a program
// of its own, and a click takes its values into the script.

import { CORNER, drawAll, fitInto, parse, place, widthsOf } from "/web/drawing.js";
import { depthOf, numbersOf, wordOf } from "/web/language.js";
import { get, post } from "/web/desk.js";

const page = globalThis.document;
const at = id => page.getElementById(id);
const numeral = number => Number(number).toLocaleString("en");
// So many cells are waited for at once; a browser has few connections to one server.
const AT_ONCE = 3;
const WIDEST_SHOWN = 36;
// Numbers of the script that can be chosen, the first ones.
const MOST_CHOICES = 300;

// All that can vary, each with its value now: the seed, the depth, and the numbers of the lines.
function choices(lines) {
    const seed = lines.findLast(line => wordOf(line) === "seed"), seeded = seed ? Number(/\d+/.exec(seed)?.[0] || 0)
        : 0;
    const found = [{ kind: "seed", value: seeded, text: "the seed" },
        { kind: "depth", value: depthOf(lines), text: "the depth" }];
    for (let line = 0; line < lines.length && found.length < MOST_CHOICES; line++) {
        if (["seed", "depth"].includes(wordOf(lines[line]))) continue;
        numbersOf(lines[line]).forEach((number, place) => {
            const from = Math.max(0, number.from - WIDEST_SHOWN / 2), front = lines[line].slice(from, number.from),
                rest = lines[line].slice(number.to, number.to + WIDEST_SHOWN / 2);
            found.push({ kind: "number", line, place, value: Number(number.text),
                text: "line " + (line + 1) + ": " + (from ? ".." : "") + front + "\u2039" + number.text + "\u203a"
                + rest, column: number.from, end: number.to });
        });
    }
    return found;
}

export class Sheet {
    // `desk` has the text; `onTaken` gets the lines of a variant that was chosen.
    constructor({ desk, lines, caret, onTaken }) {
        Object.assign(this, { desk, lines, caret, onTaken, number: 0, choices: [] });
        this.sides = [...at("sheet_form").querySelectorAll("fieldset")].map(side =>
            ({ select: side.querySelector("select"), inputs: [...side.querySelectorAll("input")] }));
        at("close_sheet").addEventListener("click", () => at("sheet").close());
        at("sheet").addEventListener("close", () => this.end());
        at("sheet_form").addEventListener("submit", event => {
            event.preventDefault();
            this.draw();
        });
        for (const side of this.sides) side.select.addEventListener("change", () => this.suggest(side));
    }

    // Opens with what stands at the cursor, where that is a number.
    open() {
        if (at("sheet").open) return;
        this.choices = choices(this.lines());
        const { line, column } = this.caret(), chosen = this.choices.findIndex(choice => choice.line === line
            && choice.column <= column && column <= choice.end);
        const options = () => this.choices.map((choice, number) => new Option(choice.text, number));
        this.sides[0].select.replaceChildren(...options());
        this.sides[1].select.replaceChildren(new Option("nothing more", ""), ...options());
        this.sides[0].select.value = String(Math.max(0, chosen));
        for (const side of this.sides) this.suggest(side);
        at("cells").replaceChildren();
        at("sheet_told").textContent = "";
        at("sheet").showModal();
    }

    // Values around the one that is there.
    suggest({ select, inputs }) {
        for (const input of inputs) input.disabled = select.value === "";
        if (select.value === "") return;
        const { kind, value } = this.choices[Number(select.value)], step = Math.max(1, Math.round(value / 8));
        const from = kind === "seed" ? value : kind === "depth" ? 0 : Math.max(0, value - 3 * step);
        [from, kind === "depth" ? value : from + (kind === "seed" ? 7 : 7 * step), kind === "number" ? step
            : 1].forEach((number, place) => { inputs[place].value = number; });
    }

    axes() {
        return this.sides.filter(side => side.select.value !== "").map(({ select, inputs }) => {
            const { kind, line, place } = this.choices[Number(select.value)],
                [from, to, step] = inputs.map(input => Number(input.value));
            return { kind, line, place, from, to, step };
        });
    }

    async draw() {
        await this.desk.settled();
        this.base = this.lines();
        try {
            const told = await post("/sheet", { text: this.desk.number, axes: this.axes() });
            this.number = told.sheet;
            at("cells").style.setProperty("--columns", Math.min(told.columns, 8));
            this.cells = told.cells.map(cell => this.cellOf(cell));
            at("cells").replaceChildren(...this.cells.map(cell => cell.item));
            await this.fill(told.sheet);
        } catch (error) {
            at("sheet_told").textContent = error.message;
        }
    }

    cellOf({ told, first, removed, lines }) {
        const item = page.createElement("li"), button = page.createElement("button"),
            canvas = page.createElement("canvas");
        const name = page.createElement("strong"), about = page.createElement("small");
        name.textContent = told.join(", ");
        about.textContent = "..";
        canvas.setAttribute("aria-hidden", "true");
        button.append(canvas, name, about);
        button.title = "Takes " + told.join(", ") + " into the script";
        button.addEventListener("click", () => {
            at("sheet").close();
            this.onTaken([...this.base.slice(0, first), ...lines, ...this.base.slice(first + removed)]);
        });
        item.append(button);
        return { item, canvas, about };
    }

    // Waits for the cells, some at once.
    async fill(number) {
        let next = 0, done = 0;
        const work = async () => {
            while (next < this.cells.length && this.number === number) {
                await this.fillCell(number, next++);
                at("sheet_told").textContent = numeral(++done) + " of " + numeral(this.cells.length) + " drawn";
            }
        };
        await Promise.all(Array.from({ length: AT_ONCE }, work));
    }

    async fillCell(number, place) {
        for (;;) {
            const text = await (await get("/sheet?sheet=" + number + "&cell=" + place, false)).text();
            const [, , asked, all, state] = text.slice(0, text.indexOf("\n")).split(" ");
            if (state !== "done") continue;
            this.show(this.cells[place], parse(text), asked, all);
            return;
        }
    }

    show({ canvas, about }, data, asked, all) {
        about.textContent = data.refusal || numeral(asked) + " of " + numeral(all) + " asked anew; "
            + numeral(data.count) + (data.count === 1 ? " line" : " lines");
        Object.assign(about.dataset, { asked, all, count: data.count });
        const dense = globalThis.devicePixelRatio || 1, width = canvas.clientWidth, height = canvas.clientHeight;
        Object.assign(canvas, { width: Math.max(1, width * dense), height: Math.max(1, height * dense) });
        if (!data.count) return;
        const pen = canvas.getContext("2d"), { points, box } = place(data, CORNER);
        pen.setTransform(dense, 0, 0, dense, 0, 0);
        pen.strokeStyle = getComputedStyle(canvas).color;
        drawAll(pen, points, widthsOf(data), fitInto(box, width, height), { width, height });
        this.drawn = (this.drawn || 0) + 1;
    }

    // Nothing more is drawn for a sheet that was closed.
    end() {
        if (this.number) post("/sheet", { text: this.desk.number, axes: [] }, false).catch(() => {});
        this.number = 0;
    }
}
