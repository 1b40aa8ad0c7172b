// Growth as it is watched: the frame that fits the last level, and the module under the pointer, of which the program
// tells where it comes
// from and what becomes of it.

import { parse } from "/web/drawing.js";
import { get, post } from "/web/desk.js";

const page = globalThis.document;
const at = id => page.getElementById(id);
// Points of the page within which a segment is meant, and the rest of the pointer before it is asked for.
const NEAR = 8, REST = 90;
const MOST_LIT = 20000;

// The corners of the program's `bounds`, as segments whose box holds the picture.
function cornersOf(reply, lattice) {
    const [a, b, c, d, e, f] = reply.split(" ").slice(1).map(Number), heights = lattice === "cubic" ? [e, f] : [0, 0];
    const places = heights.flatMap(z => [a, b].flatMap(x => [x, c, z, x, d, z, 1]));
    return { lattice, count: places.length / 7, places: Float64Array.from(places), level: 0 };
}

export class Growth {
    // `told` gives the state, the levels and the picture of the page, and what level or line is seen.
    constructor(told) {
        Object.assign(this, { told, text: null, kept: new Map(), timer: null, asked: null, segment: null });
        const { canvas } = told().picture;
        at("one_frame").addEventListener("change", () => this.frame());
        canvas.addEventListener("pointermove", event => event.buttons ? this.forget() : this.point(event));
        canvas.addEventListener("pointerleave", () => this.forget());
        canvas.addEventListener("keydown", event => this.key(event));
    }

    // The picture of a level, which is asked for once for each text; null where it can't be had.
    level(level) {
        const { state, picture } = this.told();
        if (this.text !== state.text) {
            this.text = state.text;
            this.kept.clear();
        }
        if (!this.kept.has(level)) this.kept.set(level, this.load(state.text, level, picture.mostFor(state.text)));
        return this.kept.get(level);
    }

    async load(text, level, most) {
        try {
            return parse(await (await get("/picture?text=" + text + "&level=" + level + "&most=" + most)).text());
        } catch (error) {
            return null;
        }
    }

    // Gives the picture its frame: that of the last level while another one is seen, where one frame is wanted.
    async frame() {
        const { state, levels, picture } = this.told();
        if (!at("one_frame").checked || levels.chosen === null && levels.playing === null)
            return picture.setFrame(null);
        const { text, depth, lattice } = state, isLast = picture.data && picture.data.level === depth
            && picture.asked.text === text && picture.asked.line === null;
        const data = isLast ? picture.data : await this.level(depth);
        if (this.told().state.text !== text) return null;
        if (data && data.isWhole) return picture.setFrame(data);
        try {
            const { reply } = await post("/ask", { line: "bounds" });
            return picture.setFrame(reply.startsWith("bounds ") ? cornersOf(reply, lattice) : null);
        } catch (error) {
            return null;
        }
    }

    point(event) {
        clearTimeout(this.timer);
        const { offsetX, offsetY } = event;
        this.timer = setTimeout(() => this.ask(this.nearest(offsetX, offsetY)), REST);
    }

    forget() {
        clearTimeout(this.timer);
        this.ask(null);
    }

    // The segment that is nearest to a point, or null where none is near.
    nearest(right, down) {
        const { picture } = this.told(), { points, view } = picture;
        if (!picture.data || !points) return null;
        const x = (right - view.x) / view.scale, y = (down - view.y) / view.scale;
        let least = (NEAR / view.scale) ** 2, found = null;
        for (let from = 0; from < points.length; from += 4) {
            const a = points[from], b = points[from + 1], c = points[from + 2] - a, d = points[from + 3] - b,
                long = c * c + d * d;
            const part = long ? Math.max(0, Math.min(1, ((x - a) * c + (y - b) * d) / long)) : 0;
            const away = (x - a - part * c) ** 2 + (y - b - part * d) ** 2;
            if (away < least) least = away, found = from / 4;
        }
        return found;
    }

    // Goes to the next module, or the one before, by the keys.
    key(event) {
        if (event.ctrlKey || event.altKey || event.metaKey || event.key.toLowerCase() !== "n") return;
        event.preventDefault();
        const { picture } = this.told(), count = picture.data ? picture.data.count : 0, [first, last] = this.module
            ? this.module.segments : [0, 0];
        if (count) this.ask(this.module ? (event.shiftKey ? first - 1 + count : last) % count : 0);
    }

    // Asks of the module that drew a segment, and shows what is told.
    async ask(segment) {
        const { state, picture, line } = this.told();
        const key = segment === null ? null : state.text + " " + picture.data.level + " " + segment;
        const isSame = segment !== null && this.module && this.asked
            && this.asked.startsWith(key.slice(0, key.lastIndexOf(" ") + 1)) && segment >= this.module.segments[0]
            && segment < this.module.segments[1];
        if (key === this.asked || isSame) return;
        this.asked = key;
        if (segment === null) return this.show(null);
        if (line() !== null)
            return this.show({ untold: "of a picture that a line of the script asks for no modules are told" });
        try {
            const told = await (await get("/module?text=" + state.text + "&level=" + picture.data.level + "&segment="
                + segment)).json();
            if (this.asked === key) await this.show(told, key);
        } catch (error) {
            if (this.asked === key) this.show(null);
        }
        return null;
    }

    async show(told, key) {
        const { picture } = this.told();
        this.module = told && !told.untold ? told : null;
        at("module").hidden = !told;
        if (!told) return picture.light([]);
        at("module_told").textContent = told.untold || this.words(told);
        at("module_way").replaceChildren(...(told.ancestors || [])
            .map((each, level, all) => this.wayOf(each, level + told.level + 1 - all.length)).flat());
        if (told.untold) return picture.light([]);
        const lit = [this.lightOf(picture.data, told.segments, "--accent", 3)];
        picture.light(lit);
        const [first, last] = told.child_segments || [0, 0], next = last > first ? await this.level(told.level + 1)
            : null;
        if (this.asked === key && next && next.isWhole && next.lattice === picture.data.lattice)
            picture.light([...lit, this.lightOf(next, [first, last], "--label", 2)]);
        return null;
    }

    words(told) {
        const came = told.came ? "It came from `" + told.came + "`." : told.level === 0 ? "It is of the axiom."
            : "No rule put it: it stayed.";
        const drawn = told.image ? " It is drawn by hom " + told.image + "." : "";
        const becomes = !told.children ? "" : " On level " + (told.level + 1)
            + (told.children.length === 0 ? " nothing is left of it" : " it is " + told.children.join(" "))
            + (told.by ? ", by " + told.by + "." : ", by no rule.");
        return told.module + ", module " + told.number + " of level " + told.level + ". " + came + drawn + becomes;
    }

    // One module of the lineage: its level, and which child it is.
    wayOf([module, number, label], level) {
        const term = page.createElement("dt"), text = page.createElement("dd");
        term.textContent = "level " + level;
        text.textContent = module + (level === 0 ? ", symbol " + number + " of the axiom"
            : ", child " + number + (label ? " by " + label : ", by no rule"));
        return [term, text];
    }

    // Segments of a picture, to be drawn over the one that is seen.
    lightOf(data, [first, last], colour, wide) {
        const places = data.places.subarray(7 * first, 7 * Math.min(last, first + MOST_LIT));
        return { data: { lattice: data.lattice, places, count: places.length / 7 }, colour, wide };
    }
}
