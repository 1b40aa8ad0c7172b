// A beside B: a version that is held, and the script as it goes on, with what differs in the text and, where both have
// one lattice, which
// segments came and went. A segment is the same one whichever end it begins at.

import { Picture } from "/web/picture.js";
import { post } from "/web/desk.js";

const page = globalThis.document;
const at = id => page.getElementById(id);
const numeral = number => number.toLocaleString("en");
const MOST_COMPARED = 200000;
// So many lines that stay are shown around those that differ.
const AROUND = 2;

// Each segment as a text that is the same for both of its directions.
function keysOf({ places, count }) {
    const keys = new Array(count);
    for (let at = 0, from = 0; at < count; at++, from += 7) {
        const order = places[from] - places[from + 3] || places[from + 1] - places[from + 4]
            || places[from + 2] - places[from + 5];
        const first = order > 0 ? from + 3 : from, second = order > 0 ? from : from + 3;
        keys[at] = places[first] + " " + places[first + 1] + " " + places[first + 2] + " " + places[second] + " "
            + places[second + 1] + " " + places[second + 2] + " " + places[from + 6];
    }
    return keys;
}

// The numbers of the segments of one picture that another one hasn't as often.
function beyond(keys, others) {
    const left = new Map();
    for (const key of others) left.set(key, (left.get(key) || 0) + 1);
    const found = [];
    keys.forEach((key, number) => {
        const many = left.get(key) || 0;
        if (many) left.set(key, many - 1);
        else found.push(number);
    });
    return found;
}

function only(data, numbers) {
    const places = new Float64Array(7 * numbers.length);
    numbers.forEach((number, to) => places.set(data.places.subarray(7 * number, 7 * number + 7), 7 * to));
    return { lattice: data.lattice, places, count: numbers.length };
}

// The lines that differ and some around them, from the server's [sign, number before, number now, line].
function shown(told) {
    const near = told.map((_, place) => told.slice(Math.max(0, place - AROUND), place + AROUND + 1)
        .some(([sign]) => sign !== " "));
    return told.flatMap(([sign, before, now, line], place) => near[place]
        ? [sign + " " + String(now || before).padStart(4) + "  " + line] : near[place - 1] ? ["  .."] : []);
}

export class Beside {
    // `told` gives the picture, the lines, and what is told of them; `onBack` gets the lines of A.
    constructor(told, onBack) {
        Object.assign(this, { told, held: null, compared: null, text: null });
        at("hold").addEventListener("click", () => this.hold());
        at("back_to_a").addEventListener("click", () => onBack(this.held.lines));
        at("let_go").addEventListener("click", () => this.letGo());
    }

    hold() {
        const { picture, lines } = this.told();
        if (!picture.data) return;
        this.held = { lines: lines(), data: picture.data };
        this.compared = this.text = null;
        at("frame").classList.add("beside");
        at("held").hidden = false;
        at("held").setAttribute("aria-label", "A, as it was held: " + numeral(picture.data.count) + " lines, level "
            + picture.data.level);
        this.picture = this.picture || new Picture(at("held"), () => {});
        Object.assign(this.picture, { data: picture.data, points: null, marked: [] });
        picture.beside = picture.data;
        this.tell();
        picture.draw();
    }

    letGo() {
        const { picture } = this.told();
        this.held = null;
        at("frame").classList.remove("beside");
        at("held").hidden = true;
        Object.assign(picture, { beside: null, marked: [] });
        this.tell();
        picture.draw();
    }

    // Something else is seen: compares it with A.
    tell() {
        at("beside").hidden = at("differences").hidden = !this.held;
        at("hold").textContent = this.held ? "Hold as A anew" : "Hold as A";
        if (!this.held) return;
        this.tellPictures();
        this.tellText();
    }

    tellPictures() {
        const { picture } = this.told(), { data } = picture, a = this.held.data;
        if (!data || this.compared === data) return;
        this.compared = data;
        picture.marked = this.picture.marked = [];
        Object.assign(this.picture, { follows: data.lattice === a.lattice ? picture : null });
        if (data.lattice !== a.lattice)
            at("beside_told").textContent = "A is on the " + a.lattice + " lattice and B on the " + data.lattice
                + " one, so their lines are not compared.";
        else if (data.count > MOST_COMPARED || a.count > MOST_COMPARED)
            at("beside_told").textContent = "Pictures of more than " + numeral(MOST_COMPARED)
                + " lines are not compared.";
        else this.compare(picture, data, a);
        this.picture.draw();
        picture.draw();
    }

    compare(picture, data, a) {
        const [before, now] = [keysOf(a), keysOf(data)], went = beyond(before, now), came = beyond(now, before);
        picture.marked = [{ data: only(data, came), colour: "--label", wide: 2 }];
        this.picture.marked = [{ data: only(a, went), colour: "--refused", wide: 2 }];
        at("beside_told").textContent = numeral(went.length) + (went.length === 1 ? " line" : " lines")
            + " of A went (red), " + numeral(came.length) + " came (green), "
            + numeral(data.count - came.length) + " stayed.";
        Object.assign(at("beside_told").dataset, { went: went.length, came: came.length });
    }

    async tellText() {
        const lines = this.told().lines(), key = lines.join("\n");
        if (key === this.text) return;
        this.text = key;
        const before = this.held.lines;
        try {
            const told = await post("/differ", { first: before, second: lines }, false);
            if (this.text !== key) return;
            const texts = shown(told.lines);
            at("differences_text").textContent = texts.length ? texts.join("\n") : "The text is that of A.";
        } catch (error) {
            at("differences_text").textContent = error.message;
        }
    }
}
