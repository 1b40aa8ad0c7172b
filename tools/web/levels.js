// The depth, which is a line of the script, and the level that is looked at, which is none: levels up to the depth can
// be walked through
// and played, and their strings read.

import { depthOf, greatestDepth, withEdit } from "/web/language.js";
import { get } from "/web/desk.js";

const at = id => globalThis.document.getElementById(id);
const LEAST_RANGE = 10;
// Milliseconds for which a level is seen, by the speed's slider.
const PACES = [2000, 1000, 400, 200, 100, 40];

export class Levels {
    // `onDepth` gets the lines with another depth, `onLevel` is called where another level is to be seen, and gives
    // what is kept once it is seen.
    constructor(lines, onDepth, onLevel) {
        Object.assign(this, { lines, onDepth, onLevel, state: null, chosen: null, playing: null });
        at("depth").addEventListener("input", () => this.setDepth(Number(at("depth").value)));
        at("less_depth").addEventListener("click", () => this.setDepth(depthOf(this.lines()) - 1));
        at("more_depth").addEventListener("click", () => this.setDepth(depthOf(this.lines()) + 1));
        at("level").addEventListener("input", () => this.choose(Number(at("level").value)));
        at("less_level").addEventListener("click", () => this.choose(this.level() - 1));
        at("more_level").addEventListener("click", () => this.choose(this.level() + 1));
        at("play").addEventListener("click", () => this.play());
        at("pace").addEventListener("input", () => this.tellPace());
        at("picture").addEventListener("keydown", event => this.key(event));
        this.tellPace();
        at("string_pane").addEventListener("toggle", () => this.showString());
    }

    setDepth(depth) {
        const lines = this.lines();
        this.stop();
        this.chosen = null;
        this.onDepth(withEdit(lines, "depth " + Math.max(0, Math.min(greatestDepth(lines), depth))));
    }

    // The level that is looked at: the last one, where none was chosen.
    level() {
        const depth = this.state ? this.state.depth : 0;
        return this.chosen === null ? depth : Math.min(this.chosen, depth);
    }

    choose(level) {
        this.stop();
        this.show(level);
    }

    show(level) {
        const depth = this.state ? this.state.depth : 0;
        const wanted = Math.max(0, Math.min(depth, level));
        this.chosen = wanted === depth ? null : wanted;
        this.tell();
        return this.onLevel();
    }

    // A new state of the script. A level past the depth is none any more. While a line is being typed that is refused
    // as it is, depth and
    // level stay.
    take(state, lines, isTyping) {
        if (isTyping && this.state) {
            this.state = { ...state, depth: this.state.depth };
            return;
        }
        this.state = state;
        if (this.chosen !== null && this.chosen >= state.depth) this.chosen = null;
        const written = depthOf(lines);
        at("depth").max = Math.min(greatestDepth(lines), Math.max(LEAST_RANGE, written + 3));
        at("depth").value = written;
        at("depth_value").textContent = written;
        at("less_depth").disabled = written === 0;
        at("more_depth").disabled = written >= greatestDepth(lines);
        this.tell();
        this.showString();
    }

    tell() {
        const depth = this.state ? this.state.depth : 0, level = this.level();
        at("level").max = depth;
        at("level").value = level;
        at("level_value").textContent = level + " of " + depth;
        at("less_level").disabled = level === 0;
        at("more_level").disabled = level === depth;
        at("play").disabled = depth === 0;
        at("play").textContent = this.playing === null ? "Play" : "Stop";
        this.showString();
    }

    pace() {
        return PACES[Number(at("pace").value)];
    }

    tellPace() {
        const perSecond = 1000 / this.pace();
        at("pace_value").textContent = perSecond + (perSecond === 1 ? " level a second" : " levels a second");
        at("pace").setAttribute("aria-valuetext", at("pace_value").textContent);
    }

    // Shows the levels to the depth one after another, from this one on, or from level 0 where this is the last one;
    // once more, it stops.
    play() {
        if (this.playing !== null) {
            this.stop();
            return;
        }
        if (!this.state || this.state.depth === 0) return;
        this.playing = {};
        this.playOn(this.playing, this.level() === this.state.depth ? 0 : this.level());
    }

    // A level is seen for the time that was chosen, and not before its picture is there.
    async playOn(playing, first) {
        for (let level = first; this.playing === playing; level++) {
            const isLast = level >= this.state.depth;
            if (isLast && !at("loop").checked) this.playing = null;
            const begun = performance.now();
            await this.show(level);
            const left = this.pace() - (performance.now() - begun);
            if (this.playing === playing) await new Promise(done => setTimeout(done, Math.max(20, left)));
            if (isLast) level = -1;
        }
    }

    stop() {
        this.playing = null;
        this.tell();
    }

    // Keys in the picture: a level back and on, the first one and the last one, play.
    key(event) {
        const deeds = { ",": () => this.choose(this.level() - 1), ".": () => this.choose(this.level() + 1),
            " ": () => this.play(), Home: () => this.choose(0),
            End: () => this.choose(Infinity) };
        if (event.ctrlKey || event.altKey || event.metaKey || !deeds[event.key]) return;
        event.preventDefault();
        deeds[event.key]();
    }

    async showString() {
        if (!at("string_pane").open || !this.state) return;
        const key = this.state.text + " " + this.level();
        if (key === this.shown) return;
        this.shown = key;
        try {
            const told = await (await get("/level?text=" + this.state.text + "&level=" + this.level())).json();
            if (this.shown !== key) return;
            at("string").textContent = told.string || "(empty)";
            at("string_cut").hidden = told.length <= told.string.length;
            at("string_cut").textContent = "cut: the first " + told.string.length.toLocaleString("en") + " of "
                + told.length.toLocaleString("en") + " signs";
        } catch (error) {
            this.shown = null;
        }
    }
}
