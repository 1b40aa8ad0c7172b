// A kept bitmap of a large picture, its plate. While the picture is moved the plate is moved, and a worker draws the
// next one; what is turned
// in space is drawn in part meanwhile. A small picture, or one in a browser without such workers, is drawn at once.

import { strokesOf } from "/web/shaded.js";

// So many segments are drawn at once, and so many of a picture that is being turned.
const AT_ONCE = 3000, IN_PART = 6000;
// The part of the sheet's size that a plate reaches past each edge.
const PAST = 0.25;
const REST = 120, AGAIN = 400;

export class Plate {
    // `onDrawn` is called when a plate came.
    constructor(onDrawn) {
        Object.assign(this, { onDrawn, worker: null, bitmap: null, asked: null, shown: null, points: null, data: null,
            id: 0, timer: null, sent: 0 });
        try {
            if (globalThis.OffscreenCanvas) this.worker = new Worker("/web/plate_worker.js", { type: "module" });
        } catch (error) {
            this.worker = null;
        }
        if (!this.worker) return;
        this.worker.onmessage = ({ data }) => this.took(data);
        this.worker.onerror = () => {
            this.worker = null;
            onDrawn();
        };
    }

    took({ id, bitmap }) {
        if (!this.asked || id !== this.asked.id) return bitmap.close();
        if (this.bitmap) this.bitmap.close();
        Object.assign(this, { bitmap, shown: this.asked, asked: null });
        return this.onDrawn();
    }

    forget() {
        if (this.bitmap) this.bitmap.close();
        Object.assign(this, { bitmap: null, shown: null, asked: null });
    }

    // Draws points by a pen whose sheet is this wide and high, of this colour and for this picture. Of another picture
    // the plate stays where it
    // is as long as the view is the same, until the next one comes.
    draw(pen, points, widths, view, sheet) {
        const count = points.length / 4;
        if (!this.worker || count <= AT_ONCE) {
            this.forget();
            return this.drawPart(pen, points, widths, view, sheet, 1);
        }
        if (this.shown && this.shown.data !== sheet.data && !this.isAt(this.shown, view)) this.forget();
        if (!this.isWanted(view, sheet)) this.want(points, widths, view, sheet);
        else if (this.timer) this.timer = clearTimeout(this.timer) || null;
        if (this.shown && this.canMove(view)) return this.move(pen, view);
        return this.drawPart(pen, points, widths, view, sheet, Math.ceil(count / IN_PART));
    }

    // Whether the plate that is there, or the one that is being drawn, is of this view and sheet.
    isWanted(view, sheet) {
        const last = this.asked || this.shown;
        return Boolean(last) && last.data === sheet.data && last.colour === sheet.colour && last.wide === sheet.width
            && last.high === sheet.height && last.dense === sheet.dense
            && this.isAt(last, view);
    }

    isAt({ at }, view) {
        return ["scale", "x", "y", "spin", "turn", "tilt"].every(name => at[name] === view[name]);
    }

    // Wants a plate: the first one at once, and others when the picture rests, or now and then while it moves.
    want(points, widths, view, sheet) {
        clearTimeout(this.timer);
        const send = () => this.send(points, widths, { ...view }, sheet);
        if (!this.shown && !this.asked || !this.asked && performance.now() - this.sent > AGAIN) send();
        else this.timer = setTimeout(send, REST);
    }

    send(points, widths, view, sheet) {
        this.timer = null;
        const past = [Math.round(PAST * sheet.width), Math.round(PAST * sheet.height)];
        const told = { id: ++this.id, view: { ...view, x: view.x + past[0], y: view.y + past[1] },
            width: sheet.width + 2 * past[0],
            height: sheet.height + 2 * past[1], dense: sheet.dense, colour: sheet.colour, shade: sheet.shade };
        this.asked = { id: this.id, at: view, past, wide: sheet.width, high: sheet.height, dense: sheet.dense,
            colour: sheet.colour, data: sheet.data };
        this.sent = performance.now();
        if (points !== this.points) Object.assign(told, { points, widths });
        if (sheet.shade && sheet.data !== this.data) told.data = { places: sheet.data.places, count: sheet.data.count };
        this.worker.postMessage(told);
        Object.assign(this, { points, data: sheet.shade ? sheet.data : this.data });
    }

    // Whether the plate shows this view by being moved, turned on its sheet and made larger.
    canMove(view) {
        const { at } = this.shown;
        return at.turn === view.turn && at.tilt === view.tilt;
    }

    move(pen, view) {
        const { at, past, wide, high } = this.shown, factor = view.scale / at.scale, turn = view.spin - at.spin;
        const along = factor * Math.cos(turn), across = factor * Math.sin(turn);
        pen.save();
        pen.transform(along, across, -across, along, view.x - along * at.x + across * at.y,
            view.y - across * at.x - along * at.y);
        // A plate that lies where it was drawn is put point by point.
        pen.imageSmoothingEnabled = factor !== 1 || turn !== 0;
        pen.drawImage(this.bitmap, -past[0], -past[1], wide + 2 * past[0], high + 2 * past[1]);
        pen.restore();
    }

    // Draws each so-manieth segment, as long as there is no plate of a view.
    drawPart(pen, points, widths, view, sheet, skips) {
        const parts = strokesOf(pen, points, widths, view, { ...sheet, skips });
        while (!parts.next().done);
    }

    // Whether what is seen is whole.
    isWhole() {
        return this.asked === null && this.timer === null;
    }
}
