// The picture, drawn on a canvas from the segments that the program lists, as its language says where a place is drawn.
// One can come
// nearer, move it, and turn it where it is in space.

import { CORNER, MARGIN, drawAll, fitInto, parse, place, widthsOf } from "/web/drawing.js";
import { Plate } from "/web/plate.js";
import { get } from "/web/desk.js";

export const ASKED_ABOVE = 200000;

// Whether a view isn't turned.
export function isCorner(view) {
    return Object.entries(CORNER).every(([name, value]) => view[name] === value);
}

export class Picture {
    // `onTold` is called when something else is shown.
    constructor(canvas, onTold) {
        Object.assign(this, { canvas, onTold, data: null, asked: null, isAsking: false, large: null, wants: null,
            lit: [], marked: [], frame: null, beside: null, follows: null });
        this.plate = new Plate(() => this.draw());
        this.view = { ...CORNER, scale: 1, x: 0, y: 0, isFitted: true };
        new ResizeObserver(() => this.draw()).observe(canvas);
        globalThis.matchMedia("(prefers-color-scheme: dark)").addEventListener("change", () => this.draw());
        this.listen();
    }

    // Wants the picture of a text, at a level or of a line. Of what was wanted before, only what comes first is still
    // taken. What is given is
    // kept when all that was wanted has come.
    want(text, level, line) {
        this.wants = { text, level, line, most: this.mostFor(text) };
        if (!this.isAsking) this.asking = this.ask();
        return this.asking;
    }

    mostFor(text) {
        return this.allowed === text ? 1e9 : ASKED_ABOVE;
    }

    // Draws a picture that was held back for its size.
    allow() {
        if (!this.large) return;
        this.allowed = this.large.text;
        this.want(this.large.text, this.large.level, this.large.line);
    }

    async ask() {
        if (this.isAsking) return;
        this.isAsking = true;
        while (this.wants) {
            const asked = this.wants;
            this.wants = null;
            const words = Object.entries(asked).filter(([, value]) => value !== null && value !== undefined)
                .map(pair => pair.join("="));
            try {
                this.took(asked, parse(await (await get("/picture?" + words.join("&"))).text()));
            } catch (error) {
                // The text is another one by now, and its picture is wanted when its state comes.
            }
        }
        this.isAsking = false;
    }

    took(asked, data) {
        this.large = !data.refusal && !data.isWhole ? { ...asked, count: data.count } : null;
        if (!this.large && !data.refusal) {
            const isOther = !this.data || this.data.lattice !== data.lattice;
            this.data = data;
            this.points = null;
            if (isOther) Object.assign(this.view, CORNER, { isFitted: true });
        }
        this.refusal = data.refusal;
        this.asked = asked;
        this.draw();
        this.onTold();
    }

    isInSpace() {
        return this.data !== null && this.data.lattice === "cubic";
    }

    // The ends of all segments as they are drawn, and the box around them and the origin.
    place() {
        if (this.points) return;
        Object.assign(this, place(this.data, this.view));
        if (!this.widths || this.widths.data !== this.data)
            this.widths = { data: this.data, groups: widthsOf(this.data) };
    }

    // The box that is fitted: that of the frame's picture, where there is one of this lattice, or the picture's own.
    boxToFit() {
        const { beside, data, view } = this, box = this.boxOfFrame();
        if (!beside || beside.lattice !== data.lattice) return box;
        const other = place(beside, view).box;
        return [Math.min(box[0], other[0]), Math.min(box[1], other[1]), Math.max(box[2], other[2]),
            Math.max(box[3], other[3])];
    }

    boxOfFrame() {
        const { frame, data, view } = this;
        if (!frame || frame.data.lattice !== data.lattice || frame.data === data) return this.box;
        const turned = [view.spin, view.turn, view.tilt].join();
        if (frame.turned !== turned) Object.assign(frame, { turned, box: place(frame.data, view).box });
        return frame.box;
    }

    // Fits all pictures into the frame that fits this one, until another frame is given or none.
    setFrame(data) {
        if (this.frame ? this.frame.data === data : !data) return;
        this.frame = data ? { data } : null;
        this.draw();
    }

    draw() {
        if (this.isDrawing) return;
        this.isDrawing = true;
        requestAnimationFrame(() => {
            this.isDrawing = false;
            const { clientWidth, clientHeight } = this.canvas, dense = globalThis.devicePixelRatio || 1;
            const width = Math.max(1, Math.round(clientWidth * dense)),
                height = Math.max(1, Math.round(clientHeight * dense));
            if (this.canvas.width !== width || this.canvas.height !== height)
                Object.assign(this.canvas, { width, height });
            if (!this.data || !clientWidth) return;
            const begun = performance.now();
            this.place();
            if (this.follows) this.follow(this.follows.view);
            else if (this.view.isFitted) Object.assign(this.view, fitInto(this.boxToFit(), clientWidth, clientHeight));
            const pen = this.canvas.getContext("2d");
            pen.setTransform(dense, 0, 0, dense, 0, 0);
            pen.clearRect(0, 0, clientWidth, clientHeight);
            this.paint(pen, { width: clientWidth, height: clientHeight, dense, ...this.colours(), data: this.data });
            this.tellView();
            if (this.onDrawn) this.onDrawn();
            this.canvas.dataset.spent = performance.now() - begun;
            this.canvas.dataset.drawn = Number(this.canvas.dataset.drawn || 0) + 1;
        });
    }

    // The picture, and over it what is marked and what is lit: pictures, each with the name of its colour and how wide
    // it is at least.
    paint(pen, sheet) {
        this.plate.draw(pen, this.points, this.widths.groups, this.view, sheet);
        const style = getComputedStyle(this.canvas);
        for (const { data, colour, wide } of [...this.marked, ...this.lit]) {
            pen.strokeStyle = style.getPropertyValue(colour).trim();
            pen.globalAlpha = 0.85;
            drawAll(pen, place(data, this.view).points, [[Math.max(1, wide / this.view.scale), null]], this.view,
                sheet);
            pen.globalAlpha = 1;
        }
    }

    // Shows what another picture shows, which is moved and turned there.
    follow(view) {
        const isTurned = ["spin", "turn", "tilt"].some(name => view[name] !== this.view[name]);
        Object.assign(this.view, view, { isFitted: false });
        if (!isTurned) return;
        this.points = null;
        this.place();
    }

    light(lit) {
        if (!lit.length && !this.lit.length) return;
        this.lit = lit;
        this.draw();
    }

    // The colour of lines, and in space what they are shaded by.
    colours() {
        const ink = getComputedStyle(this.canvas).color,
            ground = getComputedStyle(globalThis.document.body).backgroundColor;
        return { colour: ink, shade: this.isInSpace() ? { ink, ground } : null };
    }

    tellView() {
        const { count, level, lattice } = this.data;
        const { isFitted, ...view } = this.view;
        Object.assign(this.canvas.dataset, view, { lines: count, level, lattice, fitted: isFitted });
    }

    // All segments, those of one width at once.
    drawOn(pen, view, colour) {
        pen.strokeStyle = colour;
        drawAll(pen, this.points, this.widths.groups, view, pen.canvas);
    }

    // A picture of the whole in points, black on this ground.
    async png(longest, ground) {
        this.place();
        const [left, top, right, bottom] = this.box;
        const scale = longest / (Math.max(right - left, bottom - top) + 2 * MARGIN);
        const sheet = globalThis.document.createElement("canvas");
        sheet.width = Math.ceil(scale * (right - left + 2 * MARGIN));
        sheet.height = Math.ceil(scale * (bottom - top + 2 * MARGIN));
        const pen = sheet.getContext("2d");
        pen.fillStyle = ground === "none" ? "transparent" : ground;
        pen.fillRect(0, 0, sheet.width, sheet.height);
        this.drawOn(pen, fitInto(this.box, sheet.width, sheet.height), "black");
        return new Promise(done => sheet.toBlob(done, "image/png"));
    }

    fit() {
        Object.assign(this.view, CORNER, { isFitted: true });
        this.points = null;
        this.draw();
    }

    move(x, y) {
        Object.assign(this.view, { x: this.view.x + x, y: this.view.y + y, isFitted: false });
        this.draw();
    }

    // Comes nearer by a factor, with this place of the canvas staying where it is.
    near(factor, x = this.canvas.clientWidth / 2, y = this.canvas.clientHeight / 2) {
        const { view } = this, scale = Math.min(1e4, Math.max(1e-9, view.scale * factor));
        Object.assign(view, { x: x - (x - view.x) * scale / view.scale, y: y - (y - view.y) * scale / view.scale,
            scale, isFitted: false });
        this.draw();
    }

    // Turns it, on a sheet around what is in the middle, or in space.
    turnBy(turn, tilt) {
        if (this.isInSpace()) {
            this.view.turn += turn;
            this.view.tilt = Math.max(-Math.PI / 2, Math.min(Math.PI / 2, this.view.tilt + tilt));
        } else {
            const { view } = this, x = this.canvas.clientWidth / 2, y = this.canvas.clientHeight / 2,
                along = Math.cos(turn), across = Math.sin(turn);
            const right = view.x - x, down = view.y - y;
            Object.assign(view, { spin: view.spin + turn, x: x + along * right - across * down,
                y: y + across * right + along * down });
        }
        this.points = null;
        this.draw();
    }

    listen() {
        const { canvas } = this, held = new Map();
        canvas.addEventListener("keydown", event => this.key(event));
        canvas.addEventListener("wheel", event => {
            event.preventDefault();
            this.near(Math.exp(-event.deltaY / 500), event.offsetX, event.offsetY);
        }, { passive: false });
        canvas.addEventListener("pointerdown", event => {
            held.set(event.pointerId, event);
            canvas.setPointerCapture(event.pointerId);
        });
        canvas.addEventListener("pointermove", event => this.pull(held, event));
        for (const kind of ["pointerup", "pointercancel"])
            canvas.addEventListener(kind, event => held.delete(event.pointerId));
    }

    // One finger or the mouse moves the picture, or turns it in space, where Shift moves it; two fingers come nearer.
    pull(held, event) {
        const before = held.get(event.pointerId);
        if (!before) return;
        const x = event.clientX - before.clientX, y = event.clientY - before.clientY;
        const other = [...held.values()].find(each => each.pointerId !== event.pointerId);
        held.set(event.pointerId, event);
        if (other) {
            const distance = each => Math.max(1, Math.hypot(each.clientX - other.clientX,
                each.clientY - other.clientY));
            this.near(distance(event) / distance(before), event.offsetX, event.offsetY);
        } else if (this.isInSpace() && !event.shiftKey) {
            // What is near follows the mouse.
            this.turnBy(x / 150, -y / 150);
        } else {
            this.move(x, y);
        }
    }

    key(event) {
        if (event.ctrlKey || event.altKey || event.metaKey) return;
        const arrow = { ArrowLeft: [-1, 0], ArrowRight: [1, 0], ArrowUp: [0, -1], ArrowDown: [0, 1] }[event.key];
        if (arrow && event.shiftKey) this.turnBy(arrow[0] / 10, arrow[1] / 10);
        else if (arrow) this.move(40 * arrow[0], 40 * arrow[1]);
        else if (event.key === "+" || event.key === "=") this.near(1.25);
        else if (event.key === "-") this.near(0.8);
        else if (event.key === "0") this.fit();
        else return;
        event.preventDefault();
    }
}
