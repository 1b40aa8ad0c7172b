// Films of the levels: WebM by the browser, GIF by a program of the server's machine, an SVG with frames, and one HTML
// file without a server.

import { CORNER, drawAll, fitInto, place, widthsOf } from "/web/drawing.js";
import { download } from "/web/files.js";
import { get, post } from "/web/desk.js";

const at = id => globalThis.document.getElementById(id);
const WIDE = 960, HIGH = 720;
const TYPES = ["video/webm;codecs=vp9", "video/webm;codecs=vp8", "video/webm"];
const wait = time => new Promise(done => setTimeout(done, time));

// The bytes of a file as text of 64 signs.
async function packed(blob) {
    const bytes = new Uint8Array(await blob.arrayBuffer());
    let text = "";
    for (let from = 0; from < bytes.length; from += 8192)
        text += String.fromCharCode(...bytes.subarray(from, from + 8192));
    return btoa(text);
}

// Draws each level on a sheet, in the frame that fits the last one, black on white.
function painter(levels) {
    const sheet = globalThis.document.createElement("canvas"), last = levels.at(-1), pen = sheet.getContext("2d");
    Object.assign(sheet, { width: WIDE, height: HIGH });
    const view = fitInto(place(last, CORNER).box, WIDE, HIGH);
    const paint = data => {
        pen.fillStyle = "white";
        pen.fillRect(0, 0, WIDE, HIGH);
        pen.strokeStyle = "black";
        drawAll(pen, place(data, CORNER).points, widthsOf(data), view, sheet);
    };
    return { sheet, paint };
}

async function webm(levels, pace) {
    const type = TYPES.find(each => globalThis.MediaRecorder && MediaRecorder.isTypeSupported(each));
    if (!type) throw new Error("This browser writes no WebM. A GIF or an SVG with frames can be had.");
    const { sheet, paint } = painter(levels), stream = sheet.captureStream(0), [track] = stream.getVideoTracks();
    const recorder = new MediaRecorder(stream, { mimeType: type, videoBitsPerSecond: 6000000 }), parts = [];
    recorder.ondataavailable = event => parts.push(event.data);
    const ended = new Promise((done, failed) => {
        recorder.onstop = done;
        recorder.onerror = event => failed(event.error || new Error("the browser's recorder failed"));
    });
    recorder.start();
    for (const data of [...levels, levels.at(-1)]) {
        paint(data);
        track.requestFrame();
        await wait(pace);
    }
    recorder.stop();
    await ended;
    return new Blob(parts, { type: "video/webm" });
}

async function gif(levels, pace) {
    const { sheet, paint } = painter(levels), frames = [];
    for (const data of levels) {
        paint(data);
        frames.push(await packed(await new Promise(done => sheet.toBlob(done, "image/png"))));
    }
    const told = await post("/gif", { frames, pace });
    return new Blob([Uint8Array.from(atob(told.gif), sign => sign.charCodeAt(0))], { type: "image/gif" });
}

export class Film {
    // `told` gives the state, the desk, the growth, which has the levels, and the milliseconds for each.
    constructor(told, deed, notice) {
        Object.assign(this, { told, deed, notice });
        for (const kind of ["webm", "gif", "svg", "html"])
            at("film_" + kind).addEventListener("click", () => this.give(kind));
    }

    // Gives all levels as a file of a kind.
    async give(kind) {
        at("film").open = false;
        if (this.told().isGone) return;
        await this.told().desk.settled();
        this.notice(kind === "webm" ? "The film is being recorded, level by level .." : "");
        if (await this.deed(() => this.make(kind).then(() => true))) this.notice("");
    }

    async make(kind) {
        const { state, pace } = this.told(), stem = (state.name || "film").replace(/\.lsys$/, "");
        if (kind === "webm" || kind === "gif")
            return download(await (kind === "gif" ? gif : webm)(await this.levels(), pace), stem + "." + kind);
        const answer = await get("/film/" + kind + "?text=" + state.text + "&pace=" + pace);
        return download(await answer.blob(), /filename="([^"]*)"/.exec(answer.headers.get("Content-Disposition"))[1]);
    }

    async levels() {
        const { state, growth } = this.told(), found = [];
        for (let level = 0; level <= state.depth; level++) found.push(await growth.level(level));
        if (!found.every(data => data && data.isWhole))
            throw new Error("Not all levels have a picture that can be had: one is refused, or is too large.");
        return found;
    }
}
