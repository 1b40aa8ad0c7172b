// Draws pictures beside the page, so that a large one doesn't hold it up. It has the points of one picture, and gives a
// bitmap for each view
// that is wanted; one that is wanted anew ends the one before.

import { strokesOf } from "/web/shaded.js";

const SLICE = 12;
let points = null, widths = null, data = null, wanted = null, isDrawing = false;
const pause = () => new Promise(done => setTimeout(done));

async function draw(asked) {
    const sheet = new OffscreenCanvas(Math.max(1, Math.round(asked.width * asked.dense)),
        Math.max(1, Math.round(asked.height * asked.dense)));
    const pen = sheet.getContext("2d", { willReadFrequently: true });
    pen.setTransform(asked.dense, 0, 0, asked.dense, 0, 0);
    let begun = performance.now();
    for (const _ of strokesOf(pen, points, widths, asked.view, { ...asked, data })) {
        if (performance.now() - begun < SLICE) continue;
        await pause();
        if (wanted) return _;
        begun = performance.now();
    }
    const bitmap = sheet.transferToImageBitmap();
    postMessage({ id: asked.id, bitmap }, [bitmap]);
    return null;
}

onmessage = async ({ data: told }) => {
    if (told.points) ({ points, widths } = told);
    if (told.data) ({ data } = told);
    wanted = told;
    if (isDrawing) return;
    isDrawing = true;
    while (wanted) {
        const asked = wanted;
        wanted = null;
        await draw(asked);
    }
    isDrawing = false;
};
