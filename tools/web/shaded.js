// A picture in space, shaded: what is far is paler and lies behind, and each line is a tube that a light above falls
// on. A lattice has three
// directions, so all lines of one direction at about one depth are stroked together, and a turn costs little more than
// without shades.

import { strokes } from "/web/drawing.js";

// So many layers of depth are drawn one before the other, and more lines than this, or thinner ones, have one tone.
const LAYERS = 48, TONES_BELOW = 60000, THICK = 2;
// A path with more lines takes longer than several with fewer.
const BATCH = 512;
// Where the light comes from: to the right, up, and towards the eye.
const LIGHT = [-0.35, 0.75, 0.56];
// How much of the ground is mixed into what is farthest.
const PALE = 0.65;
// The tones of a tube, from its edges to its middle: the part of its width, and how much light there is.
const TONES = [[1, 0], [0.82, 0.55], [0.5, 1]];
const THINNEST = 0.6;

const channels = colour => colour.match(/[\d.]+/g).slice(0, 3).map(Number);
const mixed = (one, other, part) => one.map((value, at) => value + part * (other[at] - value));
const asColour = values => "rgb(" + values.map(Math.round).join() + ")";
const bright = values => values[0] + values[1] + values[2];

// What is to the right, up and towards the eye, in a view.
export function axesOf({ turn, tilt }) {
    const c = Math.cos(turn), s = Math.sin(turn), level = Math.cos(tilt), steep = Math.sin(tilt);
    return { right: [c, -s, 0], up: [-steep * s, -steep * c, level], near: [-level * s, -level * c, -steep] };
}

// How bright a tube along each axis of the lattice is.
function lightsOf({ right, up, near }) {
    return [0, 1, 2].map(axis => {
        const along = LIGHT[0] * right[axis] + LIGHT[1] * up[axis] + LIGHT[2] * near[axis];
        return Math.sqrt(Math.max(0, 1 - along * along));
    });
}

// How near the middle of each line is, and between what all of them are.
function depthsOf(places, count, near) {
    const depths = new Float64Array(count);
    let least = Infinity, most = -Infinity;
    for (let at = 0, from = 0; at < count; at++, from += 7) {
        const depth = near[0] * (places[from] + places[from + 3]) + near[1] * (places[from + 1] + places[from + 4])
            + near[2] * (places[from + 2] + places[from + 5]);
        depths[at] = depth;
        least = Math.min(least, depth);
        most = Math.max(most, depth);
    }
    return { depths, least, range: most - least || 1 };
}

function axisOf(places, from) {
    return places[from] !== places[from + 3] ? 0 : places[from + 1] !== places[from + 4] ? 1 : 2;
}

// The lines of each layer, the farthest first: for each direction and width its paths. `skips` lets only each
// so-manieth line be drawn.
function layersOf({ places, count }, points, view, { near, skips }) {
    const { depths, least, range } = depthsOf(places, count, near),
        layers = Array.from({ length: LAYERS }, () => new Map());
    for (let at = 0; at < count; at += skips) {
        const layer = layers[Math.min(LAYERS - 1, Math.floor(LAYERS * (depths[at] - least) / range))];
        const axis = axisOf(places, 7 * at), width = places[7 * at + 6], key = 3 * width + axis;
        if (!layer.has(key)) layer.set(key, { axis, width, paths: [], many: 0 });
        const found = layer.get(key);
        if (found.many++ % BATCH === 0) found.paths.push(new Path2D());
        const path = found.paths.at(-1);
        path.moveTo(view.x + view.scale * points[4 * at], view.y + view.scale * points[4 * at + 1]);
        path.lineTo(view.x + view.scale * points[4 * at + 2], view.y + view.scale * points[4 * at + 3]);
    }
    return layers;
}

// The colour of a tube in a layer that is so far, by its light. What is lit is brighter, on a dark ground too.
function colouring(far, ink, ground) {
    const isDark = bright(ground) < bright(ink), dark = isDark ? ground : ink, light = isDark ? ink : ground;
    return lit => asColour(mixed(mixed(dark, light, isDark ? 0.15 + 0.8 * lit * lit : 0.5 * lit * lit), ground,
        PALE * far));
}

// Draws a picture in space, as a generator that gives way after each path; `points` are the ends of its lines in the
// plane, as `view` turns them,
// and before it is moved.
function* shades(pen, points, view, { data, shade, skips = 1 }) {
    const axes = axesOf(view), lights = lightsOf(axes),
        layers = layersOf(data, points, view, { near: axes.near, skips });
    const ink = channels(shade.ink), ground = channels(shade.ground), hasTones = data.count < TONES_BELOW;
    for (let number = 0; number < LAYERS; number++) {
        const colour = colouring(1 - (number + 0.5) / LAYERS, ink, ground);
        for (const [part, share] of hasTones ? TONES : TONES.slice(-1)) {
            pen.lineCap = hasTones ? "round" : "butt";
            for (const { axis, width, paths } of layers[number].values())
                yield* tone(pen, paths, width * view.scale, hasTones ? part : 1, colour(share * lights[axis]));
        }
    }
}

// One tone of lines of this width on the page; of thin ones the last alone.
function* tone(pen, paths, width, part, colour) {
    const isLast = part === TONES.at(-1)[0], isThin = width < THICK;
    if (isThin && part < 1 && !isLast) return;
    pen.strokeStyle = colour;
    pen.lineWidth = Math.max(THINNEST, isThin && isLast ? width : part * width);
    for (const path of paths) {
        pen.stroke(path);
        yield;
    }
}

// The strokes of a picture: shaded ones where the sheet says by which colours, and else plain ones of its colour.
export function strokesOf(pen, points, widths, view, sheet) {
    if (sheet.shade) return shades(pen, points, view, sheet);
    pen.strokeStyle = sheet.colour;
    return strokes(pen, points, widths, view, sheet);
}
