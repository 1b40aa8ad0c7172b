// How segments are drawn: where a place of a lattice is on a sheet, and the strokes. Nothing is imported here, since a
// worker and a file that
// holds all of its pictures draw by it too.

const FLAT = { square: [10, 0, 0, 0, -10, 0], hexagonal: [20, 10, 0, 0, -17, 0] };
// The view in space that the program's own picture has, from above a corner: a length of 17 sideways, of 10 down, and
// of 20 up.
export const CORNER = { spin: 0, turn: Math.PI / 4, tilt: Math.asin(10 / 17) };
const SPACE = 17 * Math.SQRT2;
export const MARGIN = 10;
const ROUND_BELOW = 20000;
// A path with more segments takes longer than several with fewer.
const BATCH = 512;

// What the server sends: a line with the lattice and the level, and after it the program's reply.
export function parse(text) {
    const first = text.indexOf("\n"), second = text.indexOf("\n", first + 1);
    const [lattice, level] = text.slice(0, first).split(" ");
    const reply = text.slice(first + 1, second);
    const count = /^segments (\d+)$/.exec(reply);
    if (!count) return { lattice, level: Number(level), refusal: reply, count: 0, places: new Float64Array(0) };
    const isWhole = text.length > second + 1 || count[1] === "0";
    const places = new Float64Array(isWhole ? Number(count[1]) * 7 : 0);
    let at = 0, place = second + 1;
    for (let value = 0, sign = 1, isIn = false; place < text.length; place++) {
        const code = text.charCodeAt(place);
        if (code >= 48 && code <= 57) value = value * 10 + code - 48, isIn = true;
        else if (code === 45) sign = -1;
        else if (isIn) places[at++] = sign * value, value = 0, sign = 1, isIn = false;
    }
    return { lattice, level: Number(level), refusal: "", count: Number(count[1]), places, isWhole };
}

// The six numbers by which a place x y z is drawn: to the right by the first three, down by the others.
export function matrixOf(lattice, view) {
    if (lattice !== "cubic") {
        const [a, b, , , d] = FLAT[lattice], e = d, along = Math.cos(view.spin), across = Math.sin(view.spin);
        return [along * a, along * b - across * e, 0, across * a, across * b + along * e, 0];
    }
    const across = SPACE * Math.cos(view.turn), along = SPACE * Math.sin(view.turn), down = Math.sin(view.tilt);
    return [across, -along, 0, down * along, down * across, -SPACE * Math.cos(view.tilt)];
}

// The ends of all segments as they are drawn, and the box around them and the origin.
export function place(data, view) {
    const { places, count } = data, [a, b, c, d, e, f] = matrixOf(data.lattice, view);
    const points = new Float64Array(4 * count);
    let left = 0, top = 0, right = 0, bottom = 0;
    for (let at = 0, from = 0, to = 0; at < 2 * count; at++, from += at & 1 ? 3 : 4, to += 2) {
        const x = a * places[from] + b * places[from + 1] + c * places[from + 2],
            y = d * places[from] + e * places[from + 1] + f * places[from + 2];
        points[to] = x;
        points[to + 1] = y;
        if (x < left) left = x;
        else if (x > right) right = x;
        if (y < top) top = y;
        else if (y > bottom) bottom = y;
    }
    return { points, box: [left, top, right, bottom] };
}

// The segments by their widths: of each width the numbers of its segments, or null where all have one.
export function widthsOf(data) {
    const { places, count } = data, widths = new Map();
    let isOne = true;
    for (let at = 1; at < count && isOne; at++) isOne = places[7 * at + 6] === places[6];
    if (isOne) return count ? [[places[6], null]] : [];
    for (let at = 0; at < count; at++) {
        const width = places[7 * at + 6];
        if (!widths.has(width)) widths.set(width, []);
        widths.get(width).push(at);
    }
    return [...widths].map(([width, numbers]) => [width, Uint32Array.from(numbers)]);
}

export function fitInto(box, width, height) {
    const [left, top, right, bottom] = box;
    const scale = Math.min(width / (right - left + 2 * MARGIN), height / (bottom - top + 2 * MARGIN));
    return { scale, x: width / 2 - scale * (left + right) / 2, y: height / 2 - scale * (top + bottom) / 2 };
}

// Draws segments in parts, as a generator that gives way after each of them. `skips` lets only each so-manieth one be
// drawn; what is outside
// of the sheet isn't.
export function* strokes(pen, points, widths, view, { width: wide, height: high, skips = 1 }) {
    const { scale, x: right, y: down } = view, count = points.length / 4;
    pen.lineCap = count < ROUND_BELOW ? "round" : "butt";
    for (const [width, numbers] of widths) {
        const many = numbers ? numbers.length : count;
        pen.lineWidth = Math.max(0.6, width * scale);
        for (let at = 0; at < many;) {
            pen.beginPath();
            for (let put = 0; at < many && put < BATCH; at += skips) {
                const from = 4 * (numbers ? numbers[at] : at);
                const x = right + scale * points[from], y = down + scale * points[from + 1],
                    x2 = right + scale * points[from + 2], y2 = down + scale * points[from + 3];
                if (x < 0 && x2 < 0 || y < 0 && y2 < 0 || x > wide && x2 > wide || y > high && y2 > high) continue;
                pen.moveTo(x, y);
                pen.lineTo(x2, y2);
                put++;
            }
            pen.stroke();
            yield;
        }
    }
}

// Draws all segments at once.
export function drawAll(pen, points, widths, view, sheet) {
    for (const _ of strokes(pen, points, widths, view, sheet)) if (_) break;
}
