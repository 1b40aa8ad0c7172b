// What a page has to know of the language: its words, where the numbers of a line are, and which line an edit replaces.
// What a script
// means only the program says, and what helps where a line is refused the server tells, as on the terminal.

export const EDITS = ["axiom", "production", "drop", "ignore", "schedule", "seed", "depth", "lattice", "hom",
    "version", "ignoring", "consider", "common", "lineage"];
export const QUERIES = ["string", "segments", "svg", "show", "bounds", "at", "growth"];
export const STEPS = ["undo", "redo"];
export const COMMANDS = [...EDITS, ...QUERIES, ...STEPS, "quit"];
const RULES = ["production", "hom"];
// After these words, or after the first colon of these, there are names and no words.
const NAMES_AFTER_WORD = ["axiom", "ignore"];
const NAMES_AFTER_COLON = ["production", "hom", "ignoring", "consider"];
const FIRST_WORD = /^[ \t]*([A-Za-z]\w*)/;

export function wordOf(line) {
    const found = line.startsWith(";") ? null : FIRST_WORD.exec(line);
    return found ? found[1] : "";
}

// The place in a line from which it has names.
export function beginOfNames(line) {
    const word = wordOf(line);
    if (NAMES_AFTER_WORD.includes(word)) return line.indexOf(word) + word.length;
    const colon = NAMES_AFTER_COLON.includes(word) ? line.indexOf(":") : -1;
    return colon < 0 ? line.length : colon + 1;
}

// The numbers of a line, each with its place.
export function numbersOf(line) {
    if (line.startsWith(";") || line.length > 4000) return [];
    const names = beginOfNames(line);
    const token = /[A-Za-z]\w*|\d+/g;
    const name = /[A-Za-z](?:_[A-Za-z0-9]{1,6})?|\d+/g;
    const found = [];
    for (const [text, from, to, pattern] of [[line, 0, names, token], [line, names, line.length, name]]) {
        pattern.lastIndex = from;
        for (let match; (match = pattern.exec(text)) && match.index < to;) {
            if (/^\d/.test(match[0]))
                found.push({ from: match.index, to: match.index + match[0].length, text: match[0] });
        }
    }
    return found;
}

export function numberAt(line, column) {
    return numbersOf(line).find(number => number.from <= column && column <= number.to) || null;
}

// What an edit is about, as far as a line that replaces another one needs it.
function subjectOf(line) {
    const word = wordOf(line);
    const colon = line.indexOf(":");
    if (RULES.includes(word))
        return "rule " + line.slice(0, colon < 0 ? line.length : colon).trim().split(/[ \t]+/).pop();
    if (["ignoring", "consider", "common"].includes(word)) return "own " + (line.trim().split(/[ \t:]+/)[1] || "");
    return word;
}

// The lines with an edit put in: in the place of the last one about the same, or else before the queries at the end.
export function withEdit(lines, edit) {
    const subject = subjectOf(edit);
    const place = lines.findLastIndex(line => EDITS.includes(wordOf(line)) && subjectOf(line) === subject);
    if (place >= 0 && wordOf(edit) !== "drop") return [...lines.slice(0, place), edit, ...lines.slice(place + 1)];
    let end = lines.length;
    while (end > 0 && (QUERIES.includes(wordOf(lines[end - 1])) || lines[end - 1].trim() === "")) end--;
    return [...lines.slice(0, end), edit, ...lines.slice(end)];
}

export function depthOf(lines) {
    const line = lines.findLast(each => wordOf(each) === "depth");
    const found = line && /\d+/.exec(line);
    return found ? Number(found[0]) : 0;
}

export function greatestDepth(lines) {
    return lines.some(line => /^[ \t]*version[ \t]+0*2[ \t]*$/.test(line)) ? 256 : 64;
}

const COLUMN =
    /^refused (?:syntax (?:byte|token|deep)|name|duplicate|mixed|label|table|level|many|version|place) (\d+)$/;

// The column of bytes that a refusal names, from 1, or 0.
export function columnOf(reply) {
    const found = COLUMN.exec(reply);
    return found ? Number(found[1]) : 0;
}

// The place of a line's text at a column of bytes.
export function placeOf(line, column) {
    let bytes = 1, place = 0;
    for (const sign of line) {
        if (bytes >= column) break;
        const code = sign.codePointAt(0);
        bytes += code < 128 || code >= 0xDC80 && code <= 0xDCFF ? 1 : code < 2048 ? 2 : code < 65536 ? 3 : 4;
        place += sign.length;
    }
    return place;
}

// A reply as it stands beside its line.
export function shortReply(reply) {
    const counts = /^ok (\d+)\/(\d+)$/.exec(reply);
    if (counts)
        return counts[2] === "0" ? "ok" : "asked anew " + Number(counts[1]).toLocaleString("en") + " of "
            + Number(counts[2]).toLocaleString("en");
    const picture = /^segments (\d+)/.exec(reply);
    if (picture)
        return "a picture of " + Number(picture[1]).toLocaleString("en") + (picture[1] === "1" ? " line" : " lines");
    const text = reply.split("\n").slice(0, 12).join("\n");
    return text.length > 160 ? text.slice(0, 160) + " .." : text;
}

// What the counts of an edit say.
export function countsMeaning(asked, all) {
    if (all === "0") return "No module of the derivation has a rule, so nothing had to be asked.";
    return "Of the " + Number(all).toLocaleString("en") + " modules that have a rule, "
        + Number(asked).toLocaleString("en")
        + " had to be asked anew what becomes of them; all others kept the answer that they had.";
}

// A refusal in words: the reply, and what helps.
export function refusalText(reply, hint) {
    return reply + (hint && hint.told ? ": " + hint.told : "");
}
