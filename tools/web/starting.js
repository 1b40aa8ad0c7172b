// Scripts to begin from, pieces of scripts to put, and files that are opened.

export const TEMPLATES = [
    { name: "Empty", script: "" },
    { name: "Koch curve", script: "axiom F-F-F-F\nproduction f: F => F-F+F+FF-F-F+F\ndepth 2\nsvg\n" },
    { name: "Bracketed plant",
        script: "lattice hexagonal\naxiom !(2)+F\nproduction f: F => F[+F]F[-F][F]\nhom up: F => F+F-\n"
            + "depth 4\nsvg\n" },
    { name: "Stochastic plant",
        script: "lattice hexagonal\naxiom +F\nproduction left: F @ 1 => F[+F]F\n"
            + "production right: F @ 1 => F[-F]F\nseed 1\ndepth 4\nsvg\n" },
    { name: "Signal by contexts",
        script: "axiom F_b[+F_a]F_a[-F_a]F_a\nignore +-\nproduction s: F_b < F_a => F_b\ndepth 2\nstring\nsvg\n" },
    { name: "Tables in a schedule",
        script: "axiom F\nproduction a: F => F+F\nproduction winter w: F => F-F\nschedule main main winter\n"
            + "depth 4\nsvg\n" },
    { name: "Homomorphism",
        script: "axiom A\nproduction a: A => B+A\nproduction b: B => A-B\nhom ha: A => F\nhom hb: B => F\n"
            + "depth 5\nsvg\n" },
];

// Pieces of a script, by what they are.
export const SNIPPETS = [
    { name: "bracketed plant", text: "production f: F => F[+F]F[-F]F" },
    { name: "context signal", text: "ignore +-\nproduction s: B < A => B" },
    { name: "stochastic", text: "production left: F @ 1 => F[+F]F\nproduction right: F @ 1 => F[-F]F\nseed 1" },
    { name: "table schedule", text: "production winter w: F => F-F\nschedule main winter" },
    { name: "homomorphism", text: "hom h: A => F" },
    { name: "parameters", text: "production p: A(x) : x > 0 => F(x)A(x-1)" },
];

// A file's text. A mark at its head stays, of which the server tells; a byte that is none of a sign is told by half a
// pair, as from the server.
async function textOf(file) {
    const bytes = new Uint8Array(await file.arrayBuffer());
    try {
        return new TextDecoder("utf-8", { fatal: true, ignoreBOM: true }).decode(bytes);
    } catch (error) {
        return Array.from(bytes, byte => byte < 128 ? String.fromCharCode(byte) : String.fromCharCode(0xDC00 + byte))
            .join("");
    }
}

// A file's script and its name; of an HTML file that the page wrote, the script that it holds, or null.
export async function heldBy(file) {
    const text = await textOf(file), isPage = /\.html?$/i.test(file.name), script = isPage ? scriptIn(text) : text;
    return { name: isPage && script !== null ? file.name.replace(/\.html?$/i, ".lsys") : file.name, script };
}

function scriptIn(text) {
    const found = /<script type="application\/json" id="lsys">([^]*?)<\/script>/.exec(text);
    try {
        const { script } = JSON.parse(found[1]);
        return typeof script === "string" ? script : null;
    } catch (error) {
        return null;
    }
}

// Lets a file be chosen by a button, or dropped on the page.
export function listenForFiles(page, onFile) {
    const input = page.getElementById("file");
    page.getElementById("open_file").addEventListener("click", () => input.click());
    input.addEventListener("change", () => {
        if (input.files.length) onFile(input.files[0]);
        input.value = "";
    });
    page.addEventListener("dragover", event => event.preventDefault());
    page.addEventListener("drop", event => {
        event.preventDefault();
        if (event.dataTransfer.files.length) onFile(event.dataTransfer.files[0]);
    });
}
