// The export menu: what one wants of a picture's file, and the files themselves. The server writes them, as
// tools/export does; a PNG that it can't
// write for want of a program is drawn here.

import { bytesOf, download, linkOf } from "/web/files.js";
import { get } from "/web/desk.js";
import { isCorner } from "/web/picture.js";

const at = id => globalThis.document.getElementById(id);
const KINDS = ["svg", "png", "pdf", "obj", "dxf", "glb", "segments", "script", "link"];
// Those that show the picture as it is seen.
const DRAWN = ["svg", "png", "pdf"];
// The server lacks a program.
const MISSING = 501;

// The words that tell the server how the picture is turned on the page; none where it isn't.
export function viewWords(view, isInSpace) {
    const degrees = angle => String(Math.round(angle * 180 / Math.PI * 1e4) / 1e4 % 360);
    if (isCorner(view)) return [];
    return isInSpace ? [["turn", degrees(view.turn)], ["tilt", degrees(view.tilt)]] : [["turn", degrees(view.spin)]];
}

export class Exports {
    // `page` has the picture, the levels, the script's lines and name, and tells notices.
    constructor(page) {
        this.page = page;
        for (const kind of KINDS) at("export_" + kind).onclick = () => this.export(kind);
    }

    async export(kind) {
        at("export").open = false;
        if (kind === "script") return download(bytesOf(this.page.lines().join("\n")), this.stem() + ".lsys");
        if (kind === "link") return this.page.isGone || this.link();
        await this.page.desk.settled();
        return this.page.deed(() => this.write(kind));
    }

    stem() {
        return (this.page.state.name || "script").replace(/\.lsys$/, "");
    }

    async link() {
        globalThis.history.replaceState(null, "", await linkOf(this.page.lines().join("\n")));
        const isCopied = await (navigator.clipboard ? navigator.clipboard.writeText(location.href)
            .then(() => true, () => false) : false);
        this.page.notice("The address of this page holds the script now"
            + (isCopied ? ", and is copied." : ": copy it from the address bar."));
    }

    // What is asked of the server: the level or line that is seen, how it is turned, and of a PNG its size and ground.
    words(kind) {
        const { picture, levels } = this.page, level = levels.chosen, line = level === null ? this.page.line() : null,
            words = [];
        if (level !== null) words.push(["level", level]);
        if (line !== null) words.push(["line", line]);
        if (DRAWN.includes(kind)) words.push(...viewWords(picture.view, picture.isInSpace()));
        if (kind === "png") words.push(["size", at("png_size").value], ["ground", this.ground()]);
        return words;
    }

    ground() {
        return at("png_clear").checked ? "none" : "white";
    }

    async write(kind) {
        const words = new URLSearchParams(this.words(kind));
        try {
            const answer = await get("/export/" + kind + "?" + words);
            const name = /filename="([^"]*)"/.exec(answer.headers.get("Content-Disposition") || "");
            download(await answer.blob(), name ? name[1] : "picture." + kind);
            const told = answer.headers.get("X-Told");
            if (told) this.page.notice(told[0].toUpperCase() + told.slice(1) + ".");
        } catch (error) {
            if (kind !== "png" || error.status !== MISSING || !this.page.picture.data) throw error;
            download(await this.page.picture.png(Number(at("png_size").value), this.ground()), this.stem() + ".png");
            this.page.notice("The browser drew this PNG: " + error.message + ".");
        }
    }
}
