// Files that a person asks for, and the link that holds a script.

export function download(blob, name) {
    const link = globalThis.document.createElement("a");
    link.href = URL.createObjectURL(blob);
    link.download = name;
    link.click();
    setTimeout(() => URL.revokeObjectURL(link.href), 10000);
}

// The bytes of a script. A byte that was none of a sign is told by half a pair.
export function bytesOf(script) {
    const bytes = [];
    for (const part of script.split(/([\uDC80-\uDCFF])(?<![\uD800-\uDBFF][\uDC80-\uDCFF])/)) {
        const isByte = part.length === 1 && part >= "\uDC80" && part <= "\uDCFF";
        bytes.push(isByte ? Uint8Array.of(part.charCodeAt(0) - 0xDC00) : new TextEncoder().encode(part));
    }
    return new Blob(bytes, { type: "text/plain" });
}

async function through(stream, bytes) {
    return new Uint8Array(await new Response(new Blob([bytes]).stream().pipeThrough(stream)).arrayBuffer());
}

// The part of an address after `#` that holds a script. It is sent nowhere.
export async function linkOf(script) {
    const bytes = await through(new CompressionStream("deflate-raw"), new TextEncoder().encode(script));
    let text = "";
    for (let from = 0; from < bytes.length; from += 8192)
        text += String.fromCharCode(...bytes.subarray(from, from + 8192));
    return "#script=" + btoa(text).replace(/\+/g, "-").replace(/\//g, "_").replace(/=/g, "");
}

// The script of such a part, or null.
export async function scriptOf(hash) {
    const found = /^#script=([\w-]+)$/.exec(hash);
    if (!found) return null;
    try {
        const text = atob(found[1].replace(/-/g, "+").replace(/_/g, "/"));
        return new TextDecoder().decode(await through(new DecompressionStream("deflate-raw"),
            Uint8Array.from(text, sign => sign.charCodeAt(0))));
    } catch (error) {
        return null;
    }
}
