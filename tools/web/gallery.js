// The examples to begin from, over the page.

import { get } from "/web/desk.js";

const page = globalThis.document;
const at = id => page.getElementById(id);

const MOST_SIGNS = 80;

// What an example's comment says, without its source, and cut after a word.
function shortened(about) {
    const text = about.replace(/ \([^)]*figure[^)]*\)/, "");
    return text.length <= MOST_SIGNS ? text : text.slice(0, MOST_SIGNS).replace(/\W*\w*$/, " ..");
}

function entry(example, onChosen) {
    const item = page.createElement("li"), button = page.createElement("button");
    const image = page.createElement("img"), name = page.createElement("strong"), about = page.createElement("small");
    image.src = "/example/" + example.name + ".svg";
    image.loading = "lazy";
    image.alt = "";
    image.addEventListener("error", () => { image.hidden = true; });
    name.textContent = example.name.replace(/_/g, " ");
    about.textContent = shortened(example.about);
    button.title = example.about;
    button.dataset.name = example.name;
    button.append(image, name, about);
    button.addEventListener("click", () => onChosen(example.name));
    item.append(button);
    return item;
}

export class Gallery {
    constructor(onChosen) {
        this.onChosen = onChosen;
        at("close_gallery").addEventListener("click", () => at("gallery").close());
    }

    async open() {
        if (at("gallery").open) return;
        at("gallery").showModal();
        try {
            if (!this.isFilled) await this.fill();
        } catch (error) {
            this.isFilled = false;
            at("gallery").close();
            throw error;
        }
        at("gallery").scrollTop = 0;
        const first = at("examples").querySelector("button");
        if (first) first.focus({ preventScroll: true });
    }

    async fill() {
        this.isFilled = true;
        const groups = await (await get("/gallery")).json();
        at("examples").replaceChildren(...groups.flatMap(group => {
            const heading = page.createElement("h3"), list = page.createElement("ul");
            heading.textContent = group.heading;
            list.append(...group.examples.map(example => entry(example, name => {
                at("gallery").close();
                this.onChosen(name);
            })));
            return [heading, list];
        }));
    }
}
