// The server that the page works with: what it tells, and the changes that it is sent, one at a time and only the
// newest.

const token = globalThis.document.querySelector("meta[name=token]").content;

export class Wrong extends Error {
    constructor(word, status) {
        super(word);
        this.status = status;
    }
}

async function answerOf(answer) {
    if (answer.ok) return answer;
    let word = "the server answers " + answer.status;
    try {
        word = (await answer.json()).wrong || word;
    } catch (error) {
        // It had no words.
    }
    throw new Wrong(word, answer.status);
}

// What each control tells where the server can't be reached.
export const GONE = "tools/look has ended or can't be reached. This page's text is still here, and Export has it as a "
    + "file.";

// What is on its way and takes long: `Busy.onLong` is told of it after half a second, with what the server works at,
// and again until it ends.
export const Busy = { onLong: () => {}, count: 0, timer: null };
const AFTER = 500, AGAIN = 300;

async function tellLong() {
    let told = { line: "", seconds: 0 };
    try {
        told = await (await fetch("/busy", { headers: { "X-Token": token } })).json();
    } catch (error) {
        // It can't be reached, which is told elsewhere.
    }
    if (!Busy.count) return;
    Busy.onLong(told);
    Busy.timer = setTimeout(tellLong, AGAIN);
}

async function reach(path, options, isWatched) {
    if (isWatched && Busy.count++ === 0) Busy.timer = setTimeout(tellLong, AFTER);
    try {
        const answer = await fetch(path, options);
        return isWatched ? new Response(await answer.blob(), { status: answer.status, headers: answer.headers })
            : answer;
    } catch (error) {
        throw new Wrong(GONE, 0);
    } finally {
        if (isWatched && --Busy.count === 0) {
            clearTimeout(Busy.timer);
            Busy.onLong(null);
        }
    }
}

export async function get(path, isWatched = true) {
    return answerOf(await reach(path, { headers: { "X-Token": token } }, isWatched));
}

export async function post(path, body, isWatched = true) {
    const headers = { "X-Token": token, "Content-Type": "application/json" };
    return (await answerOf(await reach(path, { method: "POST", headers, body: JSON.stringify(body) }, isWatched)))
        .json();
}

// The lines that differ: where they begin, how many go, and what comes.
export function difference(before, after) {
    const least = Math.min(before.length, after.length);
    let first = 0;
    while (first < least && before[first] === after[first]) first++;
    let last = 0;
    while (last < least - first && before[before.length - 1 - last] === after[after.length - 1 - last]) last++;
    return { first, removed: before.length - first - last, lines: after.slice(first, after.length - last) };
}

export class Desk {
    // `onState` gets each new state; `onScript` the text where another page, the file or a person's choice changed it;
    // `onClash` is told where
    // two pages changed one text; `onGone` whether the server can't be
    // reached, `onNewDesk` that another one is there in its place.
    constructor(handlers) {
        Object.assign(this, handlers);
        this.turn = 0;
        this.number = -1;
        this.lines = [];
        this.wanted = null;
        this.isSending = false;
        this.clash = null;
    }

    async listen() {
        for (;;) {
            try {
                // The first state comes as soon as the script is answered; later ones come when there is something new.
                const state = await (await get("/state?turn=" + this.turn + "&text=" + this.number, this.number < 0))
                    .json();
                this.desk = this.desk || state.desk;
                if (state.desk !== this.desk) {
                    this.onNewDesk();
                    return;
                }
                this.onGone(false);
                this.take(state);
            } catch (error) {
                // A server that doesn't know this page is another one than that which opened it.
                if (error.status === 403) {
                    this.onNewDesk();
                    return;
                }
                this.onGone(true);
                this.turn = 0;
                await new Promise(done => setTimeout(done, 1000));
            }
        }
    }

    // Takes a state that came by itself. While a change of this page is on its way, the answer to it tells more.
    take(state) {
        if (this.isSending || this.clash || state.turn < this.turn) return;
        if (this.wanted) {
            this.send();
            return;
        }
        this.turn = state.turn;
        if (state.text !== this.number && state.script !== undefined) this.takeScript(state);
        this.onState(state);
    }

    takeScript(state) {
        this.number = state.text;
        this.lines = state.script.split("\n");
        this.wanted = null;
        this.clash = null;
        this.onScript(state.script, state);
    }

    // Wants the script to have these lines.
    want(lines) {
        this.wanted = lines;
        this.send();
    }

    isPending() {
        return this.wanted !== null;
    }

    // Waits, for some seconds at most, until all that was wanted has been sent.
    async settled() {
        for (let turns = 0; turns < 200 && (this.isSending || this.wanted) && !this.clash; turns++)
            await new Promise(done => setTimeout(done, 25));
    }

    async send() {
        if (this.isSending || this.clash) return;
        this.isSending = true;
        try {
            while (this.wanted) {
                const wanted = this.wanted;
                const change = difference(this.lines, wanted);
                const isChange = change.removed || change.lines.length;
                const state = isChange ? await post("/change", { base: this.number, ...change }) : null;
                this.lines = wanted;
                if (this.wanted === wanted) this.wanted = null;
                if (state) {
                    this.number = state.text;
                    this.turn = Math.max(this.turn, state.turn);
                    this.onState(state);
                }
            }
        } catch (error) {
            await this.failed(error);
        } finally {
            this.isSending = false;
        }
    }

    async failed(error) {
        if (error.status === 409) {
            await this.beginClash();
        } else if (error.status) {
            this.onWrong(error.message);
            this.wanted = null;
        } else {
            this.onGone(true);
            setTimeout(() => this.send(), 1000);
        }
    }

    async beginClash() {
        try {
            const state = await (await get("/state?turn=0")).json();
            this.clash = { state, wanted: this.wanted };
            this.onClash();
        } catch (error) {
            this.onGone(true);
            setTimeout(() => this.send(), 1000);
        }
    }

    // Ends a clash of two pages: by the other page's text, or by this one's.
    settleClash(takesOther) {
        const { state } = this.clash;
        this.clash = null;
        if (takesOther) {
            this.takeScript(state);
            this.onState(state);
        } else {
            this.number = state.text;
            this.lines = state.script.split("\n");
            this.send();
        }
    }

    // A deed whose answer is a state with the script as it is then.
    async deed(path, body) {
        const state = await post(path, body);
        this.turn = Math.max(this.turn, state.turn);
        if (state.script !== undefined) this.takeScript(state);
        this.onState(state);
        return state;
    }
}
