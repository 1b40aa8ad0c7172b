// The scripts that there were, for undo and redo. `undo` and `redo` give a script or null, and nothing else is asked of
// them, so that
// the program's own commands can stand here as soon as there are any.

const MOST = 400;
const MOST_SIGNS = 48000000;
const PAUSE = 700;

export class History {
    constructor(script) {
        this.scripts = [script];
        this.at = 0;
        this.kind = "";
        this.noted = 0;
    }

    // Changes of one kind that follow each other without a pause are one step.
    note(script, kind) {
        if (script === this.scripts[this.at]) return;
        const now = Date.now();
        const goesOn = kind !== "" && kind === this.kind && now - this.noted < PAUSE && this.at > 0;
        this.kind = kind;
        this.noted = now;
        this.scripts.length = goesOn ? this.at : this.at + 1;
        this.scripts.push(script);
        let signs = this.scripts.reduce((sum, each) => sum + each.length, 0);
        while (this.scripts.length > 2 && (this.scripts.length > MOST || signs > MOST_SIGNS))
            signs -= this.scripts.shift().length;
        this.at = this.scripts.length - 1;
    }

    canUndo() {
        return this.at > 0;
    }

    canRedo() {
        return this.at < this.scripts.length - 1;
    }

    undo() {
        this.kind = "";
        return this.canUndo() ? this.scripts[--this.at] : null;
    }

    redo() {
        this.kind = "";
        return this.canRedo() ? this.scripts[++this.at] : null;
    }
}
