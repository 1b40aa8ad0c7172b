// The player of a file that holds its script, its replies and its pictures. It asks nothing of anyone.
(() => {
    const at = id => document.getElementById(id), held = JSON.parse(at("lsys").textContent),
        last = held.levels.length - 1;
    const parsed = [], level = number => parsed[number] = parsed[number]
        || parse(held.lattice + " " + number + "\n" + held.levels[number]);
    let seen = last, timer = null;

    function draw() {
        const canvas = at("picture"), dense = devicePixelRatio || 1,
            { clientWidth: width, clientHeight: height } = canvas, data = level(seen);
        Object.assign(canvas, { width: Math.round(width * dense), height: Math.round(height * dense) });
        const pen = canvas.getContext("2d");
        pen.setTransform(dense, 0, 0, dense, 0, 0);
        pen.strokeStyle = getComputedStyle(canvas).color;
        drawAll(pen, place(data, CORNER).points, widthsOf(data),
            fitInto(place(level(last), CORNER).box, width, height), { width, height });
        const told = data.count.toLocaleString("en") + (data.count === 1 ? " line" : " lines") + ", level " + seen
            + " of " + last;
        canvas.setAttribute("aria-label", told);
        at("told").textContent = told;
        at("level").value = seen;
    }

    function see(number) {
        seen = Math.max(0, Math.min(last, number));
        draw();
    }

    function stop() {
        clearInterval(timer);
        timer = null;
        at("play").textContent = "Play";
    }

    function play() {
        if (timer !== null) return stop();
        at("play").textContent = "Stop";
        see(seen === last ? 0 : seen);
        timer = setInterval(() => see(seen === last ? 0 : seen + 1), held.pace);
        return timer;
    }

    const replies = new Map(held.replies);
    held.script.split("\n").forEach((line, place) => {
        const reply = replies.get(place + 1), told = document.createElement("i");
        if (reply !== undefined) told.textContent = "  " + reply.split("\n")[0].slice(0, 80);
        if (reply !== undefined && reply.startsWith("refused ")) told.className = "refused";
        at("script").append(line, told, "\n");
    });
    document.querySelector("h1").textContent = held.name;
    at("level").max = last;
    at("level").addEventListener("input", () => { stop(); see(Number(at("level").value)); });
    at("less").addEventListener("click", () => { stop(); see(seen - 1); });
    at("more").addEventListener("click", () => { stop(); see(seen + 1); });
    at("play").addEventListener("click", play);
    addEventListener("resize", draw);
    matchMedia("(prefers-color-scheme: dark)").addEventListener("change", draw);
    draw();
})();
