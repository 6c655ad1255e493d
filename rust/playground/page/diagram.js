// Draws the states of a lexer, as SVG and as a table. The states come from the Mermaid text of the
// library, whose form is defined in `crates/logos_graph/specs/Mermaid.antt`.

const SVG = "http://www.w3.org/2000/svg";
const WIDTH = 112, HEIGHT = 40, COLUMN = 260, ROW = 84, EDGE = 40;

// Reads a Mermaid text into states: the mark of each, and its edges.
export function statesOf(text) {
    const states = [];
    for (const line of text.split("\n")) {
        const state = /^n(\d+)\["State \d+(?:<br>(early|late)\((\d+)\))?"\]$/.exec(line);
        const edge = /^en(\d+)n(\d+)\{"(.*)"\}$/.exec(line);
        if (state) {
            const leaf = state[3] === undefined ? undefined : Number(state[3]);
            states.push({ number: Number(state[1]), leaf, isLate: state[2] === "late", edges: [] });
        } else if (edge) {
            states.at(-1).edges.push({ to: Number(edge[2]), label: labelOf(edge[3]) });
        }
    }
    return states;
}

// Returns the ranges of bytes of an edge as the library prints them.
function labelOf(text) {
    const ranges = text.split("<br>");
    return ranges.map((it) => it === " " ? "␣" : it.replaceAll("&quot", '"').replaceAll("\\\\", "\\")).join("  ");
}

function short(text, most) {
    const characters = [...text];
    return characters.length > most ? `${characters.slice(0, most - 1).join("")}…` : text;
}

function svg(name, attributes, text) {
    const made = document.createElementNS(SVG, name);
    for (const [key, value] of Object.entries(attributes)) {
        made.setAttribute(key, value);
    }
    if (text !== undefined) {
        made.textContent = text;
    }
    return made;
}

// Returns the position of each state: its column is its distance from the first state.
function layout(states) {
    const depths = new Map([[0, 0]]), columns = [];
    const left = [0];
    while (left.length > 0) {
        const number = left.shift();
        const depth = depths.get(number);
        (columns[depth] ??= []).push(number);
        for (const { to } of states[number].edges) {
            if (!depths.has(to)) {
                depths.set(to, depth + 1);
                left.push(to);
            }
        }
    }
    const tallest = Math.max(...columns.map((column) => column.length));
    const positions = new Map();
    columns.forEach((column, depth) => column.forEach((number, index) => {
        // A short column begins near the top, so that the first state is in view.
        const y = EDGE + 16 + (index + Math.min((tallest - column.length) / 2, 2)) * ROW;
        positions.set(number, { x: 8 + depth * COLUMN, y, depth });
    }));
    return { positions, width: columns.length * COLUMN - COLUMN + WIDTH + 60, height: tallest * ROW + 2 * EDGE };
}

// Returns the path of an edge, and the point of its label.
function route(from, to) {
    const right = from.x + WIDTH, middle = from.y + HEIGHT / 2, end = to.y + HEIGHT / 2;
    if (from === to) {
        const x = from.x + WIDTH / 2;
        return { d: `M${x - 14},${from.y} C${x - 30},${from.y - 26} ${x + 30},${from.y - 26} ${x + 14},${from.y}`, x, y: from.y - 24 };
    }
    if (to.depth > from.depth) {
        const bend = (to.x - right) / 2;
        return { d: `M${right},${middle} C${right + bend},${middle} ${to.x - bend},${end} ${to.x},${end}`, x: (right + to.x) / 2, y: (middle + end) / 2 + (middle === end ? -6 : 4) };
    }
    if (to.depth === from.depth) {
        const out = right + 46;
        return { d: `M${right},${middle} C${out},${middle} ${out},${end} ${right},${end}`, x: right + 36, y: middle + (end - middle) * 0.32 };
    }
    const low = Math.max(from.y, to.y) + HEIGHT + 34;
    const [a, b] = [from.x + WIDTH / 2, to.x + WIDTH / 2];
    return { d: `M${a},${from.y + HEIGHT} C${a},${low} ${b},${low} ${b},${to.y + HEIGHT}`, x: a + (b - a) * 0.25, y: low - 14 };
}

function drawEdge(picture, labels, from, to, label) {
    const { d, x, y } = route(from, to);
    picture.append(svg("path", { d, class: "edge", "marker-end": "url(#arrow)" }));
    const text = svg("text", { x, y, class: "edge-label", "text-anchor": "middle" }, short(label, 16));
    text.append(svg("title", {}, label));
    labels.append(text);
}

function drawState(picture, state, { x, y }, mark) {
    const kind = state.leaf === undefined ? "" : ` leaf-${state.leaf % 12}`;
    const group = svg("g", { class: `state${kind}` });
    group.append(svg("title", {}, mark === "" ? `State ${state.number}` : `State ${state.number}: ${mark}`));
    group.append(svg("rect", { x, y, width: WIDTH, height: HEIGHT, rx: 8 }));
    const line = (dy, words) => svg("text", { x: x + WIDTH / 2, y: y + dy, "text-anchor": "middle" }, words);
    if (mark === "") {
        group.append(line(25, String(state.number)));
    } else {
        group.append(line(17, String(state.number)), line(32, short(mark, 14)));
    }
    picture.append(group);
}

// Returns a picture of the states. `markOf` returns the words for the mark of a state.
export function pictureOf(states, markOf) {
    const { positions, width, height } = layout(states);
    const picture = svg("svg", { viewBox: `0 0 ${width} ${height}`, width, height, role: "img", "aria-label": `State diagram of ${states.length} states, as in the table of states` });
    const defs = svg("defs", {});
    const arrow = svg("marker", { id: "arrow", viewBox: "0 0 8 8", refX: 7, refY: 4, markerWidth: 7, markerHeight: 7, orient: "auto-start-reverse" });
    arrow.append(svg("path", { d: "M0,0 L8,4 L0,8 z", class: "arrow" }));
    defs.append(arrow);
    picture.append(defs);
    const labels = svg("g", {});
    for (const state of states) {
        const from = positions.get(state.number);
        for (const { to, label } of from ? state.edges : []) {
            drawEdge(picture, labels, from, positions.get(to), label);
        }
    }
    for (const state of states) {
        if (positions.has(state.number)) {
            drawState(picture, state, positions.get(state.number), markOf(state));
        }
    }
    picture.append(labels);
    return picture;
}

// Returns the rows of the table of states. Each edge links to the row of the state it leads to.
export function rowsOf(states, markOf, isShown) {
    return states.map((state) => {
        const row = document.createElement("tr");
        row.id = `state-${state.number}`;
        const head = document.createElement("th");
        head.scope = "row";
        head.textContent = String(state.number);
        const mark = document.createElement("td");
        mark.textContent = markOf(state);
        const edges = document.createElement("td");
        for (const { to, label } of state.edges) {
            const link = document.createElement(isShown(to) ? "a" : "span");
            if (isShown(to)) {
                link.href = `#state-${to}`;
            }
            link.textContent = `→ ${to}`;
            const bytes = document.createElement("code");
            bytes.textContent = label;
            edges.append(bytes, " ", link, document.createElement("br"));
        }
        row.append(head, mark, edges);
        return row;
    });
}
