// The page: two editors, and the answers of the library about them. Everything that the library
// returns is put into the page as text.

import { pictureOf, rowsOf, statesOf } from "./diagram.js";
import { Editor, rangesOf } from "./editor.js";
import { EXAMPLES } from "./examples.js";
import { Requests } from "./requests.js";
import { showFaults, showLeaves, showMatches, showTokens, tokenText, variantOf } from "./tables.js";

// The most bytes of a text that are lexed, and of a source that is read.
const MOST_TEXT = 64 * 1024, MOST_SOURCE = 1024 * 1024;
// The most states that are drawn, and that the table has.
const MOST_DRAWN = 60, MOST_ROWS = 500;
// The milliseconds after which the library is stopped, if the address does not name others.
const LIMIT = 5000;

const at = (id) => document.getElementById(id);
const source = new Editor(at("source-editor"));
const text = new Editor(at("text-editor"));
const settings = new URLSearchParams(location.hash.slice(1));
const limit = Number(settings.get("limit")) || LIMIT;

// What is known of the texts at present.
const known = { enums: [], tables: [], range: undefined, leaves: [], items: new Int32Array(0), lexed: "", faults: [] };
// The requests that wait, and the order in which they are sent.
const waiting = new Set();
const ORDER = ["lexers", "leaves", "items", "matches", "diagram"];
let requests;
let isBusy = false;
let pressed = 0;

function showStatus(words) {
    if (at("status").textContent !== words) {
        at("status").textContent = words;
    }
}

// Shows the status once nobody has typed for a while, so that a screen reader is not interrupted.
let later, isFirst = true;
function showStatusLater(words) {
    clearTimeout(later);
    later = setTimeout(() => showStatus(words), isFirst ? 0 : 400);
    isFirst = false;
}

function stopped(about) {
    return `The library was stopped before it answered about ${about}. The limit is ${limit} milliseconds.`;
}

function plural(number, word) {
    return `${number} ${word}${number === 1 ? "" : "s"}`;
}

// Returns the front of a text that has at most this many bytes in UTF-8.
function frontOf(whole, most) {
    const buffer = new Uint8Array(most);
    return whole.slice(0, new TextEncoder().encodeInto(whole.slice(0, most), buffer).read);
}

function request() {
    return { source: source.text, range: known.range, text: known.lexed };
}

const steps = {
    async lexers() {
        if (source.text.length > MOST_SOURCE) {
            return refuse("The enum has more than 1 MiB, and is not read.");
        }
        const sent = source.text;
        const answer = await requests.send("lexers", { source: sent });
        if (source.text !== sent) {
            // It was edited since, and the next request is about it.
            return undefined;
        }
        if (!answer) {
            return refuse(stopped("the enum"));
        }
        Object.assign(known, { enums: answer.enums, tables: answer.tables, faults: answer.faults });
        source.show(rangesOf(answer.faults, sent.length), sent.length);
        showFaults(answer, (span) => source.select(span.start, span.end));
        listEnums();
        return chooseEnum();
    },
    async leaves() {
        const answer = await requests.send("leaves", request());
        setTable(answer?.table);
    },
    async items() {
        const front = frontOf(text.text, MOST_TEXT);
        known.lexed = front;
        at("cut").hidden = front.length === text.text.length;
        at("cut").textContent = `The text is long: only its first 64 KiB are lexed and colored.`;
        const answer = await requests.send("items", request());
        known.items = answer?.items ?? new Int32Array(0);
        if (text.text.startsWith(front)) {
            text.show(paintOf(known.items), front.length);
        }
        listTokens();
        document.documentElement.dataset.milliseconds = String(Math.round(performance.now() - pressed));
        showStatusLater(answer ? summary(answer.notes) : stopped("the text"));
        waiting.add("matches");
    },
    async matches() {
        const cursor = Math.min(text.area.selectionStart, known.lexed.length);
        const index = itemAt(cursor);
        at("token").textContent = tokenText(known, index, cursor);
        if (known.lexed === "" || known.lexed.length === cursor && index < 0) {
            return showMatches(known, { found: [], notes: ["The text ends here."] });
        }
        const from = index < 0 ? gapAt(cursor) : known.items[index + 3];
        const before = known.lexed.slice(0, from).split("\n");
        const point = { line: before.length, column: [...before.at(-1)].length + 1, from, cursor: index < 0 ? cursor : from };
        const answer = await requests.send("matches", { ...request(), ...point });
        showMatches(known, answer ?? { found: [], notes: [stopped("this point")] });
    },
    async diagram() {
        const answer = await requests.send("diagram", request());
        showStates(answer ? statesOf(answer.text) : []);
    },
};

// Forgets the lexer, and shows why there is none.
function refuse(why) {
    Object.assign(known, { enums: [], tables: [], faults: [] });
    source.show([], 0);
    showFaults({ faults: [], notes: [why] }, () => {});
    listEnums();
    clear(why);
}

// Removes everything that only an accepted enum has.
function clear(why) {
    known.leaves = [];
    known.items = new Int32Array(0);
    ORDER.forEach((name) => waiting.delete(name));
    text.show([], 0);
    showLeaves(known);
    listTokens();
    showMatches(known, { found: [], notes: [] });
    at("token").textContent = "No token.";
    showStates([]);
    document.documentElement.dataset.milliseconds = String(Math.round(performance.now() - pressed));
    showStatusLater(why);
}

function listTokens() {
    showTokens(known, (from, to) => text.select(from, to));
}

function listEnums() {
    const chosen = at("enum").selectedIndex;
    at("enum").replaceChildren(...known.enums.map(({ path }) => new Option(path, path)));
    at("enum").selectedIndex = Math.min(Math.max(chosen, 0), known.enums.length - 1);
    at("enum-label").hidden = known.enums.length < 2;
}

// Takes the selected enum, and requests what is shown about it.
function chooseEnum() {
    const index = at("enum").selectedIndex;
    known.range = known.enums[index];
    if (!known.range) {
        return clear("There is no lexer: see the messages.");
    }
    if (known.tables[index]) {
        setTable(known.tables[index]);
    } else if (known.enums.length > 1) {
        waiting.add("leaves");
    } else {
        setTable(undefined);
    }
}

// Takes the table of leaves of the selected enum, or none if it has faults.
function setTable(table) {
    if (!table) {
        const count = known.faults.filter(({ level }) => level === "error").length;
        return clear(count > 0 ? `The enum has ${plural(count, "fault")}, so there are no tokens.` : "There is no lexer: see the messages.");
    }
    known.leaves = table.leaves;
    known.states = table.states;
    showLeaves(known);
    ["items", "diagram"].forEach((name) => waiting.add(name));
}

function paintOf(items) {
    const ranges = [];
    for (let index = 0; index < items.length; index += 5) {
        const leaf = items[index];
        ranges.push({ start: items[index + 3], end: items[index + 4], kind: leaf < 0 ? "token error" : `token leaf-${leaf % 12}` });
    }
    return ranges;
}

// Returns the index of the item at an offset of the string, or -1. At the end of the text it is the
// last item.
function itemAt(offset) {
    const { items, lexed } = known;
    let low = 0, high = items.length / 5;
    while (low < high) {
        const middle = (low + high) >> 1;
        if (items[5 * middle + 4] > offset) {
            high = middle;
        } else {
            low = middle + 1;
        }
    }
    if (5 * low < items.length) {
        return items[5 * low + 3] <= offset ? 5 * low : -1;
    }
    const last = items.length - 5;
    return last >= 0 && offset === lexed.length && items[last + 4] === offset ? last : -1;
}

// Returns the beginning of the text without items around an offset.
function gapAt(offset) {
    let from = 0;
    for (let index = 0; index < known.items.length && known.items[index + 4] <= offset; index += 5) {
        from = known.items[index + 4];
    }
    return from;
}

function summary(notes) {
    const count = known.items.length / 5;
    let errors = 0;
    for (let index = 0; index < known.items.length; index += 5) {
        errors += known.items[index] < 0 ? 1 : 0;
    }
    const parts = [plural(known.leaves.length, "leaf").replace("leafs", "leaves"), plural(known.states, "state"), plural(count - errors, "token"), plural(errors, "error")];
    return [`${parts.join(", ")}.`, ...notes].join(" ");
}

function markOf({ leaf, isLate }) {
    return leaf === undefined ? "" : `${variantOf(known, leaf)}${isLate ? " (one byte ago)" : ""}`;
}

function showStates(states) {
    const isDrawn = states.length > 0 && states.length <= MOST_DRAWN;
    at("diagram").hidden = !isDrawn;
    at("diagram").replaceChildren(...(isDrawn ? [pictureOf(states, markOf)] : []));
    at("states-details").hidden = states.length === 0;
    at("states-details").open ||= states.length > MOST_DRAWN;
    at("states").tBodies[0].replaceChildren(...rowsOf(states.slice(0, MOST_ROWS), markOf, (number) => number < MOST_ROWS));
    const cut = states.length > MOST_ROWS ? ` The table has the first ${MOST_ROWS}.` : "";
    const drawn = isDrawn || states.length === 0 ? "" : ` More than ${MOST_DRAWN} are not drawn.`;
    at("diagram-note").textContent = states.length === 0 ? "No states." : `${plural(states.length, "state")}. Each match attempt begins in state 0.${drawn}${cut}`;
}

// Sends the requests that wait, one after another.
async function pump() {
    if (isBusy || !requests) {
        return;
    }
    isBusy = true;
    document.documentElement.dataset.state = "busy";
    const stop = setTimeout(() => { at("stop").hidden = false; }, 500);
    for (let name; (name = ORDER.find((it) => waiting.has(it)));) {
        waiting.delete(name);
        await steps[name]();
    }
    clearTimeout(stop);
    at("stop").hidden = true;
    isBusy = false;
    document.documentElement.dataset.state = "idle";
}

function edited(...names) {
    pressed = performance.now();
    document.documentElement.dataset.state = "busy";
    names.forEach((name) => waiting.add(name));
    pump();
}

function fill(example) {
    source.text = example.source;
    text.text = example.text;
    text.area.setSelectionRange(0, 0);
    edited("lexers");
}

function showUnderPointer(event) {
    const offset = text.offsetAt(event.clientX, event.clientY);
    const index = offset === undefined ? -1 : itemAt(offset);
    text.area.title = index < 0 ? "" : tokenText(known, index, offset);
}

function listen() {
    for (const { area } of [source, text]) {
        area.addEventListener("input", () => {
            at("example").selectedIndex = 0;
            edited(area === text.area && known.leaves.length > 0 ? "items" : "lexers");
        });
    }
    text.area.addEventListener("pointermove", showUnderPointer);
    document.addEventListener("selectionchange", () => {
        if (document.activeElement === text.area && known.leaves.length > 0) {
            waiting.add("matches");
            pump();
        }
    });
    at("enum").addEventListener("change", () => {
        chooseEnum();
        pump();
    });
    at("tokens-details").addEventListener("toggle", listTokens);
    at("stop").addEventListener("click", () => requests.end());
    at("example").replaceChildren(new Option("Your own"), ...EXAMPLES.map(({ name }) => new Option(name)));
    at("example").addEventListener("change", () => {
        const example = EXAMPLES[at("example").selectedIndex - 1];
        if (example) {
            fill(example);
        }
    });
}

async function start() {
    listen();
    const first = EXAMPLES[0];
    at("example").selectedIndex = settings.has("enum") || settings.has("text") ? 0 : 1;
    fill({ source: settings.get("enum") ?? first.source, text: settings.get("text") ?? first.text });
    try {
        const response = await fetch("playground.wasm");
        requests = new Requests(await WebAssembly.compile(await response.arrayBuffer()), limit);
    } catch (error) {
        showStatus(`The library cannot be loaded: ${error.message}. The page has to come from a web server.`);
        return;
    }
    pump();
}

start();
