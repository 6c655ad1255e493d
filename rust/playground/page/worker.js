// Runs the programs of the library, so that the page stays responsive. The page ends this worker if
// an answer takes too long.
"use strict";

// The slots of the library: `rust/playground/src/lib.rs` describes them.
const ARGUMENTS = 0, SOURCE = 1, INPUT = 2, OUTPUT = 3, MESSAGES = 4;
const encoder = new TextEncoder();
const decoder = new TextDecoder("utf-8", { ignoreBOM: true });
let module;
let library;

function fill(slot, bytes) {
    const address = library.resize(slot, bytes.length) >>> 0;
    new Uint8Array(library.memory.buffer, address, bytes.length).set(bytes);
}

function contents(slot) {
    const address = library.address(slot) >>> 0;
    return decoder.decode(new Uint8Array(library.memory.buffer, address, library.length(slot)));
}

// Runs a program on the bytes of the source and of the text. Returns its exit status and outputs.
function call(words, source, text) {
    try {
        library ??= new WebAssembly.Instance(module, {}).exports;
        fill(ARGUMENTS, encoder.encode(words.join("\n")));
        fill(SOURCE, source);
        fill(INPUT, text);
        const status = library.run();
        return { status, out: contents(OUTPUT), messages: contents(MESSAGES) };
    } catch (error) {
        // A trap leaves the memory of the instance in an unknown state.
        library = undefined;
        return { status: 101, out: "", messages: `the library was stopped: ${error.message}` };
    }
}

function lines(text) {
    return text.split("\n").filter((line) => line !== "");
}

// Returns the part of the source that is the enum.
function partOf(source, range) {
    const bytes = encoder.encode(source);
    return range ? bytes.subarray(range.from, range.to) : bytes;
}

// Converts increasing byte offsets of a text into offsets of its JavaScript string.
function converter(text) {
    let at = 0, bytes = 0;
    return (offset) => {
        while (bytes < offset && at < text.length) {
            const code = text.codePointAt(at);
            bytes += code < 0x80 ? 1 : code < 0x800 ? 2 : code < 0x10000 ? 3 : 4;
            at += code < 0x10000 ? 1 : 2;
        }
        return at;
    };
}

function located(text, offsets) {
    const convert = converter(text);
    return new Map([...new Set(offsets)].sort((a, b) => a - b).map((it) => [it, convert(it)]));
}

// Splits standard error into the messages that are JSON, and other lines.
function messagesOf(text, source) {
    const faults = [], notes = [];
    for (const line of lines(text)) {
        let fault;
        try {
            fault = JSON.parse(line);
        } catch {
            notes.push(line);
            continue;
        }
        faults.push(fault);
    }
    const spans = faults.flatMap((fault) => fault.spans);
    const at = located(source, spans.flatMap((span) => [span.byte_start, span.byte_end]));
    for (const span of spans) {
        span.start = at.get(span.byte_start);
        span.end = at.get(span.byte_end);
    }
    return { faults, notes };
}

// Groups the records of leaves by enum. The last record of an enum has the number of its states.
function lexersOf(text) {
    const found = [];
    let leaves = [];
    for (const line of lines(text)) {
        const record = JSON.parse(line);
        if ("states" in record) {
            found.push({ leaves, states: record.states });
            leaves = [];
        } else {
            leaves.push(record);
        }
    }
    return found;
}

const NOTHING = new Uint8Array(0);

// The answers to the requests of the page, by their names.
const answers = {
    // The enums of the source, their leaves, and the faults and warnings.
    lexers({ source }) {
        const bytes = encoder.encode(source);
        const listed = call(["enums"], bytes, NOTHING);
        const shown = call(["logos_show", "lexer.rs", "--json", "--message-format", "json"], bytes, NOTHING);
        const enums = lines(listed.out).map((line) => {
            const [, from, to, path] = /^(\d+)\.\.(\d+) (.*)$/.exec(line);
            return { from: Number(from), to: Number(to), path };
        });
        const tables = shown.status === 0 ? lexersOf(shown.out) : [];
        return { status: shown.status, enums, tables, ...messagesOf(shown.messages, source) };
    },
    // The leaves of one enum, if another one has faults.
    leaves({ source, range }) {
        const shown = call(["logos_show", "lexer.rs", "--json"], partOf(source, range), NOTHING);
        return { table: shown.status === 0 ? lexersOf(shown.out)[0] : undefined };
    },
    // The items of the text: five numbers for each, which are the leaf or -1, its span in bytes,
    // and its span in the string.
    items({ source, range, text }) {
        const found = call(["logos", "lex", "lexer.rs", "text"], partOf(source, range), encoder.encode(text));
        const convert = converter(text);
        const numbers = lines(found.out).flatMap((line) => {
            const [, leaf, from, to] = /^(?:token (\d+)|error) (\d+)\.\.(\d+)$/.exec(line);
            return [Number(leaf ?? -1), Number(from), Number(to), convert(Number(from)), convert(Number(to))];
        });
        return { status: found.status, items: Int32Array.from(numbers), notes: lines(found.messages) };
    },
    // The matches that begin at a point of the text. If the winner is a skip that ends before the
    // cursor, those after it.
    matches({ source, range, text, line, column, from, cursor }) {
        const part = partOf(source, range), input = encoder.encode(text);
        const after = converter(text);
        let shown, found;
        for (let step = 0; step < 20; step += 1) {
            shown = call(["logos_show", "lexer.rs", "text", "--at", `${line}:${column}`, "--json"], part, input);
            found = shown.status === 0 ? lines(shown.out).map((it) => JSON.parse(it)) : [];
            const winner = found.find((it) => it.wins);
            const end = winner ? after(winner.to) : cursor + 1;
            if (end > cursor || end <= from) {
                break;
            }
            for (const character of text.slice(from, end)) {
                [line, column] = character === "\n" ? [line + 1, 1] : [line, column + 1];
            }
            from = end;
        }
        return { status: shown.status, found, line, column, notes: lines(shown.messages) };
    },
    // The state diagram, as Mermaid's text.
    diagram({ source, range }) {
        const drawn = call(["logos", "mermaid", "lexer.rs"], partOf(source, range), NOTHING);
        return { status: drawn.status, text: drawn.out, notes: lines(drawn.messages) };
    },
};

onmessage = ({ data }) => {
    if (data.module) {
        module = data.module;
        return;
    }
    postMessage({ id: data.id, answer: answers[data.name](data.request) });
};
