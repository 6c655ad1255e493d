// The lists and tables of the page. Every text is set as text, never as markup.

// The most rows of the table of tokens.
const MOST_TOKENS = 200;

const at = (id) => document.getElementById(id);

// Returns a text in which characters that are invisible, or that turn the direction of others, are
// written by their numbers.
export function visible(text) {
    return text.replace(/[\p{C}\p{Zl}\p{Zp}]/gu, (it) => `\\u{${it.codePointAt(0).toString(16)}}`);
}

function made(name, text, kind) {
    const element = document.createElement(name);
    element.textContent = visible(text);
    if (kind) {
        element.className = kind;
    }
    return element;
}

function rowOf(head, cells) {
    const row = document.createElement("tr");
    const first = made("th", "");
    first.scope = "row";
    first.append(head);
    row.append(first);
    for (const cell of cells) {
        const data = document.createElement("td");
        data.append(typeof cell === "string" ? visible(cell) : cell);
        row.append(data);
    }
    return row;
}

function fill(id, rows) {
    at(id).tBodies[0].replaceChildren(...rows);
    at(id).hidden = rows.length === 0;
}

// Returns the front of a text in quotes, with line ends and tabs as in a literal.
function quoted(text, most) {
    const front = [...text.slice(0, 2 * most)].slice(0, most).join("");
    const escaped = front.replace(/["\\\n\t]/g, (it) => ({ "\n": "\\n", "\t": "\\t" })[it] ?? `\\${it}`);
    return made("code", `"${escaped}"${front.length < text.length ? "…" : ""}`);
}

// Returns the name of the variant of a leaf, or `skip`.
export function variantOf(known, leaf) {
    return known.leaves[leaf]?.variant ?? "skip";
}

function sample(leaf) {
    return made("span", String(leaf), `token leaf-${leaf % 12}`);
}

// Returns the words for the item at an index, or for a point without one.
export function tokenText({ items, leaves, lexed }, index, cursor) {
    if (index < 0) {
        return cursor >= lexed.length ? "No token: the text ends here." : "No token: this is skipped.";
    }
    const [leaf, from, to] = items.slice(index, index + 3);
    if (leaf < 0) {
        return `Error, bytes ${from}..${to}: no leaf matches here.`;
    }
    return `${visible(leaves[leaf].variant)}: leaf ${leaf}, bytes ${from}..${to}, priority ${leaves[leaf].priority}.`;
}

// Shows the faults and warnings of a source, and the other lines. `select` is called for a span
// that is chosen.
export function showFaults({ faults, notes }, select) {
    const errors = faults.filter(({ level }) => level === "error").length;
    const warnings = faults.filter(({ level }) => level === "warning").length;
    at("fault-count").textContent = errors + warnings === 0 ? "No faults." : `Faults: ${errors}. Warnings: ${warnings}.`;
    at("source").setAttribute("aria-invalid", String(errors > 0));
    const others = notes.map((note) => {
        const item = document.createElement("li");
        item.append(made("p", note, "message"));
        return item;
    });
    at("faults").replaceChildren(...faults.map((fault) => faultItem(fault, select)), ...others);
}

function faultItem({ level, code, message, spans, children }, select) {
    const item = made("li", "", level === "warning" ? "warned" : "faulty");
    const head = made("p", "", "message");
    head.append(made("strong", code ? `${level}[${code.code}]` : level), ": ", made("span", message));
    item.append(head);
    for (const span of spans) {
        const button = made("button", `Line ${span.line_start}, column ${span.column_start}`, "link");
        button.type = "button";
        button.addEventListener("click", () => select(span));
        item.append(button, " ");
    }
    for (const child of children) {
        const line = made("p", "", child.level);
        line.append(made("strong", child.level), ": ", made("span", child.message));
        item.append(line);
    }
    return item;
}

// Shows the leaves of the selected enum.
export function showLeaves({ leaves }) {
    at("leaves-note").textContent = leaves.length === 0 ? "No leaves." : "";
    fill("leaves", leaves.map((it) => rowOf(sample(it.leaf), [
        it.variant ?? "skip",
        it.kind,
        made("code", it.pattern),
        it.default ? `${it.priority} (default)` : String(it.priority),
        it.callback === null ? "" : made("code", it.callback),
        String(it.line),
    ])));
}

// Shows the number of tokens, and the first ones if their table is open. `select` is called for the
// span of a token that is chosen.
export function showTokens({ items, leaves, lexed }, select) {
    const rows = [], most = at("tokens-details").open ? MOST_TOKENS : 0;
    for (let index = 0; index < items.length && rows.length < most; index += 5) {
        const [leaf, from, to, start, end] = items.slice(index, index + 5);
        const button = made("button", `${from}..${to}`, "link");
        button.type = "button";
        button.addEventListener("click", () => select(start, end));
        const name = leaf < 0 ? made("span", "error", "token error") : sample(leaf);
        const cell = document.createElement("span");
        cell.append(name, leaf < 0 ? "" : ` ${leaves[leaf].variant}`);
        rows.push(rowOf(button, [cell, leaf < 0 ? "" : String(leaves[leaf].priority), quoted(lexed.slice(start, end), 60)]));
    }
    fill("tokens", rows);
    const count = items.length / 5;
    const cut = count > MOST_TOKENS ? ` The table has the first ${MOST_TOKENS}.` : "";
    at("tokens-note").textContent = `${count} ${count === 1 ? "item" : "items"}, with errors and without skips.${cut}`;
}

// Shows the matches from a point on.
export function showMatches(known, { found, line, column, notes }) {
    fill("why", found.map((it) => rowOf(sample(it.leaf), [
        String(it.priority),
        `${it.from}..${it.to}`,
        quoted(it.text, 40),
        `${it.variant ?? "skip"}${it.wins ? " wins" : ""}`,
    ])));
    at("why-note").textContent = [
        ...notes,
        ...(line && notes.length === 0 ? [`From line ${line}, column ${column}. ${found.length === 0 ? "No leaf matches." : "The longest match wins, and among equally long ones that of highest priority."}`] : []),
    ].join(" ");
}
