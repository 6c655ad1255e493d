// A text field with colors under its text: a `textarea` without a background, and below it a `pre`
// with the same text, which is invisible, in pieces with backgrounds. Each line is an element, so
// that the browser lays out only lines that change.

export class Editor {
    #keys = [];
    #lines = [];
    // It has the height of the text that is not painted, so that both fields scroll alike.
    #rest = document.createElement("div");

    constructor(element) {
        this.paint = element.querySelector(".paint");
        this.paint.append(this.#rest);
        this.area = element.querySelector("textarea");
        this.area.addEventListener("scroll", () => this.#scroll());
    }

    get text() {
        return this.area.value;
    }

    set text(text) {
        this.area.value = text;
        this.show([], 0);
    }

    // Colors ranges of the text. They are in order and do not overlap: `start`, `end`, and `kind`,
    // the classes of its piece. The text after `most` is not painted.
    show(ranges, most) {
        const text = this.text, lines = [[]];
        let at = 0;
        const add = (end, kind) => {
            while (at < end) {
                const found = text.indexOf("\n", at);
                const to = found < 0 || found >= end ? end : found;
                if (to > at) {
                    lines.at(-1).push({ text: text.slice(at, to), kind });
                }
                if (to < end) {
                    lines.push([]);
                }
                at = to < end ? to + 1 : end;
            }
        };
        for (const { start, end, kind } of ranges) {
            add(start, "");
            add(end, kind);
        }
        add(most, "");
        this.#rest.style.height = "0";
        this.#replace(lines);
        if (most < text.length) {
            this.#rest.style.height = `${Math.max(this.area.scrollHeight - this.paint.scrollHeight, 0)}px`;
        }
        this.#scroll();
    }

    // Puts lines into the page. Those at the beginning and the end that are there already stay.
    #replace(lines) {
        const old = this.#keys, keys = lines.map((pieces) => JSON.stringify(pieces));
        const least = Math.min(old.length, keys.length);
        let front = 0, back = 0;
        while (front < least && old[front] === keys[front]) {
            front += 1;
        }
        while (back < least - front && old[old.length - 1 - back] === keys[keys.length - 1 - back]) {
            back += 1;
        }
        const made = lines.slice(front, lines.length - back).map(lineOf);
        const rest = this.#lines.slice(old.length - back);
        this.#lines.slice(front, old.length - back).forEach((line) => line.remove());
        const fragment = document.createDocumentFragment();
        made.forEach((line) => fragment.append(line));
        this.paint.insertBefore(fragment, rest[0] ?? this.#rest);
        this.#lines = this.#lines.slice(0, front).concat(made, rest);
        this.#keys = keys;
    }

    #scroll() {
        this.paint.scrollTop = this.area.scrollTop;
        this.paint.scrollLeft = this.area.scrollLeft;
    }

    // Returns the offset of the piece under a point of the window, or undefined.
    offsetAt(x, y) {
        let piece = document.elementsFromPoint(x, y).find((it) => it.parentNode?.parentNode === this.paint);
        const index = this.#lines.indexOf(piece?.parentNode);
        if (index < 0) {
            return undefined;
        }
        let offset = this.#lines.slice(0, index).reduce((sum, line) => sum + line.textContent.length + 1, 0);
        while ((piece = piece.previousSibling)) {
            offset += piece.textContent.length;
        }
        return offset;
    }

    // Selects a range of the text, and shows it.
    select(start, end) {
        this.area.focus();
        this.area.setSelectionRange(start, end);
    }
}

function lineOf(pieces) {
    const line = document.createElement("div");
    for (const { text, kind } of pieces) {
        const piece = document.createElement("span");
        piece.textContent = text;
        piece.className = kind;
        line.append(piece);
    }
    return line;
}

// Returns the ranges of faults as they are painted: in order, without overlaps, with the more severe
// kind, and each at least one character long.
export function rangesOf(faults, length) {
    const painted = faults.flatMap(({ level, spans }) => spans.map(({ start, end }) => {
        const from = Math.min(start, Math.max(length - 1, 0));
        return { start: from, end: Math.min(Math.max(end, from + 1), length), kind: level === "warning" ? "warning" : "fault" };
    }));
    const borders = [...new Set(painted.flatMap(({ start, end }) => [start, end]))].sort((a, b) => a - b);
    const ranges = [];
    borders.slice(1).forEach((end, index) => {
        const start = borders[index];
        const kinds = painted.filter((it) => it.start <= start && end <= it.end).map((it) => it.kind);
        if (kinds.length > 0) {
            ranges.push({ start, end, kind: kinds.includes("fault") ? "fault" : "warning" });
        }
    });
    return ranges;
}
