// Sends requests to the worker, one at a time, and ends it if an answer takes too long.

// Requests to the library. `limit` is the most milliseconds that an answer may take.
export class Requests {
    #module;
    #limit;
    #worker;
    #pending;
    #number = 0;

    constructor(module, limit) {
        this.#module = module;
        this.#limit = limit;
    }

    // Returns the answer to a request, or undefined if the worker was ended before.
    send(name, request) {
        this.#worker ??= this.#started();
        this.#number += 1;
        const id = this.#number;
        return new Promise((resolve) => {
            const timer = setTimeout(() => this.end(), this.#limit);
            this.#pending = { id, resolve, timer };
            this.#worker.postMessage({ id, name, request });
        });
    }

    // Ends the worker. The next request starts another one.
    end() {
        this.#worker?.terminate();
        this.#worker = undefined;
        this.#finish(undefined);
    }

    #started() {
        const worker = new Worker("worker.js");
        worker.onmessage = ({ data }) => {
            if (data.id === this.#pending?.id) {
                this.#finish(data.answer);
            }
        };
        worker.onerror = (event) => {
            event.preventDefault();
            this.end();
        };
        worker.postMessage({ module: this.#module });
        return worker;
    }

    #finish(answer) {
        const pending = this.#pending;
        this.#pending = undefined;
        if (pending) {
            clearTimeout(pending.timer);
            pending.resolve(answer);
        }
    }
}
