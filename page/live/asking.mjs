// Orders to the worker, one after another. Who does not want to wait ends the worker, and a new one is made.
export class Asking {
  #source;
  #bytes;
  #rules;
  #worker = null;
  #waiting = new Map();
  #number = 0;

  // The source of the worker, the module's bytes, and what differs from it in programs with a rule broken.
  constructor(source, bytes, rules) {
    this.#source = source;
    this.#bytes = bytes;
    this.#rules = rules;
  }

  // Gives what the worker answers; `hears` is given what it tells of it before.
  order(order, more = {}, hears = () => {}) {
    if (this.#worker === null) {
      this.#begin();
    }
    return this.#send(order, more, hears);
  }

  // Ends the worker; what waits for it fails.
  stop(why = "stopped") {
    this.#worker?.terminate();
    this.#worker = null;
    for (const { reject } of this.#waiting.values()) {
      reject(new Error(why));
    }
    this.#waiting.clear();
  }

  #begin() {
    const address = URL.createObjectURL(new Blob([this.#source], { type: "text/javascript" }));
    this.#worker = new Worker(address);
    this.#worker.addEventListener("message", ({ data: { number, before, answer, error } }) => {
      const waits = this.#waiting.get(number);
      if (before !== undefined) {
        waits?.hears(before);
        return;
      }
      this.#waiting.delete(number);
      if (error === undefined) {
        waits?.resolve(answer);
      } else {
        waits?.reject(new Error(error));
      }
    });
    this.#worker.addEventListener("error", (error) => this.stop(error.message || "the worker failed"));
    this.#send("load", { bytes: this.#bytes, rules: this.#rules }, () => {}).catch(() => {});
  }

  #send(order, more, hears) {
    this.#number += 1;
    const number = this.#number;
    return new Promise((resolve, reject) => {
      this.#waiting.set(number, { resolve, reject, hears });
      this.#worker.postMessage({ number, order, ...more });
    });
  }
}
