// The program as a WebAssembly module: it is asked with words and input, and answers as a process does.
const READ = 0, FAILED = -1n, TOO_LONG = -2n, NOWHERE = 0n;

class Ended {
  constructor(status) {
    this.status = status;
  }
}

// What the program asks of a machine (page/live/machine.c).
class Machine {
  #words;
  #input;
  #read = READ;
  #written = [[], [], []];
  memory = null;

  constructor(words, input) {
    this.#words = ["ramseg", ...words].map((word) => new TextEncoder().encode(word));
    this.#input = input;
  }

  get functions() {
    return {
      page_read: (to, most) => {
        const part = this.#input.subarray(this.#read, this.#read + Number(most));
        this.#read += part.length;
        return this.#put(to, part);
      },
      page_write: (number, from, many) => {
        this.#written[number].push(this.#view(from, many).slice());
        return many;
      },
      page_argument: (place, to, most) => {
        const word = this.#words[Number(place)];
        return word === undefined ? FAILED : word.length > Number(most) ? TOO_LONG : this.#put(to, word);
      },
      page_exit: (status) => {
        throw new Ended(status);
      },
    };
  }

  // What was written to standard output, 1, or standard error, 2.
  text(number) {
    const decoder = new TextDecoder();
    return this.#written[number].map((part) => decoder.decode(part, { stream: true })).join("") + decoder.decode();
  }

  #view(at, many) {
    return new Uint8Array(this.memory.buffer, Number(at), Number(many));
  }

  #put(to, bytes) {
    this.#view(to, bytes.length).set(bytes);
    return BigInt(bytes.length);
  }
}

// A module, of the right one and of what differs from that: pieces, each three numbers of 32 bits, from where in the
// right one to copy, how many bytes, and how many new ones follow, which then stand there (tools/page/differing.py).
export function patched(base, pieces) {
  const numbers = new DataView(pieces), parts = [], wide = 4, head = 3 * wide;
  for (let at = 0; at < pieces.byteLength;) {
    const [from, many, fresh] = [0, 1, 2].map((place) => numbers.getUint32(at + place * wide, true));
    parts.push(base.subarray(from, from + many), new Uint8Array(pieces, at + head, fresh));
    at += head + fresh;
  }
  const made = new Uint8Array(parts.reduce((sum, part) => sum + part.length, 0));
  parts.reduce((at, part) => {
    made.set(part, at);
    return at + part.length;
  }, 0);
  return made;
}

// Whether the browser runs a module whose addresses have 64 bits.
export function hasLongAddresses() {
  return WebAssembly.validate(new Uint8Array([0, 97, 115, 109, 1, 0, 0, 0, 5, 3, 1, 4, 1]));
}

// Asks the program of this compiled module: the words behind its name, and the bytes of its standard input. It gives
// the status, and the texts of standard output and standard error.
export function ask(module, words, input) {
  const machine = new Machine(words, input);
  const { exports } = new WebAssembly.Instance(module, { env: machine.functions });
  machine.memory = exports.memory;
  let status;
  try {
    status = exports.main(0, NOWHERE);
  } catch (ended) {
    if (!(ended instanceof Ended)) {
      throw ended;
    }
    status = ended.status;
  }
  return { status, told: machine.text(1), said: machine.text(2) };
}
