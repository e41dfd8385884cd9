// Scripts: scenarios with an event a line, as tools/ramseg/scripting.py has them.
const FORMS = {
  factor: "factor N", factors: "factors N ..", segment: "segment N", free: "free",
  start: "start HOST  or  start HOST..HOST  or  start HOST keeping ID/SEGMENT ..", stop: "stop ID",
  suspect: "suspect ID", decide: "decide ID", tick: "tick ID  or  tick c",
  create: "create TABLE at ID", split: "split TABLE/KEY", read: "read ID TABLE/KEY",
  write: 'write ID TABLE/KEY "VALUE"', delete: "delete ID TABLE/KEY",
  deliver: "deliver NUMBER  or  deliver KIND FROM -> TO [WORD ..]",
  settle: "settle [without KIND ..] [without host HOST ..]",
};

const MOST_STARTS = 1e5;

// What is wrong with a line.
export class Wrong extends Error {}

// Whether a text is a script, and no JSON.
export const isScript = (text) => !/^\s*[{[]/.test(text);

function fail(text) {
  throw new Wrong(text);
}

// The words of a line, of which what stands in quotation marks is one, or part of one; what follows # is passed over.
export function wordsOf(line) {
  const words = [], quoted = /"(?:\\.|[^"\\])*"|'[^']*'|\\.|[^\s"'\\#]/.source;
  const form = new RegExp(`\\s*(#.*$|(?:${quoted})(?:${quoted}|#)*|\\S)`, "gy");
  for (const [, word] of line.matchAll(form)) {
    if (word.startsWith("#")) {
      break;
    }
    if (/^["'\\]$/.test(word)) {
      fail("a quotation mark is missing: each is closed in its line");
    }
    words.push(word.replace(/"((?:\\.|[^"\\])*)"|'([^']*)'|\\(.)/g,
      (_, double, single, letter) => double !== undefined ? double.replace(/\\(["\\])/g, "$1") : single ?? letter));
  }
  return words;
}

// Numbers stay texts of digits, since great ones would be rounded.
const number = (word) => /^[0-9]+$/.test(word) ? BigInt(word).toString() : fail(`'${word}' is no number`);

function server(word) {
  const found = word.match(/^([0-9]+)\.([0-9]+)$/) ?? fail(`'${word}' is no id, as 0.1, host 0 at its first start`);
  return `[${number(found[1])},${number(found[2])}]`;
}

function point(word) {
  const found = word.match(/^([0-9]+)\/([0-9]+)$/) ?? fail(`'${word}' is no table and key, as 7/5`);
  return [number(found[1]), number(found[2])];
}

function kept(word) {
  const [name, ...segment] = word.split("/");
  return segment.length === 0 ? fail(`'${word}' is no open replica, as 0.1/1, segment 1 of 0.1`) :
    `[${server(name)},${number(segment.join("/"))}]`;
}

function starts(words) {
  const [first, last] = words[0].includes("..") ? words[0].split(/\.\.(.*)/s) : [words[0], ""];
  if (words.length > 2 && words[1] === "keeping") {
    const names = words.slice(2).map((word) => kept(word.replace(/^,+|,+$/g, "")));
    return [`{"e":"start","host":${number(first)},"kept":[${names.join(",")}]}`];
  }
  if (words.length > 1) {
    fail(`write: ${FORMS.start}`);
  }
  const from = Number(number(first)), until = Number(number(last || first));
  const count = Math.max(0, Math.min(until - from + 1, MOST_STARTS));
  return Array.from({ length: count }, (_, at) => `{"e":"start","host":${from + at}}`);
}

function settle(words) {
  if (words.length > 0 && words[0] !== "without") {
    fail(`write: ${FORMS.settle}`);
  }
  const kinds = [], hosts = [];
  for (const part of words.join(" ").split("without ").slice(1)) {
    const names = part.replaceAll(",", " ").split(/\s+/).filter((name) => name !== "");
    if (["host", "hosts"].includes(names[0])) {
      hosts.push(...names.slice(1).map(number));
    } else {
      kinds.push(...names.map((name) => JSON.stringify(name)));
    }
  }
  const listed = (name, list) => list.length > 0 ? `,"${name}":[${list}]` : "";
  return `{"e":"settle"${listed("kinds", kinds)}${listed("hosts", hosts)}}`;
}

const asked = (kind, to, place, more = "") => {
  const [table, key] = point(place);
  return [`{"e":"${kind}","to":${server(to)},"table":${table},"key":${key}${more}}`];
};

// The events of a line, by its first word and how many words follow.
const LINES = {
  stop: { 1: (id) => [`{"e":"stop","id":${server(id)}}`] },
  suspect: { 1: (id) => [`{"e":"suspect","id":${server(id)}}`] },
  decide: { 1: (id) => [`{"e":"decide","id":${server(id)}}`] },
  tick: { 1: (id) => [`{"e":"tick","id":${id === "c" ? '"c"' : server(id)}}`] },
  create: { 3: (table, at, id) =>
    at === "at" ? [`{"e":"create","table":${number(table)},"owner":${server(id)}}`] : null },
  split: { 1: (place) => {
    const [table, key] = point(place);
    return [`{"e":"split","table":${table},"at":${key}}`];
  } },
  read: { 2: (id, place) => asked("read", id, place) },
  write: { 3: (id, place, value) => asked("write", id, place, `,"value":${JSON.stringify(value)}`) },
  delete: { 2: (id, place) => asked("write", id, place, ',"value":null') },
};

// The scenario so far.
class Script {
  events = [];
  lines = []; // of each event, from 1
  #setup = { factor: "2", segment: "8", free: false, factors: [] };
  #waiting;

  constructor(waiting) {
    this.#waiting = waiting;
  }

  get scenario() {
    const { factor, segment, free, factors } = this.#setup;
    const top = factors.length > 0 || free ? `"format":2,"factor":${factor},"factors":[${factors}],"free":${free}` :
      `"format":1,"factor":${factor}`;
    return `{${top},"segment":${segment},"events":[${this.events.join(",")}]}\n`;
  }

  take(line, at) {
    const [name, ...words] = wordsOf(line);
    if (name === undefined || this.#setUp(name, words)) {
      return;
    }
    const events = this.#eventsOf(name, words);
    this.events.push(...events);
    this.lines.push(...events.map(() => at));
  }

  #setUp(name, words) {
    if (["factor", "segment"].includes(name) && words.length === 1) {
      this.#setup[name] = number(words[0]);
    } else if (name === "factors" && words.length > 0) {
      this.#setup.factors = words.map(number);
    } else if (name === "free" && words.length === 0) {
      this.#setup.free = true;
    } else {
      return false;
    }
    return this.events.length === 0 || fail(`'${name}' stands before the first event`);
  }

  #eventsOf(name, words) {
    if (!Object.hasOwn(FORMS, name)) {
      fail(`'${name}' is none of: ${Object.keys(FORMS).join(", ")}`);
    }
    if (name === "start" && words.length > 0) {
      return starts(words);
    }
    if (name === "settle") {
      return [settle(words)];
    }
    if (name === "deliver" && words.length > 0) {
      return [`{"e":"deliver","n":${words.length === 1 ? number(words[0]) : this.#found(words)}}`];
    }
    return LINES[name]?.[words.length]?.(...words) ?? fail(`write: ${FORMS[name]}`);
  }

  // The number of the message that these words name.
  #found(words) {
    if (words.length < 4 || words[2] !== "->") {
      fail(`write: ${FORMS.deliver}`);
    }
    const [kind, from, , to, ...more] = words, waiting = this.#waiting(this.scenario);
    const named = waiting.filter((it) => it.kind === kind && it.from === from && it.to === to);
    const chosen = named.filter((it) => more.length === 0 ||
      ` ${it.text} `.replaceAll('"', "").includes(` ${more.join(" ")} `));
    if (chosen.length === 1) {
      return chosen[0].n;
    }
    const ofKind = waiting.filter((it) => it.kind === kind);
    const shown = [chosen, named, ofKind, waiting].find((list) => list.length > 0) ?? [];
    const there = shown.map((it) => `    ${it.n} ${it.kind} ${it.from} -> ${it.to} ${it.text}`.trimEnd()).join("\n");
    if (chosen.length > 0) {
      fail(`${chosen.length} messages are so; name one by its number, or by words of it:\n${there}`);
    }
    const wanted = `${kind} ${from} -> ${to}${more.length > 0 ? ` with '${more.join(" ")}'` : ""}`;
    return fail(`no ${wanted} waits; ${shown.length > 0 ? `these do:\n${there}` : "no message does"}`);
  }
}

// The scenario of a script, and in which line each event of it stands. `waiting` gives the messages that wait at the
// end of a scenario: their numbers, kinds, ends and texts. Where the script is wrong, a Wrong names the line.
export function made(text, waiting) {
  const script = new Script(waiting);
  text.split(/\r\n|[\n\r\v\f\u2028\u2029]/).forEach((line, at) => {
    try {
      script.take(line, at + 1);
    } catch (error) {
      throw error instanceof Wrong ? new Wrong(`line ${at + 1}: ${error.message}`) : error;
    }
  });
  return { text: script.scenario, lines: script.lines };
}

// An event as a line of a script. A delivery is told with what it delivers.
export function lineOf(event, messages) {
  const name = (id) => id === "c" ? "c" : id.join(".");
  switch (event.e) {
    case "settle": return "settle";
    case "start": return `start ${event.host}`;
    case "deliver": {
      const message = messages[event.n], what = message && `${message.kind} ${message.from} -> ${message.to}`;
      return `deliver ${event.n}${event.what ?? what ? `  # ${event.what ?? what}` : ""}`;
    }
    case "write": return event.value === null ? `delete ${name(event.to)} ${event.table}/${event.key}` :
      `write ${name(event.to)} ${event.table}/${event.key} ${JSON.stringify(event.value)}`;
    case "create": return `create ${event.table} at ${name(event.owner)}`;
    case "read": return `read ${name(event.to)} ${event.table}/${event.key}`;
    default: return `${event.e} ${name(event.id)}`;
  }
}
