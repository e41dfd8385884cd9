// What may not have been meant in a run that went through, as tools/story/hints.py has it. `scripts/check/live-page`
// compares the two.
import { Owners } from "./owners.mjs";
import { generationOf, hostOf, isServer, nameOf } from "./reading.mjs";
import { recoveryHints } from "./recoveries.mjs";
import { Servers } from "./servers.mjs";

const MOST_GROUPS = 4;

// What ran and was delivered in the course of a run, and what was asked for of servers that did not run or were not
// ready.
class Course {
  servers = new Servers();
  delivered = new Set();
  early = null;
  unstarted = null;
  unheard = [];
  hasReads = false;
  hasCrashes = false;
  #ready = new Map(); // by host: the generation whose Ready has come last

  constructor(messages) {
    this.messages = messages;
    this.owners = new Owners(messages);
  }

  take(event, number) {
    const started = this.servers.take(event, number);
    this.owners.take(event, this.servers);
    if (event.e === "deliver") {
      this.delivered.add(event.n);
      this.#arrive(this.messages[event.n]);
    } else if (event.e === "create") {
      const owner = nameOf(event.owner);
      this.#ask(owner, `the create of table ${event.table} came before ${owner} was ready`);
    } else if (event.e === "start") {
      this.hasCrashes ||= generationOf(started ?? "0.0") > 1;
    } else if (event.e === "suspect") {
      this.#suspect(nameOf(event.id));
    } else if (event.e === "write" || event.e === "read") {
      this.hasReads ||= event.e === "read";
      if (!this.servers.runs(nameOf(event.to))) {
        this.unheard.push(nameOf(event.to));
      }
    }
  }

  // The messages that wait: they were not delivered, and their addressees are there.
  waiting() {
    return this.messages.flatMap(({ to }, number) =>
      !this.delivered.has(number) && to !== "out" && this.servers.isThere(to) ? [number] : []);
  }

  #suspect(name) {
    this.hasCrashes = true;
    if (this.servers.generation(hostOf(name)) < generationOf(name)) {
      this.unstarted ??= name;
    }
  }

  #arrive({ kind, from, to }) {
    if (kind === "Ready" && isServer(from)) {
      this.#ready.set(hostOf(from), generationOf(from));
    } else if (kind === "Write" && isServer(to)) {
      this.#ask(to, `a write came to ${to} before that was ready`);
    }
  }

  #ask(name, words) {
    if (this.servers.runs(name) && this.#ready.get(hostOf(name)) !== generationOf(name)) {
      this.early ??= words;
    }
  }
}

function waitingHints({ messages }, waiting) {
  if (waiting.length === 0) {
    return [];
  }
  const groups = new Map();
  for (const { kind, to } of waiting.map((number) => messages[number])) {
    groups.set(`${kind} to ${to}`, (groups.get(`${kind} to ${to}`) ?? 0) + 1);
  }
  const told = [...groups].slice(0, MOST_GROUPS).map(([group, count]) => `${count} ${group}`);
  const own = waiting.map((number) => messages[number])
    .find(({ kind, attempt, to }) => kind === "Own" && attempt === 0 && isServer(to));
  return [`messages that wait at the end: ${waiting.length} (${told.join(", ")}` +
    `${groups.size > MOST_GROUPS ? ", .." : ""}); a settle would deliver them`,
  ...own ? [`the Own of table ${own.table} has not reached ${own.to}, and nothing sends it again: where it is lost, stop ` +
    `${own.to} and start its host, and decide`] : []];
}

// Too few hosts for the factor of the first master that has too few.
function fewHints(servers, story) {
  const up = servers.hosts().filter((it) => it.stopped === null && it.suspected === null).map(({ host }) => host);
  const running = servers.items.filter((it) => it.stopped === null).length;
  const factorOf = (host) => story.factors[host] ?? story.factor, few = up.find((host) => up.length <= factorOf(host));
  return few === undefined ? [] : [`hosts that run at the end${up.length === running ? "" : " and were not suspected"}: ` +
    `${up.length}; with factor ${factorOf(few)} it takes ${factorOf(few) + 1} for the master of host ${few} to open a ` +
    "segment or to replace a backup"];
}

// The first stale read, and how many there are.
function staleHints(messages) {
  const newest = new Map(), found = [];
  for (const message of messages) {
    const place = `${message.table} ${message.key}`, known = newest.get(place);
    if (message.kind === "WriteOk" && !(known && BigInt(known.version) > BigInt(message.version))) {
      newest.set(place, message);
    } else if (message.kind === "ReadOk" && known && BigInt(known.version) > BigInt(message.version)) {
      found.push([message, known]);
    }
  }
  return found.slice(0, 1).map(([read, missed]) => `the read of table ${read.table} key ${read.key} at ${read.from} is ` +
    `stale: it shows version ${read.version}, and ${missed.from} had acknowledged version ${missed.version} under term ` +
    `${missed.term}; a read is confirmed once its master acknowledges a write that it took after it` +
    (found.length > 1 ? `; so it is with ${found.length} reads in all` : ""));
}

// Hints for whoever wrote the scenario, each a line that begins with `hint: `.
export function hintsOf(story) {
  const course = new Course(story.messages);
  story.events.forEach((event, number) => course.take(event, number));
  const { early, servers, unheard, unstarted } = course, waiting = course.waiting();
  return [
    ...early ? [`${early}, so it was refused: it takes a settle behind the starts, and enough hosts`] : [],
    ...waitingHints(course, waiting),
    ...unheard.length > 0 ? [`${unheard[0]} was asked while it did not run: nothing comes of that` +
      (unheard.length > 1 ? `; so it was with ${unheard.length} requests in all` : "")] : [],
    ...course.owners.hints(servers, early !== null),
    ...unstarted ? [`${unstarted} was suspected, but had never been started: nothing comes of that`] : [],
    ...fewHints(servers, story),
    ...course.hasReads ? staleHints(story.messages) : [],
    ...course.hasCrashes ? recoveryHints(story.messages, course.delivered, servers, waiting.length > 0) : [],
  ].map((hint) => `hint: ${hint}`);
}
