// How each node stands at an event. It is found by going forward from a state that was kept, at most KEPT_EVERY events
// before; what is kept is made once, at the first look that goes so far.
import { hostOf, isServer, nameOf } from "./reading.mjs";

export const KEPT_EVERY = 128;

// A node: what it is known to be, as far as its messages tell it.
const nodeOf = (id, event) => ({
  id,
  started: event,
  stopped: null,
  phase: null,
  ranges: [], // those that were granted to it, as it believes: table, lo, hi, term
  log: new Map(), // by segment, what it has sent to its members: epoch, len, members
  fences: new Map(), // by master: the attempt for which it fenced it
  fencedBy: [], // the backups that have fenced it, also those that are gone
});

const overlaps = (one, other) => one.table === other.table && BigInt(one.lo) <= BigInt(other.hi) &&
  BigInt(other.lo) <= BigInt(one.hi);

const mapped = (map, copy) => new Map([...map].map(([name, value]) => [name, copy(value)]));
const copyOfSegment = (segment) => ({ ...segment, members: mapped(segment.members, (member) => ({ ...member })) });
const copyOfNode = (node) => ({ ...node, ranges: [...node.ranges], log: mapped(node.log, copyOfSegment),
  fences: new Map(node.fences), fencedBy: [...node.fencedBy] });

// The state of all: nodes by name, the replicas by host, master and segment, and the grants of the coordinator.
class World {
  constructor() {
    this.nodes = new Map();
    this.running = new Map(); // by host: the name of its newest server
    this.replicas = new Map();
    this.list = new Map(); // the coordinator's rows: by server, whether it is up
    this.grants = [];
    this.attempts = new Map(); // by attempt: whose recovery it is, and how far it is
  }

  copy() {
    const world = new World();
    world.nodes = mapped(this.nodes, copyOfNode);
    world.running = new Map(this.running);
    world.replicas = new Map(this.replicas);
    world.list = new Map(this.list);
    world.grants = this.grants;
    world.attempts = mapped(this.attempts, (recovery) => ({ ...recovery }));
    return world;
  }

  take(event, number, messages, started) {
    TAKEN[event.e]?.(this, event, number, messages, started);
    for (const sent of event.sent) {
      this.#send(messages[sent]);
    }
    const master = this.nodes.get(event.master);
    if (master && event.phase !== undefined) {
      master.phase = event.phase;
      master.ranges = event.phase === "deposed" ? [] : master.ranges;
    }
    this.#note(event, started);
  }

  isThere(name) {
    const node = this.nodes.get(name);
    return node !== undefined && node.stopped === null && this.running.get(hostOf(name)) === name;
  }

  // The backups that have fenced a master and are still there: a fence ends when its server ends.
  fencing(node) {
    return node.fencedBy.filter((name) => this.isThere(name));
  }

  // The replicas that the event changed. A start ends those of its host that it does not name.
  #note(event, started) {
    const copies = event.copies || [], placeOf = (copy) => `${hostOf(copy.at)} ${copy.of} ${copy.seg}`;
    if (started) {
      const named = new Set(copies.map(placeOf)), host = `${event.host} `;
      for (const place of [...this.replicas.keys()].filter((it) => it.startsWith(host) && !named.has(it))) {
        this.replicas.delete(place);
      }
    }
    for (const copy of copies) {
      if (copy.gone) {
        this.replicas.delete(placeOf(copy));
      } else {
        this.replicas.set(placeOf(copy), copy);
      }
    }
  }

  #send(message) {
    const node = this.nodes.get(message.from);
    if (message.from === "c") {
      SENT[message.kind]?.(this, message);
    } else if (node) {
      LOGGED[message.kind]?.(node, message);
    }
  }
}

// What an event does by itself.
const TAKEN = {
  start: (world, event, number, messages, started) => {
    const before = world.nodes.get(world.running.get(event.host));
    if (before) {
      // nothing of it is shown any more
      Object.assign(before, { log: new Map(), fences: new Map(), ranges: [] });
    }
    world.nodes.set(started, nodeOf(started, number));
    world.running.set(event.host, started);
  },
  stop: (world, event, number) => {
    world.nodes.get(nameOf(event.id)).stopped = number;
  },
  suspect: (world, event) => {
    // whom the list does not have it passes over; and where nobody is up then, no List tells of it
    if (world.list.has(nameOf(event.id))) {
      world.list.set(nameOf(event.id), false);
    }
  },
  deliver: (world, event, number, messages) => {
    const message = messages[event.n], node = isServer(message.to) && world.nodes.get(message.to);
    if (node && world.isThere(message.to)) {
      REACHED[message.kind]?.(world, node, message);
    }
  },
};

// What a message that reaches a server changes of it.
const REACHED = {
  Gather: (world, node, message) => {
    const master = world.nodes.get(message.master);
    if (!node.fences.has(message.master)) {
      node.fences.set(message.master, message.attempt);
      master?.fencedBy.push(node.id);
    }
  },
  Own: (world, node, { table, lo, hi, term }) => {
    if (node.phase !== "deposed" && !node.ranges.some((range) => range.term >= term && overlaps(range, { table, lo, hi }))) {
      node.ranges = node.ranges.filter((range) => !overlaps(range, { table, lo, hi }));
      node.ranges.push({ table, lo, hi, term });
    }
  },
  Stored: (world, node, { from, seg, epoch, len, closed }) => {
    const member = node.log.get(seg)?.members.get(from);
    if (member && node.log.get(seg).epoch === epoch) {
      member.told = Math.max(member.told ?? 0, len);
      member.closed ||= closed;
    }
  },
  CommitOk: (world, node, { seg, epoch }) => {
    const segment = node.log.get(seg);
    if (segment && segment.epoch === epoch) {
      segment.committed = true;
    }
  },
};

// What a master's own messages tell of its log.
const LOGGED = {
  Place: (node, { to, seg, epoch, entries }) => {
    const before = node.log.get(seg), segment = before && before.epoch === epoch ? before :
      { seg, epoch, len: before?.len ?? 0, committed: epoch === 0, members: new Map() };
    segment.len = Math.max(segment.len, entries.length);
    if (!segment.members.has(to)) {
      // a member of the epoch before stays one, with what it told under the new epoch
      segment.members.set(to, { told: null, closed: false });
    }
    node.log.set(seg, segment);
  },
  Append: (node, { seg, offset, entries }) => {
    const segment = node.log.get(seg);
    if (segment) {
      segment.len = Math.max(segment.len, offset + entries.length);
    }
  },
  Free: (node, { seg }) => {
    node.log.delete(seg);
  },
};

// What the coordinator's messages tell of it.
const SENT = {
  List: (world, { rows }) => {
    world.list = new Map(rows.map(({ id, up }) => [id, up]));
  },
  Gather: (world, { attempt, master }) => {
    world.attempts.set(attempt, { master, state: "gathers", by: null });
  },
  Plan: (world, { attempt, master, to }) => {
    world.attempts.set(attempt, { master, state: "is planned, by", by: to });
  },
  Own: (world, { table, lo, hi, term, to, attempt }) => {
    const range = { table, lo, hi, term, owner: to };
    if (!world.grants.some((grant) => grant.term >= term && overlaps(grant, range))) {
      world.grants = [...world.grants.filter((grant) => !overlaps(grant, range)), range];
    }
    const recovery = world.attempts.get(attempt);
    if (recovery) {
      recovery.state = "is done, by";
    }
  },
};

// The states of a run.
export class States {
  #run;
  #kept = [new World()];
  #waiting = new Map();
  #world = new World(); // that of the last look
  #event = -1;

  constructor(run) {
    this.#run = run;
    run.messages.forEach(({ to }, number) => {
      this.#waiting.set(to, this.#waiting.get(to) ?? []);
      this.#waiting.get(to).push(number);
    });
  }

  // How all stand after the event of this number; -1 is before the first. What is given changes with the next look.
  at(event) {
    const last = Math.floor((event + 1) / KEPT_EVERY);
    if (event < this.#event || event >= this.#event + KEPT_EVERY) {
      const kept = Math.min(last, this.#kept.length - 1);
      this.#world = this.#kept[kept].copy();
      this.#event = kept * KEPT_EVERY - 1;
    }
    while (this.#event < event) {
      this.#step();
    }
    return this.#world;
  }

  // What is on its way to a node after this event: the numbers of what was sent and has not arrived.
  waiting(node, event) {
    const { sent, delivered } = this.#run;
    return (this.#waiting.get(node) ?? []).filter((number) => sent[number] <= event &&
      (delivered[number].length === 0 || delivered[number][0] > event));
  }

  #step() {
    const number = this.#event + 1, { events, messages, turns } = this.#run;
    this.#world.take(events[number], number, messages, turns[number].started);
    this.#event = number;
    if (number + 1 === this.#kept.length * KEPT_EVERY) {
      this.#kept.push(this.#world.copy());
    }
  }
}

// Where a server stands as others see it: it has stopped; it is a ZOMBIE, if it believes that it owns what was
// granted to another one; or it is FENCED by a backup that is still there, or suspected:
// the coordinator's list has it as crashed.
export function standing(world, node) {
  if (node.stopped !== null || world.running.get(hostOf(node.id)) !== node.id) {
    return { tag: "stopped", kind: "gone" };
  }
  if (node.phase === "deposed") {
    return { tag: "deposed", kind: "deposed" };
  }
  const heir = world.grants.find((grant) => grant.owner !== node.id &&
    node.ranges.some((range) => range.term < grant.term && overlaps(range, grant)));
  if (heir) {
    return { tag: "ZOMBIE", kind: "zombie", heir };
  }
  if (world.fencing(node).length > 0) {
    return { tag: "FENCED", kind: "fenced" };
  }
  return world.list.get(node.id) === false ? { tag: "suspected", kind: "suspected" } : { tag: "", kind: "" };
}

// The members of a segment that have told that their replica of it is closed.
export const closedAt = (segment) => [...segment.members].filter(([, member]) => member.closed).map(([name]) => name);

// How many entries of a segment all members have told that they store.
export function storedOf(segment) {
  const told = [...segment.members.values()].map((member) => member.told ?? 0);
  return told.length > 0 ? Math.min(segment.len, ...told) : 0;
}
