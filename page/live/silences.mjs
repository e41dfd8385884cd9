// Why a delivery came to nothing, as tools/story/silences.py has it: whom a backup had fenced by then, what it had
// freed, which epoch a segment had, which attempt to recover a master was the newest, and who was deposed.
import { isServer } from "./reading.mjs";

export const NOT_RUNNING = "was not running";

export class Known {
  constructor() {
    this.fences = new Map(); // by backup and master: the attempt for which the one fenced the other
    this.freed = new Set(); // backup, master and segment
    this.epochs = new Map(); // by master and segment: the epoch of the last Place
    this.attempts = new Map(); // by attempt: whose recovery it is
    this.newest = new Map(); // by master: its newest attempt
    this.lists = new Map(); // by server: the version of the greatest list that it was given
    this.deposed = new Set(); // the servers that were told that they are deposed
  }

  // A message was sent.
  send(message) {
    if (message.kind === "Place") {
      this.epochs.set(`${message.from} ${message.seg}`, message.epoch);
    } else if (message.kind === "Gather") {
      this.attempts.set(message.attempt, message.master);
      this.newest.set(message.master, message.attempt);
    }
  }

  // A message has reached its addressee, which runs. A backup that has fenced a master frees nothing of it.
  deliver(message) {
    const { kind, from, to } = message;
    if (!isServer(to)) {
      return;
    }
    if (kind === "Gather" && !this.hasFenced(to, message.master)) {
      this.fences.set(`${to} ${message.master}`, message.attempt);
    } else if (kind === "Free" && !this.hasFenced(to, from)) {
      this.freed.add(`${to} ${from} ${message.seg}`);
    } else if (kind === "List") {
      this.lists.set(to, Math.max(message.version, this.lists.get(to) || 0));
    } else if (kind === "Refused" && from === "c" && message.name === "Deposed") {
      this.deposed.add(to);
    }
  }

  hasFenced(backup, master) {
    return this.fences.has(`${backup} ${master}`);
  }

  // Why this message, when it reaches its addressee, which runs, will come to nothing; null, if that can't be told.
  why(message) {
    const { kind, from, to } = message;
    if (to === "out") {
      return null;
    }
    if (to === "c") {
      return kind === "Replicas" ? this.#whyStale(message.attempt) : null;
    }
    if (!["Place", "Append", "Close"].includes(kind)) {
      return this.#whyAtMaster(message);
    }
    if (this.hasFenced(to, from)) {
      return `${to} had fenced ${from} for attempt ${this.fences.get(`${to} ${from}`)}`;
    }
    return this.freed.has(`${to} ${from} ${message.seg}`) ? `${to} had freed segment ${message.seg}` :
      `${to} has no open replica that it fits`;
  }

  // Of a message to a server as a master, which may be deposed.
  #whyAtMaster(message) {
    const { kind, to } = message;
    if (kind === "List" && message.version <= (this.lists.get(to) || 0)) {
      return `it had already version ${this.lists.get(to)}`;
    }
    if (kind === "Stored" || kind === "CommitOk") {
      const newest = this.epochs.get(`${to} ${message.seg}`) || 0;
      if (newest > message.epoch) {
        return `the segment had already epoch ${newest}`;
      }
    }
    return this.deposed.has(to) ? `${to} was deposed` : null;
  }

  // Of an answer to the coordinator in this attempt.
  #whyStale(attempt) {
    const newest = this.newest.get(this.attempts.get(attempt) || "") || 0;
    return newest > attempt ? `its attempt was replaced by ${newest}` : null;
  }
}
