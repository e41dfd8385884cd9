// Hints of who owns what, as tools/story/owners.py has them: an owner that has stopped and was not suspected, a
// decide that came before a suspicion, requests that went astray, and creates and splits that were refused.
import { generationOf, hostOf, isServer, nameOf } from "./reading.mjs";

const NOT_OWNER = 2, STALE_ATTEMPT = 10, TABLE_EXISTS = 12, NO_TABLE = 13;

const codeOf = (message) => message.kind === "Refused" ? Number(String(message.code).replace(/^F/, "")) : 0;
const ascending = (numbers) => [...new Set(numbers)].sort((one, other) => one - other);

// The last grant of each range.
export class Grants {
  #items = new Map();

  note(message) {
    if (message.kind === "Own") {
      const { table, lo, hi, term, to } = message;
      this.#items.set(`${table} ${lo} ${hi}`, { table, lo: BigInt(lo), hi: BigInt(hi), term, owner: to });
    }
  }

  get all() {
    return [...this.#items.values()];
  }

  // Whether a later term has taken a key of its range.
  isPassedOn(grant) {
    return this.all.some((other) => other.table === grant.table && other.term > grant.term &&
      other.lo <= grant.hi && grant.lo <= other.hi);
  }

  // Who was granted this key last; null, where nobody was.
  ownerOf(table, key) {
    return this.all.filter((it) => it.table === table && it.lo <= key && key <= it.hi)
      .reduce((last, it) => last === null || it.term > last.term ? it : last, null)?.owner ?? null;
  }
}

export class Owners {
  #messages;
  #grants = new Grants();
  #suspected = new Set();
  #unsuspected = new Set();
  #misdirected = [];
  #refused = [];

  constructor(messages) {
    this.#messages = messages;
  }

  // An event has happened, of which the servers know.
  take(event, servers) {
    const sent = event.sent.map((number) => this.#messages[number]);
    const codes = new Set(sent.map(codeOf).filter((code) => code > 0));
    if (event.e === "suspect") {
      this.#suspected.add(nameOf(event.id));
    } else if (event.e === "decide") {
      this.#seeDecide(nameOf(event.id), codes, servers);
    } else if (event.e === "create" || event.e === "split") {
      this.#seeOrder(event, codes);
    } else if (event.e === "deliver" && ["Write", "Read"].includes(this.#messages[event.n].kind)) {
      this.#seeRequest(this.#messages[event.n], codes);
    }
    sent.forEach((message) => this.#grants.note(message));
  }

  // The hints, one after another. Where a request came before its server was ready, that says more than who owns what.
  hints(servers, hasEarly) {
    return [...this.#stopped(servers), ...[...this.#unsuspected].map((name) =>
      `${name} was not suspected before the decide, so no recovery of it had begun: it takes a suspect, and a settle, ` +
        "for the backups to be asked"),
    ...this.#refused.slice(0, 1), ...this.#misdirected.length > 0 && !hasEarly ? [this.#misdirectedText()] : []];
  }

  #seeDecide(name, codes, servers) {
    const isNewer = servers.generation(hostOf(name)) > generationOf(name);
    if (!this.#suspected.has(name) && !isNewer && codes.has(STALE_ATTEMPT)) {
      this.#unsuspected.add(name);
    }
  }

  #seeOrder(event, codes) {
    const what = `the ${event.e} of table ${event.table} was refused`;
    if (codes.has(TABLE_EXISTS)) {
      this.#refused.push(`${what}: it is there already, and ${this.#grants.ownerOf(event.table, 0n) ?? "None"} owns its ` +
        "first key");
    } else if (codes.has(NO_TABLE)) {
      this.#refused.push(`${what}: there is no such table${this.#tablesText()}`);
    }
  }

  #seeRequest(request, codes) {
    const owner = codes.has(NOT_OWNER) ? this.#grants.ownerOf(request.table, BigInt(request.key)) : request.to;
    if (owner !== request.to) {
      this.#misdirected.push({ request, owner });
    }
  }

  #tablesText() {
    const tables = ascending(this.#grants.all.map(({ table }) => table));
    return tables.length > 0 ? `; there is table ${tables.join(", ")}` : "";
  }

  #misdirectedText() {
    const [{ request, owner }] = this.#misdirected, count = this.#misdirected.length;
    const told = owner ? `${owner} owns that` :
      `there is no table ${request.table}: create it first${this.#tablesText()}`;
    return `the ${request.kind.toLowerCase()} of table ${request.table} key ${request.key} went to ${request.to}, and ` +
      `${told}${count > 1 ? `; so it was with ${count} requests in all` : ""}`;
  }

  #stopped(servers) {
    const tables = new Map();
    for (const grant of this.#grants.all) {
      const server = isServer(grant.owner) ? servers.find(grant.owner) : null;
      if (server && server.stopped !== null && server.suspected === null && !this.#grants.isPassedOn(grant)) {
        tables.set(grant.owner, [...tables.get(grant.owner) ?? [], grant.table]);
      }
    }
    return [...tables].map(([name, owned]) => `${name} owns table ${ascending(owned).join(", ")}, has stopped and was ` +
      "not suspected, so nobody takes its place: it takes a suspect, a settle, a decide and a settle");
  }
}
