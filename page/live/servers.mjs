// Which servers were started, when each of them ran, and which were suspected, as tools/story/servers.py has it.
import { generationOf, hostOf, isServer, nameOf } from "./reading.mjs";

export class Servers {
  constructor() {
    this.items = [];
    this.newest = new Map();
  }

  // The event of this number has happened. Gives the server that it started, if it started one.
  take(event, number) {
    if (event.e === "start") {
      return this.#start(event.host, number);
    }
    if (event.e === "stop") {
      this.newest.get(event.id[0]).stopped = number;
    } else if (event.e === "suspect") {
      const server = this.find(nameOf(event.id));
      if (server && server.suspected === null) {
        server.suspected = number;
      }
    }
    return null;
  }

  #start(host, number) {
    const before = this.newest.get(host), generation = before ? generationOf(before.id) : 0;
    const server = { id: `${host}.${generation + 1}`, host, started: number, stopped: null, suspected: null,
      acknowledged: 0 };
    this.items.push(server);
    this.newest.set(host, server);
    return server.id;
  }

  // The sender acknowledges a write.
  acknowledge(sender) {
    const server = isServer(sender) && this.newest.get(hostOf(sender));
    if (server) {
      server.acknowledged += 1;
    }
  }

  // How often a host was started.
  generation(host) {
    const server = this.newest.get(host);
    return server ? generationOf(server.id) : 0;
  }

  // The newest server of each host that was started, by host.
  hosts() {
    return [...this.newest.keys()].sort((one, other) => one - other).map((host) => this.newest.get(host));
  }

  // The server of this name, where it is the newest one of its host.
  find(name) {
    const server = this.newest.get(hostOf(name));
    return server && server.id === name ? server : null;
  }

  runs(name) {
    const server = this.find(name);
    return server !== null && server.stopped === null;
  }

  // Whether a node is there: each is but for servers that do not run.
  isThere(node) {
    return !isServer(node) || this.runs(node);
  }
}
