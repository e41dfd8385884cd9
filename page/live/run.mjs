// A run, event by event, as tools/story/run.py has it: when each message was sent and delivered, which servers ran, and
// which deliveries came to nothing.
import { Servers } from "./servers.mjs";
import { Known, NOT_RUNNING } from "./silences.mjs";

export const MOST_DRAWN = 50_000;

// Whether a run is not too long for a picture.
export const isDrawn = ({ events }) => events.length <= MOST_DRAWN;

export class Run {
  constructor(story) {
    this.story = story;
    this.events = story.events;
    this.messages = story.messages;
    this.turns = []; // of each event: the server that it started, and why it came to nothing
    this.sent = new Array(story.messages.length).fill(0);
    this.delivered = story.messages.map(() => []);
    this.servers = new Servers();
    this.known = new Known();
    story.events.forEach((event, number) => this.#take(event, number));
  }

  #take(event, number) {
    const silence = event.e === "deliver" ? this.#silenceOf(event) : null;
    this.turns.push({ started: this.servers.take(event, number), silence });
    if (event.e === "deliver") {
      const message = this.messages[event.n];
      this.delivered[event.n].push(number);
      if (this.servers.isThere(message.to)) {
        this.known.deliver(message);
      }
    }
    for (const sent of event.sent) {
      const message = this.messages[sent];
      this.sent[sent] = number;
      if (message.kind === "WriteOk") {
        this.servers.acknowledge(message.from);
      }
      this.known.send(message);
    }
  }

  #silenceOf(event) {
    const message = this.messages[event.n];
    if (!this.servers.isThere(message.to)) {
      return `${message.to} ${NOT_RUNNING}`;
    }
    return event.sent.length > 0 ? null : this.known.why(message);
  }

  // Whether a delivery found its addressee not running.
  isAbsent(number) {
    const { silence } = this.turns[number];
    return silence !== null && silence.endsWith(NOT_RUNNING);
  }
}
