// The story of a run with its words, as tools/story/telling.py has it: what page/*.js draws. `scripts/check/live-page`
// compares the two.
import { eventText, fieldsText, placeOf } from "./spelling.mjs";
import { waitOf } from "./waits.mjs";
import { unansweredIn } from "./writes.mjs";

// The story of a run with its words, as one value.
export function told(run) {
  const { story } = run, { lost, grants, newest } = endingOf(run);
  return {
    format: 1,
    events: run.events.map((event, number) => toldEvent(run, event, number)),
    messages: run.messages.map((message, number) => ({ n: number, kind: message.kind, from: message.from,
      to: message.to, text: fieldsText(message), sent: run.sent[number], delivered: run.delivered[number] })),
    lost: [...lost.values()],
    servers: run.servers.items.map(({ host, ...server }) => server),
    masters: story.masters.map((master) => toldMaster(run, master)),
    replicas: story.replicas,
    phases: run.events.flatMap((event, number) =>
      event.phase === undefined ? [] : [{ event: number, id: event.master, phase: event.phase }]),
    copies: run.events.flatMap((event, number) =>
      (event.copies || []).map(({ gone, ...copy }) => ({ event: number, gone, ...copy }))),
    ranges: [...grants.values()],
    keys: [...newest.values()].map((one) => ({ table: one.table, key: one.key, version: one.version, term: one.term,
      by: one.from })),
    unacknowledged: unansweredIn(run),
    audit: story.audit,
    stopped: story.stopped,
  };
}

function toldEvent(run, event, number) {
  const { started, silence } = run.turns[number], one = { n: number, place: event.place, kind: event.e };
  if (event.e !== "deliver") {
    return { ...one, text: eventText(event, started), at: placeOf(event, started), sent: event.sent };
  }
  const absent = run.isAbsent(number) ? { running: false } : {};
  return { ...one, message: event.n, ...silence === null ? {} : { ...absent, why: silence }, sent: event.sent };
}

const toldMaster = (run, master) => ({ id: master.id, phase: master.phase, head: master.head, durable: master.durable,
  waits: waitOf(run, master), segments: master.segments });

// How things stand at the end: what was never delivered, who owns which range, and what was last acknowledged of each
// key.
function endingOf(run) {
  const lost = new Map(), grants = new Map(), newest = new Map();
  run.messages.forEach((message, number) => {
    if (message.to !== "out" && run.delivered[number].length === 0) {
      const place = `${message.kind} ${message.to}`;
      const group = lost.get(place) || { kind: message.kind, to: message.to, count: 0 };
      group.count += 1;
      lost.set(place, group);
    }
    if (message.kind === "Own") {
      const { table, lo, hi, term, to } = message;
      grants.set(`${table} ${lo} ${hi}`, { table, lo, hi, term, owner: to });
    } else if (message.kind === "WriteOk") {
      const place = `${message.table} ${message.key}`, before = newest.get(place);
      if (!before || BigInt(before.version) <= BigInt(message.version)) {
        newest.set(place, message);
      }
    }
  });
  return { lost, grants, newest };
}

// It as JSON that can stand in a page: no `<` stands in it.
export const toldJson = (run) => JSON.stringify(told(run)).replaceAll("<", "\\u003c");
