// What can happen next: to the message or the node that was picked, or to all. Each choice has a name, and the events
// that it stands for, or that a message is lost: then all others are delivered, since a later settle would deliver it.
import { hostOf } from "./reading.mjs";
import { idOf } from "./scenario.mjs";

const LETTERS = "abcdefghijklmnopqrstuvwxyz", USUAL_KEY = 1n;

// A key of a range, the usual one where it has that. It is a text of digits, since a great number would be rounded.
const keyIn = ({ lo, hi }) => String(BigInt(lo) <= USUAL_KEY && USUAL_KEY <= BigInt(hi) ? USUAL_KEY : BigInt(lo));

// The first letter that no write of the run has; where all are taken, the first with a number behind it.
function nextValue(run) {
  const written = new Set(run.events.filter(({ e }) => e === "write").map(({ value }) => value));
  const named = (count) => LETTERS[count % LETTERS.length] + (Math.floor(count / LETTERS.length) || "");
  let count = 0;
  while (written.has(named(count))) {
    count += 1;
  }
  return named(count);
}

function nextTable(run) {
  return Math.max(0, ...run.events.filter(({ e }) => e === "create").map(({ table }) => table)) + 1;
}

function requestsTo(run, node, id) {
  const [range] = node.ranges;
  if (!range) {
    const table = nextTable(run);
    return [{ name: `Create table ${table} at ${node.id}`, events: [{ e: "create", table, owner: id }] }];
  }
  const key = keyIn(range), to = { to: id, table: range.table, key }, value = nextValue(run);
  return [
    { name: `Write "${value}" to ${range.table}/${key} at ${node.id}`, events: [{ e: "write", ...to, value }] },
    { name: `Read ${range.table}/${key} at ${node.id}`, events: [{ e: "read", ...to }] },
  ];
}

function choicesOfServer(run, node) {
  const id = idOf(node.id), on = (verb, e) => ({ name: `${verb} ${node.id}`, events: [{ e, id }] });
  return node.stopped !== null ?
    [{ name: `Start host ${hostOf(node.id)}`, events: [{ e: "start", host: hostOf(node.id) }] },
      on("Suspect", "suspect"), on("Decide", "decide")] :
    [on("Crash", "stop"), on("Suspect", "suspect"), on("Decide", "decide"), on("Tick of", "tick"),
      ...requestsTo(run, node, id)];
}

function choicesOfMessage(run, message) {
  const { kind, to } = run.messages[message];
  return [{ name: `Deliver ${message} ${kind} to ${to}`, events: [{ e: "deliver", n: message }] },
    { name: `Lose ${message}, deliver all others`, events: "lose" }];
}

// The choices for what is shown.
export function choicesOf({ run, states, event, node, message }) {
  const all = { name: "Deliver all (settle)", events: [{ e: "settle" }] };
  if (message !== null) {
    return [...choicesOfMessage(run, message), all];
  }
  if (node === "c") {
    return [{ name: "Tick of the coordinator", events: [{ e: "tick", id: "c" }] }, all];
  }
  const server = node === null ? undefined : states.at(event).nodes.get(node);
  return server ? [...choicesOfServer(run, server), all] : [all];
}
