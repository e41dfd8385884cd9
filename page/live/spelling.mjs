// Events and messages in words, a line for each, as tools/story/spelling.py has them. Of long lists just the first are
// told, and how many more there are.
import { nameOf } from "./reading.mjs";

const MOST_ENTRIES = 4, MOST_ROWS = 64, MOST_SEGMENTS = 16, MOST_BYTES = 32;
const PLAIN = /^[ !#-\[\]-~]*$/;

const counted = (count, one, many) => `${count} ${count === 1 ? one : many}`;

// The first of a list, and how many more there are.
function firstOf(items, most, between, tell) {
  const told = items.slice(0, most).map(tell).join(between);
  return items.length <= most ? told : `${told} and ${items.length - most} more`;
}

const isShort = (hex) => hex.length <= 2 * MOST_BYTES;
export const lettersOf = (hex) => hex.replace(/../g, (pair) => String.fromCharCode(parseInt(pair, 16)));

// A value, given in hexadecimal digits: as text, where it is short and of plain letters; or a deletion.
export function valueText(value) {
  if (value === null) {
    return " no value";
  }
  const letters = isShort(value) ? lettersOf(value) : "";
  if (isShort(value) && PLAIN.test(letters)) {
    return ` "${letters}"`;
  }
  const told = value.slice(0, 2 * MOST_BYTES);
  return ` ${counted(value.length / 2, "byte", "bytes")} 0x${told}${isShort(value) ? "" : ".."}`;
}

const hexOf = (text) => [...new TextEncoder().encode(text)].map((byte) => byte.toString(16).padStart(2, "0")).join("");
const keyText = (fields) => `table ${fields.table} key ${fields.key}`;
const entryText = (entry) => `term ${entry.term} ${keyText(entry)} version ${entry.version}${valueText(entry.value)}`;

function entriesText(entries) {
  const texts = entries.slice(0, MOST_ENTRIES).map(entryText);
  if (texts.length < entries.length) {
    texts.push("..");
  }
  return counted(entries.length, "entry", "entries") + (texts.length > 0 ? `: ${texts.join("; ")}` : "");
}

const digestText = (digest) => ` digest${firstOf(digest, MOST_SEGMENTS, "", (seg) => ` ${seg}`)}`;
const openness = (fields) => fields.closed ? "closed" : "open";
const replicaText = (fields) =>
  `seg ${fields.seg} epoch ${fields.epoch} length ${fields.len} ${openness(fields)}`;
const rangeText = (fields, term) => `table ${fields.table} keys ${fields.lo}..${fields.hi} term ${term}`;
const partText = (part) => `${rangeText(part, part.previous)} to ${part.term}`;

function replicasText(body) {
  const rows = firstOf(body.rows, MOST_ROWS, "; ", (row) => replicaText(row) + digestText(row.digest));
  return `attempt ${body.attempt}, ${counted(body.rows.length, "replica", "replicas")}${rows ? ": " : ""}${rows}`;
}

function planText(body) {
  const rows = firstOf(body.rows, MOST_ROWS, "", (row) => ` ${row.seg}:${row.holder}:${row.len}`);
  const parts = firstOf(body.parts, MOST_ROWS, "; ", partText);
  return `attempt ${body.attempt} of ${body.master} head ${body.head} rows${rows}, ` +
    `${counted(body.parts.length, "part", "parts")}${parts ? ": " : ""}${parts}`;
}

// What each kind of message says.
const FIELDS = {
  Write: (body) => keyText(body) + valueText(body.value),
  Read: keyText,
  WriteOk: (body) =>
    `seg ${body.seg} offset ${body.offset} term ${body.term} ${keyText(body)} version ${body.version}`,
  ReadOk: (body) => `${keyText(body)} version ${body.version}${valueText(body.value)}`,
  Refused: (body) => `${body.code} ${body.name}`,
  Place: (body) => `seg ${body.seg} epoch ${body.epoch}${digestText(body.digest)} ${openness(body)}, ` +
    entriesText(body.entries),
  Append: (body) => `seg ${body.seg} offset ${body.offset}, ${entriesText(body.entries)}`,
  Close: (body) => `seg ${body.seg} length ${body.len}`,
  Stored: replicaText,
  Commit: (body) => `seg ${body.seg} epoch ${body.epoch}`,
  CommitOk: (body) => `seg ${body.seg} epoch ${body.epoch}`,
  Enlist: () => "",
  Ready: () => "",
  List: (body) => `version ${body.version}` +
    firstOf(body.rows, MOST_ROWS, "", (row) => ` ${row.id} ${row.up ? "up" : "down"}`),
  Gather: (body) => `attempt ${body.attempt} of ${body.master}`,
  Replicas: replicasText,
  Plan: planText,
  Fetch: (body) => `attempt ${body.attempt} of ${body.master} seg ${body.seg} length ${body.len}, ` +
    `part ${partText(body.part)}`,
  Data: (body) => `attempt ${body.attempt} seg ${body.seg} term ${body.term}, ${entriesText(body.entries)}`,
  Recovered: (body) => `attempt ${body.attempt} term ${body.term}`,
  Own: (body) => `${rangeText(body, body.term)} after ${body.previous} attempt ${body.attempt}`,
  SplitOk: (body) => `table ${body.table} at ${body.at}`,
  Free: (body) => `seg ${body.seg}`,
};

// What a message says; nothing, where it has no fields.
export const fieldsText = (message) => FIELDS[message.kind](message);

// A message: its number, its kind, from where to where, and what it says.
export function messageText(number, message) {
  return `${number} ${message.kind} ${message.from} -> ${message.to} ${fieldsText(message)}`.trimEnd();
}

function startText(event, started) {
  const kept = firstOf(event.kept || [], MOST_ROWS, "", ([id, seg]) => ` ${nameOf(id)}:${seg}`);
  return `start host ${event.host}${started ? ` as ${started}` : ""}${kept ? " kept" : ""}${kept}`;
}

const EVENTS = {
  write: (event) => `write to ${nameOf(event.to)} ${keyText(event)}` +
    valueText(event.value === null ? null : hexOf(event.value)),
  read: (event) => `read to ${nameOf(event.to)} ${keyText(event)}`,
  start: startText,
  create: (event) => `create table ${event.table} owner ${nameOf(event.owner)}`,
  split: (event) => `split table ${event.table} at ${event.at}`,
};

// An event other than a delivery: its kind, and what it says.
export function eventText(event, started) {
  return event.e in EVENTS ? EVENTS[event.e](event, started) : `${event.e} ${nameOf(event.id)}`;
}

// The node at which an event happens that is no delivery.
export function placeOf(event, started) {
  switch (event.e) {
    case "write": case "read": return "out";
    case "tick": case "stop": return nameOf(event.id);
    case "start": return started || "out";
    default: return "c";
  }
}
