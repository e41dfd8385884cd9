"use strict";
const byId = (id) => document.getElementById(id);
const story = JSON.parse(byId("story").textContent);
const events = story.events, messages = story.messages;
const escaped = (text) => String(text).replace(/[&<>"]/g, (letter) => `&#${letter.charCodeAt(0)};`);

// The nodes side by side: the outside, the coordinator, the servers in order of start, and who was only named.
const names = ["out", "c", ...story.servers.map((server) => server.id)];
const column = new Map(names.map((name, place) => [name, place]));
for (const message of messages) {
  for (const name of [message.from, message.to]) {
    if (!column.has(name)) {
      column.set(name, names.length);
      names.push(name);
    }
  }
}
const hostOf = (name) => name.split(".")[0];
const title = (name) => ({ out: "outside", c: "coordinator" })[name] || name;

// Each message as arrows: to the outside where it was sent, lost ones without an end, else one for each delivery.
const alike = new Map();
for (const message of messages) {
  message.outward = message.to === "out";
  message.lost = !message.outward && message.delivered.length === 0;
  message.slot = 0;
  if (message.outward || message.lost) {
    const isRight = column.get(message.from) < column.get(message.to);
    const beginning = `${message.sent} ${message.lost} ${message.from} ${isRight}`;
    message.alike = alike.get(beginning) || [];
    message.slot = message.alike.length;
    message.alike.push(message);
    alike.set(beginning, message.alike);
  }
}
const toneOf = (message) => message.misses ? "stale" :
  ({ WriteOk: "good", ReadOk: "good", Refused: "bad", Own: "grant" })[message.kind] || "";

const chosen = { event: -1, message: -1, host: "", kind: "", folds: true };
const isOfHost = (message) =>
  chosen.host === "" || hostOf(message.from) === chosen.host || hostOf(message.to) === chosen.host;
const isShown = (message) => (chosen.kind === "" || message.kind === chosen.kind) && isOfHost(message);

function messageLine(message) {
  return `${message.n} ${message.kind} ${message.from} → ${message.to} ${message.text}`.trim();
}

function messageText(message) {
  const deliveries = message.delivered.map((number) =>
    events[number].why ? `${number} (${events[number].why})` : `${number}`);
  let fate = `delivered by event ${deliveries.join(", ")}`;
  if (message.outward) {
    fate = "to the outside";
  } else if (message.lost) {
    fate = "never delivered";
  }
  const stale = message.misses ? `\nstale: ${missedText(message)}` : "";
  return `${messageLine(message)}${stale}\nsent by event ${message.sent}, ${causeText(events[message.sent])}\n${fate}`;
}

function causeText(event) {
  return event.kind === "deliver" ? `which delivered ${messageLine(messages[event.message])}` : event.text;
}

function eventText(event) {
  let what = event.text;
  if (event.kind === "deliver") {
    const silence = event.why ? `\nno effect: ${event.why}` : "";
    what = `deliver ${messageLine(messages[event.message])}${silence}`;
  }
  const sent = event.sent.map((number) => `\nsends ${messageLine(messages[number])}`).join("");
  return `Event ${event.n} of the scenario's event ${event.place}: ${what}${sent || "\nnothing sent"}`;
}
