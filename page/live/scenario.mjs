// Changes of a scenario's text: what stands up to an event is kept letter by letter, since a number that is read and
// written anew may be rounded.
import { lineOf } from "./script.mjs";

// Where each event of a scenario begins and ends in its text, and where their list begins. The text is JSON that the
// program has played.
export function spansOf(text) {
  const from = text.search(/"events"\s*:\s*\[/), spans = [];
  const list = text.indexOf("[", from) + 1;
  let depth = 0, begin = 0, isText = false;
  for (let at = list; at < text.length; at += 1) {
    const letter = text[at];
    if (isText) {
      at += letter === "\\" ? 1 : 0;
      isText = letter !== '"';
    } else if (letter === '"') {
      isText = true;
      begin = depth === 0 ? at : begin;
    } else if (letter === "{" || letter === "[") {
      begin = depth === 0 ? at : begin;
      depth += 1;
    } else if (letter === "}" || letter === "]") {
      depth -= 1;
      if (depth < 0) {
        return { list, end: at, spans };
      }
      if (depth === 0) {
        spans.push([begin, at + 1]);
      }
    }
  }
  return { list, end: text.length, spans };
}

// An event as a scenario spells it: a key that is a text of digits is a number there. What a delivery delivers stands
// beside it for a script, which tells that.
export const spellingOf = ({ what, ...event }) => JSON.stringify(event).replace(/"(key|at)":"(\d+)"/g, '"$1":$2');

// Whether a place of the scenario is over with this event of its run.
const isOver = (run, event) => event < 0 || run.events[event + 1]?.place !== run.events[event].place;
const placeAt = (run, event) => event < 0 ? -1 : run.events[event].place;

// The scenario whose run ends with this event of the run: the events before that one's place as they are written, of a
// settle what it had delivered by then.
export function textUntil(text, run, event, added) {
  const { list, end, spans } = spansOf(text), place = placeAt(run, event), isLast = isOver(run, event);
  const whole = spans.slice(0, isLast ? place + 1 : place).map(([from, to]) => text.slice(from, to));
  const begun = isLast ? [] : run.events.slice(0, event + 1).filter((it) => it.place === place)
    .map((it) => JSON.stringify({ e: "deliver", n: it.n }));
  const events = [...whole, ...begun, ...added.map(spellingOf)];
  return `${text.slice(0, list)}\n${events.join(",\n")}\n${text.slice(end)}`;
}

// The same of a script, of which each event stands in one of these lines.
export function scriptUntil(text, lines, run, event, added) {
  const all = text.split("\n"), place = placeAt(run, event);
  const line = place < 0 ? (lines[0] ?? all.length + 1) - 1 : lines[place];
  const isWhole = place < 0 || isOver(run, event) && lines[place + 1] !== line;
  const begun = isWhole ? [] : run.events.slice(0, event + 1).filter((it) => lines[it.place] === line);
  const kept = all.slice(0, isWhole ? line : line - 1);
  return [...kept, ...[...begun, ...added].map((it) => lineOf(it, run.messages))].join("\n").trimStart() + "\n";
}

// A server's name as a scenario spells it.
export const idOf = (name) => name.split(".").map(Number);
