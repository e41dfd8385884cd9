// What an event says, line by line, each with its rule, its law and its wrong rule.
import { eventText, messageText } from "./spelling.mjs";
import { parts, safe } from "./view.mjs";

// The range of all keys, as it is spelt, reads so.
export const shortened = (text) => text.replaceAll("keys 0..18446744073709551615", "all keys");

// An event in words, and why it came to nothing, where it did.
export function whatOf(played, number) {
  const event = played.events[number], { started, silence } = played.turns[number];
  const text = shortened(event.e === "deliver" ? `deliver ${messageText(event.n, played.messages[event.n])}` :
    eventText(event, started));
  return silence === null ? text : `${text}, no effect: ${silence}`;
}

// These events of a run, each in a block: a line which leads to it, and below it one for each message that it sent.
export function logOf(played, from, until) {
  const sends = (number) => safe(shortened(`    ${messageText(number, played.messages[number])}`));
  return played.events.slice(from, until).map((event, at) => {
    const number = from + at, line = `event ${number} at ${event.place}: ${safe(whatOf(played, number))}`;
    const becomes = event.phase === undefined ? [] : [`    ${event.master} is now ${event.phase}`];
    const more = [...event.sent.map(sends), ...becomes];
    return `<div>${[`<a href="#event-${number}" data-event="${number}">${line}</a>`, ...more].join("\n")}</div>`;
  }).join("");
}

const link = (what, name, text) => `<a href="#rules" data-${what}="${name}">${safe(text)}</a>`;

// The rule of this kind of event or message, its law, and the wrong rules.
function namedOf(kind) {
  const named = parts.book.of[kind];
  if (!named) {
    return "";
  }
  const [section, law, wrong] = named;
  const texts = [`rule ${link("section", section, section)}`,
    ...law ? [`law ${link("law", law, law.split("::").at(-1))}`] : [],
    ...wrong.length > 0 ? [`wrong: ${wrong.map((name) => link("wrong", name, name)).join(", ")}`] : []];
  return ` <span class="named">[${texts.join("; ")}]</span>`;
}

// What the event of this number says, as lines of a page.
export function saysOf(played, number) {
  const event = played.events[number], { silence } = played.turns[number];
  const delivered = event.e === "deliver" ? played.messages[event.n].kind : event.e;
  const kind = silence?.includes(" had fenced ") ? "fenced" : delivered;
  const first = `<b>Event ${number}</b> of ${played.events.length - 1}: ${safe(whatOf(played, number))}${namedOf(kind)}`;
  const sent = event.sent.map((one) =>
    `sends ${safe(shortened(messageText(one, played.messages[one])))}${namedOf(played.messages[one].kind)}`);
  return [first, ...sent.length > 0 ? sent : ["nothing sent"]].map((line) => `<p>${line}</p>`).join("");
}
