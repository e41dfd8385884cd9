// Two stories with their words, event by event.

const lineOfMessage = ({ n, kind, from, to, text }) => `${n} ${kind} ${from} -> ${to} ${text}`.trimEnd();

// What an event of a story with its words says, in lines.
function textOfEvent(story, event) {
  const silence = event.why ? `, no effect: ${event.why}` : "";
  const text = event.kind === "deliver" ? `deliver ${lineOfMessage(story.messages[event.message])}${silence}` : event.text;
  return [text, ...event.sent.map((number) => `  sends ${lineOfMessage(story.messages[number])}`)].join("\n");
}

// The texts of both stories, event by event, and the first event that differs; -1, where none does.
export function paired(one, other) {
  const texts = [one, other].map((story) => story.events.map((event) => textOfEvent(story, event)));
  const rows = Array.from({ length: Math.max(...texts.map((list) => list.length)) },
    (_, at) => texts.map((list) => list[at] ?? ""));
  return { rows, first: rows.findIndex(([left, right]) => left !== right) };
}
