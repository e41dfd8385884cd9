// The messages that wait at the end of a scenario, as a script names them.
import { readStory } from "./reading.mjs";
import { Run } from "./run.mjs";
import { Wrong } from "./script.mjs";
import { fieldsText } from "./spelling.mjs";

const CLEAN_OR_BREACH = [0, 1];

// Those of a scenario for which `log --json` answered with this status and text.
export function waitingIn({ status, told: text }) {
  if (!CLEAN_OR_BREACH.includes(status) || !text.startsWith("{")) {
    throw new Wrong("what stands above can't be played");
  }
  const run = new Run(readStory(text));
  return run.messages.map((message, n) => ({ ...message, n, text: fieldsText(message) }))
    .filter(({ n, to }) => to !== "out" && run.delivered[n].length === 0);
}
