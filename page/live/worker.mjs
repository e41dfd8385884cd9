// Beside the page: runs the program, and works out what the page shows of a run.
import { ask, patched } from "./program.mjs";
import { hintsOf } from "./hints.mjs";
import { readStory } from "./reading.mjs";
import { faultText, stopText } from "./reasons.mjs";
import { isDrawn, Run } from "./run.mjs";
import { spansOf, spellingOf } from "./scenario.mjs";
import { isScript, made, Wrong } from "./script.mjs";
import { told, toldJson } from "./telling.mjs";
import { textKindOf } from "./kinds.mjs";
import { waitingIn } from "./waiting.mjs";

const MOST_ROUNDS = 40; // a recovery has some ten
const PLAYED = [0, 1, 2], encoded = (text) => new TextEncoder().encode(text);
const modules = new Map(); // by the rule that is broken; "" is the right one
let base = null, broken = {};

function moduleOf(rule) {
  if (!modules.has(rule)) {
    modules.set(rule, new WebAssembly.Module(rule === "" ? base : patched(new Uint8Array(base), broken[rule])));
  }
  return modules.get(rule);
}

const answer = (words, text, rule = "") => ask(moduleOf(rule), words, encoded(text));

const waitingOf = (rule) => (text) => waitingIn(answer(["log", "--json"], text, rule));

// What comes of a text, by what it is: of a history of clients the verdict, of a trace the audit, of a scenario or a
// script its run. `tells` is given the report of a run before the rest is made.
function answerTo(text, tells) {
  const kind = textKindOf(text);
  if (kind === "history") {
    return { judged: judgedOf(text) };
  }
  if (kind === "trace") {
    const report = answer(["audit"], text);
    return { report, why: `This is a trace, of which \`audit\` says: ${lastLineOf(report.told)}` };
  }
  return play(text, "", tells);
}

// What a scenario or a script does: the report, and, where it could be played, the story and the story with its words;
// and why it could not be played, or why it stopped.
function play(text, rule = "", tells = () => {}) {
  let scenario = text, lines = null;
  if (isScript(text)) {
    try {
      ({ text: scenario, lines } = made(text, waitingOf(rule)));
    } catch (error) {
      if (error instanceof Wrong) {
        return { why: error.message };
      }
      throw error;
    }
  }
  const report = answer(["run"], scenario, rule);
  const fault = faultText(report.told, text, scenario, lines);
  if (!PLAYED.includes(report.status) || fault !== null) {
    return { report, why: fault ?? `${report.told}${report.said}`.trim() };
  }
  tells(report);
  const log = answer(["log", "--json"], scenario, rule), run = new Run(readStory(log.told));
  const hints = run.story.stopped === null ? hintsOf(run.story) : [];
  return { report, lines, scenario, hints, story: log.told, told: isDrawn(run) ? toldJson(run) : "",
    why: stopText(run.story, scenario, lines) };
}

const lastLineOf = (text) => text.trim().split("\n").at(-1);

// How `check` judges a history; where it can't, why.
function judgedOf(history) {
  const judged = answer(["check"], history);
  const [, line] = `${judged.told}${judged.said}`.match(/^error F17 at (\d+)$/m) ?? [];
  return line === undefined ? { history, verdict: lastLineOf(judged.told) } :
    { why: `line ${line} is none of a history, or does not fit the lines before it: ${history.split("\n")[line - 1]}` };
}

// What the clients of a scenario saw, and how that is judged.
const judge = (text, rule = "") => judgedOf(answer(["history"], text, rule).told);

// The deliveries of all that waits behind a scenario, and of what comes of it, but of one message.
function othersThan(text, lost) {
  const { spans, end } = spansOf(text), events = [];
  for (let round = 0; round < MOST_ROUNDS; round += 1) {
    const spelt = events.map(spellingOf).join(",");
    const comma = spans.length > 0 && spelt !== "" ? "," : "";
    const found = waitingOf("")(text.slice(0, end) + comma + spelt + text.slice(end)).filter(({ n }) => n !== lost);
    if (found.length === 0) {
      break;
    }
    events.push(...found.map(({ n, kind, from, to }) => ({ e: "deliver", n, what: `${kind} ${from} -> ${to}` })));
  }
  return events;
}

const ORDERS = {
  load: ({ bytes, rules }) => {
    [base, broken] = [bytes, rules];
    return {};
  },
  play: ({ text }, tells) => answerTo(text, tells),
  // the same by a program in which a rule is broken, as a value
  compare: ({ text, rule }) => {
    const played = play(text, rule);
    return { why: played.why, report: played.report, told: played.story && told(new Run(readStory(played.story))) };
  },
  others: ({ text, lost }) => othersThan(text, lost),
  judge: ({ text, rule }) => judge(text, rule),
  ask: ({ words, text }) => answer(words, text),
};

addEventListener("message", ({ data }) => {
  const tells = (before) => postMessage({ number: data.number, before });
  try {
    postMessage({ number: data.number, answer: ORDERS[data.order](data, tells) });
  } catch (error) {
    postMessage({ number: data.number, error: String(error) });
  }
});
