// Why a scenario could not be played, or why its run stopped, in short: ./ramseg says more of the same.
import { spansOf } from "./scenario.mjs";

const FIRST_EVENT = 2;
const whereOf = (lines, place, kind) => lines ? `line ${lines[place]}` : `event ${place} (${kind})`;

// What is wrong with a scenario of which the report is this one line; null, where that is another one.
export function faultText(report, text, scenario, lines) {
  const found = report.match(/^error F17 at (\d+)\n/);
  if (!found) {
    return null;
  }
  const place = Number(found[1]) - FIRST_EVENT;
  if (place === -FIRST_EVENT) {
    return jsonFault(scenario);
  }
  if (place < 0) {
    return 'the scenario has not exactly its members, or "factor" is not 1 to 5, or "segment" not 1 to 1024';
  }
  const [from, to] = spansOf(scenario).spans[place] ?? [0, 0], spelt = scenario.slice(from, to);
  const shown = lines ? text.split("\n")[lines[place] - 1].trim() : spelt;
  const kind = spelt.match(/"e"\s*:\s*"(\w+)"/)?.[1] ?? "";
  return `${whereOf(lines, place, kind)}: this is no event: ${shown}\nhosts are 0 to 63, generations from 1, tables below ` +
    "2^32, keys below 2^64, and of the members none lacks and none is left over";
}

function jsonFault(text) {
  try {
    JSON.parse(text);
  } catch (error) {
    return `it is neither a script nor JSON: ${error.message}`;
  }
  return "it is no JSON that the program reads";
}

// Why the run of this story stopped; nothing, where it did not.
export function stopText({ stopped, messages }, scenario, lines) {
  if (!stopped) {
    return "";
  }
  const { spans } = spansOf(scenario), [from, to] = spans[stopped.place];
  const events = spans.slice(0, stopped.place).map(([begin, end]) => scenario.slice(begin, end));
  const event = JSON.parse(scenario.slice(from, to));
  const why = stopped.code === "F1" ? "memory was refused" : causeOf(event, events, messages.length);
  return `stopped at ${whereOf(lines, stopped.place, event.e)}: ${why}`;
}

// The generation of a host's newest server, and whether it runs.
function hostBefore(host, events) {
  const known = { generation: 0, runs: false };
  for (const event of events.map((text) => JSON.parse(text))) {
    if (event.e === "start" && event.host === host) {
      Object.assign(known, { generation: known.generation + 1, runs: true });
    } else if (event.e === "stop" && event.id[0] === host) {
      known.runs = false;
    }
  }
  return known;
}

function causeOf(event, events, sent) {
  if (event.e === "start") {
    const { generation } = hostBefore(event.host, events);
    return `host ${event.host} runs, as ${event.host}.${generation}: stop it first`;
  }
  if ((event.e === "stop" || event.e === "tick") && event.id !== "c") {
    const { generation, runs } = hostBefore(event.id[0], events);
    return `${event.id.join(".")} does not run: ${generation === 0 ? `host ${event.id[0]} was never started` :
      `the newest server of its host is ${event.id[0]}.${generation}, which ${runs ? "runs" : "has stopped"}`}`;
  }
  if (event.e === "deliver" && event.n >= sent) {
    return `message ${event.n} was not sent: ${sent} were until then`;
  }
  return "a world takes 200,000 events, of which each delivery of a settle is one";
}
