// A scenario as a script, where one says just the same.
import { lineOf, made } from "./script.mjs";

const GREAT_NUMBER = /("(?:key|at)"\s*:\s*)(\d{16,})/g, PLAIN_TEXT = /^[^\p{C}]*$/u;
const idName = (id) => id === "c" ? "c" : id.join(".");

function lineOfEvent(event) {
  if (event.e === "settle") {
    const kinds = event.kinds?.length > 0 ? ` without ${event.kinds.join(" ")}` : "";
    const hosts = event.hosts?.length > 0 ? ` without host ${event.hosts.join(" ")}` : "";
    return `settle${kinds}${hosts}`;
  }
  switch (event.e) {
    case "start": {
      const kept = (event.kept ?? []).map(([id, seg]) => `${idName(id)}/${seg}`);
      return kept.length > 0 ? `start ${event.host} keeping ${kept.join(" ")}` : lineOf(event, []);
    }
    case "split": return `split ${event.table}/${event.at}`;
    default: return lineOf(event, []);
  }
}

// Lines of which neighbours that start one host after another are one.
function joined(events) {
  const lines = [];
  let first = null, last = null;
  const end = () => {
    if (first !== null) {
      lines.push(first === last ? `start ${first}` : `start ${first}..${last}`);
      first = null;
    }
  };
  for (const event of events) {
    if (event.e === "start" && !event.kept?.length) {
      if (first === null || event.host !== last + 1) {
        end();
        first = event.host;
      }
      last = event.host;
    } else {
      end();
      lines.push(lineOfEvent(event));
    }
  }
  end();
  return lines;
}

const readWhole = (text) => JSON.parse(text.replace(GREAT_NUMBER, '$1"$2"'));
const bare = (event) => Object.fromEntries(Object.entries(event).sort()
  .filter(([, value]) => !(Array.isArray(value) && value.length === 0)));
const meaningOf = ({ factor, factors = [], free = false, segment, events }) =>
  JSON.stringify([factor, factors, free, segment, events.map(bare)]);

// The script of a scenario; null, where there is none that says the same.
export function scriptOf(text) {
  try {
    const scenario = readWhole(text), { factor, factors = [], free = false, segment, events } = scenario;
    if (!events.every(({ value }) => value === undefined || value === null || PLAIN_TEXT.test(value))) {
      return null;
    }
    const settings = [...factor === 2 ? [] : [`factor ${factor}`], ...segment === 8 ? [] : [`segment ${segment}`],
      ...factors.length > 0 ? [`factors ${factors.join(" ")}`] : [], ...free ? ["free"] : []];
    const script = `${[...settings, ...joined(events)].join("\n")}\n`;
    return meaningOf(readWhole(made(script, () => []).text)) === meaningOf(scenario) ? script : null;
  } catch {
    return null;
  }
}
