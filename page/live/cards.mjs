// A card for each node: how it stands at the cursor, and what is on its way to it.
import { hostOf } from "./reading.mjs";
import { closedAt, standing, storedOf } from "./state.mjs";

const MOST_BOXES = 24, MOST_WAITING = 6, MOST_LOGGED = 6, MOST_REPLICAS = 10, MOST_LISTED = 64;
const LAST_KEY = "18446744073709551615";

function keysText({ lo, hi }) {
  if (hi === LAST_KEY) {
    return lo === "0" ? "all keys" : `keys from ${lo} on`;
  }
  return `keys ${lo} to ${hi}`;
}
const grantText = (range) => `table ${range.table}, ${keysText(range)}, term ${range.term}`;

// A box for each entry: whole ones are stored, the others are not known to be. What it says stands beside, for readers
// that see no boxes.
function boxesOf(stored, all) {
  const box = (place) => `<i${place < stored ? "" : ' class="open"'}></i>`;
  const shown = Array.from({ length: Math.min(all, MOST_BOXES) }, (_, place) => box(place)).join("");
  return `<span class="boxes" aria-hidden="true">${shown}${all > MOST_BOXES ? " .." : ""}</span>`;
}

// The last of a list, each told in a line, and how many there are before them.
function lastOf(items, most, tell) {
  const before = items.length > most ? [`<li>.. ${items.length - most} before</li>`] : [];
  return [...before, ...items.slice(-most).map(tell)];
}

// Where a segment is closed: nothing, everywhere, or at the members that have told so.
function closedText(segment) {
  const names = closedAt(segment);
  if (names.length === 0) {
    return "";
  }
  return names.length === segment.members.size ? ", closed" : `, closed at ${names.join(", ")}`;
}

function logLines(node) {
  return lastOf([...node.log.values()], MOST_LOGGED, (segment) => {
    const stored = storedOf(segment), members = [...segment.members.keys()].join(", ");
    const entries = segment.len === 0 ? "empty" :
      `${boxesOf(stored, segment.len)} ${stored} of ${segment.len} stored whole`;
    return `<li>segment ${segment.seg}, epoch ${segment.epoch}${closedText(segment)}, at ${members}: ` +
      `${entries}</li>`;
  });
}

function replicaLines(world, node) {
  const there = [...world.replicas.values()].filter((copy) => hostOf(copy.at) === hostOf(node.id));
  return lastOf(there, MOST_REPLICAS, (copy) => `<li>of ${copy.of} segment ${copy.seg}, epoch ${copy.epoch}, ` +
      `${copy.closed ? "closed" : "open"}: ` +
      `${copy.len === 0 ? "empty" : `${boxesOf(copy.len, copy.len)} ${copy.len} stored`}</li>`);
}

function waitingLines(run, numbers) {
  const line = (number) => {
    const message = run.messages[number];
    const never = run.delivered[number].length === 0 ? " (still waits)" : "";
    return `<li><button type="button" data-message="${number}">${number} ${message.kind} from ${message.from}</button>` +
      `${never}</li>`;
  };
  const more = numbers.length - MOST_WAITING;
  return [...numbers.slice(0, MOST_WAITING).map(line), ...more > 0 ? [`<li>and ${more} more</li>`] : []];
}

const listed = (title, lines) => lines.length === 0 ? "" : `<h4>${title}</h4><ul>${lines.join("")}</ul>`;

function card(name, tag, kind, isActing, body) {
  const acts = isActing ? '<span class="acts">acts</span> ' : "";
  return `<section class="card ${kind}${isActing ? " acting" : ""}" data-node="${name}">` +
    `<h3>${acts}<button type="button" data-node="${name}">${name === "c" ? "coordinator" : name}</button>` +
    `${tag ? ` <span class="tag">${tag}</span>` : ""}</h3>${body}</section>`;
}

function serverCard(run, world, node, isActing, waiting) {
  const { tag, kind, heir } = standing(world, node), believes = kind === "zombie" ? "believes it owns" : "owns";
  const phase = kind === "gone" || node.phase === null || kind === "deposed" ? "" : `<p>${node.phase}</p>`;
  const lost = heir ? [`<li><b>but ${heir.owner} owns it now, term ${heir.term}</b></li>`] : [];
  const fences = [...node.fences].map(([master, attempt]) => `<li>${master}, for attempt ${attempt}</li>`);
  const fencing = world.fencing(node), fencedBy = fencing.length > 0 ? `<p>fenced by ${fencing.join(", ")}</p>` : "";
  const running = kind === "gone" ? "" : phase + fencedBy +
    listed(believes, [...node.ranges.map((range) => `<li>${grantText(range)}</li>`), ...lost]) +
    listed("its log", logLines(node)) + listed("has fenced", fences);
  return card(node.id, tag, kind, isActing, running + listed("keeps replicas", replicaLines(world, node)) +
    listed("on its way to it", waitingLines(run, waiting)));
}

function coordinatorCard(run, world, isActing, waiting) {
  const rows = [...world.list].map(([name, isUp]) => `${name} ${isUp ? "up" : "is off the list (suspected)"}`);
  const before = rows.length > MOST_LISTED ? [`.. ${rows.length - MOST_LISTED} before`] : [];
  const grants = world.grants.map((grant) => `<li>${grantText(grant)}: ${grant.owner}</li>`);
  const recoveries = [...world.attempts].map(([attempt, { master, state, by }]) =>
    `<li>attempt ${attempt} of ${master} ${state}${by ? ` ${by}` : ""}</li>`).slice(-MOST_WAITING);
  const list = rows.length > 0 ? `<p>${[...before, ...rows.slice(-MOST_LISTED)].join(", ")}</p>` : "";
  return card("c", "", "", isActing, list + listed("has granted", grants) + listed("recovers", recoveries) +
    listed("on its way to it", waitingLines(run, waiting)));
}

// The node at which an event happens: of a delivery the addressee.
export const actorOf = (run, event) => run.events[event].e === "deliver" ? run.messages[run.events[event].n].to : null;

// The cards of all nodes whose host has no newer server, after an event, the coordinator's first.
export function cards(run, states, event, actor) {
  const world = states.at(event), newest = [...world.running.values()].map((name) => world.nodes.get(name));
  return [coordinatorCard(run, world, actor === "c", states.waiting("c", event)), ...newest.map((node) =>
    serverCard(run, world, node, actor === node.id, states.waiting(node.id, event)))];
}
