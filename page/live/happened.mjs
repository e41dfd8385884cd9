// What happened in a run from an event on, a few words each: who was suspected, fenced or replaced, and what clients were
// told.
import { generationOf, nameOf } from "./reading.mjs";
import { standing } from "./state.mjs";

const SPOKEN = {
  WriteOk: ({ from, table, key, version }) => `${from} acknowledges version ${version} of ${table}/${key}`,
  ReadOk: ({ from, table, key, version }) => `${from} answers a read of ${table}/${key} with version ${version}`,
  Refused: ({ from, code, name }) => `${from} refuses (${code} ${name})`,
  Plan: ({ to, master }) => `${to} is to recover ${master}`,
  Own: ({ to, table, term }) => `${to} is granted table ${table}, term ${term}`,
};

// The servers that are fenced, by whom, and those that are zombies or deposed, in words.
function standingsOf(states, event) {
  const world = states.at(event);
  return [...world.nodes.values()].flatMap((node) => {
    const { kind } = standing(world, node), fences = node.fencedBy.map((backup) => `${backup} fences ${node.id}`);
    return [...fences, ...kind === "zombie" ? [`${node.id} is a ZOMBIE from here on`] : [],
      ...kind === "deposed" ? [`${node.id} knows that it is deposed`] : []];
  });
}

function happeningsOf({ events, messages, turns }, number) {
  const event = events[number], { started, silence } = turns[number];
  const { kind, from, to } = event.e === "deliver" ? messages[event.n] : {};
  return [
    ...event.e === "suspect" ? [`${nameOf(event.id)} is suspected`] : [],
    ...event.e === "stop" ? [`${nameOf(event.id)} stops`] : [],
    ...event.e === "start" && generationOf(started ?? "0.0") > 1 ? [`${started} starts`] : [],
    ...silence?.includes(" had fenced ") ? [`${to} takes no ${kind} from ${from}, since it has fenced it`] : [],
    ...event.sent.flatMap((one) => SPOKEN[messages[one].kind]?.(messages[one]) ?? []),
  ];
}

// What happened from this event on: the words, and the events at which they hold anew.
export function happenedSince(run, states, first) {
  const found = new Map();
  let before = standingsOf(states, first - 1);
  for (let number = first; number < run.events.length; number += 1) {
    const now = standingsOf(states, number);
    for (const words of [...happeningsOf(run, number), ...now.filter((it) => !before.includes(it))]) {
      found.set(words, [...found.get(words) ?? [], number]);
    }
    before = now;
  }
  return [...found].map(([words, events]) => ({ words, events }));
}
