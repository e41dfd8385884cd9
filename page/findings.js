// The head: the verdict, who was replaced, and which reads are stale. Each event is a link to its row.
const MOST = 4;
const at = (event) => `<a href="#event-${event}">event ${event}</a>`;
const keyText = (table, key) => `key ${key} of table ${table}`;

const answerOf = (words, id) => messages.find((message) => message.kind === "WriteOk" &&
  (id === undefined || message.from === id) && message.text.includes(words));

function fallText() {
  const [table, key, earlier, before, later, after] = story.audit.match(/\d+/g);
  const answered = (term, version) => {
    const answer = answerOf(`term ${term} table ${table} key ${key} version ${version}`);
    return answer ? `${answer.from} had acknowledged version ${version} under term ${term} at ${at(answer.sent)}` : "";
  };
  return `versions of ${keyText(table, key)} do not rise: ${answered(earlier, before)}, and ${answered(later, after)}`;
}

function breachText() {
  const [, attempt, id, seg, offset] = story.audit.match(/attempt (\d+) of (\S+) seg (\d+) at (\d+)/) || [];
  if (attempt === undefined) {
    return fallText();
  }
  const place = `segment ${seg}, place ${offset}`, answer = answerOf(`seg ${seg} offset ${offset} `, id);
  return story.audit.startsWith("breach missing") ?
    `attempt ${attempt} recovers ${id} without the write that it acknowledged` +
      `${answer ? ` at ${at(answer.sent)}` : ""} (${place})` :
    `attempt ${attempt} recovers of ${id} what it never wrote, or has written otherwise (${place})`;
}

function replacedText(id, { loss, knows, stages }) {
  const keys = `${keysText(loss.owner)} of table ${loss.owner.table}`;
  const before = stages.filter((stage) => stage.event < loss.event)
    .map((stage) => `${stage.text} at ${at(stage.event)}, `).join("");
  const runs = stops.get(id) > loss.event, end = runs && stops.get(id) < events.length;
  const later = !runs ? `it had stopped at ${at(stops.get(id))}` :
    (knows ? `it learns so at ${at(knows.event)}` : "it does not know it, and serves on") +
      (end ? `, until it stops at ${at(stops.get(id))}` : "");
  return `${runs && !knows ? `<b>${id} is a zombie:</b> ` : `${id} was `}${before}replaced by ${loss.owner.next} at ` +
    `${at(loss.event)} (${keys}); ${later}`;
}

function staleText(message) {
  const { table, key, version, value, known, owner } = message.misses;
  const shown = (number, what) => `version ${number}${what ? ` (${escaped(shortened(what))})` : ""}`;
  return `<b>Stale read</b> at ${at(message.sent)}: ${message.from} shows ${shown(version, value)} of ` +
    `${keyText(table, key)}; ${known.by} had acknowledged ${shown(known.version, known.value)} under term ` +
    `${known.term} at ${at(known.message.sent)}` +
    (owner ? `, and ${owner.id} owns the key since ${at(owner.granted)}` : "");
}

function tellFindings() {
  const replaced = [...becomes].filter(([, { loss }]) => loss);
  const onlySuspected = [...becomes].filter(([id, { loss, stages }]) =>
    !loss && stages.length > 0 && stops.get(id) === events.length);
  const some = (list, text, rest) => [...list.slice(0, MOST).map(text),
    ...list.length > MOST ? [`and ${list.length - MOST} more ${rest}`] : []];
  const lines = [
    ...story.audit === "clean" ? [] : [`<b>Breach:</b> ${breachText()}`],
    ...some(replaced, ([id, what]) => replacedText(id, what), "servers that were replaced"),
    ...some(onlySuspected, ([id, { stages }]) =>
      `${id} runs, and was ${stages.map((stage) => `${stage.text} at ${at(stage.event)}`).join(", ")}`,
    "that were suspected and run"),
    ...some(stales, staleText, "stale reads"),
  ];
  byId("findings").innerHTML = lines.map((line) => `<li>${line}</li>`).join("");
}

const count = (number, one, many) => `${number} ${number === 1 ? one : many}`;
function tellVerdict() {
  const acks = messages.filter((message) => message.kind === "WriteOk").length;
  const grants = owners.length, plans = new Set(messages.filter((message) => message.kind === "Plan")
    .map((message) => told(message, /attempt (\d+)/)[0])).size;
  const stopped = story.stopped ? `stopped ${story.stopped.code} at event ${story.stopped.place} of the scenario` : "";
  const verdict = [`audit ${story.audit}`, stopped].filter((text) => text !== "").join(", ");
  byId("verdict").textContent = `${verdict[0].toUpperCase()}${verdict.slice(1)}.`;
  byId("verdict").className = story.audit === "clean" && !story.stopped ? "" : "bad";
  byId("summary").textContent = `${count(acks, "write", "writes")} acknowledged, ` +
    `${count(plans, "recovery", "recoveries")} planned, ${count(grants, "grant", "grants")}; ` +
    `${count(events.length, "event", "events")}, ${count(messages.length, "message", "messages")}, ` +
    `${count(story.servers.length, "server", "servers")}.`;
  document.title += `: ${verdict}`;
}
tellVerdict();
tellFindings();
