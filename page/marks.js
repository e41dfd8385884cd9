// What is told of servers and ranges from an event on: who is suspected, who owns what, which answers are stale.
const told = (message, form) => (message.text.match(form) || []).slice(1);
const stops = new Map(story.servers.map((server) =>
  [server.id, server.stopped === null ? events.length : server.stopped]));
const starts = new Map(story.servers.map((server) => [server.id, server.started]));
const tags = [];

// Each grant as a bar: an owner's until a later term of a key of its range is granted, and a former owner's after it.
const owners = [];
for (const message of messages.filter((message) => message.kind === "Own")) {
  const [table, lo, hi, term] = told(message, /table (\d+) keys (\d+)\.\.(\d+) term (\d+)/);
  if (table === undefined || message.delivered.length === 0 ||
      owners.some((owner) => owner.id === message.to && owner.term === Number(term))) {
    continue;
  }
  const grant = { id: message.to, table, lo: BigInt(lo), hi: BigInt(hi), term: Number(term),
    granted: message.sent, from: message.delivered[0], until: stops.get(message.to), former: stops.get(message.to),
    lane: 0 };
  for (const owner of owners.filter((owner) => owner.table === table && owner.term < grant.term &&
      owner.lo <= grant.hi && grant.lo <= owner.hi && owner.next === undefined)) {
    owner.next = message.to;
    owner.lost = Math.max(message.sent, owner.from);
    owner.until = Math.min(owner.until, owner.lost);
  }
  grant.lane = owners.filter((owner) => owner.id === grant.id).length;
  owners.push(grant);
}

// A fence, at each delivery of a Gather that had an effect.
const locks = messages.filter((message) => message.kind === "Gather").flatMap((message) =>
  message.delivered.filter((event) => events[event].why === undefined).map((event) =>
    ({ id: message.to, event, of: told(message, /of (\S+)/)[0] })));

// What becomes of a server that runs on: it is suspected, then fenced by a first backup, then replaced as an owner, and
// at last it learns of it.
const first = (list) => list.reduce((least, it) => least && least.event <= it.event ? least : it, null);
const becomes = new Map(story.servers.map((server) => {
  const id = server.id, fence = first(locks.filter((lock) => lock.of === id));
  const loss = first(owners.filter((owner) => owner.id === id && owner.next)
    .map((owner) => ({ event: owner.lost, owner })));
  const knows = story.phases.find((phase) => phase.id === id && phase.phase === "deposed");
  const stages = [
    server.suspected !== null && { event: server.suspected, name: "suspected", text: "suspected" },
    fence && { event: fence.event, name: "fenced", text: `fenced by ${fence.id}` },
    loss && { event: loss.event, name: "replaced", text: `replaced by ${loss.owner.next}` },
    knows && { event: knows.event, name: "deposed", text: "deposed" },
  ].filter((stage) => stage && stage.event < stops.get(id)).sort((one, other) => one.event - other.event);
  tags.push(...stages.map((stage) => ({ ...stage, id })));
  return [id, { fence, loss, knows, stages }];
}));
const doubts = [...becomes].flatMap(([id, { stages }]) => stages.map((stage, place) =>
  ({ id, ...stage, from: stage.event, until: place + 1 < stages.length ? stages[place + 1].event : stops.get(id) })));

// A read is stale where a greater version had been acknowledged when it was answered.
const acknowledged = new Map(), values = new Map(), stales = [];
const shortened = (value) => value && value.length > 14 ? `${value.slice(0, 13)}…` : value;
function ownerOf(table, key, event) {
  return owners.filter((owner) => owner.table === table && owner.lo <= BigInt(key) && BigInt(key) <= owner.hi &&
    owner.granted <= event).reduce((last, owner) => last && last.term > owner.term ? last : owner, null);
}
for (const message of messages) {
  if (message.kind === "Append") {
    for (const [, place, value] of message.text.matchAll(/table (\d+ key \d+ version \d+) ([^;]*)/g)) {
      values.set(`${message.from} ${place}`, value);
    }
  }
  if (!["WriteOk", "ReadOk"].includes(message.kind)) {
    continue;
  }
  const [table, key, version, value] = told(message, /table (\d+) key (\d+) version (\d+) ?(.*)$/);
  const known = acknowledged.get(`${table} ${key}`);
  message.shows = ` v${version}${value ? ` ${shortened(value)}` : ""}`;
  if (message.kind === "WriteOk" && !(known && known.version > BigInt(version))) {
    const [term] = told(message, /term (\d+)/);
    acknowledged.set(`${table} ${key}`, { version: BigInt(version), by: message.from, term, message,
      value: values.get(`${message.from} ${table} key ${key} version ${version}`) || "" });
  }
  if (message.kind === "ReadOk" && known && known.version > BigInt(version)) {
    const owner = ownerOf(table, key, message.sent);
    message.misses = { table, key, version, value, known, owner };
    stales.push(message);
  }
}
function missedText({ misses: { version, value, known, owner } }) {
  return `it shows version ${version} ${value}`.trim() + `; it misses version ${known.version} ${known.value}`.trim() +
    `, which ${known.by} had acknowledged under term ${known.term} at event ${known.message.sent}` +
    (owner ? `; ${owner.id} owns the key since event ${owner.granted}` : "");
}

// The rows: one for each event that is shown. The set-up, up to the first create, is one row while it is folded. Of one
// host those are shown that it takes part in. An event that is not shown counts to the next row that is.
const setUp = events.findIndex((event) => event.kind === "create");
const FOLDED = 8;
let shown = [], rowOf = [], columns = [];
function takesPart(event) {
  return chosen.host === "" || hostOf(event.at || "") === chosen.host ||
    event.kind === "deliver" && isOfHost(messages[event.message]) ||
    event.sent.some((number) => isOfHost(messages[number]));
}
function lay() {
  shown = [];
  rowOf = [];
  const folded = chosen.folds && setUp >= FOLDED ? setUp : 0;
  if (folded > 0) {
    shown.push({ event: 0, until: folded - 1 });
  }
  for (const event of events) {
    rowOf.push(event.n < folded ? 0 : shown.length);
    if (event.n >= folded && takesPart(event)) {
      shown.push({ event: event.n });
    }
  }
  rowOf.push(shown.length);
  columns = names.filter((name) => chosen.host === "" || hostOf(name) === chosen.host ||
    messages.some((message) => isShown(message) && (message.from === name || message.to === name)));
}
const isFolded = (row) => shown[row] !== undefined && shown[row].until !== undefined;
