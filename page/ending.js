// How things stand at the end.
function table(caption, heads, lines) {
  const long = (cell) => String(cell).length > 30 ? ' class="long"' : "";
  const cells = (tag, line) => line.map((cell) => `<${tag}${long(cell)}>${escaped(cell)}</${tag}>`).join("");
  const body = lines.map((line) => `<tr>${cells("td", line)}</tr>`).join("");
  const whole = lines.length === 0 ? "<p>none</p>" :
    `<table><thead><tr>${cells("th", heads)}</tr></thead><tbody>${body}</tbody></table>`;
  byId("ending").insertAdjacentHTML("beforeend", `<section><h2>${escaped(caption)}</h2>${whole}</section>`);
}

// Whether no later term has taken a key of this range.
function stands(range) {
  return !story.ranges.some((other) => other.table === range.table && other.term > range.term &&
    BigInt(other.lo) <= BigInt(range.hi) && BigInt(range.lo) <= BigInt(other.hi));
}

function ownerText(owner) {
  const server = story.servers.find((server) => server.id === owner);
  return server && server.suspected !== null ? "suspected" : "";
}

function keysOf(range) {
  const last = "18446744073709551615";
  if (range.hi === last) {
    return range.lo === "0" ? "all" : `from ${range.lo} on`;
  }
  return `${range.lo} to ${range.hi}`;
}

function memberText(member) {
  const told = member.told === null ? "nothing" : member.told + (member.closed ? " closed" : "");
  return `${member.id} ${member.lost ? "lost" : told}`;
}

// The event that granted a range.
function since(range) {
  const form = `table ${range.table} keys ${range.lo}..${range.hi} term ${range.term} `;
  const grant = messages.find((message) => message.kind === "Own" && message.text.startsWith(form));
  return grant ? `event ${grant.sent}` : "";
}

const eventOf = (change) => change ? change.event : "";
table("Owners, by the last grant of each range", ["Table", "Keys", "Term", "Owner", "Since", ""],
  story.ranges.map((range) => [range.table, keysOf(range), range.term, range.owner, since(range),
    stands(range) ? ownerText(range.owner) : "passed on"]));
table("Last acknowledged version of each key", ["Table", "Key", "Version", "Term", "By"],
  story.keys.map((key) => [key.table, key.key, key.version, key.term, key.by]));
table("Writes delivered and not acknowledged", ["Message", "", "Delivered", "What became of it"],
  story.unacknowledged.map((write) => [write.message,
    `to ${messages[write.message].to} ${messages[write.message].text}`, `event ${write.event}`, write.fate]));
table("Servers, by event", ["Server", "Started", "Suspected", "Fenced", "Replaced", "Stopped", "Acknowledged"],
  story.servers.map((server) => [server.id, server.started, server.suspected === null ? "" : server.suspected,
    eventOf(becomes.get(server.id).fence), eventOf(becomes.get(server.id).loss),
    server.stopped === null ? "runs" : server.stopped, `${server.acknowledged} writes`]));
table("Masters", ["Server", "Phase", "Head", "Durable places", "Waits"],
  story.masters.map((master) => [master.id, master.phase, master.head, master.durable, master.waits || ""]));
table("Segments", ["Segment", "Epoch", "Entries", "", "Members, and what they have told"],
  story.masters.flatMap((master) => master.segments.map((segment) => [`${master.id} ${segment.seg}`,
    segment.epoch + (segment.committed ? "" : ", not committed"), segment.len, segment.shut ? "shut" : "open",
    segment.members.map(memberText).join(", ")])));
table("Replicas", ["At", "Of", "Segment", "Epoch", "Entries", ""],
  story.replicas.map((replica) => [replica.at, replica.of, replica.seg, replica.epoch, replica.len,
    (replica.closed ? "closed" : "open") + (replica.fenced ? ", fenced" : "")]));
table("Never delivered", ["Kind", "To", "Messages"],
  story.lost.map((group) => [group.kind, group.to, messages.filter((message) => message.lost &&
    message.kind === group.kind && message.to === group.to).map((message) => message.n).join(" ")]));
lay();
draw();
follow();
