// What a master waits for, as tools/story/waits.py has it.

// These members, and why they may never tell what is awaited.
function membersText(run, master, members) {
  return members.map(({ id }) => {
    const why = !run.servers.runs(id) ? " (does not run)" : run.known.hasFenced(id, master) ? " (has fenced it)" : "";
    return ` ${id}${why}`;
  }).join("");
}

// What is awaited of a segment of which all members are to tell that it is in this state.
function waitAt(run, master, segment, state, isEnough) {
  const lost = segment.members.filter((member) => member.lost).map((member) => member.id);
  if (lost.length > 0) {
    return `for other servers in place of ${lost.join(" ")} (lost) for segment ${segment.seg}`;
  }
  const missing = segment.members.filter((member) => member.told === null || !isEnough(member));
  if (missing.length > 0) {
    return `until segment ${segment.seg} is ${state} at${membersText(run, master, missing)}`;
  }
  return segment.committed ? null : `for the commit of segment ${segment.seg}`;
}

// What a master waits for, to be read after `waits`; null, where it waits for nothing.
export function waitOf(run, { id, phase, segments }) {
  if (phase === "deposed") {
    return null;
  }
  if (segments.length === 0) {
    return "until enough servers are up in its list";
  }
  const last = segments.at(-1), before = segments.at(-2);
  if (phase === "opening") {
    return waitAt(run, id, last, "placed", () => true);
  }
  if (phase === "closing") {
    return before && !before.shut ? waitAt(run, id, before, "closed", (member) => member.closed) :
      waitAt(run, id, last, "placed", () => true);
  }
  return waitAt(run, id, last, last.len > 0 ? "stored whole" : "placed", (member) => member.told >= last.len);
}
