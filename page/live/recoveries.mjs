// Recoveries that are not at their end, and what they wait for, as tools/story/recoveries.py has them.
class Recoveries {
  newest = new Map(); // by master: the number of its newest attempt
  attempts = new Map();
  parts = new Map(); // by term
  fetches = new Map(); // by term, a list of segments and holders

  note(message, isDelivered) {
    const { kind, attempt, master, term, seg } = message;
    if (kind === "Gather") {
      this.newest.set(master, attempt);
      this.attempts.set(attempt, this.attempts.get(attempt) ?? { asked: 0, answers: 0, isDecided: false });
      this.attempts.get(attempt).asked += 1;
    } else if (kind === "Replicas" && isDelivered && this.attempts.has(attempt)) {
      this.attempts.get(attempt).answers += 1;
    } else if (kind === "Plan") {
      this.#plan(message);
    } else if (kind === "Own" && this.parts.has(term)) {
      this.parts.get(term).isGranted = true;
    } else if (kind === "Fetch") {
      this.#fetch(message);
    } else if (kind === "Data" && isDelivered) {
      const fetch = this.fetches.get(term)?.find((it) => it.seg === seg);
      if (fetch) {
        fetch.hasCome = true;
      }
    } else if (kind === "Recovered" && this.parts.has(term)) {
      this.parts.get(term).isRecovered = true;
    }
  }

  #plan({ attempt, parts, to }) {
    if (this.attempts.has(attempt)) {
      this.attempts.get(attempt).isDecided = true;
    }
    for (const { term } of parts) {
      if (!this.parts.has(term)) {
        this.parts.set(term, { term, attempt, to, isRecovered: false, isGranted: false });
      }
    }
  }

  #fetch({ part, seg, to }) {
    const fetches = this.fetches.get(part.term) ?? [];
    if (!fetches.some((it) => it.seg === seg)) {
      fetches.push({ seg, holder: to, hasCome: false });
    }
    this.fetches.set(part.term, fetches);
  }
}

const goneText = (master) => `, which runs no longer: suspect ${master} once more`;

// A server that has stopped, and of which the coordinator was not told; or else, where no message waits, one that was
// suspected and runs.
function unsuspectedText(servers, waits) {
  const hosts = servers.hosts(), stopped = hosts.find((it) => it.stopped !== null && it.suspected === null);
  if (stopped) {
    return `; ${stopped.id} has stopped and was not suspected, so its place is not filled`;
  }
  const suspected = waits ? undefined : hosts.find((it) => it.stopped === null && it.suspected !== null);
  return suspected ? `; ${suspected.id} was suspected and runs: once it is stopped and its host is started, that can be one` :
    "";
}

// How far a part has come that was not granted, and what it waits for.
function stageText(recoveries, servers, master, part, waits) {
  if (!servers.isThere(part.to)) {
    return goneText(master);
  }
  if (part.isRecovered) {
    return ", which has told the coordinator that it has it, and waits for the answer";
  }
  const fetches = recoveries.fetches.get(part.term) ?? [], open = fetches.find((it) => !it.hasCome);
  if (fetches.length === 0) {
    return ", which the plan has not reached";
  }
  return open ? `, which waits for segment ${open.seg} from ${open.holder}` +
      (servers.isThere(open.holder) ? "" : goneText(master)) :
    `, which has read all of it, and waits until its own backups have stored it${unsuspectedText(servers, waits)}`;
}

// Each recovery that is not at its end, where messages wait or none does.
export function recoveryHints(messages, delivered, servers, waits) {
  const recoveries = new Recoveries();
  messages.forEach((message, number) => recoveries.note(message, delivered.has(number)));
  return [...recoveries.newest].flatMap(([master, newest]) => {
    const attempt = recoveries.attempts.get(newest);
    const missing = [...recoveries.parts.values()].filter((part) => part.attempt === newest && !part.isGranted);
    if (!attempt.isDecided) {
      return [`the recovery of ${master} (attempt ${newest}) has no plan: answers have come to ${attempt.answers} of ` +
        `${attempt.asked} Gathers; it takes a decide, once they suffice`];
    }
    return missing.length === 0 ? [] : [`the recovery of ${master} (attempt ${newest}) is not at its end: parts that ` +
      `were not granted: ${missing.length}; the first is to be recovered by ${missing[0].to}` +
      stageText(recoveries, servers, master, missing[0], waits)];
  });
}
