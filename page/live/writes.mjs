// What became of the writes that were not acknowledged, as tools/story/writes.py has it.
import { isServer } from "./reading.mjs";

// What was acknowledged, and what plans have of the logs of masters.
function recoveredIn(run) {
  const acknowledged = new Set(), plans = new Map(), lengths = new Map();
  for (const message of run.messages) {
    if (message.kind === "WriteOk" && isServer(message.from)) {
      acknowledged.add(`${message.from} ${message.seg} ${message.offset}`);
    } else if (message.kind === "Plan") {
      plans.set(message.master, message.attempt);
      message.rows.forEach((row) => lengths.set(`${message.attempt} ${row.seg}`, row.len));
    }
  }
  return { acknowledged, plans, lengths };
}

// What became of the write that an event delivered; null, where it was acknowledged.
function fateOf(run, number, { acknowledged, plans, lengths }) {
  if (run.isAbsent(number)) {
    return "its server did not run";
  }
  const event = run.events[number];
  const refused = event.sent.map((sent) => run.messages[sent]).find((answer) => answer.kind === "Refused");
  if (refused) {
    return `refused ${refused.code} ${refused.name}`;
  }
  if (!event.log_end) {
    return null;
  }
  const master = run.messages[event.n].to, { seg, offset } = event.log_end;
  if (acknowledged.has(`${master} ${seg} ${offset}`)) {
    return null;
  }
  const attempt = plans.get(master);
  if (attempt === undefined) {
    return `at seg ${seg} offset ${offset}`;
  }
  const isIn = offset < (lengths.get(`${attempt} ${seg}`) || 0);
  return `at seg ${seg} offset ${offset}, ${isIn ? "in" : "not in"} the recovered log of attempt ${attempt}`;
}

// The deliveries of writes that were not acknowledged, in order.
export function unansweredIn(run) {
  const recovered = recoveredIn(run);
  return run.events.flatMap((event, number) => {
    const isWrite = event.e === "deliver" && run.messages[event.n].kind === "Write";
    const fate = isWrite ? fateOf(run, number, recovered) : null;
    return fate === null ? [] : [{ event: number, message: event.n, fate }];
  });
}
