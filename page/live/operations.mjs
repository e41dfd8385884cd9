// The operations of a history, and the order that shows it linearizable.

// The lines of a history, each with its place in the text, from 0, and its time: that, where it tells none.
function linesOf(history) {
  return history.split("\n").flatMap((text, at) => text.trim() === "" ? [] :
    [{ time: at, ...JSON.parse(text), at }]);
}

// The operations of a history, and when it begins and ends: a bar goes from a request to its answer, or to the end. One
// that failed did nothing, and has none.
export function operationsOf(history) {
  const lines = linesOf(history), open = new Map(), found = [];
  const first = lines.reduce((least, { time }) => Math.min(least, time), Infinity);
  const last = lines.reduce((most, { time }) => Math.max(most, time), first + 1);
  for (const { at, time, process, type, version, value, ...line } of lines) {
    const one = open.get(process);
    if (type === "invoke") {
      open.set(process, { ...line, process, value, lines: [at], from: time, until: last, isOpen: true, version: null });
      found.push(open.get(process));
    } else if (type === "ok") {
      one.lines.push(at);
      Object.assign(one, { until: time, isOpen: false, version: BigInt(version), value: value ?? null });
    } else if (type === "fail") {
      one.hasFailed = true;
    }
  }
  return { operations: found.filter(({ hasFailed }) => !hasFailed), first, last };
}

// The order by versions of those that were answered, each read behind the write of its version, and for each a moment
// between its request and its answer, one after another; null, where there are none.
export function orderOf(operations) {
  const order = operations.filter(({ isOpen }) => !isOpen).sort((one, other) =>
    one.version < other.version ? -1 : one.version > other.version ? 1 :
      (one.f === "write" ? 0 : 1) - (other.f === "write" ? 0 : 1) || one.from - other.from);
  let moment = -Infinity;
  return order.map((one) => {
    moment = Math.max(moment, one.from);
    return { one, moment, fits: moment <= one.until };
  });
}

// The lines of a history, from 0, that a verdict names: those of operations that can't both stand in one order.
export const refutingIn = (verdict) => new Set([...verdict.matchAll(/lines? (\d+)(?: and (\d+))?/g)]
  .flatMap(([, first, second]) => [Number(first) - 1, Number(second ?? first) - 1]));
