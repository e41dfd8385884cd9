// What the clients saw: a bar in time for each operation, by key, with the order that shows it linearizable, or with
// what refutes that.
import { operationsOf, orderOf, refutingIn } from "./operations.mjs";
import { lettersOf } from "./spelling.mjs";
import { byId, safe } from "./view.mjs";

const RIGHT_SIDE = 20, MOST_OPERATIONS = 300, NARROW = 600, LEAST_WIDE = 300, MOST_WIDE = 1000;

// A value as letters, where it is hexadecimal digits of such.
function valueIn(text) {
  const letters = /^([0-9a-f]{2})*$/.test(text) ? lettersOf(text) : text;
  return /^[ -~]*$/.test(letters) ? letters : text;
}

const labelOf = ({ process, f, value, version, isOpen }) => {
  const what = value === null ? "nothing" : `"${valueIn(value)}"`;
  return `client ${process}: ${f === "write" ? "write" : "read of"} ${f === "read" && isOpen ? "?" : what}` +
    (version === null ? ", no answer" : `, version ${version}`);
};

const isRefutedBy = (refuting) => ({ lines }) => lines.some((at) => refuting.has(at));

// How wide the bars and their labels are: a label stands before its bar, where the page is narrow above it.
function spread() {
  const wide = Math.max(LEAST_WIDE, Math.min(MOST_WIDE, byId("bars").clientWidth));
  return wide < NARROW ? { wide, left: 4, row: 36, down: 24, label: { x: 4, up: 12, anchor: "start" } } :
    { wide, left: 250, row: 22, down: 11, label: { x: 242, up: -4, anchor: "end" } };
}

function keyPart(key, operations, { first, last }, refuting) {
  const { wide, left, row, down, label: put } = spread(), height = operations.length * row + 6;
  const x = (time) => left + (time - first) / (last - first) * (wide - left - RIGHT_SIDE);
  const rowOf = new Map(operations.map((one, place) => [one, place * row + down]));
  const bars = operations.map((one) => {
    const kinds = `bar ${one.f}${one.isOpen ? " open" : ""}${isRefutedBy(refuting)(one) ? " refutes" : ""}`;
    const at = rowOf.get(one);
    return `<text x="${put.x}" y="${at - put.up}" text-anchor="${put.anchor}">${safe(labelOf(one))}</text>` +
      `<rect class="${kinds}" x="${x(one.from)}" y="${at - 7}" height="14" rx="3" ` +
      `width="${Math.max(4, x(one.until) - x(one.from))}"><title>${safe(labelOf(one))}, from time ${one.from} to ` +
      `${one.until}</title></rect>`;
  });
  const order = orderOf(operations), points = order.map(({ one, moment }) => `${x(moment) + 2},${rowOf.get(one)}`);
  const line = refuting.size > 0 || order.length < 2 ? "" : `<polyline class="order" points="${points.join(" ")}"/>`;
  const numbers = refuting.size > 0 ? [] : order.map(({ one, moment }, place) =>
    `<text x="${x(moment) + 6}" y="${rowOf.get(one) + 4}">${place + 1}</text>`);
  const told = order.map(({ one }, place) => `${place + 1}. ${labelOf(one)}`).join("; ");
  const drawn = `${bars.join("")}${line}${numbers.join("")}`, label = safe(`Operations of key ${key}, in order: ${told}`);
  return `<h3>Key ${safe(key)}</h3>` +
    `<svg width="${wide}" height="${height}" role="img" aria-label="${label}">${drawn}</svg>`;
}

// Shows a history with its verdict, or why there is none.
export function showClients({ history, verdict, why }) {
  if (why) {
    byId("bars").textContent = why;
    return;
  }
  const { operations, ...span } = operationsOf(history);
  const isLinearizable = verdict === "linearizable";
  const refuting = isLinearizable ? new Set() : refutingIn(verdict);
  const refuted = operations.filter(isRefutedBy(refuting)), rest = operations.filter((one) => !refuted.includes(one));
  const few = [...refuted, ...rest].slice(0, MOST_OPERATIONS).sort((one, other) => one.from - other.from);
  const keys = [...new Set([...refuted, ...operations].map(({ key }) => key))];
  const told = isLinearizable ? "Linearizable: the line goes through the operations in an order that shows it." :
    `Refuted: ${verdict}. The operations with a thick edge can't both stand in one order.`;
  byId("bars").innerHTML = `<p>${safe(told)} A bar goes from a request to its answer, in time from left to ` +
    "right; a dashed one has no answer. Reads that nobody confirmed are left out.</p>" +
    keys.map((key) => [key, few.filter((one) => one.key === key)]).filter(([, list]) => list.length > 0)
      .map(([key, list]) => keyPart(key, list, span, refuting)).join("") +
    (operations.length > few.length ? `<p>and ${operations.length - few.length} operations more</p>` : "") +
    (operations.length === 0 ? "<p>Nothing was acknowledged, and no read was confirmed.</p>" : "");
}
