// Scenarios that end at an event of their run, and go on with others.
import assert from "node:assert/strict";
import test from "node:test";
import { idOf, spansOf, textUntil } from "../scenario.mjs";

const TEXT = '{"format":1,"factor":2,"segment":8,"events":[{"e":"start","host":0}, {"e":"settle"},\n' +
  '{"e":"write","to":[0,1],"table":7,"key":18446744073709551615,"value":"}\\"]"}]}\n';
const deliver = (place, n) => ({ place, e: "deliver", n, sent: [] });
const RUN = { events: [{ place: 0, e: "start", host: 0, sent: [] }, deliver(1, 0), deliver(1, 3),
  { place: 2, e: "write", sent: [] }] };
const added = [{ e: "stop", id: [0, 1] }];

test("events are found, whatever stands in their texts", () => {
  const { spans } = spansOf(TEXT);
  assert.deepEqual(spans.map(([from, to]) => JSON.parse(TEXT.slice(from, to)).e), ["start", "settle", "write"]);
});

test("what stands before the cursor stays letter by letter", () => {
  const text = textUntil(TEXT, RUN, 3, added);
  assert.ok(text.includes('"key":18446744073709551615,"value":"}\\"]"}'));
  assert.deepEqual(JSON.parse(text).events.map((one) => one.e), ["start", "settle", "write", "stop"]);
});

test("a settle that the cursor stands in becomes its deliveries so far", () => {
  assert.deepEqual(JSON.parse(textUntil(TEXT, RUN, 1, added)).events,
    [{ e: "start", host: 0 }, { e: "deliver", n: 0 }, ...added]);
});

test("a settle that is over stays one", () => {
  assert.deepEqual(JSON.parse(textUntil(TEXT, RUN, 2, added)).events, [{ e: "start", host: 0 }, { e: "settle" }, ...added]);
});

test("before the first event stands nothing", () => {
  assert.deepEqual(JSON.parse(textUntil(TEXT, RUN, -1, added)).events, added);
});

test("a server's name becomes its id", () => {
  assert.deepEqual(idOf("12.3"), [12, 3]);
});
