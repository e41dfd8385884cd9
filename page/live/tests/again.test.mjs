// A press that waited for a run is done in that run, if it can be done there.
import assert from "node:assert/strict";
import test from "node:test";
import { againOf } from "../again.mjs";

const APPEND = { kind: "Append", from: "0.1", to: "1.1" };
const NODES = new Map([["0.1", { id: "0.1", stopped: 4, ranges: [] }],
  ["1.1", { id: "1.1", stopped: null, ranges: [{ table: 3, lo: "0", hi: "9" }] }]]);
const SHOWN = { states: { at: () => ({ nodes: NODES }) },
  run: { events: [{ e: "write", value: "a" }], messages: [APPEND, APPEND], delivered: [[], [0]] } };
const again = (events, more) => againOf({ name: "", events }, SHOWN, { node: null, message: null, ...more })?.name;

test("a write that waited is the next one", () => {
  assert.equal(again([{ e: "write", value: "a" }], { node: "1.1" }), 'Write "b" to 3/1 at 1.1');
});

test("who has stopped in between can't crash again, but be suspected", () => {
  assert.equal(again([{ e: "stop" }], { node: "0.1" }), undefined);
  assert.equal(again([{ e: "suspect" }], { node: "0.1" }), "Suspect 0.1");
});

test("a message is delivered if it still waits and is the same one", () => {
  assert.equal(again([{ e: "deliver", n: 0 }], { message: 0, picked: APPEND }), "Deliver 0 Append to 1.1");
  assert.equal(again("lose", { message: 0, picked: APPEND }), "Lose 0, deliver all others");
  assert.equal(again([{ e: "deliver", n: 1 }], { message: 1, picked: APPEND }), undefined);
  assert.equal(again([{ e: "deliver", n: 0 }], { message: 0, picked: { ...APPEND, to: "2.1" } }), undefined);
  assert.equal(again([{ e: "deliver", n: 9 }], { message: 9, picked: APPEND }), undefined);
  assert.notEqual(againOf({ events: [{ e: "settle" }] }, SHOWN, { message: 9 }), undefined);
});
