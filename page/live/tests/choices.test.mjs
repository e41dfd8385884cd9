// What can happen next to who was picked.
import assert from "node:assert/strict";
import test from "node:test";
import { choicesOf } from "../choices.mjs";
import { spellingOf } from "../scenario.mjs";

const RUN = { events: [{ e: "create", table: 3 }, { e: "write", value: "a" }],
  messages: [{ kind: "Append", from: "0.1", to: "1.1" }] };
const node = (id, more = {}) => [id, { id, stopped: null, ranges: [], ...more }];
const NODES = new Map([node("0.1", { ranges: [{ table: 3, lo: "0", hi: "9" }] }), node("1.1"),
  node("2.1", { stopped: 4 })]);
const states = { at: () => ({ nodes: NODES }) };
const named = (picked) => choicesOf({ run: RUN, states, event: 1, node: null, message: null, ...picked })
  .map(({ name }) => name);

test("an owner can be written to and read, another server be given a table", () => {
  assert.deepEqual(named({ node: "0.1" }), ["Crash 0.1", "Suspect 0.1", "Decide 0.1", "Tick of 0.1",
    'Write "b" to 3/1 at 0.1', "Read 3/1 at 0.1", "Deliver all (settle)"]);
  assert.ok(named({ node: "1.1" }).includes("Create table 4 at 1.1"));
});

// What is written and read next at an owner of this range, in a run with these values.
function requests(values, range) {
  const run = { events: values.map((value) => ({ e: "write", value })), messages: [] };
  const nodes = new Map([node("0.1", { ranges: [{ table: 7, ...range }] })]);
  return choicesOf({ run, states: { at: () => ({ nodes }) }, event: 0, node: "0.1", message: null })
    .filter(({ name }) => /^(Write|Read)/.test(name));
}

test("a key of 64 bits is that of the range, digit by digit", () => {
  const found = requests([], { lo: "9223372036854776500", hi: "18446744073709551615" });
  assert.deepEqual(found.map(({ name }) => name),
    ['Write "a" to 7/9223372036854776500 at 0.1', "Read 7/9223372036854776500 at 0.1"]);
  assert.deepEqual(found.map(({ events: [event] }) => spellingOf(event)),
    ['{"e":"write","to":[0,1],"table":7,"key":9223372036854776500,"value":"a"}',
      '{"e":"read","to":[0,1],"table":7,"key":9223372036854776500}']);
});

test("the next value is one that was not written", () => {
  const values = (written) => requests(written, { lo: "0", hi: "9" })[0].events[0].value;
  assert.equal(values(["b"]), "a");
  assert.equal(values(["b", "a"]), "c");
  assert.equal(values([..."abcdefghijklmnopqrstuvwxyz"]), "a1");
});

test("a value that looks like a key stays a text", () => {
  const value = '"key":"5"';
  assert.equal(JSON.parse(spellingOf({ e: "write", key: "5", value })).value, value);
});

test("who has stopped can be started, suspected and recovered", () => {
  assert.deepEqual(named({ node: "2.1" }), ["Start host 2", "Suspect 2.1", "Decide 2.1", "Deliver all (settle)"]);
});

test("a message can be delivered or lost, and the coordinator's timer go off", () => {
  assert.deepEqual(named({ message: 0 }),
    ["Deliver 0 Append to 1.1", "Lose 0, deliver all others", "Deliver all (settle)"]);
  assert.deepEqual(named({ node: "c" }), ["Tick of the coordinator", "Deliver all (settle)"]);
  assert.deepEqual(named({}), ["Deliver all (settle)"]);
});
