// Scripts that a click writes, and scenarios as scripts.
import assert from "node:assert/strict";
import test from "node:test";
import { scriptUntil } from "../scenario.mjs";
import { made, wordsOf } from "../script.mjs";
import { scriptOf } from "../unscript.mjs";

const deliver = (place, n) => ({ place, e: "deliver", n, sent: [] });
const TEXT = 'factor 1 # a remark\nstart 0..1\nsettle\nwrite 0.1 7/5 "a # b"\n';
const { lines } = made(TEXT, () => []);
const RUN = { events: [{ place: 0, e: "start", host: 0, sent: [] }, { place: 1, e: "start", host: 1, sent: [] },
  deliver(2, 0), deliver(2, 1), { place: 3, e: "write", sent: [] }],
messages: [{ kind: "Enlist", from: "0.1", to: "c" }, { kind: "Enlist", from: "1.1", to: "c" }] };
const added = [{ e: "stop", id: [0, 1] }];
const until = (event) => scriptUntil(TEXT, lines, RUN, event, added);

test("words stand in quotation marks, and what follows # is passed over", () => {
  assert.deepEqual(wordsOf('write 0.1 7/5 "a # \\"b" # c'), ["write", "0.1", "7/5", 'a # "b']);
  assert.throws(() => wordsOf('write "a'));
});

test("lines up to the event stay, and what is added stands behind them", () => {
  assert.equal(until(4), `${TEXT}stop 0.1\n`);
  assert.equal(until(3), "factor 1 # a remark\nstart 0..1\nsettle\nstop 0.1\n");
});

test("a line that the event stands in becomes what it has done so far", () => {
  assert.equal(until(2), "factor 1 # a remark\nstart 0..1\ndeliver 0  # Enlist 0.1 -> c\nstop 0.1\n");
  assert.equal(until(0), "factor 1 # a remark\nstart 0\nstop 0.1\n");
  assert.equal(until(-1), "factor 1 # a remark\nstop 0.1\n");
});

test("a scenario is a script, where one says the same", () => {
  const scenario = '{"format":1,"factor":2,"segment":8,"events":[{"e":"start","host":0},{"e":"start","host":1},' +
    '{"e":"write","to":[0,1],"table":7,"key":18446744073709551615,"value":null},{"e":"settle","hosts":[1]}]}';
  assert.equal(scriptOf(scenario), "start 0..1\ndelete 0.1 7/18446744073709551615\nsettle without host 1\n");
  assert.equal(scriptOf(scenario.replace("null", '"a\\nb"')), null);
});
