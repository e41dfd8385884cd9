// What a text is that was put in the place of a scenario.
import assert from "node:assert/strict";
import test from "node:test";
import { textKindOf } from "../kinds.mjs";

test("a history and a trace are told from a scenario and a script", () => {
  assert.equal(textKindOf('\n{"index":0,"time":1,"process":0,"type":"invoke","f":"read","key":"7/5"}\n{}'), "history");
  assert.equal(textKindOf('{"format":1,"messages":[]}'), "trace");
  assert.equal(textKindOf('{"format":2,"factor":2,"segment":8,"events":[\n]}'), "scenario");
  assert.equal(textKindOf("{ broken"), "scenario");
  assert.equal(textKindOf("start 0..3\n"), "scenario");
  assert.equal(textKindOf(""), "scenario");
});
