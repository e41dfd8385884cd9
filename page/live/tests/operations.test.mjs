// Histories of clients as operations, two stories side by side, and a module of what differs from another one.
import assert from "node:assert/strict";
import test from "node:test";
import { operationsOf, orderOf, refutingIn } from "../operations.mjs";
import { paired } from "../pairing.mjs";
import { patched } from "../program.mjs";

const line = (index, time, process, type, f, more = {}) => JSON.stringify({ index, time, process, type, f, key: "7/5",
  value: null, ...more });
const HISTORY = [line(0, 1, 0, "invoke", "write", { value: "61" }), line(1, 2, 1, "invoke", "read"),
  line(2, 5, 0, "ok", "write", { value: "61", version: 1 }), line(3, 6, 1, "ok", "read", { value: "61", version: 1 }),
  line(4, 7, 2, "invoke", "write", { value: "62" }), line(5, 9, 2, "info", "write", { value: "62" })].join("\n");

test("each operation is a bar from its request to its answer, or to the end", () => {
  const { operations, first, last } = operationsOf(HISTORY);
  assert.deepEqual(operations.map(({ f, from, until, isOpen }) => [f, from, until, isOpen]),
    [["write", 1, 5, false], ["read", 2, 6, false], ["write", 7, 9, true]]);
  assert.deepEqual([first, last], [1, 9]);
});

test("what failed has no bar, and a history without times is in the order of its lines", () => {
  const text = [line(0, 1, 0, "invoke", "write", { value: "61" }), "", line(1, 2, 0, "fail", "write", { value: "61" }),
    line(2, 3, 0, "invoke", "read"), line(3, 4, 0, "ok", "read", { version: 0 })].join("\n").replace(/"time":\d,/g, "");
  const { operations, first, last } = operationsOf(text);
  assert.deepEqual(operations.map(({ f, lines, from, until }) => [f, lines, from, until]), [["read", [3, 4], 3, 4]]);
  assert.deepEqual([first, last], [0, 4]);
});

test("the order is that of versions, each read behind its write, at moments within the bars", () => {
  const order = orderOf(operationsOf(HISTORY).operations);
  assert.deepEqual(order.map(({ one, moment, fits }) => [one.f, moment, fits]), [["write", 1, true], ["read", 2, true]]);
});

test("a verdict names the lines that refute it", () => {
  assert.deepEqual([...refutingIn("not linearizable: the write of 3/1 in lines 1 and 2 was before the read in line 4")],
    [0, 1, 3]);
});

const story = (...texts) => ({ events: texts.map((text, n) => ({ n, kind: "tick", text, sent: [] })), messages: [] });

test("the first event that differs is found", () => {
  assert.equal(paired(story("a", "b", "c"), story("a", "x", "c")).first, 1);
  assert.equal(paired(story("a", "b"), story("a")).first, 1);
  assert.equal(paired(story("a", "b"), story("a", "b")).first, -1);
});

test("a module is made of pieces of another one and of new bytes", () => {
  const pieces = new Uint8Array([1, 0, 0, 0, 2, 0, 0, 0, 1, 0, 0, 0, 9, 0, 0, 0, 0, 3, 0, 0, 0, 0, 0, 0, 0]);
  assert.deepEqual([...patched(new Uint8Array([5, 6, 7]), pieces.buffer)], [6, 7, 9, 5, 6, 7]);
});
