// Presses while a run is under way: each waits for those before it, and none is lost.
import assert from "node:assert/strict";
import test from "node:test";
import { Turns } from "../turns.mjs";

const PRESSES = 50, pause = (time) => new Promise((done) => setTimeout(done, time));

test("fifty presses in a row are done one after another, and none is lost", async () => {
  const turns = new Turns(() => {}, assert.fail);
  let text = "";
  const presses = Array.from({ length: PRESSES }, (_, number) => turns.take(async () => {
    const before = text;
    await pause(number % 3);
    text = `${before}${number}\n`;
  }));
  await Promise.all(presses);
  assert.equal(text, Array.from({ length: PRESSES }, (_, number) => `${number}\n`).join(""));
});

test("who presses while nothing is under way has not waited", async () => {
  const turns = new Turns(() => {}, assert.fail), waited = [];
  await Promise.all([turns.take((it) => waited.push(it)), turns.take((it) => waited.push(it))]);
  await turns.take((it) => waited.push(it));
  assert.deepEqual(waited, [false, true, false]);
});

test("one that fails is told, and those behind it are done", async () => {
  const told = [], done = [], turns = new Turns(() => {}, (error) => told.push(error.message));
  turns.take(() => Promise.reject(new Error("no")));
  await turns.take(() => done.push(1));
  assert.deepEqual([told, done], [["no"], [1]]);
});

test("those that wait can be dropped, and it is told when nothing is under way any more", async () => {
  const busy = [], done = [], turns = new Turns((it) => busy.push(it), assert.fail);
  const first = turns.take(() => pause(5));
  await pause(1);
  const last = turns.take(() => done.push(1));
  assert.equal(turns.drop(), 1);
  await Promise.all([first, last]);
  assert.deepEqual([done, busy], [[], [true, true, true, false]]);
  await turns.take(() => done.push(2));
  assert.deepEqual(done, [2]);
});
