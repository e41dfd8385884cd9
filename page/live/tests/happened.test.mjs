// What happened from an event on, in a small run that is written by hand.
import assert from "node:assert/strict";
import test from "node:test";
import { happenedSince } from "../happened.mjs";
import { Run } from "../run.mjs";
import { States } from "../state.mjs";

const RANGE = { table: 7, lo: "0", hi: "9" };
const event = (e, members = {}, sent = []) => ({ place: 0, e, ...members, sent });
const start = (host) => event("start", { host, master: `${host}.1`, phase: "writing" });
const deliver = (n, sent = []) => event("deliver", { n }, sent);
const message = (kind, from, to, more = {}) => ({ kind, from, to, ...more });
const own = (to, term) => message("Own", "c", to, { ...RANGE, term, attempt: term - 1, previous: term - 1 });
const APPEND = message("Append", "0.1", "1.1", { seg: 1, offset: 0, entries: [] });

// 0.1 owns, is fenced by 1.1, which twice takes nothing from it, and is replaced by it.
const RUN = new Run({
  events: [start(0), start(1), event("create", {}, [0]), deliver(0), event("suspect", { id: [0, 1] }, [1]), deliver(1),
    event("tick", { id: [0, 1] }, [3, 4]), deliver(3), deliver(4), event("decide", { id: [0, 1] }, [2]), deliver(2)],
  messages: [own("0.1", 1), message("Gather", "c", "1.1", { attempt: 1, master: "0.1" }), own("1.1", 2), APPEND, APPEND],
  masters: [], replicas: [], audit: "clean", stopped: null });
const since = (first) => happenedSince(RUN, new States(RUN), first).map(({ words, events }) => [words, ...events]);

test("who is suspected, fenced and replaced is told once, with its events", () => {
  assert.deepEqual(since(4), [["0.1 is suspected", 4], ["1.1 fences 0.1", 5],
    ["1.1 takes no Append from 0.1, since it has fenced it", 7, 8], ["1.1 is granted table 7, term 2", 9],
    ["0.1 is a ZOMBIE from here on", 9]]);
});

test("what happened before is not told", () => {
  assert.deepEqual(since(10), []);
  assert.deepEqual(since(0)[0], ["0.1 is granted table 7, term 1", 2]);
});
