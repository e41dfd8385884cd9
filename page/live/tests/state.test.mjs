// How nodes stand at an event, in small runs that are written by hand.
import assert from "node:assert/strict";
import test from "node:test";
import { Run } from "../run.mjs";
import { KEPT_EVERY, standing, States, storedOf } from "../state.mjs";

const RANGE = { table: 7, lo: "0", hi: "9" };
const event = (e, members = {}, sent = []) => ({ place: 0, e, ...members, sent });
const start = (host, more = {}) => event("start", { host, master: `${host}.1`, phase: "writing", ...more });
const deliver = (n, sent = []) => event("deliver", { n }, sent);
const message = (kind, from, to, more = {}) => ({ kind, from, to, ...more });
const own = (to, term) => message("Own", "c", to, { ...RANGE, term, attempt: term - 1, previous: term - 1 });
const list = (...names) =>
  message("List", "c", names.at(-1), { version: 1, rows: names.map((id) => ({ id, up: true })) });
const ENTRY = { term: 1, table: 7, key: "5", version: "1", value: "61" };

function statesOf(events, messages) {
  return new States(new Run({ events, messages, masters: [], replicas: [], audit: "clean", stopped: null }));
}

// 0.1 owns, is fenced by 1.1, and replaced by it.
const replaced = () => statesOf(
  [start(0), start(1), event("create", {}, [3, 0]), deliver(0), event("suspect", { id: [0, 1] }, [1]), deliver(1),
    event("decide", { id: [0, 1] }, [2]), deliver(2)],
  [own("0.1", 1), message("Gather", "c", "1.1", { attempt: 1, master: "0.1" }), own("1.1", 2),
    list("0.1", "1.1")]);

function tagAt(states, place, name) {
  const world = states.at(place);
  return standing(world, world.nodes.get(name)).tag;
}

test("a server is suspected, then fenced, then a zombie", () => {
  const states = replaced();
  assert.deepEqual([3, 4, 5, 6, 7].map((place) => tagAt(states, place, "0.1")),
    ["", "suspected", "FENCED", "ZOMBIE", "ZOMBIE"]);
  assert.equal(tagAt(states, 7, "1.1"), "");
});

test("who is not in the coordinator's list is not suspected", () => {
  const states = statesOf([start(0), event("suspect", { id: [0, 1] })], []);
  assert.equal(tagAt(states, 1, "0.1"), "");
});

test("a fence ends when its backup ends, and holds while another one has fenced", () => {
  const gather = (to) => message("Gather", "c", to, { attempt: 1, master: "0.1" });
  const states = statesOf(
    [start(0), start(1), { ...start(2), sent: [2] }, event("suspect", { id: [0, 1] }, [0, 1]), deliver(0), deliver(1),
      event("stop", { id: [2, 1] }), event("stop", { id: [1, 1] }), start(1, { master: "1.2" })],
    [gather("1.1"), gather("2.1"), list("0.1", "1.1", "2.1")]);
  assert.deepEqual([5, 6, 7, 8].map((place) => tagAt(states, place, "0.1")),
    ["FENCED", "FENCED", "suspected", "suspected"]);
  const fencing = (place) => states.at(place).fencing(states.at(place).nodes.get("0.1"));
  assert.deepEqual([5, 6, 7, 8].map(fencing), [["1.1", "2.1"], ["1.1"], [], []]);
});

test("it looks the same whether one steps on, back, or far", () => {
  const ticks = Array.from({ length: 3 * KEPT_EVERY }, () => event("tick", { id: [0, 1] }));
  const events = [start(0), ...ticks, event("stop", { id: [0, 1] }), ...ticks];
  const states = statesOf(events, []), stop = ticks.length + 1;
  const places = [events.length - 1, stop, stop - 1, 0, stop, stop + KEPT_EVERY, stop - 1];
  assert.deepEqual(places.map((place) => tagAt(states, place, "0.1")),
    ["stopped", "stopped", "", "", "stopped", "stopped", ""]);
});

test("who is told that it is deposed owns nothing", () => {
  const states = statesOf(
    [start(0), event("create", {}, [0]), deliver(0), event("tick", { id: [0, 1], master: "0.1", phase: "deposed" })],
    [own("0.1", 1)]);
  assert.deepEqual(states.at(2).nodes.get("0.1").ranges, [{ ...RANGE, term: 1 }]);
  assert.deepEqual(states.at(3).nodes.get("0.1").ranges, []);
  assert.equal(tagAt(states, 3, "0.1"), "deposed");
});

test("an entry is stored when all members have told so under the segment's epoch", () => {
  const stored = (from, epoch, len) => message("Stored", from, "0.1", { seg: 1, epoch, len, closed: false });
  const place = (to) => message("Place", "0.1", to, { seg: 1, epoch: 1, entries: [], digest: [1], closed: false });
  const states = statesOf(
    [start(0), event("tick", { id: [0, 1] }, [0, 1]), event("tick", { id: [0, 1] }, [2]), deliver(3), deliver(4),
      deliver(5)],
    [place("1.1"), place("2.1"), message("Append", "0.1", "1.1", { seg: 1, offset: 0, entries: [ENTRY] }),
      stored("1.1", 1, 1), stored("2.1", 0, 1), stored("2.1", 1, 1)]);
  const log = (at) => [...states.at(at).nodes.get("0.1").log.values()].map((one) => [storedOf(one), one.len]);
  assert.deepEqual([1, 2, 3, 4, 5].map(log), [[[0, 0]], [[0, 1]], [[0, 1]], [[0, 1]], [[1, 1]]]);
});

test("a start ends the replicas of its host that it does not name", () => {
  const copy = (seg) => ({ at: "1.1", of: "0.1", seg, epoch: 0, len: 0, closed: false, fenced: false, gone: false });
  const states = statesOf(
    [start(1), event("tick", { id: [1, 1], copies: [copy(1), copy(2)] }), event("stop", { id: [1, 1] }),
      start(1, { copies: [{ ...copy(2), at: "1.2" }] }),
      event("tick", { id: [1, 2], copies: [{ ...copy(2), at: "1.2", gone: true }] })], []);
  assert.deepEqual([1, 2, 3, 4].map((place) => [...states.at(place).replicas.values()].map((one) => one.seg)),
    [[1, 2], [1, 2], [2], []]);
});

test("what was sent and has not arrived is on its way", () => {
  const states = replaced();
  assert.deepEqual([1, 2, 3].map((place) => states.waiting("0.1", place)), [[], [0], []]);
});
