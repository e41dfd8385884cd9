// What the cards say, in small runs that are written by hand.
import assert from "node:assert/strict";
import test from "node:test";
import { cards } from "../cards.mjs";
import { Run } from "../run.mjs";
import { States } from "../state.mjs";

const event = (e, members = {}, sent = []) => ({ place: 0, e, ...members, sent });
const start = (host, generation = 1) =>
  event("start", { host, master: `${host}.${generation}`, phase: "writing" });
const deliver = (n, sent = []) => event("deliver", { n }, sent);
const message = (kind, from, to, more = {}) => ({ kind, from, to, ...more });

// The card of a node after each of these events.
function cardsOf(events, messages, name, places) {
  const run = new Run({ events, messages, masters: [], replicas: [], audit: "clean", stopped: null });
  const states = new States(run), form = new RegExp(`<section [^>]*data-node="${name}">(.*?)</section>`);
  return places.map((place) => cards(run, states, place, null).join("").match(form)[1]);
}

test("the coordinator's card has the rows of its list, and nobody before the first Enlist", () => {
  const list = (rows) => message("List", "c", "0.1", { version: rows.length, rows });
  const [card, ...later] = cardsOf(
    [start(0), start(1), deliver(0, [2]), deliver(1, [3]), event("suspect", { id: [1, 1] }), start(1, 2)],
    [message("Enlist", "0.1", "c"), message("Enlist", "1.1", "c"), list([{ id: "0.1", up: true }]),
      list([{ id: "0.1", up: true }, { id: "1.1", up: true }])], "c", [1, 2, 3, 4, 5]);
  assert.doesNotMatch(card, /up|crashed/);
  assert.deepEqual(later.map((one) => one.match(/<p>(.*?)<\/p>/)[1]),
    ["0.1 up", "0.1 up, 1.1 up", "0.1 up, 1.1 is off the list (suspected)", "0.1 up, 1.1 is off the list (suspected)"]);
});

test("a master is fenced by those that are still there, and who has stopped has fenced nobody", () => {
  const events = [start(0), start(1), event("suspect", { id: [0, 1] }, [0]), deliver(0),
    event("stop", { id: [1, 1] })];
  const messages = [message("Gather", "c", "1.1", { attempt: 1, master: "0.1" })];
  const shows = (name, text) => cardsOf(events, messages, name, [3, 4]).map((card) => card.includes(text));
  assert.deepEqual(shows("0.1", "fenced by 1.1"), [true, false]);
  assert.deepEqual(shows("1.1", "has fenced"), [true, false]);
});

test("a segment is closed at a backup when that has told so", () => {
  const place = (to) => message("Place", "0.1", to, { seg: 1, epoch: 0, entries: [], digest: [1], closed: false });
  const close = (to) => message("Close", "0.1", to, { seg: 1, len: 0 });
  const stored = (from) => message("Stored", from, "0.1", { seg: 1, epoch: 0, len: 0, closed: true });
  const shown = cardsOf([start(0), event("tick", { id: [0, 1] }, [0, 1]), event("tick", { id: [0, 1] }, [2, 3]),
    deliver(4), deliver(5)],
  [place("1.1"), place("2.1"), close("1.1"), close("2.1"), stored("1.1"), stored("2.1")], "0.1", [2, 3, 4]);
  assert.deepEqual(shown.map((card) => card.match(/epoch 0(.*?), at 1.1, 2.1/)[1]),
    ["", ", closed at 1.1", ", closed"]);
});
