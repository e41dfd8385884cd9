// The live page: the scenario at the left, and at the right what the program makes of it.
import { againOf } from "./again.mjs";
import { actorOf, cards } from "./cards.mjs";
import { Asking } from "./asking.mjs";
import { choicesOf } from "./choices.mjs";
import { showClients } from "./clients.mjs";
import { showColumns } from "./columns.mjs";
import { hasLongAddresses } from "./program.mjs";
import { readStory } from "./reading.mjs";
import { listRules, showRule } from "./rules.mjs";
import { isDrawn, MOST_DRAWN, Run } from "./run.mjs";
import { logOf, saysOf } from "./saying.mjs";
import { scriptUntil, textUntil } from "./scenario.mjs";
import { placeOf } from "./spelling.mjs";
import { States } from "./state.mjs";
import { listenToSteps, markStep, scriptOfSteps, showStep } from "./tutorial.mjs";
import { Turns } from "./turns.mjs";
import { scriptOf } from "./unscript.mjs";
import { byId, isPartShown, parts, say, setAddress, showPart, shown, unpacked } from "./view.mjs";

const FIRST_RULE = "stores_after_gather", MOST_UNDONE = 50, MOST_TEXT = 4_000_000, MOST_IN_LOG = 500,
  MANY_MESSAGES = 20_000, MOST_HINTS = 6;
// what is in each folder of examples
const FOLDERS = { "": "The protocol", broken: "Where a broken rule shows", codes: "For each code of a refusal",
  hints: "Something may not have been meant", stuck: "What does not come back by itself", wrong: "Mistakes" };
const undone = [], broken = {};
// the story that is to be drawn, what was not made of it yet, and the cards that are shown
const stale = { told: "", isLogStale: false, logFrom: 0, isDrawnStale: false, cards: [] };
const turns = new Turns((isBusy) => {
  byId("stop").hidden = !isBusy;
}, (error) => say(`The program did not end: ${error.message}`, true));
let asking = null, storedRuns = {};

// Plays the text, and shows its run with the cursor at the last event, and what a press cut away before.
async function run(note = "") {
  const text = byId("text").value;
  if (text.length > MOST_TEXT) {
    say(`The scenario is too long for this page: ${text.length} letters of at most ${MOST_TEXT}.`, true);
    return;
  }
  const begun = performance.now();
  await show(await asking.order("play", { text }, tellReport), text, note, begun);
}

// Tells the report of a long run, while its events are still read.
function tellReport({ told: report }) {
  const [, count] = report.match(/^messages (\d+)$/m) ?? [], [audit] = report.match(/^audit .*/m) ?? [];
  if (Number(count) > MANY_MESSAGES) {
    byId("report").textContent = report;
    say(`${audit.replace("audit", "Audit")}; ${count} messages; its events are still read ..`, audit !== "audit clean");
  }
}

async function show({ report, story, told, why, hints, scenario, lines, judged }, text, note, begun) {
  byId("report").textContent = report?.told ?? "";
  shown.judged = judged ?? null;
  if (judged) {
    showPart("clients");
    await refresh();
    say(judged.why ?? `This is a history: ${judged.verdict}. The nodes and the picture are still of the run before.`,
      judged.verdict !== "linearizable");
    return;
  }
  const notes = [note, why, ...(hints ?? []).slice(0, MOST_HINTS)].filter((line) => line);
  byId("notes").textContent = notes.join("\n");
  if (story === undefined) {
    say(notes.join("\n"), true);
    return;
  }
  const played = new Run(readStory(story));
  Object.assign(shown, { run: played, states: new States(played), text, scenario, lines, node: null, message: null,
    number: shown.number + 1 });
  const { audit } = played.story, took = performance.now() - begun;
  const summary = `${audit === "clean" ? "Audit clean" : `Audit ${audit}`}; ${played.events.length} events, ` +
    `${played.messages.length} messages; ${took.toFixed(0)} ms.`;
  say([summary, ...notes].join("\n"), audit !== "clean" || why !== "");
  Object.assign(stale, { told, isLogStale: true, isDrawnStale: true });
  byId("slide").max = Math.max(0, played.events.length - 1);
  choose(Infinity);
  markStep();
  await refresh();
}

// The log of the run, at the event of the cursor: all of it, or of a long one the events around that.
function fillLog() {
  const { run: played, event } = shown, log = byId("log"), last = played.events.length;
  if (stale.isLogStale || event < stale.logFrom || event >= stale.logFrom + MOST_IN_LOG) {
    const from = Math.max(0, Math.min(event - MOST_IN_LOG / 2, last - MOST_IN_LOG)), until = from + MOST_IN_LOG;
    const more = `<p>Events ${from} to ${until - 1} of ${last}: the others are shown where the cursor is.</p>`;
    log.innerHTML = `<div>${logOf(played, from, until)}</div>${last > MOST_IN_LOG ? more : ""}`;
    Object.assign(stale, { isLogStale: false, logFrom: from });
  }
  log.querySelector(".at")?.classList.remove("at");
  const block = log.firstChild.children[event - stale.logFrom];
  if (block) {
    block.classList.add("at");
    const { top, bottom } = block.getBoundingClientRect(), seen = log.getBoundingClientRect();
    if (top < seen.top || bottom > seen.bottom) {
      log.scrollTop += top - seen.top - seen.height / 3;
    }
  }
}

// What takes long, or a question to the program, is made where it is in sight.
async function refresh() {
  if (isPartShown("log")) {
    fillLog();
  } else if (isPartShown("drawn") && stale.isDrawnStale) {
    byId("drawn").srcdoc = !isDrawn(shown.run) ? `<p>More than ${MOST_DRAWN} events are not drawn.</p>` :
      parts.frame.replace("NUMBER_OF_RUN", shown.number).replace("STORY", () => stale.told);
    stale.isDrawnStale = false;
  } else if (isPartShown("clients")) {
    byId("judged").disabled = shown.judged !== null;
    showClients(shown.judged ?? await asking.order("judge", { text: shown.scenario, rule: byId("judged").value }));
  } else if (isPartShown("compared")) {
    await compare();
  }
}

// Puts the cursor at an event, and tells what it says and how all stand after it.
function choose(event, isTold = true) {
  const { run: played, states } = shown;
  if (played === null) {
    return;
  }
  shown.event = Math.max(-1, Math.min(event, played.events.length - 1));
  byId("slide").value = Math.max(0, shown.event);
  if (shown.event < 0) {
    byId("says").textContent = "There is no event.";
    showCards([]);
    return;
  }
  byId("says").innerHTML = saysOf(played, shown.event);
  byId("says").scrollTop = 0;
  const happened = played.events[shown.event];
  const actor = actorOf(played, shown.event) ?? placeOf(happened, played.turns[shown.event].started);
  showCards(cards(played, states, shown.event, actor));
  offer();
  if (isPartShown("log") && !stale.isLogStale) {
    fillLog();
  }
  if (isTold) {
    tellPicture();
  }
}

// The picture may still be that of another run: it follows if it is of this one.
const tellPicture = () => byId("drawn").contentWindow?.postMessage({ choose: shown.event, run: shown.number }, "*");

// Shows other cards, with the focus where it was. Those that say the same stay.
function showCards(made) {
  const { node, message } = document.activeElement?.closest("#cards button")?.dataset ?? {}, all = byId("cards");
  if (all.children.length === made.length) {
    made.forEach((card, at) => {
      if (card !== stale.cards[at]) {
        all.children[at].outerHTML = card;
      }
    });
  } else {
    all.innerHTML = made.join("");
  }
  stale.cards = made;
  const again = message === undefined ? node && `button[data-node="${node}"]` : `button[data-message="${message}"]`;
  if (again) {
    all.querySelector(again)?.focus();
  }
}

// What can happen next: to the message or the node that was picked, or to all.
function offer() {
  shown.choices = choicesOf(shown);
  const isPicked = shown.node !== null || shown.message !== null;
  for (const card of document.querySelectorAll(".card")) {
    card.classList.toggle("picked", card.dataset.node === shown.node);
  }
  byId("acts").innerHTML = shown.choices
    .map(({ name }, place) => `<button type="button" data-act="${place}">${name}</button>`).join("") +
    (isPicked ? "" : "<span>or pick a node, or a message</span>");
}

// What is pressed is done at the cursor; where it waits for a run, at the end of that one.
function press(choice) {
  const { run: played, node, message, event } = shown, picked = played.messages[message];
  turns.take((hasWaited) => {
    const found = hasWaited ? againOf(choice, shown, { node, message, picked }) : choice;
    if (found) {
      return act(found.events, hasWaited ? shown.run.events.length - 1 : event, message);
    }
    byId("notes").textContent = `"${choice.name}" was not done: it can't happen any more.`;
    say(byId("notes").textContent, true);
    return undefined;
  });
}

// Writes the scenario that ends at an event, with these events behind it, and runs it. A message is lost where all
// others are delivered.
async function act(events, event, message) {
  const { run: played, text, scenario, lines } = shown, behind = played.events.length - 1 - event;
  const added = events !== "lose" ? events :
    await asking.order("others", { text: textUntil(scenario, played, event, []), lost: message });
  const isCut = behind > 0 || byId("text").value !== text;
  const what = behind > 0 ? `${behind} ${behind === 1 ? "event" : "events"} behind event ${event}` :
    "A text of which this was not the run";
  await put(lines ? scriptUntil(text, lines, played, event, added) : textUntil(text, played, event, added),
    isCut ? `${what} gave way to this; Undo brings back what stood there.` : "");
}

// Puts a text in the place of the one that stands there, and runs it.
function put(text, note = "") {
  undone.push(byId("text").value);
  undone.splice(0, undone.length - MOST_UNDONE);
  byId("undo").disabled = false;
  byId("text").value = text;
  byId("text").scrollTop = byId("text").scrollHeight;
  return run(note);
}

function undo() {
  byId("text").value = undone.pop() ?? byId("text").value;
  byId("undo").disabled = undone.length === 0;
  return run();
}

async function draw() {
  const words = ["explore", "--seed", byId("seed").value, "--steps", byId("steps").value, "--save"];
  const answer = await asking.order("ask", { words, text: "" });
  if (!answer.told.startsWith("{")) {
    say(`${answer.told}${answer.said}`.trim(), true);
    return;
  }
  await put(scriptOf(answer.told) ?? answer.told.replaceAll('},{"e"', '},\n{"e"'));
}

function take(name) {
  const text = parts.examples[name];
  setAddress(name);
  return put(text.startsWith("{") ? scriptOf(text) ?? text : text);
}

// Whether there is a program without this rule, or a run of one.
const canBreak = (rule) => Object.hasOwn(broken, rule) || Object.hasOwn(storedRuns, rule);

// Runs the scenario beside a program without the rule that is chosen. Where that is not in the page, there is a run
// of its example.
async function compare() {
  const rule = byId("without").value, text = byId("text").value, isThere = Object.hasOwn(broken, rule);
  byId("breaks").textContent = "..";
  if (!isThere && text !== shownExample(rule)) {
    byId("columns").textContent = "";
    byId("breaks").innerHTML = "This page has no program without this rule, but a run of its example: " +
      `<button type="button" data-example="${rule}">See it</button>`;
    return;
  }
  const right = await asking.order("compare", { text, rule: "" });
  const wrong = isThere ? await asking.order("compare", { text, rule }) : { told: storedRuns[rule] };
  if (right.told && wrong.told) {
    showColumns(right.told, wrong.told, rule);
  } else {
    byId("breaks").textContent = right.why || wrong.why;
  }
}

function shownExample(rule) {
  const text = parts.examples[`broken/${rule}`];
  return text && (scriptOf(text) ?? text);
}

function pick({ target }) {
  const button = target.closest("button");
  if (button?.dataset.message !== undefined) {
    Object.assign(shown, { message: Number(button.dataset.message), node: null });
  } else if (button?.dataset.node !== undefined) {
    Object.assign(shown, { node: button.dataset.node, message: null });
  }
  if (button) {
    offer();
  }
}

// A link to a rule, or a button that breaks one.
function follow(happening) {
  const { dataset } = happening.target.closest("[data-section], [data-law], [data-wrong], [data-break]") ?? {};
  if (!dataset) {
    return;
  }
  happening.preventDefault();
  if (dataset.break) {
    byId("without").value = dataset.break;
    showPart("compared");
    turns.take(refresh).then(() => byId("told").scrollIntoView({ block: "nearest" }));
  } else {
    showRule(dataset, canBreak);
  }
}

// Ends what is under way, and does none of what waits for it.
function stop() {
  const dropped = turns.drop();
  asking.stop(dropped > 0 ? `stopped, and ${dropped} that waited are not done` : "stopped");
}

function listen() {
  const on = (id, kind, does) => byId(id).addEventListener(kind, does);
  listenToScenario(on);
  on("slide", "input", () => choose(Number(byId("slide").value)));
  on("back", "click", () => choose(Math.max(0, shown.event - 1)));
  on("on", "click", () => choose(shown.event + 1));
  on("cards", "click", pick);
  on("acts", "click", ({ target }) => target.dataset.act && press(shown.choices[Number(target.dataset.act)]));
  on("without", "change", () => turns.take(refresh));
  on("judged", "change", () => turns.take(refresh));
  on("drawn", "load", tellPicture);
  on("log", "click", (happening) => {
    const place = happening.target.closest("[data-event]");
    if (place) {
      happening.preventDefault();
      choose(Number(place.dataset.event));
    }
  });
  on("says", "click", follow);
  on("rules", "click", follow);
  document.querySelectorAll("[data-shows]").forEach((button) => button.addEventListener("click", () => {
    showPart(button.dataset.shows);
    turns.take(refresh).then(() => byId("told").scrollIntoView({ block: "nearest" }));
  }));
  addEventListener("keydown", pressed);
  addEventListener("message", ({ source, data }) => {
    if (source === byId("drawn").contentWindow && data.run === shown.number) {
      heard(data);
    }
  });
}

// How many events the run of a text has.
async function countOf(text) {
  const { story } = await asking.order("play", { text });
  return story === undefined ? 0 : readStory(story).events.length;
}

// The buttons that put another text in the place of this one, or run it.
function listenToScenario(on) {
  on("run", "click", () => turns.take(() => run()));
  on("stop", "click", stop);
  on("undo", "click", () => turns.take(undo));
  on("example", "change", () => turns.take(() => take(byId("example").value)));
  on("drawing", "submit", (happening) => {
    happening.preventDefault();
    turns.take(draw);
  });
  on("breaks", "click", ({ target }) => {
    if (target.dataset.example) {
      byId("example").value = `broken/${target.dataset.example}`;
      turns.take(() => take(byId("example").value));
    }
  });
  listenToSteps((does) => turns.take(does), put, countOf, choose);
}

// What was chosen in the picture: an event, or a message, which is picked.
function heard({ event, message }) {
  if (Number.isInteger(message) && message >= 0) {
    Object.assign(shown, { message, node: null });
    offer();
  }
  if (Number.isInteger(event) && event !== shown.event) {
    choose(event, false);
  }
}

const KEYS = { ArrowLeft: () => choose(Math.max(0, shown.event - 1)), ArrowRight: () => choose(shown.event + 1),
  Home: () => choose(0), End: () => choose(Infinity) };
function pressed(happening) {
  if (happening.key === "Enter" && (happening.ctrlKey || happening.metaKey)) {
    happening.preventDefault();
    turns.take(() => run());
  } else if (!happening.target.closest("input, select, textarea, pre") && !happening.ctrlKey && KEYS[happening.key]) {
    happening.preventDefault();
    KEYS[happening.key]();
  }
}

// What the browser lacks; nothing, where it has all.
function lacking() {
  if (typeof WebAssembly === "undefined" || typeof DecompressionStream === "undefined") {
    return "This browser has no WebAssembly, or can't unpack it, so the program can't run in it.";
  }
  return byId("module").dataset.long === "yes" && !hasLongAddresses() ?
    "This browser lacks WebAssembly with addresses of 64 bits (memory64), so the program can't run in it." : "";
}

// The examples, those of a folder together.
function listExamples() {
  byId("example").add(new Option("choose one ..", ""));
  const names = Object.keys(parts.examples), folderOf = (name) => name.split("/").slice(0, -1).join("/");
  for (const folder of new Set(names.map(folderOf))) {
    const group = document.createElement("optgroup");
    group.label = FOLDERS[folder] ?? folder;
    group.append(...names.filter((name) => folderOf(name) === folder)
      .map((name) => new Option(parts.titles[name] ? `${name}: ${parts.titles[name]}` : name, name)));
    byId("example").append(group);
  }
}

async function load() {
  for (const element of document.querySelectorAll(".broken")) {
    broken[element.dataset.rule] = await unpacked(element);
  }
  storedRuns = JSON.parse(new TextDecoder().decode(await unpacked(byId("stored"))));
  for (const rule of new Set([...Object.keys(broken), ...Object.keys(storedRuns)])) {
    byId("without").add(new Option(Object.hasOwn(broken, rule) ? rule : `${rule} (its example)`, rule));
  }
  for (const rule of Object.keys(broken)) {
    byId("judged").add(new Option(`without ${rule}`, rule));
  }
  byId("without").value = Object.keys(broken)[0] ?? FIRST_RULE;
  listExamples();
  asking = new Asking(parts.worker, await unpacked(byId("module")), broken);
}

async function begin() {
  const lacks = lacking();
  if (lacks !== "") {
    byId("lacks").textContent = `${lacks} These are runs that were drawn before.`;
    byId("lacking").hidden = false;
    document.querySelector("main").hidden = true;
    return;
  }
  await load();
  listen();
  document.querySelector("main").inert = false;
  showStep(0);
  listRules(canBreak);
  const named = decodeURIComponent(location.hash.slice(1));
  byId("example").value = named in parts.examples ? named : "";
  byId("text").value = scriptOfSteps(0);
  await turns.take(() => named in parts.examples ? take(named) : run());
  undone.length = 0;
  byId("undo").disabled = true;
}
begin().catch((error) => say(String(error), true)).finally(() => {
  byId("loading").hidden = true;
});
