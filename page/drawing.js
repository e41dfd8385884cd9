// Each server's phases as bands: from where one begins to the next one, or to its end.
const bands = story.phases.map((phase) => ({ id: phase.id, phase: phase.phase, from: phase.event,
  until: stops.get(phase.id) }));
const latest = new Map();
for (const band of bands) {
  if (latest.has(band.id)) {
    latest.get(band.id).until = band.from;
  }
  latest.set(band.id, band);
}

// Each replica as bars, one after another, in a lane of its host; a start ends those that it does not name.
const bars = [], standing = new Map();
function barOf(copy) {
  const host = hostOf(copy.at), key = `${host} ${copy.of} ${copy.seg}`, before = standing.get(key);
  if (before) {
    before.until = copy.event;
  }
  if (copy.gone) {
    standing.delete(key);
    return;
  }
  const taken = new Set([...standing.values()].filter((bar) => bar.host === host).map((bar) => bar.lane));
  let lane = before ? before.lane : 0;
  while (!before && taken.has(lane)) {
    lane += 1;
  }
  const bar = { ...copy, host, lane, from: copy.event, until: events.length };
  standing.set(key, bar);
  bars.push(bar);
}
let nextCopy = 0;
for (const event of events) {
  const here = new Set();
  for (; nextCopy < story.copies.length && story.copies[nextCopy].event === event.n; nextCopy += 1) {
    barOf(story.copies[nextCopy]);
    here.add(`${hostOf(story.copies[nextCopy].at)} ${story.copies[nextCopy].of} ${story.copies[nextCopy].seg}`);
  }
  if (event.kind === "start") {
    for (const [key, bar] of [...standing].filter(([key, bar]) => bar.host === hostOf(event.at) && !here.has(key))) {
      bar.until = event.n;
      standing.delete(key);
    }
  }
}
const PATTERNS = '<defs><pattern id="hatched" width="4" height="4" patternUnits="userSpaceOnUse" ' +
  'patternTransform="rotate(45)"><rect width="2" height="4" fill="var(--copy)"/></pattern>' +
  '<pattern id="doubtful" width="9" height="9" patternUnits="userSpaceOnUse" patternTransform="rotate(45)">' +
  '<rect width="4" height="9" fill="var(--doubt)"/></pattern>' +
  '<pattern id="fenced" width="9" height="9" patternUnits="userSpaceOnUse" patternTransform="rotate(45)">' +
  '<rect width="4" height="9" fill="var(--doubt)"/><rect width="9" height="4" fill="var(--doubt)"/></pattern>' +
  '<pattern id="replaced" width="9" height="9" patternUnits="userSpaceOnUse" ' +
  'patternTransform="rotate(45)"><rect width="6" height="9" fill="var(--replaced)"/></pattern></defs>';

// The picture. Only the rows that can be seen are drawn, and some above and below, so that one can scroll a while.
const view = byId("view"), headings = byId("heads"), picture = byId("picture"), space = byId("space");
const ROW = 28, TOP = 44, RIGHT = 36, LONG = 400, NARROWEST = 76, FOLD = 22, FOLDS = 220;
let left = 84, width = 0, thin = FOLD, full = 0, aside = 0, places = new Map();
// where what is drawn begins, how tall it is, and how tall all would be; what the heads are
let begin = 0, tall = 0, all = 0, heading = "", folded = () => false;
const x = (name) => places.get(name);
const yOf = (row) => TOP + ROW * (row + 0.5) - begin;
const y = (event) => yOf(rowOf[event]);

// Where each column stands: one of a server that does not run while these events happen is folded, and all that are
// folded share a few pixels.
function spread(firstEvent, lastEvent) {
  const isAway = (name) => starts.has(name) && (starts.get(name) > lastEvent || stops.get(name) < firstEvent);
  const away = columns.filter(isAway).length;
  left = Math.max(view.clientWidth < 600 ? 58 : 84, 26 + 14 * String(events.length).length);
  thin = Math.min(FOLD, FOLDS / Math.max(1, away));
  width = Math.max(NARROWEST, (view.clientWidth - left - RIGHT - thin * away) / Math.max(1, columns.length - away));
  places = new Map();
  full = left;
  for (const name of columns) {
    const wide = isAway(name) ? thin : width;
    places.set(name, full + wide / 2);
    full += wide;
  }
  full += RIGHT;
  return isAway;
}

function head(fromX, fromY, toX, toY, hollow) {
  const length = Math.hypot(toX - fromX, toY - fromY) || 1;
  const across = (toX - fromX) / length, down = (toY - fromY) / length;
  const point = (back, side) =>
    `${(toX - back * across + side * down).toFixed(1)} ${(toY - back * down - side * across).toFixed(1)}`;
  return `<path class="head${hollow ? " hollow" : ""}" d="M${point(0, 0)}L${point(9, 4)}L${point(9, -4)}Z"/>`;
}

function shaped(message, shape) {
  const tones = `message ${toneOf(message)}${message.lost ? " lost" : ""}`;
  return `<g class="${tones}" data-message="${message.n}" tabindex="0" role="button" ` +
    `aria-label="${escaped(messageLine(message))}">${shape}</g>`;
}

// The words lie above all arrows. Of several messages that begin alike only the first that is shown has words.
function words(message, atX, atY, isRight, again) {
  const first = message.alike ? message.alike.filter(isShown) : [message];
  const more = (again ? " again" : "") + (first.length > 1 ? ` +${first.length - 1}` : "");
  if (first[0] !== message) {
    return "";
  }
  const text = `${message.n} ${message.kind}${message.shows || ""}${message.misses ? " stale" : ""}${more}`;
  const wide = text.length * 6;
  return `<rect class="under" x="${isRight ? atX - 1 : atX - wide}" y="${atY - 10}" width="${wide}" height="13"/>` +
    `<text class="words ${toneOf(message)}" x="${atX}" y="${atY}" ` +
    `text-anchor="${isRight ? "start" : "end"}">${escaped(text)}</text>`;
}

function arrow(message, from, to, hollow, again, layers) {
  const step = Math.sign(x(message.to) - x(message.from));
  const fromX = x(message.from), toX = x(message.to) - step * 5;
  const fromY = y(from) + message.slot * 4, toY = y(to) + message.slot * 4;
  const way = `M${fromX} ${fromY}L${toX} ${toY}`;
  const shape = `<path class="touch" d="${way}"/><path class="way" d="${way}"/>`;
  layers.arrows.push(shaped(message, shape + head(fromX, fromY, toX, toY, hollow)));
  // beyond the addressee's line, where its answers seldom go; the outside has no room there
  layers.words.push(message.outward ? words(message, toX + 12, toY + 13, true, again) :
    words(message, x(message.to) + (step < 0 ? -9 : 9), toY + 4, step >= 0, again));
}

function lostArrow(message, layers) {
  const fromX = x(message.from), fromY = y(message.sent);
  const step = Math.sign(x(message.to) - fromX) || 1;
  const toX = fromX + step * Math.min(Math.abs(x(message.to) - fromX) * 0.6, width * 0.8);
  const toY = fromY + 9 + message.slot * 5;
  const way = `M${fromX} ${fromY}L${toX} ${toY}`;
  const cross = `M${toX - 4} ${toY - 4}L${toX + 4} ${toY + 4}M${toX - 4} ${toY + 4}L${toX + 4} ${toY - 4}`;
  const shape = `<path class="touch" d="${way}"/><path class="way" d="${way}"/><path d="${cross}"/>`;
  layers.arrows.push(shaped(message, shape));
  layers.words.push(words(message, toX + step * 8, toY + 4, step > 0, false));
}

// The messages whose arrows can be seen in these rows: those that were under way for long are looked at one by one, of
// the others those that were sent shortly before.
const lasting = messages.filter((message) => message.delivered.some((event) => event - message.sent > LONG));
function underWay(first, last) {
  const begin = Math.max(0, (first > 0 ? shown[first - 1].event + 1 : 0) - LONG);
  const found = lasting.filter((message) => message.sent < begin);
  for (let event = begin; event < events.length && rowOf[event] <= last; event += 1) {
    found.push(...events[event].sent.map((number) => messages[number]));
  }
  return found;
}

// Of an arrow both ends of which lie in the folded row nothing is drawn.
function arrows(first, last, layers) {
  for (const message of underWay(first, last).filter(isShown)) {
    const from = rowOf[message.sent];
    if (message.lost || message.outward) {
      if (from >= first && !isFolded(from)) {
        if (message.lost) {
          lostArrow(message, layers);
        } else {
          arrow(message, message.sent, message.sent, false, false, layers);
        }
      }
      continue;
    }
    message.delivered.forEach((event, place) => {
      if (rowOf[event] >= first && !(isFolded(from) && isFolded(rowOf[event]))) {
        arrow(message, message.sent, event, events[event].why !== undefined, place > 0, layers);
      }
    });
  }
}

function note(event) {
  const words = ["suspect", "decide"].includes(event.kind) ? event.text : event.kind;
  const wide = words.length * 6.2 + 12, middle = x(event.at), height = y(event.n);
  return `<g class="note"><rect x="${middle - wide / 2}" y="${height - 9}" width="${wide}" height="18" rx="5"/>` +
    `<text x="${middle}" y="${height + 4}">${escaped(words)}</text></g>`;
}

function fold(row, until) {
  const words = `set-up: events 0 to ${until}`;
  const wide = full - left - RIGHT;
  return `<g class="fold"><rect x="${left}" y="${yOf(row) - 10}" width="${wide}" height="20" rx="5"/>` +
    `<text x="${left + 8}" y="${yOf(row) + 4}">${words}; a click unfolds it</text></g>`;
}

function rows(first, last, parts) {
  for (let row = first; row <= last; row += 1) {
    const event = events[shown[row].event];
    if (isFolded(row)) {
      parts.push(fold(row, shown[row].until));
      continue;
    }
    if (event.kind !== "deliver" && places.has(event.at)) {
      parts.push(note(event));
    }
  }
}

// The numbers of the events, and their places in the scenario: they stay at the left.
function numbers(first, last, parts) {
  for (let row = first; row <= last; row += 1) {
    const event = events[shown[row].event], before = row > 0 && !isFolded(row - 1) ? shown[row - 1].event : -1;
    if (!isFolded(row)) {
      parts.push(`<text class="number" x="${aside + left - 8}" y="${yOf(row) + 4}">${event.n}</text>`);
      if (before < 0 || events[before].place !== event.place) {
        parts.push(`<text class="place" x="${aside + 6}" y="${yOf(row) + 4}">${event.place}</text>`);
      }
    }
  }
}

// A span of events at a node, as far as it is seen; nothing where it is not.
function spanned(id, from, until) {
  const upper = Math.max(y(from), 0), lower = Math.min(y(until), tall);
  return lower > upper && places.has(id) ? { upper, tall: lower - upper } : null;
}

function lifelines(parts) {
  for (const doubt of doubts) {
    const span = spanned(doubt.id, doubt.from, doubt.until);
    if (span) {
      parts.push(`<rect class="doubt ${doubt.name}" x="${x(doubt.id) - width * 0.42}" y="${span.upper}" ` +
        `width="${width * 0.84}" height="${span.tall}"><title>${doubt.id} ${doubt.text}</title></rect>`);
    }
  }
  for (const name of columns) {
    parts.push(`<line class="life" x1="${x(name)}" x2="${x(name)}" y1="${Math.max(0, TOP - begin)}" y2="${tall}"/>`);
  }
  for (const band of bands) {
    const span = spanned(band.id, band.from, band.until);
    if (span) {
      parts.push(`<rect class="band ${band.phase}" x="${x(band.id) - 5}" y="${span.upper}" width="10" ` +
        `height="${span.tall}"><title>${band.id} ${band.phase}</title></rect>`);
    }
  }
}

const keysText = (range) => range.lo === 0n && range.hi === 18446744073709551615n ? "all keys" :
  `keys ${range.lo} to ${range.hi}`;

// The ranges that a server owns, on the left of its line; a former owner's bar goes on, hollow.
function ownings(parts) {
  for (const owner of owners) {
    const beside = 12 + owner.lane * 6;
    for (const [from, until, former] of [[owner.from, owner.until, ""], [owner.until, owner.former, " former"]]) {
      const span = beside < width * 0.42 && spanned(owner.id, from, until);
      if (span) {
        parts.push(`<rect class="owner${former}" x="${x(owner.id) - beside}" y="${span.upper}" width="4" ` +
          `height="${span.tall}"><title>${owner.id}${former ? " owned" : " owns"} ${keysText(owner)} of ` +
          `table ${owner.table}, term ${owner.term}</title></rect>`);
      }
    }
  }
}

const lockAt = (atX, atY, text) => `<g class="lock"><path d="M${atX - 3} ${atY - 1}v-3a3 3 0 0 1 6 0v3"/>` +
  `<rect x="${atX - 5}" y="${atY - 1}" width="10" height="7" rx="1"/><title>${escaped(text)}</title></g>`;

// What becomes of a server at an event: it is suspected, replaced, deposed; it fences another one.
function becomings(first, last, parts) {
  for (const lock of locks) {
    if (rowOf[lock.event] >= first && rowOf[lock.event] <= last && places.has(lock.id)) {
      parts.push(lockAt(x(lock.id), y(lock.event), `${lock.id} fences ${lock.of}`));
    }
  }
  for (const tag of tags) {
    if (rowOf[tag.event] >= first && rowOf[tag.event] <= last && places.has(tag.id)) {
      const wide = tag.text.length * 6.4, height = y(tag.event);
      parts.push(`<rect class="under" x="${x(tag.id) - wide / 2}" y="${height - 7}" width="${wide}" height="14"/>` +
        `<text class="tag" x="${x(tag.id)}" y="${height + 4}">${tag.text}</text>`);
    }
  }
}

// The replicas of a host beside its line, as far as there is room.
function copies(parts) {
  for (const bar of bars) {
    const beside = 8 + bar.lane * 6, span = beside < width * 0.42 && spanned(bar.at, bar.from, bar.until);
    if (span) {
      const state = (bar.closed ? " closed" : "") + (bar.fenced ? " fenced" : "");
      parts.push(`<rect class="copy${state}" x="${x(bar.at) + beside}" y="${span.upper}" width="4" ` +
        `height="${span.tall}"><title>${copyText(bar)}</title></rect>`);
    }
  }
}

function copyText(bar) {
  return `replica of ${bar.of} segment ${bar.seg}: epoch ${bar.epoch}, ${bar.len} entries, ` +
    (bar.closed ? "closed" : "open") + (bar.fenced ? ", fenced" : "");
}

// The heads stay at the top, and have what the servers are in the first row that is seen.
function heads() {
  const row = Math.min(Math.ceil(view.scrollTop / ROW), shown.length - 1), event = row >= 0 ? shown[row].event : 0;
  const parts = [`<rect class="ground" width="${full}" height="${TOP}"/>`];
  for (const name of columns) {
    const text = !folded(name) ? title(name) : thin < FOLD ? "" : "·";
    parts.push(`<text class="name" x="${x(name)}" y="17">${text}<title>${title(name)}</title></text>`);
    const stage = doubts.find((doubt) => doubt.id === name && doubt.from <= event && event < doubt.until);
    if (stage && !folded(name)) {
      parts.push(`<text class="state" x="${x(name)}" y="33">${stage.name}</text>`);
    }
  }
  parts.push(`<rect class="ground" x="${aside}" width="${left - 4}" height="${TOP}"/>` +
    `<text class="place" x="${aside + 6}" y="${left < 84 ? 33 : 17}">at</text>` +
    `<text class="number" x="${aside + left - 8}" y="17">event</text>`);
  if (parts.join("") !== heading) {
    heading = parts.join("");
    headings.setAttribute("width", full);
    headings.setAttribute("height", TOP);
    headings.innerHTML = heading;
  }
}

// From which row to which one it is drawn: so many times what is seen above it, and below it.
const AROUND = 2;
function reach() {
  const height = view.clientHeight;
  all = Math.max(TOP + ROW * (shown.length + 1), height);
  begin = Math.max(0, Math.min(view.scrollTop - AROUND * height, all - (2 * AROUND + 1) * height));
  tall = Math.min((2 * AROUND + 1) * height, all - begin);
  aside = view.scrollLeft;
  return [Math.max(0, Math.floor((begin - TOP) / ROW) - 1),
    Math.min(shown.length - 1, Math.ceil((begin + tall - TOP) / ROW) + 1)];
}

// What the picture is drawn of, save what is chosen in it.
let drawn = "";

// Marks what is chosen, in the picture as it stands.
function highlight() {
  const row = picture.querySelector(".row");
  row.setAttribute("y", chosen.event < 0 ? -ROW : y(chosen.event) - ROW / 2);
  row.setAttribute("width", full);
  for (const group of picture.querySelectorAll(".message.chosen")) {
    group.classList.remove("chosen");
  }
  for (const group of picture.querySelectorAll(`[data-message="${chosen.message}"]`)) {
    group.classList.add("chosen");
  }
}

function draw() {
  const [first, last] = reach(), { event, message, ...filters } = chosen;
  const now = JSON.stringify([first, last, begin, tall, aside, view.clientWidth, filters]);
  if (now !== drawn) {
    drawRows(first, last);
    drawn = now;
  }
  highlight();
  heads();
}

function drawRows(first, last) {
  folded = spread(shown.length ? shown[Math.min(first, last)].event : 0, shown.length ? shown[last].event : 0);
  const focused = document.activeElement && document.activeElement.dataset.message;
  const parts = [], layers = { arrows: [], words: [] };
  parts.push(PATTERNS);
  lifelines(parts);
  parts.push(`<rect class="row" height="${ROW}"/>`);
  copies(parts);
  ownings(parts);
  arrows(first, last, layers);
  parts.push(...layers.arrows);
  rows(first, last, parts);
  parts.push(...layers.words);
  becomings(first, last, parts);
  parts.push(`<rect class="ground" x="${aside}" width="${left - 4}" height="${tall}"/>`);
  numbers(first, last, parts);
  space.style.height = `${all}px`;
  space.style.width = `${full}px`;
  picture.style.top = `${begin}px`;
  picture.setAttribute("width", full);
  picture.setAttribute("height", tall);
  picture.innerHTML = parts.join("");
  const again = focused && picture.querySelector(`[data-message="${focused}"]`);
  if (again) {
    again.focus({ preventScroll: true });
  }
}

// Scrolling alone moves what is drawn; it is drawn anew where little more of it is left.
function scrolled() {
  const height = view.clientHeight, above = view.scrollTop - begin, below = begin + tall - view.scrollTop - height;
  if (view.scrollLeft !== aside || (above < height / 2 && begin > 0) || (below < height / 2 && begin + tall < all)) {
    redraw();
  } else {
    heads();
  }
}

// One legend for all marks.
function mark(shape, text) {
  return `<span><svg width="22" height="14" aria-hidden="true">${shape}</svg>${text}</span>`;
}
const line = (tone, more, end) => `<g class="message ${tone}${more}"><path class="way" d="M1 7L14 7"/>${end}</g>`;
const tip = (hollow) => `<path class="head${hollow}" d="M21 7L13 11L13 3Z"/>`;
byId("marks").open = innerWidth >= 600;
byId("legend").innerHTML = [["opening", "opening"], ["closing", "closing"], ["", "writing"],
  ["deposed", "deposed"]].map(([name, text]) =>
  mark(`<rect class="band ${name}" x="6" width="10" height="14"/>`, text)).join("") +
  mark('<rect class="doubt" width="22" height="14"/>', "suspected") +
  mark('<rect class="doubt fenced" width="22" height="14"/>', "fenced") +
  mark('<rect class="doubt replaced" width="22" height="14"/>', "replaced") +
  mark(lockAt(11, 7, ""), "fences another") +
  mark('<rect class="owner" x="9" width="4" height="14"/>', "owns a range") +
  mark('<rect class="owner former" x="9" y="1" width="4" height="12"/>', "owned it") +
  mark('<rect class="copy" x="9" y="1" width="4" height="12"/>', "open replica") +
  mark('<rect class="copy closed" x="9" y="1" width="4" height="12"/>', "closed") +
  mark('<rect class="copy fenced" x="9" y="1" width="4" height="12"/>', "of a fenced master") +
  mark(line("good", "", tip("")), "acknowledged, read") + mark(line("stale", "", tip("")), "stale read") +
  mark(line("bad", "", tip("")), "refused") + mark(line("grant", "", tip("")), "granted") +
  mark(line("", "", tip(" hollow")), "no effect") +
  mark(line("", " lost", '<path d="M15 3L21 11M15 11L21 3"/>'), "never delivered");
