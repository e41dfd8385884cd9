// Moving about: steps, the search, the filters, and what is pointed at.
let isDue = false;
function redraw() {
  if (!isDue) {
    isDue = true;
    requestAnimationFrame(() => {
      isDue = false;
      draw();
    });
  }
}

function show(event) {
  const at = TOP + ROW * rowOf[event], seen = view.clientHeight;
  if (at < view.scrollTop + 2 * ROW || at > view.scrollTop + seen - 3 * ROW) {
    view.scrollTop = Math.max(0, at - seen / 2);
  }
}

function showColumn(name) {
  const at = x(name);
  if (at < view.scrollLeft + left + width / 3 || at > view.scrollLeft + view.clientWidth - RIGHT) {
    view.scrollLeft = Math.max(0, at - view.clientWidth / 2);
  }
}

// Shows all rows again where the one that is asked for is not among them.
function unfold(event) {
  const row = shown[rowOf[event]];
  if (row === undefined || row.event !== event || isFolded(rowOf[event])) {
    chosen.folds = byId("folds").checked = chosen.folds && event >= setUp;
    chosen.host = byId("host").value = takesPart(events[event]) ? chosen.host : "";
    lay();
  }
}

function chooseEvent(event) {
  if (events.length > 0) {
    chosen.event = Math.min(Math.max(event, 0), events.length - 1);
    chosen.message = -1;
    unfold(chosen.event);
    const happened = events[chosen.event];
    byId("details").textContent = eventText(happened);
    show(chosen.event);
    draw();
    showColumn(happened.kind === "deliver" ? messages[happened.message].to : happened.at);
    link(`event-${chosen.event}`);
  }
}

// One row further, or back.
function step(by) {
  const row = chosen.event < 0 ? (by > 0 ? 0 : shown.length - 1) : rowOf[chosen.event] + by;
  if (shown[row]) {
    chooseEvent(isFolded(row) ? shown[row + 1].event : shown[row].event);
  }
}

// The address of what is chosen, for a link to it.
function link(place) {
  try {
    history.replaceState(null, "", `#${place}`);
  } catch {
    // a page in a frame has no address
  }
}

function follow() {
  const [, kind, number] = location.hash.match(/^#(event|message)-(\d+)$/) || [];
  if (kind === "event") {
    chooseEvent(Number(number));
  } else if (kind === "message") {
    chooseMessage(Number(number));
  }
}

// A number is a message, e and a number an event; else the next message that has all the words.
function search(text) {
  const [, isEvent, number] = text.trim().match(/^(e(?:vent)?\s*)?(\d+)$/i) || [];
  const words = text.trim().toLowerCase().split(/\s+/);
  if (isEvent) {
    chooseEvent(Number(number));
  } else if (number) {
    chooseMessage(Number(number));
  } else if (words[0] !== "") {
    const fits = (message) => words.every((word) => messageLine(message).toLowerCase().includes(word));
    const found = messages.find((message) => message.n > chosen.message && fits(message)) || messages.find(fits);
    if (found) {
      chooseMessage(found.n);
    } else {
      byId("details").textContent = `No message has all of: ${text.trim()}`;
    }
  }
}

function tell(element) {
  const group = element.closest && element.closest("[data-message]");
  if (group) {
    byId("details").textContent = messageText(messages[Number(group.dataset.message)]);
  }
  return group;
}

function chooseMessage(number) {
  const message = messages[number];
  if (message) {
    chosen.message = number;
    chosen.event = message.sent;
    unfold(message.sent);
    byId("details").textContent = messageText(message);
    show(message.sent);
    draw();
    showColumn(message.from);
    link(`message-${number}`);
  } else {
    byId("details").textContent = `There is no message ${number}.`;
  }
}

view.addEventListener("scroll", scrolled, { passive: true });
addEventListener("resize", redraw);
view.addEventListener("pointerover", (happening) => tell(happening.target));
view.addEventListener("focusin", (happening) => tell(happening.target));
view.addEventListener("click", (happening) => {
  const group = tell(happening.target);
  if (group) {
    chooseMessage(Number(group.dataset.message));
  } else {
    const down = happening.clientY - view.getBoundingClientRect().top + view.scrollTop;
    const row = Math.floor((down - TOP) / ROW);
    if (isFolded(row)) {
      byId("folds").click();
    } else if (shown[row]) {
      chooseEvent(shown[row].event);
    }
  }
});
byId("next").addEventListener("click", () => step(1));
byId("previous").addEventListener("click", () => step(-1));
byId("search").addEventListener("keydown", (happening) => {
  if (happening.key === "Enter") {
    search(happening.target.value);
  }
});
byId("folds").addEventListener("change", (happening) => {
  chosen.folds = happening.target.checked;
  lay();
  redraw();
});
const KEYS = { j: () => step(1), ArrowDown: () => step(1), k: () => step(-1), ArrowUp: () => step(-1),
  Home: () => chooseEvent(0), End: () => chooseEvent(events.length - 1) };
addEventListener("keydown", (happening) => {
  if (happening.target.closest("input, select") || happening.ctrlKey || happening.metaKey || happening.altKey) {
    return;
  }
  const group = happening.target.closest("[data-message]");
  const isOpened = group && (happening.key === "Enter" || happening.key === " ");
  const isScrolled = happening.target.id === "details";
  const act = isOpened ? () => chooseMessage(Number(group.dataset.message)) : !isScrolled && KEYS[happening.key];
  if (act) {
    happening.preventDefault();
    act();
  }
});
addEventListener("hashchange", follow);

function fill(id, values, label) {
  const list = byId(id);
  for (const value of values) {
    list.add(new Option(label(value), value));
  }
  list.addEventListener("change", () => {
    chosen[id] = list.value;
    lay();
    redraw();
  });
}
fill("host", [...new Set(names.map(hostOf))], title);
fill("kind", [...new Set(messages.map((message) => message.kind))].sort(), (kind) => kind);
