// What the page shows, and where it stands.
export const byId = (id) => document.getElementById(id);
export const parts = JSON.parse(byId("parts").textContent);

// The run and its number, its states, the text that it is of, with the line of each event where that is a script; the
// event at the cursor; who was picked; what can be done next; and a history in the place of a scenario, with its verdict.
export const shown = { run: null, number: 0, states: null, text: "", scenario: "", lines: null, event: -1, node: null,
  message: null, choices: [], judged: null };

export function say(text, isBad = false) {
  byId("errors").textContent = text;
  byId("errors").className = isBad ? "bad" : "";
}

export const safe = (text) => String(text).replace(/[&<>"]/g, (letter) => `&#${letter.charCodeAt(0)};`);

// The bytes that an element holds, packed and as letters.
export async function unpacked(element) {
  const bytes = Uint8Array.from(atob(element.textContent.trim()), (letter) => letter.charCodeAt(0));
  return new Response(new Blob([bytes]).stream().pipeThrough(new DecompressionStream("gzip"))).arrayBuffer();
}

const PARTS = ["drawn", "log", "report", "clients", "compared", "rules", "words"];
// Shows one part of the run alone.
export function showPart(name) {
  for (const part of PARTS) {
    byId(part).hidden = part !== name;
    document.querySelector(`[data-shows="${part}"]`).setAttribute("aria-pressed", String(part === name));
  }
}
export const isPartShown = (name) => !byId(name).hidden;

// A place in the page's address; a page in a frame has none.
export function setAddress(place) {
  try {
    history.replaceState(null, "", `#${place}`);
  } catch {
    // it works without
  }
}
