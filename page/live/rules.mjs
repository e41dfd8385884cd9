// What a rule says: its section of the protocol, the law, and what happens without it.
import { byId, parts, safe, showPart } from "./view.mjs";

function sectionText(number) {
  const { title, text } = parts.book.sections[number];
  return `<h3>${safe(title)}</h3>${text}`;
}

const lawText = (law) => `<h3>A law that is proved of it</h3><p>${parts.book.laws[law]} (<code>${safe(law)}</code>)</p>`;

function wrongText(name, canBreak) {
  const { keeps, without, example } = parts.book.wrong[name];
  const button = canBreak ? ` <button type="button" data-break="${name}">Break it</button>` : "";
  return `<h3>${safe(name)}: a wrong rule</h3><p><b>The rule:</b> ${safe(keeps)}</p><p><b>Without it:</b> ` +
    `${safe(without)}</p>${example ? `<p><b>A run:</b> ${safe(example)}${button}</p>` : `<p>${button}</p>`}`;
}

// Shows a section, a law or a wrong rule, by the data of a link to it.
export function showRule({ section, law, wrong }, canBreak) {
  byId("rules").innerHTML = section ? sectionText(section) : law ? lawText(law) : wrongText(wrong, canBreak(wrong));
  showPart("rules");
  byId("rules").scrollTop = 0;
  byId("rules").focus();
}

// What stands there before one was asked for.
export function listRules(canBreak) {
  byId("rules").innerHTML = "<p>Each line of an event names its rule, a law and wrong rules: choose one there.</p>" +
    Object.keys(parts.book.wrong).map((name) => wrongText(name, canBreak(name))).join("");
}
