// Two columns: a run as it is, and the same scenario by a program in which a rule is broken.
import { paired } from "./pairing.mjs";
import { shortened } from "./saying.mjs";
import { byId, safe } from "./view.mjs";

const BEFORE = 3, MOST_SHOWN = 400;

function verdictOf({ audit, stopped }) {
  const text = `audit ${audit}${stopped ? `, stopped ${stopped.code}` : ""}`;
  return `<span class="${audit === "clean" ? "" : "bad"}">${safe(text)}</span>`;
}

// Shows both, from a little before the first event that differs.
export function showColumns(one, other, rule) {
  const { rows, first } = paired(one, other), from = Math.max(0, first - BEFORE);
  const cell = (text) => `<td>${safe(shortened(text))}</td>`;
  const shownRows = rows.slice(from, from + MOST_SHOWN).map(([left, right], at) => {
    const isFirst = from + at === first, kind = isFirst ? "first" : left === right ? "" : "differs";
    const named = isFirst ? ' id="first-other"' : "";
    return `<tr class="${kind}"${named}><td>${from + at}</td>${cell(left)}${cell(right)}</tr>`;
  });
  const hidden = from > 0 ? `<tr><td>..</td><td colspan="2">${from} events before are the same</td></tr>` : "";
  const heads = `<th>Event</th><th>With each rule: ${verdictOf(one)}</th><th>Without ${safe(rule)}: ${verdictOf(other)}</th>`;
  byId("columns").innerHTML =
    `<table><thead><tr>${heads}</tr></thead><tbody>${hidden}${shownRows.join("")}</tbody></table>`;
  const row = document.getElementById("first-other"), head = byId("columns").querySelector("thead");
  byId("columns").scrollTop = row ? row.offsetTop - head.offsetHeight - row.previousElementSibling.offsetHeight / 2 : 0;
  byId("breaks").textContent = first < 0 ? "The two runs are the same." : `Event ${first} is the first that differs.`;
}
