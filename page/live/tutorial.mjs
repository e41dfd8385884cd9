// The tutorial: a step shows its text, and its button writes its lines behind those of the steps before and runs them.
import { happenedSince } from "./happened.mjs";
import { byId, parts, safe, shown } from "./view.mjs";

const FIRST_MARK = "# step ", MOST_HAPPENED = 12;
let step = 0;

// The script of all steps up to this one.
export const scriptOfSteps = (until) => parts.steps.slice(0, until + 1)
  .map(({ title, script }) => `${FIRST_MARK}${title}\n${script}`).join("\n");

export function showStep(number = step) {
  step = Math.max(0, Math.min(number, parts.steps.length - 1));
  const { title, text } = parts.steps[step];
  byId("step-title").textContent = `A zombie, step by step: ${title}`;
  byId("step-text").innerHTML = text;
  byId("step-result").textContent = "";
  byId("step-text").scrollTop = 0;
  byId("step-back").disabled = step === 0;
  byId("step-on").disabled = step === parts.steps.length - 1;
  markStep();
  // `event 46 at 9` leads to that event
  for (const block of byId("step-text").querySelectorAll("pre.told")) {
    block.innerHTML = block.textContent.split("\n").map((line) => {
      const [, number] = line.match(/^event (\d+) at/) ?? [];
      return number === undefined ? safe(line) : `<a href="#event-${number}" data-event="${number}">${safe(line)}</a>`;
    }).join("\n");
  }
}

// Says whether the step is done in the run that is shown; then the next one is the button to press.
export function markStep() {
  const isDone = shown.text.startsWith(scriptOfSteps(step)), isLast = step === parts.steps.length - 1;
  byId("step-state").textContent = isDone ? "This step is done." : "";
  byId("step-do").textContent = isDone ? "Do it again" : "Do this step";
  byId("step-do").classList.toggle("chief", !isDone);
  byId("step-on").classList.toggle("chief", isDone && !isLast);
}

const linkTo = (event) => `<a href="#event-${event}" data-event="${event}">${event}</a>`;

// What happened from an event of the run on, a line each with links to its events.
function happenedText(first) {
  const found = happenedSince(shown.run, shown.states, first), more = found.length - MOST_HAPPENED;
  return [...found.slice(0, MOST_HAPPENED)
    .map(({ words, events }) => `${safe(words)} (event ${events.map(linkTo).join(", ")})`),
  ...more > 0 ? [`and ${more} more`] : [], ...found.length === 0 ? ["Done."] : []].join("\n");
}

// Listens to the step's buttons: what does one thing after another, what runs the script of all steps up to one, what
// counts the events of a script without showing it, and what shows an event.
export function listenToSteps(inTurn, doSteps, countOf, choose) {
  byId("step-back").addEventListener("click", () => showStep(step - 1));
  byId("step-on").addEventListener("click", () => showStep(step + 1));
  byId("step-do").addEventListener("click", () => inTurn(async () => {
    const script = scriptOfSteps(step), first = await countOf(scriptOfSteps(step - 1));
    await doSteps(script);
    if (shown.text === script) {
      byId("step-result").innerHTML = happenedText(first);
      // where the step speaks of events, the first of them
      const spoken = byId("step-text").querySelector("[data-event]");
      choose(spoken ? Number(spoken.dataset.event) : Infinity);
    }
  }));
  for (const id of ["step-text", "step-result"]) {
    byId(id).addEventListener("click", (happening) => {
      const place = happening.target.closest("[data-event]");
      if (place) {
        happening.preventDefault();
        choose(Number(place.dataset.event));
      }
    });
  }
}
