// A press that waited for a run: what it stands for in the run that there is now.
import { choicesOf } from "./choices.mjs";

const kindOf = ({ events }) => events === "lose" ? events : events[0].e;
const partiesOf = ({ kind, from, to } = {}) => `${kind} ${from} ${to}`;

// Whether a message that was picked waits in this run too.
const waits = (picked, run, message) => run.messages[message] !== undefined && run.delivered[message].length === 0 &&
  partiesOf(picked) === partiesOf(run.messages[message]);

// The choice of the same kind at the end of the run, for the node or the message that was picked: `picked` is the message
// as it was then. Nothing, where it can't be done any more.
export function againOf(choice, { run, states }, { node, message, picked }) {
  if (kindOf(choice) === "settle") {
    return choice;
  }
  if (message !== null && !waits(picked, run, message)) {
    return undefined;
  }
  return choicesOf({ run, states, event: run.events.length - 1, node, message })
    .find((it) => kindOf(it) === kindOf(choice));
}
