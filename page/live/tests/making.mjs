// Makes scenarios of scripts, and scripts of scenarios: of a JSON object with the path of a program, and lists of
// both. It prints, of each script the scenario and its lines, or what is wrong; and of each scenario its script, or
// null.
import { spawnSync } from "node:child_process";
import { readFileSync } from "node:fs";
import { made } from "../script.mjs";
import { scriptOf } from "../unscript.mjs";
import { waitingIn } from "../waiting.mjs";

const { program, scripts, scenarios } = JSON.parse(readFileSync(0, "utf8"));
function waiting(scenario) {
  const { status, stdout } = spawnSync(program, ["log", "--json"], { input: scenario, maxBuffer: 1e9 });
  return waitingIn({ status, told: stdout.toString() });
}
function answer(script) {
  try {
    const { text, lines } = made(script, waiting);
    return [text, lines];
  } catch (error) {
    return [error.message, null];
  }
}
process.stdout.write(JSON.stringify({ scripts: scripts.map(answer), scenarios: scenarios.map(scriptOf) }));
