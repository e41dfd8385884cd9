// Asks the module whose file is named: a JSON list of [words, input in base64]. It prints the list of the statuses
// and of what was written to standard output.
import { readFileSync } from "node:fs";
import { ask } from "../program.mjs";

const module = new WebAssembly.Module(readFileSync(process.argv[2]));
const answers = JSON.parse(readFileSync(0, "utf8")).map(([words, input]) => {
  const { status, told } = ask(module, words, new Uint8Array(Buffer.from(input, "base64")));
  return [status, told];
});
process.stdout.write(JSON.stringify(answers));
