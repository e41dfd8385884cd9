// Prints the story with its words, and the hints, of each story that is given: a JSON list of the texts that `log
// --json` printed.
import { readFileSync } from "node:fs";
import { hintsOf } from "../hints.mjs";
import { readStory } from "../reading.mjs";
import { Run } from "../run.mjs";
import { told } from "../telling.mjs";

const stories = JSON.parse(readFileSync(0, "utf8"));
const answer = (text) => {
  const story = readStory(text);
  return [JSON.stringify(told(new Run(story))), hintsOf(story)];
};
process.stdout.write(JSON.stringify(stories.map(answer)));
