// The story of a run as `log --json` prints it (docs/schemas/log.json, format 2).
const FORMAT = 2;
const GREAT = /"(key|at)":(\d{16,})/g;

// The story that this text is. Great numbers become texts, since a number would be rounded.
export function readStory(text) {
  const story = JSON.parse(text.replace(GREAT, '"$1":"$2"'));
  if (story.format !== FORMAT) {
    throw new Error(`the story is not of format ${FORMAT}`);
  }
  return story;
}

// The name of a node, which an event spells as a scenario does: `0.1` for [0, 1], and `c`.
export const nameOf = (node) => Array.isArray(node) ? `${node[0]}.${node[1]}` : node;

// Whether the name of a node is that of a server, and not of the coordinator or the outside.
export const isServer = (node) => node !== "c" && node !== "out";

// The host and the generation of a server, by its name.
export const hostOf = (server) => Number(server.split(".")[0]);
export const generationOf = (server) => Number(server.split(".")[1]);
