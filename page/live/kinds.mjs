// What a text is that stands in the place of a scenario.

function objectOf(text) {
  try {
    return Object(JSON.parse(text));
  } catch {
    return {};
  }
}

// A history of clients, as `history` prints one: its first line is an object of a process. A trace, as `trace` prints
// one: an object with messages and no events. Else a scenario or a script.
export function textKindOf(text) {
  const trimmed = text.trimStart();
  if (!trimmed.startsWith("{")) {
    return "scenario";
  }
  if (Object.hasOwn(objectOf(trimmed.split("\n")[0]), "process")) {
    return "history";
  }
  return /"messages"\s*:\s*\[/.test(trimmed) && !/"events"\s*:/.test(trimmed) ? "trace" : "scenario";
}
