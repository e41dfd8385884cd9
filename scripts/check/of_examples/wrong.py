"""For each scenario and trace of examples/wrong/ standard error is what NAME.error has; of a scenario `run` and `trace`
say the same. The status is 2, and what is printed the line of the fault, or a report that ends with the line of the
stop. Each scenario of examples/hints/ goes through, with what NAME.hint has on standard error."""

import difflib
import re

from parts.program import tell
from parts.tree import EXAMPLES

ENDS = re.compile(r"(error F17 at|stopped F18 at event) \d+")


def told(said, wanted):
    """Where what was said is not what is wanted."""
    lines = difflib.unified_diff(wanted.splitlines(), said.splitlines(), lineterm="", n=0)
    return "".join(f"\n    {line}" for line in list(lines)[2:])


def last_line(text):
    return (text.splitlines() or [""])[-1]


def check(program):
    number = 0
    for file in sorted([*(EXAMPLES / "wrong").glob("*.json"), *(EXAMPLES / "wrong").glob("*.trace")]):
        wanted = file.with_suffix(".error").read_text()
        for command in ("run", "trace") if file.suffix == ".json" else ("audit",):
            number += 1
            status, printed, said = tell(program, command, given=file)
            last = last_line(printed)
            if status != 2 or said != wanted or command != "trace" and not ENDS.fullmatch(last):
                yield f"{command} of {file.name}, status {status}, {last}{told(said, wanted)}"
    for file in sorted((EXAMPLES / "hints").glob("*.json")):
        number += 1
        wanted = file.with_suffix(".hint").read_text()
        status, printed, said = tell(program, "run", given=file)
        if status != 0 or last_line(printed) != "audit clean" or said != wanted:
            yield f"the hints at {file.name}, {last_line(printed)}{told(said, wanted)}"
    return f"{number} runs"
