"""`run` of NAME.json prints NAME.report, `audit` of NAME.trace NAME.audit, and `trace` and `history` of NAME.json
NAME.trace and NAME.history, where there are both, with the status of the last lines: 2 for `error` and `stopped`, 1 for
a breach, else 0. NAME.txt is a script, of which `script` makes NAME.json. What is a row of crates/test_rows, which the
gate runs, is compared with that row's answer."""

import json

from parts.program import ask, tell
from parts.rows import command_lines
from parts.tree import EXAMPLES


def answers():
    """What each row answers, by its command line and its input."""
    found = {}
    for row, answer in zip(command_lines("stdin"), command_lines("stdout"), strict=True):
        head, _, body = row.partition("\n\n")
        words = [line.removeprefix("args: ") for line in head.split("\n")[1:]]
        if len(words) == 1:
            found[words[0], body.rstrip("\n")] = answer.partition("\n")[2]
    return found


def wanted():
    """The command, the input and the output of each example."""
    for report in sorted(EXAMPLES.glob("*.report")):
        yield "run", report.with_suffix(".json"), report
    for judged in sorted(EXAMPLES.glob("*.audit")):
        trace = judged.with_suffix(".trace")
        yield "audit", trace, judged
        if trace.with_suffix(".json").exists():
            yield "trace", trace.with_suffix(".json"), trace
    for history in sorted(EXAMPLES.glob("*.history")):
        yield "history", history.with_suffix(".json"), history


def status_of(text):
    """The status that belongs to this report or judgement."""
    lines = text.split("\n")
    if any(line.startswith(("error", "stopped")) for line in lines):
        return 2
    return int(any(line.startswith("audit breach") for line in lines))


def check(program):
    rows, runs, compared = answers(), 0, 0
    for command, given, output in wanted():
        text = output.read_text()
        status = status_of(text)
        whole = f"status {status}\n{text}"
        row = rows.get((command, given.read_text().rstrip("\n")))
        if row is not None:
            compared += 1
            same = row.rstrip("\n") == whole.rstrip("\n") or row.startswith(whole + "\n")
        else:
            runs += 1
            same = ask(program, command, given=given)[:2] == (status, text)
        if not same:
            yield f"{command} of {given.name} from {output.name}, with status {status}"
    for script in sorted(EXAMPLES.glob("*.txt")):
        runs += 1
        made = tell(program, "script", script)
        if made.status != 0 or json.loads(made.printed) != json.loads(script.with_suffix(".json").read_text()):
            yield f"script of {script.name}; {made.said}"
    return f"{compared} compared with rows, {runs} runs"
