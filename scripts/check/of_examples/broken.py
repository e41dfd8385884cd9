"""examples/broken/ has runs of programs in which a rule is broken. RULE.json is a scenario; RULE.report, RULE.trace and
RULE.html are what `./ramseg --without RULE` tells of it by `run`, `trace` and `picture`, and RULE.audit is what `audit`
finds in that trace. These files are there and name their rule. The program, in which no rule is broken, runs each
scenario with a clean audit, and finds the breach of RULE.audit in each trace. The rules of wrong/code/, and these
examples, are those that `explain` knows. With --build each RULE that is named, or all, is broken in a program, and what
that tells compared; with --write it is written."""

import json
import subprocess

from parts.program import ask
from parts.tree import EXAMPLES, TOP

FOLDER = EXAMPLES / "broken"
TOLD = (("run", "report"), ("trace", "trace"), ("picture", "html"))


def built(rule, program, writes):
    """What a program without the rule tells otherwise than its files; or writes these."""
    for command, ending in TOLD:
        words = [TOP / "ramseg", "--without", rule, command, FOLDER / f"{rule}.json"]
        run = subprocess.run(words, capture_output=True, check=False)
        file = FOLDER / f"{rule}.{ending}"
        if not run.stdout:
            yield f"{rule}: {command} tells nothing: {run.stderr.decode(errors='replace')}"
        elif writes:
            file.write_bytes(run.stdout)
        elif file.read_bytes() != run.stdout:
            yield file.name
    if writes:
        (FOLDER / f"{rule}.audit").write_text(ask(program, "audit", given=FOLDER / f"{rule}.trace").printed)


def lines_of(text, begin):
    return [line for line in text.splitlines() if line.startswith(begin)]


def differences(rule, program):
    """What is wrong with the files of a rule."""
    report, judged, page = ((FOLDER / f"{rule}.{it}").read_text() for it in ("report", "audit", "html"))
    if not (TOP / f"wrong/code/{rule}.edit").exists():
        yield f"{rule}: there is no wrong/code/{rule}.edit"
    if not report.startswith(f"without {rule}\n"):
        yield f"{rule}.report does not name the rule"
    breach = lines_of(judged, "audit breach ")
    if not breach or lines_of(report, "audit ") != breach:
        yield f"{rule}.report has another breach than {rule}.audit"
    if f"<title>Without {rule}: " not in page:
        yield f"{rule}.html does not name the rule"
    printed = ask(program, "run", given=FOLDER / f"{rule}.json").printed
    if not printed.endswith("\naudit clean\n"):
        yield f"{rule}.json, with the rule: {printed.splitlines()[-1:]}"
    status, printed, _ = ask(program, "audit", given=FOLDER / f"{rule}.trace")
    if status != 1 or printed != judged:
        yield f"{rule}.audit: {printed}"


def names(paths):
    return {it.stem for it in paths}


def check(program, words=(), builds=False, writes=False):
    rules = words or sorted(names(FOLDER.glob("*.json")))
    for rule in rules:
        if builds or writes:
            yield from built(rule, program, writes)
        yield from differences(rule, program)
    known = json.loads((TOP / "tools/ramseg/explain.json").read_text())["rules"]
    for rule in sorted(names((TOP / "wrong/code").glob("*.edit")) ^ {rule["name"] for rule in known}):
        yield f"{rule}: one of wrong/code and `explain` does not know it"
    for rule in sorted(names(FOLDER.glob("*.json")) ^ {rule["name"] for rule in known if rule["example"]}):
        yield f"{rule}: one of examples/broken and `explain` has no example of it"
    return f"{len(rules)} rules"
