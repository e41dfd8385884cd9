"""`run` of each scenario of examples/codes/, with the `--heap` of NAME.heap where there is one, prints NAME.report. For
each code, and for each rule by which a scenario, a trace or an event is refused, one of those that stand in examples/
is told; and of a code that no scenario can show, why."""

import re

from parts.program import ask
from parts.tree import CRATES, EXAMPLES

# what no scenario can show
WITHOUT = {
    6: "a log fills after 65,534 rolls of four deliveries or more, and a world takes 200,000 events; crates/test_rows",
    19: "a change of epoch 65,535 is not begun and nobody is told; a world takes 200,000 events; crates/test_rows",
    20: "a seat alone answers it, whose step is pending; crates/test_calls",
}

# each rule, and what standard error says where it is broken
RULES = [
    ("0: no input", "^the input is empty"),
    ("0: bytes that are not UTF-8", "the bytes are not UTF-8"),
    ("0: a text that is cut off", "^the text ends before"),
    ("0: a comma before a bracket", "a comma stands before this bracket"),
    ("0: a comma too few, or a second value", "a comma is missing before this"),
    ("0: other quotes", "JSON has texts and names in double quotes"),
    ("0: a number as JSON has none", "this number is too great, or written"),
    ("0: a number out of range", "this number is too great: numbers"),
    ("0: too deep", "127 deep"),
    ("0: no JSON", "this is no JSON from here on$"),
    ("1: no object", "the scenario has to be an object"),
    ("1: another format", '"format" is 3;'),
    ("1: factor", 'the scenario: "factor" is 6'),
    ("1: a number with a point", 'the scenario: "factor" is 2.0'),
    ("1: segment", 'the scenario: "segment" is 0'),
    ("1: events", 'the scenario: "events" is'),
    ("1: a member too few", "the scenario lacks the member"),
    ("1: a member too many", "the scenario has no member .*; its members are"),
    ("1: a member that is misspelt", "the scenario has no member .*did you mean"),
    ("1: members of format 2 in format 1", "belong to format 2"),
    ("1: factors, one of them", 'in "factors" stands'),
    ("1: factors, no list", '"factors" is 2; expected a list of at most 64'),
    ("1: factors, too many", r'"factors" is \[2.*expected a list of at most 64'),
    ("1: free", '"free" is .*expected true or false'),
    ("1: a trace that is no object", "the trace has to be an object"),
    ("1: a trace of another format", 'the trace: "format" is 2'),
    ("1: messages", 'the trace: "messages" is'),
    ("1: a trace without messages", "the trace lacks the member"),
    ("1: a member of a trace that is misspelt", "the trace has no member"),
    ("2+i: no object", "event . is .*expected an object"),
    ("2+i: no kind", 'event . lacks the member "e"'),
    ("2+i: a kind that there is not", "no kind of event; these are"),
    ("2+i: a kind that is misspelt", "no kind of event; did you mean"),
    ("2+i: a member too few", r"event . \(\w+\) lacks the member"),
    ("2+i: a member too many", r"event . \(\w+\) has no member .*; its members are"),
    ("2+i: a member that is misspelt", r"event . \(\w+\) has no member .*did you mean"),
    ("2+i: a host", '"host" is 64'),
    ("2+i: a generation 0", r'"id" is \[0,0\]'),
    ("2+i: an id", '"id" is .*expected an id'),
    ("2+i: an id of a tick", '"id" is .*or "c", the coordinator'),
    ("2+i: a table", '"table" is 4294967296'),
    ("2+i: a key", '"key" is'),
    ("2+i: a value", '"value" is'),
    ("2+i: the number of a message", '"n" is'),
    ("2+i: kept, no list", '"kept" is'),
    ("2+i: kept, no segment", r'in "kept" stands \[0,1\]'),
    ("2+i: kept, segment 0", r'in "kept" stands \[\[0,1\],0\]'),
    ("2+i: kinds, no list", '"kinds" is'),
    ("2+i: kinds, a name", 'in "kinds" stands'),
    ("2+i: hosts, no list", '"hosts" is'),
    ("2+i: hosts, one of them", 'in "hosts" stands'),
    ("2+i: a message that is no object", "message . is .*expected an object"),
    ("2+i: a message without kind", 'message . lacks the member "m"'),
    ("2+i: a kind of message that there is not", "no kind of message"),
    ("2+i: a member of a message too few", r"message . \(\w+\) lacks the member"),
    ("2+i: a segment of a message", '"seg" is'),
    ("2+i: an id of a message", r'message . \(\w+\): "to" is'),
    ("2+i: bytes of odd length", r'"entries" stands \[1,7,5,1,"6"\]'),
    ("2+i: bytes in capitals", r'"entries" stands \[1,7,5,1,"6A"\]'),
    ("2+i: rows, no list", '"rows" is'),
    ("2+i: rows, one of them", 'in "rows" stands'),
    ("event: a message that was not sent, of none", "none was until then"),
    ("event: a message that was not sent, of one", "only message 0 was until then"),
    ("event: a message that was not sent", "were until then"),
    ("event: a host that runs starts", "runs already"),
    ("event: a host that was never started", "has never been started"),
    ("event: a server that was stopped", "which event . stopped$"),
    ("event: another server of the host runs", r"does not run: host . runs as"),
    ("event: event 200,000", "a world takes no more"),
]


def differences(program):
    """The reports of examples/codes that differ."""
    for scenario in sorted((EXAMPLES / "codes").glob("*.json")):
        heap = scenario.with_suffix(".heap")
        words = ["--heap", heap.read_text().strip()] if heap.exists() else []
        status, printed, _ = ask(program, "run", *words, given=scenario)
        report = scenario.with_suffix(".report").read_text()
        if printed != report or status != (3 if report.splitlines()[-1].startswith("stopped F1 ") else 0):
            yield f"{scenario.name}, status {status}"


def example_of(code):
    """A file of examples/ that shows this code."""
    where = [*EXAMPLES.glob("*.report"), *EXAMPLES.glob("codes/*.report")]
    shown = re.compile(rf"^refused {code} from |^(error|stopped) F{code} at ", re.M)
    return next((file for file in sorted(where) if shown.search(file.read_text())), None)


def check(program):
    yield from differences(program)
    codes = len(re.findall(r"^    \w+ = \d+,$", (CRATES / "rc_types/src/faults.rt").read_text(), re.M))
    for code in range(1, codes + 1):
        found = example_of(code)
        if found is None and code not in WITHOUT:
            yield f"F{code}: no example"
        else:
            print(f"F{code}: {found.relative_to(EXAMPLES) if found else WITHOUT[code]}")
    texts = {file: file.read_text() for file in sorted((EXAMPLES / "wrong").glob("*.error"))}
    for rule, said in RULES:
        found = next((file for file, text in texts.items() if re.search(said, text, re.M)), None)
        if found is None:
            yield f"{rule}: no example"
        else:
            print(f"{rule}: {found.stem}")
    print("0: more than 16,777,216 bytes: no file here, for its size; crates/test_rows has it")
    return f"{codes} codes, of which {len(WITHOUT)} can not be shown"
