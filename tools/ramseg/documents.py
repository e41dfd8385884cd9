"""What a command tells, as one JSON document (docs/FORMATS.md, section 18).

The program tells a run in records, one a line: a word, perhaps names, and pairs of a name and a value. Section 5 of
docs/FORMATS.md has those of a report, which is proved to be of just this form, section 12 those of `explore`. A record
is taken apart by the table of its kind, and written under the names that it has.
"""

from __future__ import annotations

import json
from collections.abc import Callable, Iterable
from typing import Any

from .program import Unexpected

Value = Any
"""A value of JSON."""

Members = dict[str, Value]

FIRST = {"ack": ("id",), "own": ("id",), "read": ("id",), "plan": ("attempt",), "refused": ("code",), "split": ()}
"""The records of a report that are made of one message, with what each has before its pairs."""


def document(command: str, options: list[str], text: str) -> str:
    """The document of what this command told with these options. It is empty where nothing was told."""
    lines = text.splitlines()
    if not lines:
        return ""
    value: Members = {"format": 1, **_writer(command, options)(lines)}
    return json.dumps(value, ensure_ascii=False, separators=(",", ":")) + "\n"


def _writer(command: str, options: list[str]) -> Callable[[list[str]], Members]:
    """What makes the members of a command's document."""
    if command in ("run", "fuzz"):
        return _report
    if command == "explore" and not _has(options, "--until"):
        return _survey if _has(options, "--seeds") else _exploration
    return _all_members


def _has(options: list[str], name: str) -> bool:
    return any(word == name or word.startswith(f"{name}=") for word in options)


def _report(lines: list[str]) -> Members:
    """A report: its lines of messages, its counts, what the audit found, and where the run stopped."""
    told, rest = [], []
    for line in lines:
        (told if _is_of_message(line) else rest).append(line)
    return {"lines": [_line(line) for line in told], **_all_members(rest), "stopped": _stopped(rest)}


def _exploration(lines: list[str]) -> Members:
    """A run that was drawn so that much happens: its report, and what it has reached."""
    begin = next((at for at, line in enumerate(lines) if line.startswith("drawn ")), len(lines))
    return {"report": _report(lines[:begin]), **_all_members(lines[begin:])}


def _survey(lines: list[str]) -> Members:
    """Several such runs: a line of each, and what they have reached together."""
    seeds, rest = [], []
    for line in lines:
        (seeds if line.startswith("seed ") else rest).append(line)
    return {"seeds": [_seed(line) for line in seeds], **_all_members(rest)}


def _is_of_message(line: str) -> bool:
    """Whether a line of a report is made of one message, and not a count, the audit's or the last."""
    kind, *words = line.split(" ")
    return kind in FIRST and (kind != "refused" or len(words) > 1)


def _line(line: str) -> Members:
    """A line of a report that is made of one message."""
    kind, *words = line.split(" ")
    first = FIRST[kind]
    told: Members = {"line": kind, **dict(zip(first, map(value_of, words)))}
    words = words[len(first):]
    rows = words.index("rows") if "rows" in words else len(words)
    told |= _pairs(words[:rows])
    if rows < len(words):
        told["rows"] = [_row(row) for row in words[rows + 1:] if row]
    return told


def _row(word: str) -> Members:
    """A row of a plan: a segment, who has it, and how long it is."""
    parts = word.split(":")
    if len(parts) != 3:
        raise Unexpected(f"this is no row of a plan: {word}")
    return dict(zip(("seg", "holder", "length"), map(value_of, parts)))


def _all_members(lines: Iterable[str]) -> Members:
    """What follows the lines of a report, and what stands in each other text: a line of it as a member."""
    told: Members = {}
    for line in lines:
        kind, *words = line.split(" ")
        if kind != "stopped":
            told |= SPECIAL[kind](words) if kind in SPECIAL else {kind: _counts(words)}
    return told


def _audit(words: list[str]) -> Members:
    """What an audit found: `clean`, or the breach with what it names. Of two writes the first comes with `term` and
    `version`, the later one with `later-term` and `later-version`."""
    if words[0] != "breach":
        return {"audit": value_of(words[0])}
    told: Members = {"breach": value_of(words[1])}
    before = ""
    for name, word in _taking_turns(words[2:]):
        told[before + name] = value_of(word)
        before = "later-" if name == "version" else before
    return {"audit": told}


def _drawn(words: list[str]) -> Members:
    """What was drawn with."""
    free = words[-1] == "free"
    return {"drawn": {"free": free, **_pairs(words[:-1] if free else words)}}


def _until(words: list[str]) -> Members:
    """What was looked for, and what has reached it."""
    return {"until": value_of(words[0]), **_pairs(words[1:])}


def _names(kind: str) -> Callable[[list[str]], Members]:
    return lambda words: {kind: [word for word in words if word]}


SPECIAL: dict[str, Callable[[list[str]], Members]] = {
    "audit": _audit, "drawn": _drawn, "until": _until, "unreached": _names("unreached"),
    "unreached-rules": _names("unreached-rules"),
}
"""The records that are no counts."""


def _stopped(lines: list[str]) -> Members | None:
    """Where a run stopped, of its line `stopped CODE at event N`, if it has one."""
    for line in lines:
        kind, *words = line.split(" ")
        if kind == "stopped" and len(words) == 4:
            return {"code": words[0], "event": value_of(words[3])}
    return None


def _seed(line: str) -> Members:
    """The line of a seed."""
    _, seed, *words = line.split(" ")
    return {"seed": value_of(seed), **_pairs(words[:-1]), "audit": words[-1]}


def _counts(words: list[str]) -> Value:
    """A count, or counts by name."""
    return value_of(words[0]) if len(words) == 1 else _pairs(words)


def _pairs(words: list[str]) -> Members:
    """Names and values that take turns."""
    return {name: value_of(word) for name, word in _taking_turns(words)}


def _taking_turns(words: list[str]) -> list[tuple[str, str]]:
    if len(words) % 2:
        raise Unexpected(f"these are no names with their values: {' '.join(words)}")
    return list(zip(words[::2], words[1::2]))


def value_of(word: str) -> Value:
    """A number, where it is digits alone; the digits before a stroke; a range of seeds as two numbers; or a text."""
    if word.isascii() and word.isdigit():
        return int(word)
    count, stroke, _ = word.partition("/")
    if stroke and count.isdigit():
        return int(count)
    first, points, last = word.partition("..")
    if points and first.isdigit() and last.isdigit():
        return [int(first), int(last)]
    return word
