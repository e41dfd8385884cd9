"""Scripts: scenarios with one event a line, and names in place of the numbers of messages.

docs/FORMATS.md, section 17, says how a script is written, and `ramseg script --help` each form of a line. The program
tells which messages wait. Each command that reads a scenario takes a script, too; `ramseg script` writes the scenario to
standard output. What is wrong goes to standard error, with the line, and the status is 2; 4 where the file can't be read.
"""

from __future__ import annotations

import json
import re
import shlex
from typing import Any, NamedTuple

from . import stories
from .nearest import nearest, question
from .program import Program, ask
from .streams import say, write

USAGE = "usage: ./ramseg script [FILE]   makes a scenario of a script; docs/FORMATS.md, section 17"

Event = dict[str, Any]

FORMS = {
    "factor": "factor N", "factors": "factors N ..", "segment": "segment N", "free": "free",
    "start": "start HOST  or  start HOST..HOST  or  start HOST keeping ID/SEGMENT ..", "stop": "stop ID",
    "suspect": "suspect ID", "decide": "decide ID", "tick": "tick ID  or  tick c",
    "create": "create TABLE at ID", "split": "split TABLE/KEY", "read": "read ID TABLE/KEY",
    "write": 'write ID TABLE/KEY "VALUE"', "delete": "delete ID TABLE/KEY",
    "deliver": "deliver NUMBER  or  deliver KIND FROM -> TO [WORD ..]",
    "settle": "settle [without KIND ..] [without host HOST ..]",
}


LOOKED_AT = 65_536
"""How many bytes of a text are looked at to say whether it is a script."""


class Wrong(ValueError):
    """What is wrong with a line."""


class Made(NamedTuple):
    """The scenario of a script, and in which lines its parts stand, from 1."""

    text: bytes
    lines: list[int]
    """Of each event."""
    settings: dict[str, int]
    """Of each setting that is given."""

    def placed(self, reason: str, event: int | None) -> str:
        """A reason that names a place of the scenario, with the line of the script in place of that: that of this event,
        or of the setting that the reason names."""
        named = re.search(r'"(\w+)"', reason)
        line = self.lines[event] if event is not None else self.settings.get(named[1] if named else "", 1)
        begun = re.sub(r"^line \d+, column \d+: (?:event \d+ \((\w+)\))?", rf"line {line}: \1", reason, count=1)
        return re.sub(r"\bevent (\d+)\b", lambda other: f"line {self.lines[int(other[1])]}", begun)


def looks_so(text: bytes) -> bool:
    """Whether a text is a script, and no JSON: its first word is one of a script, or nearly one."""
    has_remark = False
    for line in text[:LOOKED_AT].decode(errors="replace").splitlines():
        words = line.partition("#")[0].split()
        if words:
            return words[0] in FORMS or words[0].isalpha() and nearest(words[0], FORMS) is not None
        has_remark |= "#" in line
    return has_remark


def number(word: str) -> int:
    """The number that a word is."""
    if not re.fullmatch(r"[0-9]+", word):
        raise Wrong(f"'{word}' is no number")
    return int(word)


def server(word: str) -> list[int]:
    """The server that a word names."""
    found = re.fullmatch(r"([0-9]+)\.([0-9]+)", word)
    if not found:
        raise Wrong(f"'{word}' is no id, as 0.1, host 0 at its first start")
    return [int(found[1]), int(found[2])]


def point(word: str) -> tuple[int, int]:
    """The table and the key that a word names."""
    found = re.fullmatch(r"([0-9]+)/([0-9]+)", word)
    if not found:
        raise Wrong(f"'{word}' is no table and key, as 7/5")
    return int(found[1]), int(found[2])


def kept(word: str) -> list[Any]:
    """The open replica that a word names."""
    name, slash, segment = word.partition("/")
    if not slash:
        raise Wrong(f"'{word}' is no open replica, as 0.1/1, segment 1 of 0.1")
    return [server(name), number(segment)]


class Script:
    """The scenario so far."""

    def __init__(self, program: Program) -> None:
        self.program = program
        self.events: list[Event] = []
        self.lines: list[int] = []
        self.settings: dict[str, int] = {}
        self.factor, self.segment, self.free = 2, 8, False
        self.factors: list[int] = []

    def scenario(self) -> dict[str, Any]:
        """It as a value."""
        if self.factors or self.free:
            top = {"format": 2, "factor": self.factor, "factors": self.factors, "free": self.free}
        else:
            top = {"format": 1, "factor": self.factor}
        return {**top, "segment": self.segment, "events": self.events}

    def waiting(self) -> list[tuple[int, stories.Message]]:
        """The messages of the events so far that were not delivered, with their numbers."""
        answer = ask(self.program.path, ["log", "--json"], json.dumps(self.scenario()).encode())
        if not answer.told.startswith(b"{") or answer.status not in (0, 1):
            answered = answer.said or (b"" if answer.told.startswith(b"{") else answer.told)
            said = answered.decode(errors="replace").strip().split("\n")[0]
            raise Wrong(f"what stands above can't be played: {said or 'its last event is not possible'}")
        story = stories.read(answer.told)
        delivered = {event["n"] for event in story["events"] if event["e"] == "deliver"}
        messages = enumerate(story["messages"])
        return [(at, it) for at, it in messages if at not in delivered and it["to"] != "out"]

    def found(self, words: list[str]) -> int:
        """The number of the message that these words name."""
        if len(words) < 4 or words[2] != "->":
            raise Wrong(f"write: {FORMS['deliver']}")
        kind, sender, _, to, *more = words
        waiting = self.waiting()
        named = [it for it in waiting if (it[1]["kind"], it[1]["from"], it[1]["to"]) == (kind, sender, to)]
        chosen = [it for it in named if _has_words(it[1], more)]
        if len(chosen) == 1:
            return chosen[0][0]
        shown = chosen or named or [it for it in waiting if it[1]["kind"] == kind] or waiting
        there = "\n".join(f"    {stories.message_text(at, message)}" for at, message in shown)
        if chosen:
            raise Wrong(f"{len(chosen)} messages are so; name one by its number, or by words of it:\n{there}")
        asked = f"{kind} {sender} -> {to}" + (f" with '{' '.join(more)}'" if more else "")
        raise Wrong(f"no {asked} waits; " + (f"these do:\n{there}" if shown else "no message does"))

    def settle(self, words: list[str]) -> Event:
        """A settle, perhaps without kinds and hosts."""
        kinds: list[str] = []
        hosts: list[int] = []
        for part in " ".join(words).split("without ")[1:]:
            names = part.replace(",", " ").split()
            if names[:1] in (["host"], ["hosts"]):
                hosts += [number(name) for name in names[1:]]
            else:
                kinds += names
        if words and words[0] != "without":
            raise Wrong(f"write: {FORMS['settle']}")
        return {"e": "settle", **({"kinds": kinds} if kinds else {}), **({"hosts": hosts} if hosts else {})}

    def start(self, words: list[str]) -> list[Event]:
        """The starts of a line."""
        first, _, last = words[0].partition("..")
        if len(words) > 2 and words[1] == "keeping":
            return [{"e": "start", "host": number(first), "kept": [kept(it.strip(",")) for it in words[2:]]}]
        if len(words) > 1:
            raise Wrong(f"write: {FORMS['start']}")
        return [{"e": "start", "host": host} for host in range(number(first), number(last or first) + 1)]

    def set_up(self, name: str, words: list[str]) -> bool:
        """Takes a line that says how the world is made, and gives whether it was one."""
        match name, words:
            case ("factor", [count]):
                self.factor = number(count)
            case ("segment", [count]):
                self.segment = number(count)
            case ("factors", [_, *_]):
                self.factors = [number(word) for word in words]
            case ("free", []):
                self.free = True
            case _:
                return False
        if self.events:
            raise Wrong(f"'{name}' stands before the first event")
        return True

    def events_of(self, name: str, words: list[str]) -> list[Event]:
        """The events of a line."""
        match name, words:
            case ("start", [_, *_]):
                return self.start(words)
            case ("stop" | "suspect" | "decide", [one]):
                return [{"e": name, "id": server(one)}]
            case ("tick", [one]):
                return [{"e": "tick", "id": "c" if one == "c" else server(one)}]
            case ("create", [table, "at", one]):
                return [{"e": "create", "table": number(table), "owner": server(one)}]
            case ("split", [place]):
                table, key = point(place)
                return [{"e": "split", "table": table, "at": key}]
            case ("read", [one, place]):
                table, key = point(place)
                return [{"e": "read", "to": server(one), "table": table, "key": key}]
            case ("write", [one, place, value]) | ("delete" as value, [one, place]):
                table, key = point(place)
                written = None if name == "delete" else value
                return [{"e": "write", "to": server(one), "table": table, "key": key, "value": written}]
            case ("deliver", [one]):
                return [{"e": "deliver", "n": number(one)}]
            case ("deliver", _):
                return [{"e": "deliver", "n": self.found(words)}]
            case ("settle", _):
                return [self.settle(words)]
        near = question(name, FORMS)
        raise Wrong(f"write: {FORMS[name]}" if name in FORMS else f"'{name}' is none of: {', '.join(FORMS)}{near}")

    def take_line(self, line: str, number: int) -> None:
        """Takes the line of this number."""
        try:
            words = shlex.split(line, comments=True)
        except ValueError:
            raise Wrong("a quotation mark is missing: each is closed in its line") from None
        if words and self.set_up(words[0], words[1:]):
            self.settings[words[0]] = number
        elif words:
            events = self.events_of(words[0], words[1:])
            self.events += events
            self.lines += [number] * len(events)


def _has_words(message: stories.Message, words: list[str]) -> bool:
    """Whether these words stand in what a message says."""
    return not words or f" {' '.join(words)} " in f" {stories.fields_text(message)} ".replace('"', "")


def made(program: Program, text: bytes) -> Made:
    """The scenario of a script. Where it is wrong, a Wrong names the line."""
    try:
        lines = text.decode().splitlines()
    except UnicodeDecodeError as error:
        raise Wrong(f"line {text[:error.start].count(10) + 1}: it is no text of UTF-8") from None
    script = Script(program)
    for count, line in enumerate(lines, 1):
        try:
            script.take_line(line, count)
        except Wrong as wrong:
            raise Wrong(f"line {count}: {wrong}") from None
    scenario = json.dumps(script.scenario(), ensure_ascii=False, separators=(",", ":")) + "\n"
    return Made(scenario.encode(errors="surrogateescape"), script.lines, script.settings)


def script(program: Program, words: list[str], is_closed: bool) -> int:
    """Writes the scenario of a script, and gives the status."""
    from .files import Unread, read

    names = words or ["-"]
    if {"-h", "--help"} & {*names}:
        lines = [USAGE, "", *(f"  {form}" for form in FORMS.values()), "",
                 "What follows # is passed over. `run`, `log`, `picture`, `test` and the like take a script, too."]
        return 0 if write("".join(f"{line}\n" for line in lines).encode()) else 4
    if names[0] != "-" and names[0].startswith("-") or len(names) > 1:
        say(f"ramseg: script takes one file, and no option; {USAGE}\n")
        return 2
    try:
        text = read(names[0], is_closed)
    except Unread as why:
        say(f"ramseg: {names[0]}: {why}\n")
        return 4
    try:
        return 0 if write(made(program, text).text) else 4
    except Wrong as wrong:
        say(f"{wrong}\n")
        return 2
