"""What the live page says of the rules: of each message and event its section of PROTOCOL, a law and wrong rules."""

import json
from pathlib import Path
from typing import Any

from ramseg.explaining import Words

from .markdown import html, inline, sections

TOP = Path(__file__).resolve().parents[2]
NAMED = TOP / "page" / "live" / "rules.json"


class Unknown(ValueError):
    """What `rules.json` names is not there."""


def protocol() -> dict[str, tuple[str, str]]:
    """The sections of PROTOCOL by their numbers: their headings and texts."""
    found = sections((TOP / "docs" / "PROTOCOL.md").read_text(), (2, 3))
    return {heading.split(" ")[0].rstrip("."): (heading, text) for heading, text in found.items()}


def laws() -> dict[str, str]:
    """What each law says, by its path, as the table of promises has it."""
    lines = (TOP / "docs" / "promises.tsv").read_text().splitlines()
    return {call: promise for _, promise, call, _ in (line.split("\t") for line in lines[1:])}


def book() -> dict[str, Any]:
    """The sections, laws and wrong rules that `rules.json` names, and what it names of which kind."""
    named = json.loads(NAMED.read_text())
    there, known, words = protocol(), laws(), {str(rule["name"]): rule for rule in Words().groups["rules"]}
    for kind, (section, law, wrong) in named.items():
        missing = [it for it in (section,) if it not in there] + [it for it in (law,) if it and it not in known]
        missing += [it for it in wrong if it not in words]
        if missing:
            raise Unknown(f"rules.json: {kind} names {', '.join(missing)}, and there is none")
    texts = {number: {"title": there[number][0], "text": html(there[number][1])}
             for number in dict.fromkeys(it[0] for it in named.values())}
    return {
        "of": named,
        "sections": texts,
        "laws": {law: inline(known[law]) for _, law, _ in named.values() if law},
        "wrong": {name: {part: words[name][part] for part in ("keeps", "without", "example")} for name in words},
    }
