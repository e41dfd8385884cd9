"""`ramseg explain`: what a code, a message, an event, a rule or a word of the glossary means.

The texts stand in `explain.json` beside this file, those of the rules that `explore` counts among them. Words of the
glossary are read from its document.
"""

import json
import pathlib
from typing import NamedTuple

from .nearest import question
from .scripting import FORMS

HERE = pathlib.Path(__file__).resolve().parent
DOCUMENTS = HERE.parents[1] / "docs"
WIDTH = 80
"""How long a line gets, save where a word is longer."""

KINDS = {"codes": "code", "messages": "message", "events": "event", "rules": "rule"}
"""Each group of the data file, with the name of its member in a JSON document."""

SECTIONS = {
    "codes": {"when": "When it comes", "remedy": "What to do"},
    "messages": {"has": "What it has", "says": "What it says", "then": "What comes of it"},
    "events": {"example": "In a scenario", "says": "What happens"},
    "rules": {"keeps": "The rule", "without": "Without it", "example": "The example"},
}
"""The texts of each group below their titles, in order."""

GLOSSARY = (
    ("Word", "What it is", "Usual terms"),
    ("Number", "Of what", "Who gives it", "When it rises", "What it is held against", "Usual terms"),
)
"""The headings of the glossary's tables."""

Texts = dict[str, str | int]
"""What there is to say of one word: its name and its texts."""


class Meaning(NamedTuple):
    """What is told of a word."""

    text: str
    is_known: bool
    """Whether the word names something; else the text is an error."""


class Words:
    """All words with their texts."""

    def __init__(self) -> None:
        data = json.loads((HERE / "explain.json").read_text())
        self.groups: dict[str, list[Texts]] = {
            group: [{name: _joined(text) for name, text in texts.items()} for texts in data[group]] for group in KINDS
        }
        self.counted: dict[str, str] = {texts["name"]: texts["where"] for texts in data["counted"]}
        """The rules that `explore` counts, each with where it is reached."""

    def names(self, group: str) -> list[str]:
        """The names of a group, in order."""
        return [str(texts["name"]) for texts in self.groups[group]]

    def code(self, number: int) -> Texts | None:
        """The code of this number."""
        return next((texts for texts in self.groups["codes"] if texts["number"] == number), None)

    def find(self, word: str) -> dict[str, Texts]:
        """All that a word names, by group, with small letters or capital ones; a code also by its number."""
        found = {}
        number = _code_number(word)
        for group, listed in self.groups.items():
            for texts in listed:
                is_it = group == "codes" and texts["number"] == number
                if is_it or number is None and str(texts["name"]).lower() == word.lower():
                    found[group] = texts
        return found


def explain(word: str | None) -> Meaning:
    """What a word means, or which words there are."""
    words = Words()
    if word is None:
        return Meaning(_list(words), True)
    found = words.find(word)
    parts = [_told(group, texts) for group, texts in found.items()]
    parts = parts or [*_from_glossary(word), *_of_counted(words, word)]
    if parts:
        return Meaning("\n".join(parts), True)
    known = [name for group in KINDS for name in words.names(group)] + _glossary_names() + list(words.counted)
    asked = question(word, known)
    return Meaning(f"error: '{word}' is no code, message, event, rule or word of the glossary{asked}\n\n"
                   "`ramseg explain` lists them.\n", False)


def document(word: str | None) -> str | None:
    """The same as a JSON document, as docs/schemas/explain.json has it; None for a word that names nothing there."""
    words = Words()
    if word is None:
        short = [{name: texts[name] for name in ("number", "name", "short")} for texts in words.groups["codes"]]
        names = {group: words.names(group) for group in ("messages", "events", "rules")}
        return _json({"format": 1, "codes": short, **names})
    found = words.find(word)
    if not found:
        return None
    return _json({"format": 1, **{member: found.get(group) for group, member in KINDS.items()}})


def short_of_code(number: int) -> str | None:
    """The line that names a code, as standard error has it where a run was refused something."""
    texts = Words().code(number)
    return texts and f"refused {number}: {texts['name']}, {texts['short']}"


def _joined(text: str | int | list[str]) -> str | int:
    """A text; a long one stands in lines in the data file."""
    return " ".join(text) if isinstance(text, list) else text


def _json(value: object) -> str:
    return json.dumps(value, ensure_ascii=False, separators=(",", ":")) + "\n"


def _code_number(word: str) -> int | None:
    """The number that stands in the word by itself, or after an `F`."""
    digits = word.lstrip("Ff")
    return int(digits) if digits.isascii() and digits.isdigit() and len(digits) < 20 else None


def _told(group: str, texts: Texts) -> str:
    """What there is to say of what a word names."""
    name = texts["name"]
    heading = {
        "codes": f"F{texts.get('number')} {name}: {texts.get('short')}",
        "messages": f"{name}, a message {texts.get('way')}",
        "events": f"{name}, an event",
        "rules": f"{name}, a rule that can be broken",
    }[group]
    told = heading + "\n"
    if group == "events":
        forms = [FORMS[str(name)], *([FORMS["delete"]] if name == "write" else [])]
        told += f"\nIn a script\n  {'  or  '.join(forms)}\n"
    for member, title in SECTIONS[group].items():
        if texts[member]:
            told += f"\n{title}\n{_wrapped(str(texts[member]).split())}\n"
    if group == "rules":
        scenario = f"examples/broken/{name}.json" if texts["example"] else "FILE"
        told += f"\nTo see it\n  ./ramseg --without {name} run {scenario}\n"
    return told


def _wrapped(words: list[str]) -> str:
    """These words in lines that are set in."""
    lines = [""]
    for word in words:
        column = len(lines[-1]) + 2
        if lines[-1] and column + len(word) >= WIDTH:
            lines.append("")
        lines[-1] += f" {word}" if lines[-1] else word
    return "\n".join(f"  {line}" for line in lines)


def _list(words: Words) -> str:
    """A line for each code, and the names of the rest."""
    longest = max(len(name) for name in words.names("codes"))
    told = ""
    for texts in words.groups["codes"]:
        number = f"F{texts['number']}"
        told += f"{number:<3}  {texts['name']:<{longest}}  {texts['short']}\n"
    for group, title in (("messages", "Messages"), ("events", "Events"), ("rules", "Rules that can be broken")):
        told += f"\n{title}\n{_wrapped(words.names(group))}\n"
    told += f"\nRules that `explore` counts\n{_wrapped(list(words.counted))}\n"
    return told + (
        "\n`ramseg explain WORD` says more of one: of a code, as F18, 18 or BadEvent, of a name above, or of a\n"
        "word of docs/GLOSSARY.md, as zombie.\n"
    )


def _rows(name: str, heading: str) -> list[list[str]]:
    """The rows of the table of a document that begins with this heading; none, where the document is not there."""
    try:
        lines = (DOCUMENTS / name).read_text().splitlines()
        begin = lines.index(heading) + 2
    except (OSError, ValueError):
        return []
    rows = []
    for line in lines[begin:]:
        if not line.startswith("|"):
            break
        rows.append([cell.strip() for cell in line.strip("|").split("|")])
    return rows


def _glossary() -> list[list[str]]:
    """A row for each word of the glossary: its names, and what stands below each heading."""
    return [[row[0], *map(_below, headings[1:], row[1:])] for headings in GLOSSARY
            for row in _rows("GLOSSARY.md", f"| {' | '.join(headings)} |")]


def _below(heading: str, cell: str) -> str:
    """A text below its heading; nothing, where there is none."""
    return f"\n{heading}\n{_wrapped(cell.split())}\n" if cell else ""


def _from_glossary(word: str) -> list[str]:
    """What the glossary says of a word."""
    return [f"{names}, in the glossary\n{''.join(told)}" for names, *told in _glossary()
            if any(_is_form(word, name) for name in names.split(", "))]


def _of_counted(words: Words, word: str) -> list[str]:
    """Where a rule that `explore` counts is reached."""
    name = word.lower()
    if name not in words.counted:
        return []
    where = _wrapped(words.counted[name].split())
    return [f"{name}, a rule that `explore` counts\n\nIt is reached where\n{where}\n"]


def _is_form(word: str, name: str) -> bool:
    """Whether a word is this name of the glossary, or another form of it: `fence` is one of `fenced`."""
    word, name = word.lower(), name.lower()
    stems = {word, word.removesuffix("s"), word.removesuffix("es")}
    return name in {stem + ending for stem in stems for ending in ("", "d", "ed", "s", "es")}


def _glossary_names() -> list[str]:
    return [name for row in _glossary() for name in row[0].split(", ")]
