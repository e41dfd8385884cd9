"""Pieces of a JSON text, with the places where they stand. The text is right as JSON."""

from __future__ import annotations

import json
import re
from collections.abc import Iterator
from json.decoder import scanstring
from typing import NamedTuple

GAP = re.compile(r"[ \t\n\r]*")
"""What JSON takes for blanks."""

SKIPPING = json.JSONDecoder(parse_int=str, parse_float=str, object_pairs_hook=lambda pairs: None)
"""Tells where a value ends; what it says is let go of."""

MOST_MEMBERS = 1_000
"""How many members of one object are looked at."""

SHOWN = 40
"""How many characters of a value are shown."""


class Piece(NamedTuple):
    """A piece of a text: its first character, and the one past its last."""

    begin: int
    end: int

    def of(self, text: str) -> str:
        """Its characters."""
        return text[self.begin:self.end]

    def unquoted(self, text: str) -> str | None:
        """What stands between the quotes, if it is a text."""
        return text[self.begin + 1:self.end - 1] if text[self.begin] == '"' else None

    def shown(self, text: str) -> str:
        """The front of it, with a blank for each control character."""
        front = text[self.begin:min(self.end, self.begin + SHOWN)]
        letters = "".join(" " if ord(it) < 32 or 127 <= ord(it) < 160 else it for it in front)
        return letters + (".." if self.end - self.begin > SHOWN else "")


class Member(NamedTuple):
    """A member of an object: its name, between the quotes, and its value."""

    name: Piece
    value: Piece


def whole(text: str) -> Piece:
    """The value that a text is."""
    begin = _past_gap(text, 0)
    return Piece(begin, _end_of_value(text, begin))


def items(text: str, of: Piece) -> Iterator[Piece]:
    """The items of a list."""
    at = _past_gap(text, of.begin + 1)
    while text[at] != "]":
        end = _end_of_value(text, at)
        yield Piece(at, end)
        at = _past_comma(text, end)


def item(text: str, of: Piece, number: int) -> Piece | None:
    """The item of this number of a list."""
    return next((it for at, it in enumerate(items(text, of)) if at == number), None)


def members(text: str, of: Piece) -> Iterator[Member]:
    """The members of an object, up to far more than one has that is right."""
    at, left = _past_gap(text, of.begin + 1), MOST_MEMBERS
    while text[at] != "}" and left > 0:
        left -= 1
        _, end = scanstring(text, at + 1)
        begin = _past_gap(text, _past_gap(text, end) + 1)
        value = Piece(begin, _end_of_value(text, begin))
        yield Member(Piece(at + 1, end - 1), value)
        at = _past_comma(text, value.end)


def by_name(text: str, of: Piece) -> dict[str, Member]:
    """The members of an object by their names, as they are spelt. Of those with one name the last one counts."""
    return {member.name.of(text): member for member in members(text, of)}


def place(text: str, at: int) -> str:
    """The line and the column of a character, both from 1."""
    return f"line {text.count(chr(10), 0, at) + 1}, column {at - text.rfind(chr(10), 0, at)}: "


def _past_gap(text: str, at: int) -> int:
    return GAP.match(text, at).end()


def _past_comma(text: str, at: int) -> int:
    """Where the next item begins, or the list ends."""
    at = _past_gap(text, at)
    return _past_gap(text, at + 1) if text[at] == "," else at


def _end_of_value(text: str, at: int) -> int:
    return SKIPPING.raw_decode(text, at)[1]
