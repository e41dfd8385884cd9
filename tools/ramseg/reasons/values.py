"""What a member has to be, and where a value is something else."""

from __future__ import annotations

import re
from collections.abc import Callable
from dataclasses import dataclass, field
from typing import NamedTuple

from .dialects import MESSAGES
from .pieces import Piece, item, items

MAX_HOSTS = 64


@dataclass(frozen=True)
class Want:
    """What a value has to be."""

    words: str
    """What it is called."""
    is_right: Callable[[str], bool] = lambda spelt: True
    """Whether a value without parts is right, as it is spelt."""
    parts: tuple[Want, ...] = field(default=())
    """What the parts of a list of fixed length have to be."""
    each: Want | None = None
    """What each item of a list of any length has to be."""
    most: int | None = None
    """How many items that list may have."""
    instead: str | None = None
    """What may stand in its place, as it is spelt."""
    is_list: bool = False
    """Whether it has to be a list of anything."""


class Wrong(NamedTuple):
    """A value that is not what it has to be."""

    at: int
    """Where the part of it begins that is wrong."""
    shown: Piece
    """The value, or the item of it that is wrong."""
    want: Want
    """What that has to be."""


def whole_number(least: int, most: int) -> Want:
    """A whole number of this range, written with digits alone."""
    words = str(least) if least == most else f"a whole number from {least} to {most}"

    def is_right(spelt: str) -> bool:
        return spelt.isascii() and spelt.isdigit() and len(spelt) < 21 and least <= int(spelt) <= most

    return Want(words, is_right)


def is_quoted(spelt: str) -> bool:
    """Whether it is a text between quotation marks."""
    return len(spelt) > 1 and spelt[0] == spelt[-1] == '"'


def is_hex(spelt: str) -> bool:
    """Whether it is bytes as a trace spells them."""
    return spelt == "null" or is_quoted(spelt) and re.fullmatch("([0-9a-f]{2})*", spelt[1:-1]) is not None


WORD = whole_number(0, 2**32 - 1)
LONG = whole_number(0, 2**64 - 1)
HOST = Want("a host, a whole number from 0 to 63", whole_number(0, MAX_HOSTS - 1).is_right)
ID_PARTS = (HOST, whole_number(1, 2**32 - 1))
ID = Want("an id [host, generation], as [0,1]: host 0 to 63, generation from 1", parts=ID_PARTS)
ADDRESS = Want('an id [host, generation], as [0,1], or "c", the coordinator', parts=ID_PARTS, instead='"c"')
HEX = Want("bytes as pairs of 0 to 9 and a to f, or null", is_hex)
NAME = Want('the name of a message, as "Ready"', lambda spelt: is_quoted(spelt) and spelt[1:-1] in MESSAGES)
REPLICA = Want("[id, segment], as [[0,1],1], segment 1 to 65535", parts=(ID, whole_number(1, 65535)))
ROW = Want("[segment, id, length], as [1,[2,1],1]", parts=(whole_number(0, 65535), ID, WORD))
ENTRY = Want(
    '[term, table, key, version, value], as [1,7,5,1,"61"], the value as pairs of 0 to 9 and a to f, or null',
    parts=(WORD, WORD, LONG, LONG, HEX),
)
FACTOR = whole_number(1, 5)
LIST = Want("a list", is_list=True)

WANTS = {
    "host": HOST, "id": ID, "to": ID, "owner": ID, "from": ID, "of": ID,
    "value": Want("a text, or null, which deletes", lambda spelt: spelt == "null" or spelt.startswith('"')),
    "free": Want("true or false", lambda spelt: spelt in ("true", "false")),
    "kept": Want("a list of [id, segment], as [[[0,1],1]]", each=REPLICA),
    "kinds": Want('a list of names of messages, as ["Ready"]', each=NAME),
    "hosts": Want("a list of hosts, as [0,2]", each=HOST),
    "factors": Want("a list of at most 64 numbers from 1 to 5", each=FACTOR, most=MAX_HOSTS),
    "rows": Want("a list of [segment, id, length], as [[1,[2,1],1]]", each=ROW),
    "entries": Want("a list of [term, table, key, version, value]", each=ENTRY),
    "events": LIST, "messages": LIST, "factor": FACTOR, "segment": whole_number(1, 1024), "seg": whole_number(0, 65535),
    "key": LONG, "at": LONG, "lo": LONG, "hi": LONG, "version": LONG,
}


def want_of(kind: str, member: str) -> Want:
    """What a member has to be in an item of this kind; or in the whole, whose kind is the name of its list."""
    if member == "format":
        return whole_number(1, 2 if kind == "events" else 1)
    if (kind, member) == ("tick", "id"):
        return ADDRESS
    return WANTS.get(member, WORD)


def wrong_in(text: str, shown: Piece, want: Want) -> Wrong | None:
    """What is wrong with a value, if it isn't what it has to be."""
    if want.each is None:
        at = _wrong_at(text, shown, want)
        return None if at is None else Wrong(at, shown, want)
    if text[shown.begin] != "[":
        return Wrong(shown.begin, shown, want)
    count = 0
    for part in items(text, shown):
        at = _wrong_at(text, part, want.each)
        if at is not None:
            return Wrong(at, part, want.each)
        count += 1
    return Wrong(shown.begin, shown, want) if want.most is not None and count > want.most else None


def _wrong_at(text: str, value: Piece, want: Want) -> int | None:
    """Where a value is wrong that is to be no list of any length, if it is."""
    spelt = value.of(text)
    if want.instead == spelt:
        return None
    if want.is_list:
        return None if spelt.startswith("[") else value.begin
    if not want.parts:
        return None if want.is_right(spelt) else value.begin
    if not spelt.startswith("[") or item(text, value, len(want.parts)) is not None:
        return value.begin
    for number, part in enumerate(want.parts):
        found = item(text, value, number)
        at = value.begin if found is None else _wrong_at(text, found, part)
        if at is not None:
            return at
    return None
