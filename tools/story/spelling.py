"""Events and messages in words, a line for each. Where `whole` is not wanted, of long lists just the first are told, and
how many more there are."""

import re
from collections.abc import Callable
from functools import lru_cache
from typing import Any

from .reading import Event, Message, name_of

MOST_ENTRIES = 4
"""How many entries of a message are told one by one."""
MOST_ROWS = 64
"""How many rows of a list, of an answer and of a plan, how many parts and how many kept names are told one by one."""
MOST_SEGMENTS = 16
"""How many segments of a digest are told one by one."""
MOST_BYTES = 32
"""How many bytes of a value are told."""

PLAIN = re.compile(rb'[ !#-\[\]-~]*')
"""Letters that can stand between quotation marks."""


def counted(count: int, one: str, many: str) -> str:
    """So many of them."""
    return f"{count} {one if count == 1 else many}"


def first_of(items: list[Any], most: int, whole: bool, between: str, tell: Callable[[Any], str]) -> str:
    """The first of a list, and how many more there are."""
    if whole or len(items) <= most:
        return between.join(map(tell, items))
    return between.join(map(tell, items[:most])) + f" and {len(items) - most} more"


@lru_cache(maxsize=4096)
def value_text(value: str | None, whole: bool) -> str:
    """A value, given in hexadecimal digits: as text, where it is short and of plain letters; or a deletion."""
    if value is None:
        return " no value"
    letters = bytes.fromhex(value)
    if (whole or len(letters) <= MOST_BYTES) and PLAIN.fullmatch(letters):
        return f' "{letters.decode()}"'
    told = value if whole else value[:2 * MOST_BYTES]
    return f" {counted(len(letters), 'byte', 'bytes')} 0x{told}{'..' if len(told) < len(value) else ''}"


def key_text(fields: dict[str, Any]) -> str:
    """A key of a table."""
    return f"table {fields['table']} key {fields['key']}"


def entries_text(entries: list[dict[str, Any]], whole: bool) -> str:
    """How many entries there are, and what the first of them are."""
    told = entries if whole else entries[:MOST_ENTRIES]
    texts = [f"term {entry['term']} {key_text(entry)} version {entry['version']}{value_text(entry['value'], whole)}"
             for entry in told]
    if len(told) < len(entries):
        texts.append("..")
    return counted(len(entries), "entry", "entries") + (": " + "; ".join(texts) if texts else "")


def digest_text(digest: list[int], whole: bool) -> str:
    """The segments of a digest."""
    return " digest" + first_of(digest, MOST_SEGMENTS, whole, "", lambda seg: f" {seg}")


def replica_text(fields: dict[str, Any]) -> str:
    """How a replica stands."""
    state = "closed" if fields["closed"] else "open"
    return f"seg {fields['seg']} epoch {fields['epoch']} length {fields['len']} {state}"


def range_text(fields: dict[str, Any], term: int) -> str:
    """A range of keys, and the term of an ownership of it."""
    return f"table {fields['table']} keys {fields['lo']}..{fields['hi']} term {term}"


def part_text(part: dict[str, Any]) -> str:
    """A part of a recovery."""
    return f"{range_text(part, part['previous'])} to {part['term']}"


def place_text(body: Message, whole: bool) -> str:
    """A Place."""
    state = "closed" if body["closed"] else "open"
    digest, entries = digest_text(body["digest"], whole), entries_text(body["entries"], whole)
    return f"seg {body['seg']} epoch {body['epoch']}{digest} {state}, {entries}"


def replicas_text(body: Message, whole: bool) -> str:
    """What a backup holds."""
    rows = first_of(body["rows"], MOST_ROWS, whole, "; ",
                    lambda row: replica_text(row) + digest_text(row["digest"], whole))
    count = counted(len(body["rows"]), "replica", "replicas")
    return f"attempt {body['attempt']}, {count}{': ' if rows else ''}{rows}"


def plan_text(body: Message, whole: bool) -> str:
    """A plan: its head, its rows with segment, holder and length, and its parts."""
    rows = first_of(body["rows"], MOST_ROWS, whole, "", lambda row: f" {row['seg']}:{row['holder']}:{row['len']}")
    parts = first_of(body["parts"], MOST_ROWS, whole, "; ", part_text)
    count = counted(len(body["parts"]), "part", "parts")
    return f"attempt {body['attempt']} of {body['master']} head {body['head']} rows{rows}, {count}" \
           f"{': ' if parts else ''}{parts}"


def list_text(body: Message, whole: bool) -> str:
    """A server list."""
    rows = first_of(body["rows"], MOST_ROWS, whole, "", lambda row: f" {row['id']} {'up' if row['up'] else 'down'}")
    return f"version {body['version']}{rows}"


FIELDS: dict[str, Callable[[Message, bool], str]] = {
    "Write": lambda body, whole: key_text(body) + value_text(body["value"], whole),
    "Read": lambda body, _: key_text(body),
    "WriteOk": lambda body, _: f"seg {body['seg']} offset {body['offset']} term {body['term']} {key_text(body)} "
                               f"version {body['version']}",
    "ReadOk": lambda body, whole: f"{key_text(body)} version {body['version']}{value_text(body['value'], whole)}",
    "Refused": lambda body, _: f"{body['code']} {body['name']}",
    "Place": place_text,
    "Append": lambda body, whole: f"seg {body['seg']} offset {body['offset']}, {entries_text(body['entries'], whole)}",
    "Close": lambda body, _: f"seg {body['seg']} length {body['len']}",
    "Stored": lambda body, _: replica_text(body),
    "Commit": lambda body, _: f"seg {body['seg']} epoch {body['epoch']}",
    "CommitOk": lambda body, _: f"seg {body['seg']} epoch {body['epoch']}",
    "Enlist": lambda _, __: "",
    "Ready": lambda _, __: "",
    "List": list_text,
    "Gather": lambda body, _: f"attempt {body['attempt']} of {body['master']}",
    "Replicas": replicas_text,
    "Plan": plan_text,
    "Fetch": lambda body, _: f"attempt {body['attempt']} of {body['master']} seg {body['seg']} length {body['len']}, "
                             f"part {part_text(body['part'])}",
    "Data": lambda body, whole: f"attempt {body['attempt']} seg {body['seg']} term {body['term']}, "
                                f"{entries_text(body['entries'], whole)}",
    "Recovered": lambda body, _: f"attempt {body['attempt']} term {body['term']}",
    "Own": lambda body, _: f"{range_text(body, body['term'])} after {body['previous']} attempt {body['attempt']}",
    "SplitOk": lambda body, _: f"table {body['table']} at {body['at']}",
    "Free": lambda body, _: f"seg {body['seg']}",
}
"""What each kind of message says."""


def fields_text(message: Message, whole: bool) -> str:
    """What a message says; nothing, where it has no fields."""
    return FIELDS[message["kind"]](message, whole)


def message_text(number: int, message: Message, whole: bool) -> str:
    """A message: its number, its kind, from where to where, and what it says."""
    fields = fields_text(message, whole)
    return f"{number} {message['kind']} {message['from']} -> {message['to']}{' ' if fields else ''}{fields}"


def start_text(event: Event, started: str | None, whole: bool) -> str:
    """A start: the host, the new server, and what is kept."""
    kept = event.get("kept", [])
    names = first_of(kept, MOST_ROWS, whole, "", lambda one: f" {name_of(one[0])}:{one[1]}")
    return f"start host {event['host']}{f' as {started}' if started else ''}{' kept' if kept else ''}{names}"


def asked_text(event: Event, whole: bool) -> str:
    """A write or a read that is asked for."""
    text = f"{event['e']} to {name_of(event['to'])} {key_text(event)}"
    if event["e"] == "read":
        return text
    value = event["value"]
    return text + value_text(None if value is None else value.encode().hex(), whole)


def event_text(event: Event, started: str | None, whole: bool) -> str:
    """An event other than a delivery: its kind, and what it says."""
    kind = event["e"]
    if kind in ("write", "read"):
        return asked_text(event, whole)
    if kind == "start":
        return start_text(event, started, whole)
    if kind == "create":
        return f"create table {event['table']} owner {name_of(event['owner'])}"
    if kind == "split":
        return f"split table {event['table']} at {event['at']}"
    return f"{kind} {name_of(event['id'])}"


def place_of(event: Event, started: str | None) -> str:
    """The node at which an event happens that is no delivery."""
    kind = event["e"]
    if kind in ("write", "read"):
        return "out"
    if kind in ("tick", "stop"):
        return name_of(event["id"])
    if kind == "start":
        return started or "out"
    return "c"
