"""Small stories for the tests of `story`, written by hand: messages, events and a run of them."""

from typing import Any

Made = dict[str, Any]


def message(kind: str, sender: str, to: str, **fields: Any) -> Made:
    """A message."""
    return {"kind": kind, "from": sender, "to": to, **fields}


def event(kind: str, sent: list[int] | None = None, **members: Any) -> Made:
    """An event at the scenario's first place, which sent these messages."""
    return {"place": 0, "e": kind, **members, "sent": sent or []}


def story(events: list[Made], messages: list[Made], **members: Any) -> Made:
    """A story in which nobody stands at the end, if nothing else is said."""
    whole: Made = {"format": 2, "factor": 2, "factors": [], "free": False, "segment": 8, "events": events,
                   "messages": messages, "masters": [], "replicas": [], "audit": "clean", "stopped": None}
    return {**whole, **members}


def starts(*hosts: int) -> list[Made]:
    """A start of each of these hosts, which sends nothing."""
    return [event("start", host=host) for host in hosts]


def append(sender: str = "0.1", to: str = "1.1") -> Made:
    """An Append of one entry."""
    return message("Append", sender, to, seg=1, offset=0,
                   entries=[{"term": 1, "table": 7, "key": "5", "version": "1", "value": "61"}])


def write_ok(version: int, sender: str = "0.1", term: int = 1) -> Made:
    """An acknowledged write of key 5 of table 7."""
    return message("WriteOk", sender, "out", seg=1, offset=version - 1, term=term, table=7, key="5",
                   version=str(version))


def own(owner: str, term: int, attempt: int = 0) -> Made:
    """A grant of all keys of table 7."""
    return message("Own", "c", owner, table=7, lo="0", hi="9", term=term, previous=term - 1, attempt=attempt)
