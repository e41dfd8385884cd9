"""Why an event of a scenario was not possible (F18)."""

from __future__ import annotations

import json
from typing import Any, NamedTuple

from .dialects import SCENARIO
from .faults import item_of
from .pieces import by_name, place

REMARK = "`ramseg explain F18` says more."
LIMIT = "200000 events have happened, of which each delivery of a settle is one; a world takes no more"

Event = dict[str, Any]
"""An event, as the scenario spells it."""


class Host(NamedTuple):
    """The servers of one host so far, by the events of the scenario alone."""

    generation: int = 0
    """That of the newest one; 0, where there was none."""
    is_running: bool = False
    since: int = 0
    """The event that started or stopped it last."""


def reason_of_stop(text: bytes, number: int, sent: int) -> str:
    """Why the run of a scenario stopped at this event, when so many messages had been sent, in two lines."""
    letters = text.decode()
    events = json.loads(letters)["events"]
    where = f"event {number}: "
    piece = item_of(SCENARIO, letters, number)
    if piece is not None:
        kind = by_name(letters, piece)["e"].value.unquoted(letters)
        where = f"{place(letters, piece.begin)}event {number} ({kind}): "
    return f"{where}{_cause(events, number, sent)}\n{REMARK}\n"


def _cause(events: list[Event], number: int, sent: int) -> str:
    event = events[number]
    kind = event["e"]
    if kind == "start":
        return _of_running(event["host"], host_before(event["host"], events[:number]))
    if kind in ("stop", "tick") and event["id"] != "c":
        return _of_absent(event["id"], host_before(event["id"][0], events[:number]))
    if kind == "deliver" and event["n"] >= sent:
        return _of_unsent(event["n"], sent)
    return LIMIT


def host_before(index: int, events: list[Event]) -> Host:
    """What these events have started and stopped of this host."""
    known = Host()
    for number, event in enumerate(events):
        if event["e"] == "start" and event["host"] == index:
            known = Host(known.generation + 1, True, number)
        elif event["e"] == "stop" and event["id"][0] == index:
            known = Host(known.generation, False, number)
    return known


def _of_running(index: int, host: Host) -> str:
    """A host that is to start runs."""
    if not host.is_running:
        return LIMIT
    return (f"host {index} runs already, as {index}.{host.generation}, since event {host.since}; it can start again "
            "once that is stopped")


def _of_absent(server: list[int], host: Host) -> str:
    """A server that is to stop or to tick does not run: what runs on its host, or ran last."""
    index, generation = server
    if host.is_running and host.generation == generation:
        return LIMIT
    told = f"{index}.{generation} does not run: host {index}"
    if host.generation == 0:
        return f"{told} has never been started"
    if host.is_running:
        return f"{told} runs as {index}.{host.generation}, since event {host.since}"
    return f"{told} ran last as {index}.{host.generation}, which event {host.since} stopped"


def _of_unsent(number: int, sent: int) -> str:
    """A message that is to be delivered was not sent."""
    until = {0: "none was until then", 1: "only message 0 was until then"}
    return f"message {number} was not sent; " + until.get(sent, f"{sent} were until then, 0 to {sent - 1}")
