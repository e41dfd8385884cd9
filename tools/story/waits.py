"""What a master waits for."""

from collections.abc import Callable
from typing import Any

from .run import Run

Member = dict[str, Any]
Segment = dict[str, Any]


def has_told(_: Member) -> bool:
    """Whether a member that has told something has told all that is awaited: nothing more."""
    return True


def has_closed(member: Member) -> bool:
    """Whether it has told that its replica is closed."""
    return member["closed"]


def missing_of(segment: Segment, is_enough: Callable[[Member], bool]) -> list[Member]:
    """The members of a segment that have told nothing, or not enough."""
    return [member for member in segment["members"] if member["told"] is None or not is_enough(member)]


def members_text(run: Run, master: str, members: list[Member]) -> str:
    """These members, and why they may never tell what is awaited."""
    text = ""
    for member in members:
        text += f" {member['id']}"
        if not run.servers.runs(member["id"]):
            text += " (does not run)"
        elif run.known.has_fenced(member["id"], master):
            text += " (has fenced it)"
    return text


def wait_at(run: Run, master: str, segment: Segment, state: str, is_enough: Callable[[Member], bool]) -> str | None:
    """What is awaited of a segment of which all members are to tell that it is in this state."""
    lost = [member["id"] for member in segment["members"] if member["lost"]]
    if lost:
        return f"for other servers in place of {' '.join(lost)} (lost) for segment {segment['seg']}"
    missing = missing_of(segment, is_enough)
    if missing:
        return f"until segment {segment['seg']} is {state} at{members_text(run, master, missing)}"
    return None if segment["committed"] else f"for the commit of segment {segment['seg']}"


def wait_of(run: Run, master: dict[str, Any]) -> str | None:
    """What a master waits for, to be read after `waits`; nothing, where it waits for nothing."""
    segments, name = master["segments"], master["id"]
    if master["phase"] == "deposed":
        return None
    if not segments:
        return "until enough servers are up in its list"
    head = segments[-1]
    if master["phase"] == "opening":
        return wait_at(run, name, head, "placed", has_told)
    if master["phase"] == "closing":
        # the head is placed; the segment before it is being closed, or the head's epoch is not committed
        if len(segments) > 1 and not segments[-2]["shut"]:
            return wait_at(run, name, segments[-2], "closed", has_closed)
        return wait_at(run, name, head, "placed", has_told)
    state = "stored whole" if head["len"] else "placed"
    return wait_at(run, name, head, state, lambda member: member["told"] >= head["len"])
