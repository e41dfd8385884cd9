"""The story of a run as lines for a reader."""

from collections.abc import Iterator
from typing import Any

from .ending import Ending, Grant, Groups, ending_of
from .reading import Event, Story
from .run import Run, Turn, run_of
from .spelling import event_text, message_text
from .waits import wait_of
from .writes import unanswered_in


def log_text(story: Story, whole: bool = False) -> str:
    """A line for each event with its place in the scenario, below it a line for each message that it sent, and then how
    things stand at the end. Where it is not told `whole`, of long lists just the first are, and how many more there
    are."""
    run = run_of(story)
    ending = ending_of(run)
    lines: list[str] = []
    for number in range(len(run.events)):
        lines.extend(turn_lines(run, number, whole))
    lines.extend(group_lines("never delivered", ending.lost))
    lines.extend(group_lines("to the outside", ending.told))
    lines.extend(server_lines(run))
    lines.extend(master_lines(run))
    lines.extend(replica_lines(story["replicas"]))
    lines.extend(range_lines(run, ending))
    lines.extend(key_lines(ending))
    lines.extend(write_lines(run, whole))
    lines.append(f"audit {story['audit']}")
    if story["stopped"]:
        lines.append(f"stopped {story['stopped']['code']} at event {story['stopped']['place']} of the scenario")
    return "\n".join(lines) + "\n"


def turn_lines(run: Run, number: int, whole: bool) -> Iterator[str]:
    """An event, the messages that it sent, and the new phase of a master."""
    event, turn = run.events[number], run.turns[number]
    if event["e"] == "deliver":
        text = delivery_text(run, number, event, turn, whole)
    else:
        text = event_text(event, turn.started, whole)
    yield f"event {number} at {event['place']}: {text}"
    for sent in event["sent"]:
        yield f"    {message_text(sent, run.messages[sent], whole)}"
    if "phase" in event:
        yield f"    {event['master']} is now {event['phase']}"


def delivery_text(run: Run, number: int, event: Event, turn: Turn, whole: bool) -> str:
    """A delivery, and whether anything came of it: perhaps the addressee fences somebody."""
    message = run.messages[event["n"]]
    text = f"deliver {message_text(event['n'], message, whole)}"
    if run.is_delivered_before(event["n"], number):
        text += ", once more"
    if turn.silence:
        return f"{text}, no effect: {turn.silence.text(message)}"
    if not event["sent"]:
        return f"{text}, nothing sent"
    if message["kind"] == "Gather":
        return f"{text}, {message['to']} fences {message['master']}"
    return text


def group_lines(title: str, groups: Groups) -> Iterator[str]:
    """Messages by kind and addressee."""
    yield f"{title} {groups.total()}"
    for group in groups.values():
        yield f"    {group.line()}"


def server_lines(run: Run) -> Iterator[str]:
    """The servers."""
    yield f"servers {len(run.servers.items)}"
    for server in run.servers.items:
        stopped = "runs" if server.runs() else f"stopped at event {server.stopped}"
        suspected = "" if server.suspected is None else f", suspected at event {server.suspected}"
        yield f"    {server.id} started at event {server.started}, {stopped}{suspected}, " \
              f"acknowledged {server.acknowledged}"


def master_lines(run: Run) -> Iterator[str]:
    """The masters, what each waits for, if it waits for something, and their segments."""
    masters = run.story["masters"]
    yield f"masters {len(masters)}"
    for master in masters:
        wait = wait_of(run, master)
        yield f"    {master['id']} {master['phase']}, head {master['head']}, durable places {master['durable']}" \
              f"{f', waits {wait}' if wait else ''}"
        for segment in master["segments"]:
            yield segment_line(segment)


def segment_line(segment: dict[str, Any]) -> str:
    """A segment of a master, and what its members have told."""
    members = "".join(f" {member_text(member)}" for member in segment["members"])
    return f"        segment {segment['seg']} epoch {segment['epoch']}{'' if segment['committed'] else ' not committed'}" \
           f", entries {segment['len']}, {'shut' if segment['shut'] else 'open'}, members{members}"


def member_text(member: dict[str, Any]) -> str:
    """A member of a segment, and what it has told."""
    if member["lost"]:
        return f"{member['id']}:lost"
    if member["told"] is None:
        return f"{member['id']}:nothing"
    return f"{member['id']}:{member['told']}{':closed' if member['closed'] else ''}"


def replica_lines(replicas: list[dict[str, Any]]) -> Iterator[str]:
    """The replicas."""
    yield f"replicas {len(replicas)}"
    for replica in replicas:
        yield f"    at {replica['at']} of {replica['of']} segment {replica['seg']} epoch {replica['epoch']}, entries " \
              f"{replica['len']}, {'closed' if replica['closed'] else 'open'}{', fenced' if replica['fenced'] else ''}"


def range_lines(run: Run, ending: Ending) -> Iterator[str]:
    """The last grant of each range, and whether its owner was suspected or does not run, or it was granted once more in
    other ranges."""
    yield f"ranges {len(ending.grants)}"
    for grant in ending.grants.values():
        yield f"    table {grant.table} keys {grant.lo}..{grant.hi} term {grant.term} owner {grant.owner}" \
              f"{owner_text(run, ending, grant)}"


def owner_text(run: Run, ending: Ending, grant: Grant) -> str:
    """What became of an owner."""
    if ending.is_passed_on(grant):
        return ", passed on"
    if grant.owner in ("c", "out"):
        return ""
    suspected = ", suspected" if run.servers.is_suspected(grant.owner) else ""
    return suspected + ("" if run.servers.runs(grant.owner) else ", does not run")


def key_lines(ending: Ending) -> Iterator[str]:
    """The newest acknowledged version of each key."""
    yield f"keys {len(ending.newest)}"
    for one in ending.newest.values():
        yield f"    table {one['table']} key {one['key']} version {one['version']} term {one['term']} by {one['from']}"


def write_lines(run: Run, whole: bool) -> Iterator[str]:
    """The writes that were not acknowledged, and what became of them."""
    writes = unanswered_in(run)
    yield f"writes delivered and not acknowledged {len(writes)}"
    for write in writes:
        text = message_text(write.message, run.messages[write.message], whole)
        yield f"    by event {write.event}: {text}, {write.fate}"
