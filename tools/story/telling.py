"""The story of a run with its words, as one JSON value: what a page holds, and what scripts look at.

Events and messages have their texts and numbers, and what is worked out of them stands beside: what became of each
message, what was never delivered, servers, last grants, newest versions, what masters wait for, and the fates of writes.
"""

import json
from typing import Any

from .ending import Ending, ending_of
from .reading import Event, Message, Story
from .run import Run, run_of
from .silences import Why
from .spelling import event_text, fields_text, place_of
from .waits import wait_of
from .writes import unanswered_in

Told = dict[str, Any]


def told(story: Story, whole: bool = False) -> Told:
    """The story with its words. Where it is not told `whole`, long lists of a message are shortened."""
    run = run_of(story)
    ending = ending_of(run)
    return {
        "format": 1,
        "events": [told_event(run, number, event, whole) for number, event in enumerate(run.events)],
        "messages": [told_message(run, number, message, whole) for number, message in enumerate(run.messages)],
        "lost": [{"kind": group.kind, "to": group.to, "count": len(group.numbers)} for group in ending.lost.values()],
        "servers": [{"id": server.id, "started": server.started, "stopped": server.stopped,
                     "suspected": server.suspected, "acknowledged": server.acknowledged}
                    for server in run.servers.items],
        "masters": [told_master(run, master) for master in story["masters"]],
        "replicas": story["replicas"],
        "phases": [{"event": number, "id": event["master"], "phase": event["phase"]}
                   for number, event in enumerate(run.events) if "phase" in event],
        "copies": [{"event": number, "gone": copy["gone"]} | {name: copy[name] for name in copy if name != "gone"}
                   for number, event in enumerate(run.events) for copy in event.get("copies", [])],
        "ranges": told_ranges(ending),
        "keys": [{"table": one["table"], "key": one["key"], "version": one["version"], "term": one["term"],
                  "by": one["from"]} for one in ending.newest.values()],
        "unacknowledged": [{"event": write.event, "message": write.message, "fate": write.fate}
                           for write in unanswered_in(run)],
        "audit": story["audit"],
        "stopped": story["stopped"],
    }


def told_event(run: Run, number: int, event: Event, whole: bool) -> Told:
    """An event: its number, its place in the scenario, its kind, what it says, and the numbers of what it sent."""
    turn = run.turns[number]
    one: Told = {"n": number, "place": event["place"], "kind": event["e"]}
    if event["e"] == "deliver":
        one["message"] = event["n"]
        if turn.silence:
            if turn.silence.why is Why.NOT_RUNNING:
                one["running"] = False
            one["why"] = turn.silence.text(run.messages[event["n"]])
    else:
        one["text"] = event_text(event, turn.started, whole)
        one["at"] = place_of(event, turn.started)
    one["sent"] = event["sent"]
    return one


def told_message(run: Run, number: int, message: Message, whole: bool) -> Told:
    """A message, with the events that sent and delivered it."""
    return {"n": number, "kind": message["kind"], "from": message["from"], "to": message["to"],
            "text": fields_text(message, whole), "sent": run.sent[number], "delivered": run.delivered[number]}


def told_master(run: Run, master: Told) -> Told:
    """A master with what it waits for."""
    return {"id": master["id"], "phase": master["phase"], "head": master["head"], "durable": master["durable"],
            "waits": wait_of(run, master), "segments": master["segments"]}


def told_ranges(ending: Ending) -> list[Told]:
    """The last grant of each range."""
    return [{"table": grant.table, "lo": str(grant.lo), "hi": str(grant.hi), "term": grant.term, "owner": grant.owner}
            for grant in ending.grants.values()]


def compact(value: Any) -> str:
    """A value as JSON, without spaces."""
    return json.dumps(value, ensure_ascii=False, separators=(",", ":"))


def told_json(one: Told) -> str:
    """A story with its words as JSON, an item of each list in a line. No `<` stands in it, so that it can stand in a
    page."""
    members = []
    for name, value in one.items():
        if name == "masters":
            value = [compact(master | {"segments": []})[:-2] + listed(map(compact, master["segments"])) + "}"
                     for master in value]
        elif isinstance(value, list):
            value = map(compact, value)
        else:
            members.append(f'"{name}":{compact(value)}')
            continue
        members.append(f'"{name}":[' + listed(value))
    return ("{" + ",".join(members) + "}\n").replace("<", "\\u003c")


def listed(items: Any) -> str:
    """These items, each in a line, and the end of their list."""
    return "".join(f"{',' if place else ''}\n{item}" for place, item in enumerate(items)) + "]"
