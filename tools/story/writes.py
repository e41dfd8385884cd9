"""What became of the writes that were not acknowledged."""

from dataclasses import dataclass, field

from .reading import Event, is_server
from .run import Run, Turn
from .silences import Why


@dataclass
class Unanswered:
    """A delivery of a write that was not acknowledged: the event, the number of the message, and what became of it."""

    event: int
    message: int
    fate: str


@dataclass
class Recovered:
    """What was acknowledged, and what plans have of the logs of masters."""

    acknowledged: set[tuple[str, int, int]] = field(default_factory=set)
    """Master, segment and offset of what was acknowledged."""
    plans: dict[str, int] = field(default_factory=dict)
    """By master: the newest attempt that has a plan."""
    lengths: dict[tuple[int, int], int] = field(default_factory=dict)
    """By attempt and segment: the length that its plan has."""


def recovered_in(run: Run) -> Recovered:
    """What the messages of a run tell."""
    recovered = Recovered()
    for message in run.messages:
        if message["kind"] == "WriteOk" and is_server(message["from"]):
            recovered.acknowledged.add((message["from"], message["seg"], message["offset"]))
        elif message["kind"] == "Plan":
            recovered.plans[message["master"]] = message["attempt"]
            for row in message["rows"]:
                recovered.lengths[message["attempt"], row["seg"]] = row["len"]
    return recovered


def fate_of(run: Run, event: Event, turn: Turn, recovered: Recovered) -> str | None:
    """What became of the write that an event delivered; nothing, where it was acknowledged."""
    if turn.silence and turn.silence.why is Why.NOT_RUNNING:
        return "its server did not run"
    for number in event["sent"]:
        answer = run.messages[number]
        if answer["kind"] == "Refused":
            return f"refused {answer['code']} {answer['name']}"
    end = event.get("log_end")
    if not end:
        return None
    master, seg, offset = run.messages[event["n"]]["to"], end["seg"], end["offset"]
    if (master, seg, offset) in recovered.acknowledged:
        return None
    attempt = recovered.plans.get(master)
    if attempt is None:
        return f"at seg {seg} offset {offset}"
    is_in = offset < recovered.lengths.get((attempt, seg), 0)
    return f"at seg {seg} offset {offset}, {'in' if is_in else 'not in'} the recovered log of attempt {attempt}"


def unanswered_in(run: Run) -> list[Unanswered]:
    """The deliveries of writes that were not acknowledged, in order."""
    recovered = recovered_in(run)
    found = []
    for number, (event, turn) in enumerate(zip(run.events, run.turns)):
        if event["e"] == "deliver" and run.messages[event["n"]]["kind"] == "Write":
            fate = fate_of(run, event, turn, recovered)
            if fate:
                found.append(Unanswered(number, event["n"], fate))
    return found
