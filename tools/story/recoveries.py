"""Recoveries that are not at their end, and what they wait for."""

from collections.abc import Iterator
from dataclasses import dataclass, field

from .reading import Message
from .servers import Servers


@dataclass
class Attempt:
    """An attempt to recover a master: how many servers it has asked, how many answers have come, and whether its plan
    was sent."""

    asked: int = 0
    answers: int = 0
    is_decided: bool = False


@dataclass
class Given:
    """A part of a plan: its term, the attempt, and who is to recover it; whether its entries were recovered, as the
    coordinator was told, and whether it was granted."""

    term: int
    attempt: int
    to: str
    is_recovered: bool = False
    is_granted: bool = False


@dataclass
class Fetch:
    """What is asked for of a segment: from whom, and whether it has come."""

    holder: str
    has_come: bool = False


@dataclass
class Recoveries:
    """The recoveries of a run."""

    newest: dict[str, int] = field(default_factory=dict)
    """By master: the number of its newest attempt."""
    attempts: dict[int, Attempt] = field(default_factory=dict)
    parts: dict[int, Given] = field(default_factory=dict)
    """By term."""
    fetches: dict[tuple[int, int], Fetch] = field(default_factory=dict)
    """By term and segment."""

    def note(self, message: Message, is_delivered: bool) -> None:
        """Notes a message."""
        kind = message["kind"]
        if kind == "Gather":
            self.newest[message["master"]] = message["attempt"]
            self.attempts.setdefault(message["attempt"], Attempt()).asked += 1
        elif kind == "Replicas" and is_delivered and message["attempt"] in self.attempts:
            self.attempts[message["attempt"]].answers += 1
        elif kind == "Plan":
            self.plan(message)
        elif kind == "Own" and message["term"] in self.parts:
            self.parts[message["term"]].is_granted = True
        elif kind == "Fetch":
            self.fetches.setdefault((message["part"]["term"], message["seg"]), Fetch(message["to"]))
        elif kind == "Data" and is_delivered and (message["term"], message["seg"]) in self.fetches:
            self.fetches[message["term"], message["seg"]].has_come = True
        elif kind == "Recovered" and message["term"] in self.parts:
            self.parts[message["term"]].is_recovered = True

    def plan(self, message: Message) -> None:
        """Parts are given to a server, for the first time or once more."""
        attempt = self.attempts.get(message["attempt"])
        if attempt:
            attempt.is_decided = True
        for part in message["parts"]:
            self.parts.setdefault(part["term"], Given(part["term"], message["attempt"], message["to"]))

    def missing(self, attempt: int) -> list[Given]:
        """The parts of this attempt that were not granted, in order of the plans."""
        return [part for part in self.parts.values() if part.attempt == attempt and not part.is_granted]


def recoveries_of(messages: list[Message], delivered: set[int]) -> Recoveries:
    """Those that these messages tell of, of which these were delivered."""
    recoveries = Recoveries()
    for number, message in enumerate(messages):
        recoveries.note(message, number in delivered)
    return recoveries


def recovery_hints(recoveries: Recoveries, servers: Servers, waits: bool) -> Iterator[str]:
    """Each recovery that is not at its end, where messages wait or none does."""
    for master, newest in recoveries.newest.items():
        attempt, missing = recoveries.attempts[newest], recoveries.missing(newest)
        if not attempt.is_decided:
            yield f"the recovery of {master} (attempt {newest}) has no plan: answers have come to {attempt.answers} of " \
                  f"{attempt.asked} Gathers; it takes a decide, once they suffice"
        elif missing:
            stage = stage_text(recoveries, servers, master, missing[0], waits)
            yield f"the recovery of {master} (attempt {newest}) is not at its end: parts that were not granted: " \
                  f"{len(missing)}; the first is to be recovered by {missing[0].to}{stage}"


def gone_text(master: str) -> str:
    """Who is needed for the recovery of this master is gone."""
    return f", which runs no longer: suspect {master} once more"


def stage_text(recoveries: Recoveries, servers: Servers, master: str, part: Given, waits: bool) -> str:
    """How far a part has come that was not granted, and what it waits for."""
    if not servers.is_there(part.to):
        return gone_text(master)
    if part.is_recovered:
        return ", which has told the coordinator that it has it, and waits for the answer"
    fetches = [(seg, fetch) for (term, seg), fetch in recoveries.fetches.items() if term == part.term]
    if not fetches:
        return ", which the plan has not reached"
    for seg, fetch in fetches:
        if not fetch.has_come:
            gone = "" if servers.is_there(fetch.holder) else gone_text(master)
            return f", which waits for segment {seg} from {fetch.holder}{gone}"
    return ", which has read all of it, and waits until its own backups have stored it" + unsuspected_text(servers, waits)


def unsuspected_text(servers: Servers, waits: bool) -> str:
    """A server that has stopped, and of which the coordinator was not told; or else, where no message waits, one that was
    suspected and runs."""
    for server in servers.hosts():
        if not server.runs() and server.suspected is None:
            return f"; {server.id} has stopped and was not suspected, so its place is not filled"
    for server in servers.hosts():
        if not waits and server.runs() and server.suspected is not None:
            return f"; {server.id} was suspected and runs: once it is stopped and its host is started, that can be one"
    return ""
