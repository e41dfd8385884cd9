"""Why a delivery came to nothing: whom a backup had fenced by then, what it had freed, which epoch a segment had, which
attempt to recover a master was the newest, and who was deposed."""

from dataclasses import dataclass, field
from enum import Enum

from .reading import Message, is_server


class Why(Enum):
    """Why a delivery came to nothing, with the words of it."""

    NOT_RUNNING = "{to} was not running"
    FENCED = "{to} had fenced {sender} for attempt {number}"
    FREED = "{to} had freed segment {number}"
    NO_REPLICA = "{to} has no open replica that it fits"
    OLDER_EPOCH = "the segment had already epoch {number}"
    STALE_ATTEMPT = "its attempt was replaced by {number}"
    OLDER_LIST = "it had already version {number}"
    DEPOSED = "{to} was deposed"


@dataclass(frozen=True)
class Silence:
    """Why one delivery came to nothing, and the attempt, segment, epoch or version of that, where it has one."""

    why: Why
    number: int = 0

    def text(self, message: Message) -> str:
        """The words of it, for the message that was delivered."""
        return self.why.value.format(to=message["to"], sender=message["from"], number=self.number)


@dataclass
class Known:
    """What has to be known of what was sent and delivered so far."""

    fences: dict[tuple[str, str], int] = field(default_factory=dict)
    """By backup and master: the attempt for which the one fenced the other."""
    freed: set[tuple[str, str, int]] = field(default_factory=set)
    """By backup, master and segment: what was freed."""
    epochs: dict[tuple[str, int], int] = field(default_factory=dict)
    """By master and segment: the epoch of the last Place."""
    attempts: dict[int, str] = field(default_factory=dict)
    """By attempt: whose recovery it is."""
    newest: dict[str, int] = field(default_factory=dict)
    """By master: its newest attempt."""
    lists: dict[str, int] = field(default_factory=dict)
    """By server: the version of the greatest list that it was given."""
    deposed: set[str] = field(default_factory=set)
    """The servers that were told that they are deposed."""

    def send(self, message: Message) -> None:
        """A message was sent."""
        if message["kind"] == "Place":
            self.epochs[message["from"], message["seg"]] = message["epoch"]
        elif message["kind"] == "Gather":
            self.attempts[message["attempt"]] = message["master"]
            self.newest[message["master"]] = message["attempt"]

    def deliver(self, message: Message) -> None:
        """A message has reached its addressee, which runs. A backup that has fenced a master frees nothing of it."""
        kind, sender, to = message["kind"], message["from"], message["to"]
        if not is_server(to):
            return
        if kind == "Gather":
            self.fences.setdefault((to, message["master"]), message["attempt"])
        elif kind == "Free":
            if (to, sender) not in self.fences:
                self.freed.add((to, sender, message["seg"]))
        elif kind == "List":
            self.lists[to] = max(message["version"], self.lists.get(to, 0))
        elif kind == "Refused" and sender == "c" and message["name"] == "Deposed":
            self.deposed.add(to)

    def has_fenced(self, backup: str, master: str) -> bool:
        """Whether a backup has fenced a master."""
        return (backup, master) in self.fences

    def why(self, message: Message) -> Silence | None:
        """Why this message, when it reaches its addressee, which runs, will come to nothing, if that can be told."""
        kind, sender, to = message["kind"], message["from"], message["to"]
        if to == "out":
            return None
        if to == "c":
            return self.why_stale(message["attempt"]) if kind == "Replicas" else None
        if kind in ("Place", "Append", "Close"):
            if (to, sender) in self.fences:
                return Silence(Why.FENCED, self.fences[to, sender])
            is_freed = (to, sender, message["seg"]) in self.freed
            return Silence(Why.FREED, message["seg"]) if is_freed else Silence(Why.NO_REPLICA)
        return self.why_at_master(message)

    def why_at_master(self, message: Message) -> Silence | None:
        """Of a message to a server as a master, which may be deposed."""
        to = message["to"]
        if message["kind"] == "List" and message["version"] <= self.lists.get(to, 0):
            return Silence(Why.OLDER_LIST, self.lists[to])
        if message["kind"] in ("Stored", "CommitOk"):
            newest = self.epochs.get((to, message["seg"]), 0)
            if newest > message["epoch"]:
                return Silence(Why.OLDER_EPOCH, newest)
        return Silence(Why.DEPOSED) if to in self.deposed else None

    def why_stale(self, attempt: int) -> Silence | None:
        """Of an answer to the coordinator in this attempt."""
        newest = self.newest.get(self.attempts.get(attempt, ""), 0)
        return Silence(Why.STALE_ATTEMPT, newest) if newest > attempt else None
