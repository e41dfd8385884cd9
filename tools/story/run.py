"""A run, event by event: when each message was sent and delivered, which servers ran, and which deliveries came to
nothing."""

from dataclasses import dataclass

from .reading import Event, Message, Story
from .servers import Servers
from .silences import Known, Silence, Why


@dataclass
class Turn:
    """What is known of one event: the server that it started, and why it came to nothing, where it is a delivery that
    did."""

    started: str | None
    silence: Silence | None


@dataclass
class Run:
    """A run. Events and messages have numbers from 0."""

    story: Story
    turns: list[Turn]
    """What is known of each event."""
    sent: list[int]
    """Of each message the event that sent it."""
    delivered: list[list[int]]
    """Of each message the events that delivered it."""
    servers: Servers
    known: Known

    @property
    def events(self) -> list[Event]:
        """The events."""
        return self.story["events"]

    @property
    def messages(self) -> list[Message]:
        """The messages."""
        return self.story["messages"]

    def is_lost(self, number: int) -> bool:
        """Whether the message of this number was never delivered."""
        return not self.delivered[number]

    def is_delivered_before(self, number: int, event: int) -> bool:
        """Whether the message of this number was delivered before this event."""
        events = self.delivered[number]
        return bool(events) and events[0] < event

    def take(self, event: Event, number: int) -> None:
        """The next event."""
        silence = self.silence_of(event) if event["e"] == "deliver" else None
        self.turns.append(Turn(self.servers.take(event, number), silence))
        if event["e"] == "deliver":
            self.delivered[event["n"]].append(number)
            message = self.messages[event["n"]]
            if self.servers.is_there(message["to"]):
                self.known.deliver(message)
        for sent in event["sent"]:
            message = self.messages[sent]
            self.sent[sent] = number
            if message["kind"] == "WriteOk":
                self.servers.acknowledge(message["from"])
            self.known.send(message)

    def silence_of(self, event: Event) -> Silence | None:
        """Why a delivery comes to nothing, where it does."""
        message = self.messages[event["n"]]
        if not self.servers.is_there(message["to"]):
            return Silence(Why.NOT_RUNNING)
        return None if event["sent"] else self.known.why(message)


def run_of(story: Story) -> Run:
    """The run of a story."""
    count = len(story["messages"])
    run = Run(story, [], [0] * count, [[] for _ in range(count)], Servers(), Known())
    for number, event in enumerate(story["events"]):
        run.take(event, number)
    return run
