"""What may not have been meant in a run that went through: messages that wait at its end, requests to servers that do not
run or are not up yet, owners that have stopped, requests that went astray, suspected servers that never ran, too few
hosts, stale reads, and recoveries that are not at their end."""

from collections.abc import Iterator
from dataclasses import dataclass, field

from .ending import Groups
from .owners import Owners
from .reading import Event, Message, Story, generation_of, host_of, is_server, name_of
from .recoveries import recoveries_of, recovery_hints
from .servers import Servers
from .stale import stale_hints

MOST_GROUPS = 4
"""How many kinds of waiting messages are told one by one."""


@dataclass
class Course:
    """What ran and what was delivered in the course of a run, and what was asked for of servers that did not run or were
    not ready."""

    messages: list[Message]
    servers: Servers = field(default_factory=Servers)
    delivered: set[int] = field(default_factory=set)
    ready: dict[int, int] = field(default_factory=dict)
    """Of each host, the generation whose Ready has reached the coordinator last."""
    early: str | None = None
    """The first create or write that came before its server was ready."""
    unstarted: str | None = None
    """The first server that was suspected and had never been started."""
    unheard: list[str] = field(default_factory=list)
    """The servers that were asked while they did not run."""
    owners: Owners = field(init=False)
    has_reads: bool = False
    """Whether a read was asked for. Else none is stale."""
    has_crashes: bool = False
    """Whether a server was suspected, or a host was started again. Else there is no recovery."""

    def __post_init__(self) -> None:
        self.owners = Owners(self.messages)

    def take(self, event: Event, number: int) -> None:
        """The event of this number has happened."""
        kind = event["e"]
        started = self.servers.take(event, number)
        self.owners.take(event, self.servers)
        if kind == "deliver":
            self.delivered.add(event["n"])
            self.arrive(self.messages[event["n"]])
        elif kind == "create":
            owner = name_of(event["owner"])
            self.ask(owner, f"the create of table {event['table']} came before {owner} was ready")
        elif kind == "start":
            self.has_crashes |= generation_of(started or "0.0") > 1
        elif kind == "suspect":
            self.suspect(name_of(event["id"]))
        elif kind in ("write", "read"):
            self.has_reads |= kind == "read"
            if not self.servers.runs(name_of(event["to"])):
                self.unheard.append(name_of(event["to"]))

    def suspect(self, name: str) -> None:
        """A server is suspected."""
        self.has_crashes = True
        if self.servers.generation(host_of(name)) < generation_of(name):
            self.unstarted = self.unstarted or name

    def arrive(self, message: Message) -> None:
        """A message has arrived."""
        if message["kind"] == "Ready" and is_server(message["from"]):
            self.ready[host_of(message["from"])] = generation_of(message["from"])
        elif message["kind"] == "Write" and is_server(message["to"]):
            self.ask(message["to"], f"a write came to {message['to']} before that was ready")

    def ask(self, name: str, words: str) -> None:
        """Something is asked for at a server that may not be ready."""
        if self.servers.runs(name) and self.ready.get(host_of(name), 0) != generation_of(name):
            self.early = self.early or words

    def waits(self, number: int) -> bool:
        """Whether this message waits: it was not delivered, and its addressee is there."""
        to = self.messages[number]["to"]
        return number not in self.delivered and to != "out" and self.servers.is_there(to)


def hints(story: Story) -> list[str]:
    """Hints for whoever wrote the scenario, each a line that begins with `hint: `."""
    course = Course(story["messages"])
    for number, event in enumerate(story["events"]):
        course.take(event, number)
    return [f"hint: {hint}" for hint in hints_of(course, story)]


def hints_of(course: Course, story: Story) -> Iterator[str]:
    """The hints one after another."""
    if course.early:
        yield f"{course.early}, so it was refused: it takes a settle behind the starts, and enough hosts"
    waiting = [number for number in range(len(course.messages)) if course.waits(number)]
    if waiting:
        yield waiting_hint(course, waiting)
        yield from lost_own_hint(course, waiting)
    if course.unheard:
        count = len(course.unheard)
        again = f"; so it was with {count} requests in all" if count > 1 else ""
        yield f"{course.unheard[0]} was asked while it did not run: nothing comes of that{again}"
    yield from course.owners.hints(course.servers, course.early is not None)
    if course.unstarted:
        yield f"{course.unstarted} was suspected, but had never been started: nothing comes of that"
    yield from few_hint(course.servers, story)
    if course.has_reads:
        yield from stale_hints(story["messages"])
    if course.has_crashes:
        recoveries = recoveries_of(story["messages"], course.delivered)
        yield from recovery_hints(recoveries, course.servers, bool(waiting))


def waiting_hint(course: Course, waiting: list[int]) -> str:
    """How many messages wait, and the first kinds of them."""
    groups = Groups()
    for number in waiting:
        groups.count(number, course.messages[number])
    told = [group.text() for group in list(groups.values())[:MOST_GROUPS]]
    more = ", .." if len(groups) > MOST_GROUPS else ""
    return f"messages that wait at the end: {len(waiting)} ({', '.join(told)}{more}); a settle would deliver them"


def lost_own_hint(course: Course, waiting: list[int]) -> Iterator[str]:
    """The first table whose owner was not told that it has it."""
    for number in waiting:
        message = course.messages[number]
        if message["kind"] == "Own" and message["attempt"] == 0 and is_server(message["to"]):
            owner = message["to"]
            yield f"the Own of table {message['table']} has not reached {owner}, and nothing sends it again: where it " \
                  f"is lost, stop {owner} and start its host, and decide"
            return


def few_hint(servers: Servers, story: Story) -> Iterator[str]:
    """Too few hosts for the factor of the first master that has too few."""
    up = [server.host for server in servers.hosts() if server.is_up()]
    running = sum(server.runs() for server in servers.items)
    for host in up:
        factor = story["factors"][host] if host < len(story["factors"]) else story["factor"]
        if len(up) <= factor:
            suspected = "" if len(up) == running else " and were not suspected"
            yield f"hosts that run at the end{suspected}: {len(up)}; with factor {factor} it takes {factor + 1} for the " \
                  f"master of host {host} to open a segment or to replace a backup"
            return
