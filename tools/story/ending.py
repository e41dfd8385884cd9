"""How things stand at the end of a run: what was never delivered, what the outside was told, who owns which range, and
what was last acknowledged of each key."""

from dataclasses import dataclass, field

from .reading import Message
from .run import Run

MOST_NUMBERS = 8
"""How many messages of a group are told by number."""


@dataclass
class Group:
    """Messages of one kind to one addressee, by number."""

    kind: str
    to: str
    numbers: list[int] = field(default_factory=list)

    def text(self) -> str:
        """How many there are, of which kind, and to whom."""
        return f"{len(self.numbers)} {self.kind} to {self.to}"

    def line(self) -> str:
        """The same, with the numbers of the first of them."""
        first = "".join(f" {number}" for number in self.numbers[:MOST_NUMBERS])
        return f"{self.text()}:{first}{' ..' if len(self.numbers) > MOST_NUMBERS else ''}"


class Groups(dict[tuple[str, str], Group]):
    """Messages by kind and addressee, in order of their first one."""

    def count(self, number: int, message: Message) -> None:
        """One more message, of this number."""
        place = (message["kind"], message["to"])
        if place not in self:
            self[place] = Group(*place)
        self[place].numbers.append(number)

    def total(self) -> int:
        """How many messages all groups have."""
        return sum(len(group.numbers) for group in self.values())


@dataclass
class Grant:
    """The last grant of a range."""

    table: int
    lo: int
    hi: int
    term: int
    owner: str


class Acknowledged(dict[tuple[int, str], Message]):
    """By table and key: the WriteOk with the greatest version, the last one of them."""

    def note(self, message: Message) -> None:
        """Notes which version of its key a message acknowledges, if it does."""
        if message["kind"] == "WriteOk":
            place = (message["table"], message["key"])
            if place not in self or int(self[place]["version"]) <= int(message["version"]):
                self[place] = message


@dataclass
class Ending:
    """How things stand at the end."""

    lost: Groups = field(default_factory=Groups)
    """What was never delivered to a server or to the coordinator."""
    told: Groups = field(default_factory=Groups)
    """What was sent to the outside."""
    grants: dict[tuple[int, str, str], Grant] = field(default_factory=dict)
    """By table and range, in order of the first grant."""
    newest: Acknowledged = field(default_factory=Acknowledged)

    def is_passed_on(self, grant: Grant) -> bool:
        """Whether a later term has taken a key of its range."""
        return any(other.table == grant.table and other.term > grant.term and other.lo <= grant.hi
                   and grant.lo <= other.hi for other in self.grants.values())

    def note(self, message: Message) -> None:
        """Notes what a message grants or acknowledges."""
        if message["kind"] == "Own":
            self.grants[message["table"], message["lo"], message["hi"]] = Grant(
                message["table"], int(message["lo"]), int(message["hi"]), message["term"], message["to"])
        self.newest.note(message)


def ending_of(run: Run) -> Ending:
    """That of a run."""
    ending = Ending()
    for number, message in enumerate(run.messages):
        if message["to"] == "out":
            ending.told.count(number, message)
        elif run.is_lost(number):
            ending.lost.count(number, message)
        ending.note(message)
    return ending
