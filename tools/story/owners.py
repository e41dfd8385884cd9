"""Hints of who owns what: an owner that has stopped and was not suspected, a decide that came before a suspicion, requests
that went to another server than the owner, or to a table that there is not, and creates and splits of such."""

from collections.abc import Iterator
from dataclasses import dataclass, field

from .ending import Ending
from .reading import Event, Message, generation_of, host_of, is_server, name_of
from .servers import Servers

NOT_OWNER, STALE_ATTEMPT, TABLE_EXISTS, NO_TABLE = 2, 10, 12, 13
"""The codes with which a request, a decide, a create and a split are refused."""


def code_of(message: Message) -> int:
    """The code of a refusal; 0 of another message."""
    return int(str(message["code"]).lstrip("F")) if message["kind"] == "Refused" else 0


@dataclass
class Misdirected:
    """A request that a server refused, since it does not own the key: to which server and of what, and who owned that
    then, if anyone did."""

    asked: str
    request: Message
    owner: str | None


@dataclass
class Owners:
    """Who was granted what so far, and what went wrong for want of knowing it."""

    messages: list[Message]
    ending: Ending = field(default_factory=Ending)
    """The grants so far."""
    suspected: set[str] = field(default_factory=set)
    """The servers that were suspected so far."""
    unsuspected: list[str] = field(default_factory=list)
    """The servers for which a decide was refused, and that were not suspected before."""
    misdirected: list[Misdirected] = field(default_factory=list)
    refused: list[str] = field(default_factory=list)
    """Why creates and splits were refused, where the tables tell that."""

    def take(self, event: Event, servers: Servers) -> None:
        """An event has happened, of which the servers know."""
        refused = [self.messages[number] for number in event["sent"] if code_of(self.messages[number])]
        if event["e"] == "suspect":
            self.suspected.add(name_of(event["id"]))
        elif event["e"] == "decide":
            self.see_decide(name_of(event["id"]), refused, servers)
        elif event["e"] in ("create", "split"):
            self.see_order(event, refused)
        elif event["e"] == "deliver" and self.messages[event["n"]]["kind"] in ("Write", "Read"):
            self.see_request(self.messages[event["n"]], refused)
        for number in event["sent"]:
            self.ending.note(self.messages[number])

    def see_decide(self, name: str, refused: list[Message], servers: Servers) -> None:
        """A decide for this server. A start of its host again tells the coordinator of its end, too."""
        is_newer = servers.generation(host_of(name)) > generation_of(name)
        if name not in self.suspected and not is_newer and any(code_of(it) == STALE_ATTEMPT for it in refused):
            self.unsuspected.append(name)

    def see_order(self, event: Event, refused: list[Message]) -> None:
        """A create or a split."""
        what, codes = f"the {event['e']} of table {event['table']} was refused", {code_of(it) for it in refused}
        if TABLE_EXISTS in codes:
            self.refused.append(f"{what}: it is there already, and {self.owner_of(event['table'], 0)} owns its first key")
        elif NO_TABLE in codes:
            self.refused.append(f"{what}: there is no such table{self.tables_text()}")

    def tables_text(self) -> str:
        """Which tables there are, if any."""
        tables = sorted({grant.table for grant in self.ending.grants.values()})
        return f"; there is table {', '.join(map(str, tables))}" if tables else ""

    def see_request(self, request: Message, refused: list[Message]) -> None:
        """A request was delivered to a server."""
        if any(code_of(it) == NOT_OWNER for it in refused):
            owner = self.owner_of(request["table"], int(request["key"]))
            if owner != request["to"]:
                self.misdirected.append(Misdirected(request["to"], request, owner))

    def owner_of(self, table: int, key: int) -> str | None:
        """Who was granted this key last."""
        grants = [it for it in self.ending.grants.values() if it.table == table and it.lo <= key <= it.hi]
        return max(grants, key=lambda it: it.term).owner if grants else None

    def hints(self, servers: Servers, has_early: bool) -> Iterator[str]:
        """The hints, one after another. Where a request came before its server was ready, that says more than who owns
        what."""
        yield from stopped_hints(self.ending, servers)
        for name in dict.fromkeys(self.unsuspected):
            yield f"{name} was not suspected before the decide, so no recovery of it had begun: it takes a suspect, and a " \
                  "settle, for the backups to be asked"
        yield from self.refused[:1]
        if self.misdirected and not has_early:
            yield self.misdirected_hint(self.misdirected[0])

    def misdirected_hint(self, one: Misdirected) -> str:
        """The first request that went astray, and how many did."""
        request, count = one.request, len(self.misdirected)
        what = f"the {request['kind'].lower()} of table {request['table']} key {request['key']} went to {one.asked}"
        told = f"{one.owner} owns that" if one.owner else \
            f"there is no table {request['table']}: create it first{self.tables_text()}"
        return f"{what}, and {told}" + (f"; so it was with {count} requests in all" if count > 1 else "")


def stopped_hints(ending: Ending, servers: Servers) -> Iterator[str]:
    """The owners that have stopped, of which the coordinator was not told."""
    tables: dict[str, set[int]] = {}
    for grant in ending.grants.values():
        server = servers.find(grant.owner) if is_server(grant.owner) else None
        if server and not server.runs() and server.suspected is None and not ending.is_passed_on(grant):
            tables.setdefault(grant.owner, set()).add(grant.table)
    for name, owned in tables.items():
        listed = f"table {', '.join(map(str, sorted(owned)))}"
        yield f"{name} owns {listed}, has stopped and was not suspected, so nobody takes its place: it takes a suspect, a " \
              "settle, a decide and a settle"
