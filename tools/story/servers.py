"""Which servers were started, when each of them ran, and which were suspected."""

from dataclasses import dataclass, field

from .reading import Event, generation_of, host_of, is_server, name_of


@dataclass
class Server:
    """A server, and what it came to. Events are told by number."""

    id: str
    host: int
    started: int
    stopped: int | None = None
    suspected: int | None = None
    acknowledged: int = 0

    def runs(self) -> bool:
        """Whether it runs."""
        return self.stopped is None

    def is_up(self) -> bool:
        """Whether it runs, and was not suspected."""
        return self.stopped is None and self.suspected is None


@dataclass
class Servers:
    """All servers, in order of start."""

    items: list[Server] = field(default_factory=list)
    newest: dict[int, Server] = field(default_factory=dict)

    def take(self, event: Event, number: int) -> str | None:
        """The event of this number has happened. Gives the server that it started, if it started one."""
        kind = event["e"]
        if kind == "start":
            return self.start(event["host"], number)
        if kind == "stop":
            self.newest[event["id"][0]].stopped = number
        elif kind == "suspect":
            server = self.newest.get(event["id"][0])
            if server and server.id == name_of(event["id"]) and server.suspected is None:
                server.suspected = number
        return None

    def start(self, host: int, number: int) -> str:
        """An event starts the next server of a host."""
        server = Server(f"{host}.{self.generation(host) + 1}", host, number)
        self.items.append(server)
        self.newest[host] = server
        return server.id

    def acknowledge(self, sender: str) -> None:
        """The sender acknowledges a write."""
        server = self.newest.get(host_of(sender)) if is_server(sender) else None
        if server:
            server.acknowledged += 1

    def generation(self, host: int) -> int:
        """How often a host was started."""
        server = self.newest.get(host)
        return generation_of(server.id) if server else 0

    def find(self, name: str) -> Server | None:
        """The server of this name, where it is the newest one of its host."""
        server = self.newest.get(host_of(name))
        return server if server and server.id == name else None

    def runs(self, name: str) -> bool:
        """Whether the server of this name runs."""
        server = self.find(name)
        return server is not None and server.runs()

    def is_there(self, node: str) -> bool:
        """Whether a node is there: each is but for servers that do not run."""
        return not is_server(node) or self.runs(node)

    def is_suspected(self, name: str) -> bool:
        """Whether the server of this name is the newest one of its host, and was suspected."""
        server = self.find(name)
        return server is not None and server.suspected is not None

    def hosts(self) -> list[Server]:
        """The newest server of each host that was started, by host."""
        return [self.newest[host] for host in sorted(self.newest)]
