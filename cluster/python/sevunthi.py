"""A client of a cluster of Sevunthi: one module, over Python's own library alone (3.10 or later).

    from sevunthi import Client, Target
    client = Client(Target.on("127.0.0.1", 7300, hosts=4))
    version = client.put(1, 5, b"hello")
    found = client.get(1, 5)                         # found.version, found.value
    client.put_if(1, 5, found.version, b"again")     # Mismatch, where another version is there

A call returns where it was done. Else it raises an `Error`: `Refused`, `Mismatch`, `Unasked` and `NotLetIn` say that it
was not done. `Unknown` says that nobody knows: the answer of a write was lost, which may have been done, or may still
be done, once. It is not asked again by itself. A read is. docs/WIRE.md has the bytes.

All is said in clear, so the cluster has to take clients of this machine so: this client has no security, and raises
`Refused` with `Refusal.IN_CLEAR` where that is wanted. Tables are made by `sevunthi create`, or by a client that
`operates`, in a cluster without any security.

A `Client` is used by one thread at a time. A `Connection` has many requests under way at one host. `Names` is a table
whose keys are byte strings. The module sevunthi_large keeps values of up to 1 MiB in pieces.
"""

from __future__ import annotations

import enum
import hashlib
import socket
import struct
import time
from dataclasses import dataclass, replace
from typing import Iterator

PUT, DELETE, GET, GET_FAST, CREATE, SPLIT, OWNER, STATUS = range(8)
PUT_IF, PUT_IF_ABSENT, DELETE_IF, SCAN = 9, 10, 11, 12
DONE, NO_VALUE, UNKNOWN, WRONG, MISMATCH, MISMATCH_NO_VALUE = 0, 100, 101, 102, 105, 106
NOT_LEADING, IN_CLEAR = 107, 108
NO_HINT = 2**64 - 1
NO_MORE = 2**64 - 1
LAST_KEY = 2**63 - 1
ANY_HOST = 2**64 - 1
MOST_VALUE = 1024
MOST_NAME = 256
TRIES = 1000
VERSION = 2
MOST_HOSTS = 64


class Refusal(enum.Enum):
    """Why something was refused: its code, what it says, and what to do about it."""

    OUT_OF_MEMORY = (1, "memory was refused", "give the host's machine more memory")
    NOT_OWNER = (2, "no range granted to the host holds the key", "ask the coordinator who owns the key now")
    ROLLING = (3, "the host is not writing, or begins a new segment", "ask again soon: it passes")
    NO_BACKUPS = (4, "too few hosts are up for the factor", "start the hosts that are down")
    DEPOSED = (5, "the host was replaced", "ask the coordinator who owns the key now")
    LOG_FULL = (6, "the last segment is full", "ask again soon: it passes")
    VALUE_TOO_LONG = (7, "the value has more than 1,024 bytes", "keep it in pieces")
    NOT_READY = (11, "the owner is not up and ready, or no host is", "ask again soon: it passes")
    TABLE_EXISTS = (12, "the table is there", "use it, or take another number")
    NO_TABLE = (13, "there is no such table", "make it: `create`")
    BAD_SPLIT = (14, "the key is the first of its tablet", "nothing: the table is split there")
    TOO_MANY_TABLETS = (15, "1,024 tablets stand", "keep more in each table")
    RECOVERING = (16, "the tablet's owner has crashed", "ask again soon: it passes")
    WRONG = (102, "the request is none", "look at the addresses, and at the versions of both")
    NO_ROOM = (103, "too few hosts have room on their disks", "make room, or add hosts")
    NOT_ALLOWED = (104, "only who has the operator's secret may ask for that", "say `sevunthi create`, which has that")
    NOT_LEADING = (107, "no coordinator leads just now", "ask again soon: it passes")
    IN_CLEAR = (
        108,
        "a proof of the secret is wanted, and none was given",
        "use a client with security: this one is for clusters that take clients of this machine in clear",
    )
    OTHER = (255, "a refusal that this client does not know", "look at the versions of the client and of the cluster")

    def __init__(self, code: int, reason: str, advice: str) -> None:
        self.code = code
        self.reason = reason
        self.advice = advice

    @classmethod
    def of(cls, code: int) -> Refusal:
        """The refusal of this code."""
        return next((it for it in cls if it.code == code), cls.OTHER)

    @property
    def passes(self) -> bool:
        """Whether it passes by itself, or at another host."""
        return self in (Refusal.NOT_OWNER, Refusal.ROLLING, Refusal.NO_BACKUPS, Refusal.DEPOSED)


@dataclass(frozen=True)
class Found:
    """What stands at a key: the version of its newest write, 0 where there was none, and its value, if there is one."""

    version: int
    value: bytes | None = None


@dataclass(frozen=True)
class Entry:
    """One value that stands at a key, with the version of the key's newest write."""

    key: int
    version: int
    value: bytes


@dataclass(frozen=True)
class Page:
    """All values from the first key asked for up to, and without, `next`, as they were at one moment, confirmed. Where
    `next` is None all that was asked for was looked at. There may be no values, though there are some behind."""

    entries: tuple[Entry, ...]
    next: int | None


class Error(Exception):
    """It was not done, or nobody knows."""


class Unknown(Error):
    """Nobody knows: a write may have been done, or may still be done, at most once. A read has no answer."""


class Refused(Error):
    """It was refused, and not done."""

    def __init__(self, refusal: Refusal, code: int | None = None) -> None:
        self.refusal = refusal
        self.code = refusal.code if code is None else code
        super().__init__(f"{self.code}: {refusal.reason}; {refusal.advice}")


class Mismatch(Error):
    """The condition did not hold, and it was not done: this is there, confirmed as by a read."""

    def __init__(self, found: Found) -> None:
        self.found = found
        self.version = found.version
        self.value = found.value
        super().__init__(f"not done: version {found.version} is there")


class Collision(Error):
    """The key of the name is that of another name, which has a value: nothing was done."""

    def __init__(self, other: bytes) -> None:
        self.other = other
        super().__init__(f"not done: the key is that of {other!r}")


class NoName(Error):
    """What stands at the key begins with no name: something else writes in this table. Nothing was done."""


class Unasked(Error):
    """Nobody was asked, and it was not done. Where it passes by itself, one can wait."""

    def __init__(self, why: str, passes: bool = True) -> None:
        self.passes = passes
        super().__init__(why)


class NotLetIn(Error):
    """The coordinator has not taken this client for who operates the cluster."""


@dataclass(frozen=True)
class Target:
    """Where a cluster is: where each listens, hosts first, and then the coordinators, of which one leads."""

    places: tuple[tuple[str, int], ...]
    coordinators: int = 1

    @classmethod
    def on(cls, address: str = "127.0.0.1", port: int = 7300, hosts: int = 4, coordinators: int = 1) -> Target:
        """All listen on this address: host 0 at this port, the others at the next ones, and then the coordinators."""
        return cls(tuple((address, port + place) for place in range(hosts + coordinators)), coordinators)

    @classmethod
    def of_file(cls, path: str) -> Target:
        """The cluster of this file: on each line a host's index, or `coordinator`, and where it listens. A host may have
        `leaves` behind that, or `gone` in place of it."""
        hosts: dict[str, tuple[str, int]] = {}
        coordinators: list[tuple[str, int]] = []
        with open(path, encoding="utf-8") as lines:
            for line in lines:
                words = line.partition("#")[0].split()
                if not words:
                    continue
                if len(words) == 3 and words[2] == "leaves":
                    words.pop()
                if len(words) != 2 or words[0] in hosts:
                    raise ValueError(f"{path}: {line.strip()}")
                if words[1] == "gone":
                    words[1] = "127.0.0.1:1"  # nobody listens
                name, _, port = words[1].rpartition(":")
                at = (name.strip("[]"), int(port))
                if words[0] == "coordinator":
                    coordinators.append(at)
                else:
                    hosts[words[0]] = at
        names = [str(index) for index in range(len(hosts))]
        if not hosts or not coordinators or any(name not in hosts for name in names):
            raise ValueError(f"{path}: hosts are 0, 1 and so on, and there is a coordinator")
        return cls(tuple(hosts[name] for name in names) + tuple(coordinators), len(coordinators))

    @property
    def hosts(self) -> int:
        """How many hosts there are: the first coordinator's place."""
        return len(self.places) - self.coordinators


def request(op: int, number: int, table: int, key: int, value: bytes = b"") -> bytes:
    """The bytes of a request."""
    return struct.pack("<IBQIQ", 21 + len(value), op, number, table, key) + value


@dataclass(frozen=True)
class _Reply:
    code: int
    number: int
    version: int
    value: bytes


class _Line:
    """A connection, from which answers are taken as they come."""

    def __init__(self, at: tuple[str, int], wait: float, first: bytes = b"C") -> None:
        self.socket = socket.create_connection(at, timeout=min(wait, 2.0))
        self.socket.setsockopt(socket.IPPROTO_TCP, socket.TCP_NODELAY, 1)
        self.came = bytearray()
        self.send(first)

    def send(self, data: bytes) -> None:
        self.socket.sendall(data)

    def read(self, end: float) -> None:
        left = end - time.monotonic()
        if left <= 0:
            raise TimeoutError
        self.socket.settimeout(left)
        more = self.socket.recv(65536)
        if not more:
            raise ConnectionResetError
        self.came += more

    def exactly(self, count: int, end: float) -> bytes:
        """So many bytes, which are no answers."""
        while len(self.came) < count:
            self.read(end)
        taken = bytes(self.came[:count])
        del self.came[:count]
        return taken

    def replies(self) -> Iterator[_Reply]:
        """The whole answers that have come."""
        at = 0
        while len(self.came) >= at + 4:
            (length,) = struct.unpack_from("<I", self.came, at)
            if length < 17:
                raise ConnectionError("no answer")
            if len(self.came) < at + 4 + length:
                break
            code, number, version = struct.unpack_from("<BQQ", self.came, at + 4)
            yield _Reply(code, number, version, bytes(self.came[at + 21 : at + 4 + length]))
            at += 4 + length
        del self.came[:at]

    def is_open(self) -> bool:
        """Whether the other side has not ended it: one that asks nothing makes room for others."""
        self.socket.settimeout(0)
        try:
            return bool(self.socket.recv(1, socket.MSG_PEEK))
        except BlockingIOError:
            return True
        except OSError:
            return False

    def close(self) -> None:
        self.socket.close()


def _check(key: int, value: bytes) -> None:
    """What no host takes is not asked for."""
    if not 0 <= key < 2**63:
        raise Refused(Refusal.WRONG)
    if len(value) > MOST_VALUE:
        raise Refused(Refusal.VALUE_TOO_LONG)


def _judge(op: int, reply: _Reply) -> Found:
    """What an answer says of a request."""
    code = reply.code
    if code == DONE:
        return Found(reply.version, reply.value if op in (GET, GET_FAST, SCAN) else None)
    if code == NO_VALUE:
        return Found(reply.version)
    if code == UNKNOWN:
        raise Unknown("unknown: the host was replaced meanwhile")
    if code == MISMATCH:
        raise Mismatch(Found(reply.version, reply.value))
    if code == MISMATCH_NO_VALUE:
        raise Mismatch(Found(reply.version))
    raise Refused(Refusal.of(code), code)


class Client:
    """A client. It finds the owner of each key, and waits where that is of use, for `patience` seconds in all, and for
    `wait` seconds for one answer. One that `operates` makes and splits tables, in a cluster without security."""

    def __init__(
        self, target: Target, patience: float = 10.0, wait: float = 3.0, operates: bool = False
    ) -> None:
        self.target = target
        self.patience = patience
        self.wait = wait
        self.operates = operates
        self._lines: dict[int, _Line] = {}
        self._owners: dict[int, int] = {}
        self._doubted: set[int] = set()
        self._number = 0
        self._guess = 0
        self._leads = 0

    def __enter__(self) -> Client:
        return self

    def __exit__(self, *_: object) -> None:
        self.close()

    def close(self) -> None:
        """Ends its connections."""
        while self._lines:
            self._lines.popitem()[1].close()

    def put(self, table: int, key: int, value: bytes) -> int:
        """Writes a value, and gives its version."""
        return self._ask(PUT, table, key, value).version

    def delete(self, table: int, key: int) -> int:
        """Deletes a value, and gives the version of that."""
        return self._ask(DELETE, table, key).version

    def get(self, table: int, key: int) -> Found:
        """Reads a value, confirmed: no write is missed that was answered before this was asked."""
        return self._ask(GET, table, key)

    def put_if(self, table: int, key: int, version: int, value: bytes) -> int:
        """Writes a value, if the version of the key's newest write is this one; 0 where there was none."""
        _check(key, value)
        return self._next(version, self._ask(PUT_IF, table, key, struct.pack("<Q", version) + value))

    def put_if_absent(self, table: int, key: int, value: bytes) -> int:
        """Writes a value, if there is none: nobody has written one, or it was deleted."""
        return self._ask(PUT_IF_ABSENT, table, key, value).version

    def delete_if(self, table: int, key: int, version: int) -> int:
        """Deletes a value, if the version of the key's newest write is this one."""
        return self._next(version, self._ask(DELETE_IF, table, key, struct.pack("<Q", version)))

    def scan(self, table: int, first: int = 0, last: int = LAST_KEY, most: int = 2**32 - 1) -> Page:
        """Reads the values of the keys from the first up to the last, at most so many, of one owner. Those of one page
        are of one moment, confirmed; between two pages others may write."""
        if first > last:
            return Page((), None)
        found = self._ask(SCAN, table, first, struct.pack("<QI", min(last, LAST_KEY), min(most, 2**32 - 1)))
        entries: list[Entry] = []
        rest = found.value or b""
        while rest:
            key, version, length = struct.unpack_from("<QQI", rest)
            entries.append(Entry(key, version, rest[20 : 20 + length]))
            rest = rest[20 + length :]
        return Page(tuple(entries), None if found.version == NO_MORE else found.version)

    def entries(self, table: int, first: int = 0, last: int = LAST_KEY) -> Iterator[Entry]:
        """The values of these keys, in order, read page by page."""
        next_key: int | None = first
        while next_key is not None:
            page = self.scan(table, next_key, last)
            yield from page.entries
            next_key = page.next

    def create(self, table: int, host: int | None = None) -> None:
        """Makes a table, at this host or at the one that owns least."""
        self._operate(CREATE, table, ANY_HOST if host is None else host)

    def split(self, table: int, key: int) -> None:
        """Splits a table before a key."""
        self._operate(SPLIT, table, key)

    def status(self, place: int | None = None) -> str:
        """What whoever has this place says of itself: hosts first, and then the coordinators; by default the one that
        has led last, as far as it has answered."""
        try:
            reply = self._call(self._leading() if place is None else place, STATUS, 0, 0, b"", self.wait)
        except (_NotSent, OSError) as error:
            raise Unasked("nobody answers there") from error
        return reply.value.decode(errors="replace")

    def connect(self, table: int, key: int) -> Connection:
        """A connection to the host that owns this key now, for many requests at once."""
        end = time.monotonic() + self.patience
        while True:
            try:
                return Connection(self.target, self._owner(table, key), self.wait)
            except (Unasked, OSError) as error:
                if time.monotonic() >= end or isinstance(error, Unasked) and not error.passes:
                    raise Unasked(str(error)) from error
                time.sleep(0.02)

    @staticmethod
    def _next(version: int, found: Found) -> int:
        if found.version != version + 1:
            raise Unknown("the write does not stand behind its version")
        return found.version

    def _ask(self, op: int, table: int, key: int, value: bytes = b"") -> Found:
        _check(key, b"" if op == PUT_IF else value)
        end = time.monotonic() + self.patience
        hurries = True  # of a table that was split another host may own the key: that is asked at once
        while True:
            try:
                return self._ask_once(op, table, key, value)
            except Error as error:
                self._doubted.add(table)
                if not _passes(error, op) or time.monotonic() >= end:
                    raise
                hurries = hurries and isinstance(error, Refused) and error.refusal is Refusal.NOT_OWNER
            if not hurries:
                time.sleep(0.01)
            hurries = False

    def _ask_once(self, op: int, table: int, key: int, value: bytes) -> Found:
        try:
            owner = self._owner(table, key)
        except _NoCoordinator:
            return self._ask_any(op, table, key, value)
        return self._ask_at(owner, op, table, key, value)

    def _ask_any(self, op: int, table: int, key: int, value: bytes) -> Found:
        """Nobody says who owns the key: asks one host after another. Those that do not own it refuse."""
        owner = self._guess
        self._guess = (owner + 1) % self.target.hosts
        try:
            found = self._ask_at(owner, op, table, key, value)
        except Unasked as error:
            raise _NoCoordinator("the coordinator does not answer") from error
        except Refused as error:
            if error.refusal is Refusal.NOT_OWNER:
                raise _NoCoordinator("the coordinator does not answer") from error
            raise
        self._owners[table] = owner
        self._doubted.discard(table)
        return found

    def _ask_at(self, owner: int, op: int, table: int, key: int, value: bytes) -> Found:
        try:
            reply = self._call(owner, op, table, key, value, self.wait)
        except _NotSent as error:
            raise Unasked(f"host {owner} does not answer") from error
        except OSError as error:
            raise Unknown("unknown: it may have been done, or may still be done") from error
        if reply.code == WRONG:
            raise Unasked(f"who answers in the place of host {owner} is another", passes=False)
        return _judge(op, reply)

    def _owner(self, table: int, key: int) -> int:
        """The host that owns the key, as the coordinator said last; it is asked again where that is in doubt."""
        known = self._owners.get(table)
        if known is not None and table not in self._doubted:
            return known
        reply = self._ask_coordinators(table, key)
        if reply is None or reply.code == NOT_LEADING:
            if known is not None:
                return known
            raise _NoCoordinator("no coordinator leads just now" if reply else "the coordinator does not answer")
        if reply.code == DONE:
            self._owners[table] = reply.version
            self._doubted.discard(table)
            return reply.version
        if reply.code == Refusal.NO_TABLE.code:
            raise Unasked(f"there is no table {table}", passes=False)
        if reply.code == WRONG:
            raise Unasked("who answers in the coordinator's place is none", passes=False)
        if reply.code == IN_CLEAR:
            raise Refused(Refusal.IN_CLEAR)
        raise Unasked("who owns the key has crashed, and nobody owns it since")

    def _leading(self) -> int:
        """The place of the coordinator that has led last, as far as it has answered."""
        return self.target.hosts + self._leads

    def _ask_coordinators(self, table: int, key: int) -> _Reply | None:
        """Asks the coordinator that has led last who owns the key, and then the others. Where none leads one may have a
        hint of that: whoever does not own it refuses."""
        last: _Reply | None = None
        for _ in range(self.target.coordinators):
            try:
                reply = self._call(self._leading(), OWNER, table, key, b"", min(self.wait, 0.3))
            except (_NotSent, OSError):
                reply = None
            if reply is not None and reply.code != NOT_LEADING:
                return reply
            if reply is not None and reply.version != NO_HINT:
                last = replace(reply, code=DONE)
            elif reply is not None and last is None:
                last = reply
            self._leads = (self._leads + 1) % self.target.coordinators
        return last

    def _call(self, place: int, op: int, table: int, key: int, value: bytes, wait: float) -> _Reply:
        """Asks whoever has this place, once."""
        line = self._lines.pop(place, None)
        if line is not None and not line.is_open():
            line.close()
            line = None
        if line is None:
            try:
                line = _Line(self.target.places[place], wait)
            except OSError as error:
                raise _NotSent from error
        self._number += 1
        try:
            line.socket.settimeout(wait)
            line.send(request(op, self._number, table, key, value))
            reply = self._await(line, wait)
        except BaseException:
            line.close()
            raise
        self._lines[place] = line
        return reply

    def _await(self, line: _Line, wait: float) -> _Reply:
        end = time.monotonic() + wait
        while True:
            line.read(end)
            for reply in list(line.replies()):
                if reply.number == self._number:
                    return reply

    def _operate(self, op: int, table: int, key: int) -> None:
        """Asks the coordinator that leads for what only who operates the cluster may ask for. Where none does one is
        waited for, as long as for an answer."""
        end = time.monotonic() + self.wait
        while True:
            last: Error = Unasked("the coordinator does not answer")
            for _ in range(self.target.coordinators):
                try:
                    return self._operate_at(self._leading(), op, table, key)
                except Unasked:
                    pass
                except Refused as error:
                    if error.refusal is not Refusal.NOT_LEADING:
                        raise
                    last = error
                self._leads = (self._leads + 1) % self.target.coordinators
            if isinstance(last, Unasked) or time.monotonic() >= end:
                raise last
            time.sleep(0.05)

    def _operate_at(self, place: int, op: int, table: int, key: int) -> None:
        """Asks the coordinator of this place for that."""
        if not self.operates:
            raise Refused(Refusal.NOT_ALLOWED)
        self._number += 1
        seat = MOST_HOSTS + place - self.target.hosts
        hello = bytes([ord("A"), VERSION, seat, seat])
        end = time.monotonic() + self.wait
        try:
            line = _Line(self.target.places[place], self.wait, hello)
        except OSError as error:
            raise Unasked("the coordinator does not answer") from error
        try:
            _await_verdict(line, end)
            line.send(request(op, self._number, table, key))
            reply = self._await(line, self.wait)
        except OSError as error:
            raise Unknown("unknown: the coordinator has not answered, and it may have been done") from error
        finally:
            line.close()
        _judge(op, reply)


class _NoCoordinator(Unasked):
    """The coordinator does not answer."""


class _NotSent(Exception):
    """Nobody was reached."""


def _passes(error: Error, op: int) -> bool:
    """Whether it is of use to ask again. A write of which nobody knows is not: that would be another write."""
    if isinstance(error, Unknown):
        return op in (GET, GET_FAST, SCAN)
    if isinstance(error, Refused):
        return error.refusal.passes
    return isinstance(error, Unasked) and error.passes


class Connection:
    """A connection to one host, on which many requests are under way at once. Each call that asks gives the request's
    number. Nothing is asked again by itself. Once it raises OSError all that is under way is unknown."""

    def __init__(self, target: Target, host: int, wait: float = 3.0) -> None:
        self.wait_for = wait
        self.under_way: dict[int, int] = {}
        self._line = _Line(target.places[host], wait)
        self._out = bytearray()
        self._next = 0

    def __enter__(self) -> Connection:
        return self

    def __exit__(self, *_: object) -> None:
        self._line.close()

    def ask(self, op: int, table: int, key: int, value: bytes = b"") -> int:
        """Asks for this; it leaves with the next `wait`."""
        _check(key, b"" if op == PUT_IF else value)
        number = self._next
        self._next += 1
        self.under_way[number] = op
        self._out += request(op, number, table, key, value)
        return number

    def put(self, table: int, key: int, value: bytes) -> int:
        """Asks for a value to be written."""
        return self.ask(PUT, table, key, value)

    def delete(self, table: int, key: int) -> int:
        """Asks for a value to be deleted."""
        return self.ask(DELETE, table, key)

    def get(self, table: int, key: int) -> int:
        """Asks for a value, confirmed."""
        return self.ask(GET, table, key)

    def put_if(self, table: int, key: int, version: int, value: bytes) -> int:
        """Asks for a value to be written, if the version of the key's newest write is this one."""
        _check(key, value)
        return self.ask(PUT_IF, table, key, struct.pack("<Q", version) + value)

    def put_if_absent(self, table: int, key: int, value: bytes) -> int:
        """Asks for a value to be written, if there is none."""
        return self.ask(PUT_IF_ABSENT, table, key, value)

    def delete_if(self, table: int, key: int, version: int) -> int:
        """Asks for a value to be deleted, if the version of the key's newest write is this one."""
        return self.ask(DELETE_IF, table, key, struct.pack("<Q", version))

    def wait(self) -> list[tuple[int, Found | Error]]:
        """Sends what waits, and gives the answers that come next: at least one, where something is under way."""
        self._line.socket.settimeout(self.wait_for)
        self._line.send(bytes(self._out))
        self._out.clear()
        said: list[tuple[int, Found | Error]] = []
        end = time.monotonic() + self.wait_for
        while self.under_way and not said:
            self._line.read(end)
            for reply in self._line.replies():
                op = self.under_way.pop(reply.number, None)
                if op is not None:
                    try:
                        said.append((reply.number, _judge(op, reply)))
                    except Error as error:
                        said.append((reply.number, error))
        return said


def key_of(name: bytes) -> int:
    """The key of a name: the first eight bytes of its SHA-256, the least first, without the lowest bit."""
    return int.from_bytes(hashlib.sha256(name).digest()[:8], "little") >> 1


def _unnamed(name: bytes, found: Found) -> Found:
    """What was found at the key of a name, without the name."""
    value = found.value
    if value is None:
        return found
    if not value or len(value) < 2 + value[0]:
        raise NoName("not done: what stands at the key has no name")
    other = value[1 : 2 + value[0]]
    if other != name:
        raise Collision(other)
    return Found(found.version, value[2 + value[0] :])


class Names:
    """A table whose keys are byte strings of 1 to 256 bytes; docs/WIRE.md says how they are kept. Nothing else may
    write there. A name of another length is a `ValueError`. Where two names have one key, who comes first has it, and
    calls of the other one raise `Collision`: nothing is overwritten. A value has up to 1,023 bytes less the name."""

    def __init__(self, client: Client, table: int) -> None:
        self.client = client
        self.table = table

    def get(self, name: bytes) -> Found:
        """Reads the value of a name, confirmed."""
        return _unnamed(name, self.client.get(self.table, self._key(name)))

    def put(self, name: bytes, value: bytes) -> int:
        """Writes the value of a name, and gives its version. Mismatch says that others have written all the time."""
        stored = self._stored(name, value)
        found = self.get(name)
        for _ in range(TRIES):
            try:
                return self._put_if(name, found.version, stored)
            except Mismatch as there:
                found = there.found
        raise Mismatch(found)

    def put_if(self, name: bytes, version: int, value: bytes) -> int:
        """Writes the value of a name, if the version of its newest write is this one; 0 where there was none."""
        stored = self._stored(name, value)
        self._expect(name, version)
        return self._put_if(name, version, stored)

    def put_if_absent(self, name: bytes, value: bytes) -> int:
        """Writes the value of a name, if there is none."""
        stored = self._stored(name, value)
        try:
            return self.client.put_if_absent(self.table, self._key(name), stored)
        except Mismatch as there:
            raise Mismatch(_unnamed(name, there.found)) from None

    def delete(self, name: bytes) -> int:
        """Deletes the value of a name, and gives the version of that; where there is none nothing is written."""
        found = self.get(name)
        for _ in range(TRIES):
            if found.value is None:
                return found.version
            try:
                return self._delete_if(name, found.version)
            except Mismatch as there:
                found = there.found
        raise Mismatch(found)

    def delete_if(self, name: bytes, version: int) -> int:
        """Deletes the value of a name, if the version of its newest write is this one."""
        self._expect(name, version)
        return self._delete_if(name, version)

    def _expect(self, name: bytes, version: int) -> None:
        """Nothing is written under a version of another name."""
        found = self.get(name)
        if found.version != version:
            raise Mismatch(found)

    def _put_if(self, name: bytes, version: int, stored: bytes) -> int:
        try:
            return self.client.put_if(self.table, self._key(name), version, stored)
        except Mismatch as there:
            raise Mismatch(_unnamed(name, there.found)) from None

    def _delete_if(self, name: bytes, version: int) -> int:
        try:
            return self.client.delete_if(self.table, self._key(name), version)
        except Mismatch as there:
            raise Mismatch(_unnamed(name, there.found)) from None

    @staticmethod
    def _key(name: bytes) -> int:
        if not 1 <= len(name) <= MOST_NAME:
            raise ValueError(f"a name has 1 to {MOST_NAME} bytes")
        return key_of(name)

    @classmethod
    def _stored(cls, name: bytes, value: bytes) -> bytes:
        cls._key(name)
        stored = bytes([len(name) - 1]) + name + value
        if len(stored) > MOST_VALUE:
            raise Refused(Refusal.VALUE_TOO_LONG)
        return stored


def _await_verdict(line: _Line, end: float) -> None:
    """What became of a hello."""
    try:
        first, version, verdict = line.exactly(3, end)
    except OSError as error:
        raise Unasked("the coordinator does not answer") from error
    if first != ord("S"):
        raise NotLetIn("who listens there is no process of a cluster")
    if version != VERSION:
        raise NotLetIn(f"it has version {version}, and this is version {VERSION}")
    if verdict:
        reasons = {2: "the place is another one", 4: "the cluster has security, as `sevunthi create` has"}
        raise NotLetIn(reasons.get(verdict, "who listens there is no process of a cluster"))
