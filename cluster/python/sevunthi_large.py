"""Values of up to 1 MiB under names, each in pieces, and a header that is written last: over sevunthi.py alone.

    from sevunthi import Client, Target
    from sevunthi_large import Large
    large = Large(Client(Target.on("127.0.0.1", 7300, hosts=4)), 1, 2)
    version = large.put(b"picture", bytes(100_000))
    assert large.get(b"picture").value == bytes(100_000)

A reader sees a whole value or none. docs/WIRE.md says how they are kept, and which pieces stay where a writer ends.
"""

from __future__ import annotations

import hashlib
import os
import struct
from dataclasses import dataclass

from sevunthi import (
    MOST_VALUE, TRIES, Client, Collision, Error, Found, Mismatch, Names, Refusal, Refused, Unasked, Unknown
)

MOST = 2**20
_PIECE = MOST_VALUE - 1 - 20
READS, SETTLING, DRAWS, MOST_LEFT = 100, 5, 8, 1024


class Changing(Error):
    """The value was replaced each time that it was read, or a write was passed by others each time: nothing was done."""


class Broken(Error):
    """What is there is not what was put: something else writes in these tables."""


@dataclass(frozen=True)
class _Pieces:
    """The pieces of a value, as its header has them."""

    number: bytes
    length: int
    sum: bytes

    @property
    def count(self) -> int:
        return -(-self.length // _PIECE)

    def name(self, index: int) -> bytes:
        return self.number + struct.pack("<I", index)

    def header(self) -> bytes:
        return b"\1" + self.number + struct.pack("<II", self.count, self.length) + self.sum

    @classmethod
    def of(cls, header: bytes) -> _Pieces:
        length = struct.unpack_from("<I", header, 21)[0] if len(header) == 57 else 0
        pieces = cls(header[1:17], length, header[25:])
        if pieces.header() != header or length > MOST:
            raise Broken("its header is none")
        return pieces


@dataclass(frozen=True)
class _Header:
    version: int
    pieces: _Pieces | None

    @classmethod
    def of(cls, found: Found) -> _Header:
        return cls(found.version, None if found.value is None else _Pieces.of(found.value))

    def check(self, version: int | None, absent: bool) -> None:
        """A mismatch has the version, and b"" for a value."""
        if version not in (None, self.version) or absent and self.pieces:
            raise Mismatch(Found(self.version, None if self.pieces is None else b""))


class _Gone(Exception):
    """A header whose answer was lost is not there, and never will be. Where there is no value, the version."""

    def __init__(self, absent: int | None) -> None:
        self.absent = absent


class Large:
    """Values of up to 1 MiB under names, in pieces, and a header that is written last: a reader sees a whole value or
    none. `headers` and `pieces` are tables in which nothing else may write. What this one could not remove stands in
    `left`; `tidy` tries again. A mismatch has the version, and b"" where there is a value."""

    def __init__(self, client: Client, headers: int, pieces: int) -> None:
        self.headers = Names(client, headers)
        self.pieces = Names(client, pieces)
        self.left: list[tuple[_Pieces, int, tuple[bytes, int] | None]] = []

    def get(self, name: bytes) -> Found:
        """Reads a value, confirmed."""
        header = self._header(name)
        for _ in range(READS):
            if header.pieces is None:
                return Found(header.version)
            value = self._read(header.pieces)
            if value is not None:
                return Found(header.version, value)
            before, header = header, self._header(name)
            if header == before:
                raise Broken("its pieces are not those that were put")
        raise Changing("others change the value all the time")

    def put(self, name: bytes, value: bytes) -> int:
        """Writes a value, and gives its version."""
        return self._write(name, value, None, False)

    def put_if(self, name: bytes, version: int, value: bytes) -> int:
        """Writes a value, if the version of the name's newest write is this one; 0 where there was none."""
        return self._write(name, value, version, False)

    def put_if_absent(self, name: bytes, value: bytes) -> int:
        """Writes a value, if there is none."""
        return self._write(name, value, None, True)

    def delete(self, name: bytes) -> int:
        """Deletes a value, and gives the version of that; where there is none nothing is written."""
        header = self._header(name)
        return header.version if header.pieces is None else self._replace(name, header, None, None, False)

    def delete_if(self, name: bytes, version: int) -> int:
        """Deletes a value, if the version of the name's newest write is this one."""
        header = self._header(name)
        header.check(version, False)
        return self._replace(name, header, None, version, False)

    def tidy(self) -> None:
        """Tries again to remove pieces that are of no use. What is still to be done stays in `left`."""
        for entry in list(self.left):
            pieces, count, until = entry
            if until is not None:
                header = self._header(until[0])
                if header.version <= until[1]:
                    continue
                if header.pieces == pieces:
                    count = 0
            self._try_remove(pieces, count)
            self.left.remove(entry)

    def _header(self, name: bytes) -> _Header:
        return _Header.of(self.headers.get(name))

    def _read(self, pieces: _Pieces) -> bytes | None:
        value = bytearray()
        for index in range(pieces.count):
            try:
                piece = self.pieces.get(pieces.name(index)).value
            except Collision:
                return None
            if piece is None:
                return None
            value += piece
        is_whole = len(value) == pieces.length and hashlib.sha256(value).digest() == pieces.sum
        return bytes(value) if is_whole else None

    def _write(self, name: bytes, value: bytes, version: int | None, absent: bool) -> int:
        if len(value) > MOST:
            raise Refused(Refusal.VALUE_TOO_LONG)
        header = self._header(name)
        header.check(version, absent)
        return self._replace(name, header, self._write_pieces(value), version, absent)

    def _write_pieces(self, value: bytes) -> _Pieces:
        """Writes pieces under a number of their own."""
        for last in range(DRAWS - 1, -1, -1):
            pieces, index = _Pieces(os.urandom(16), len(value), hashlib.sha256(value).digest()), 0
            try:
                for index in range(pieces.count):
                    self._put_piece(pieces.name(index), value[index * _PIECE :][:_PIECE])
                return pieces
            except Error as error:
                # what is of this very name and number is not one's own
                self._remove(pieces, index if isinstance(error, Mismatch) else index + 1)
                if not last or not isinstance(error, (Collision, Mismatch)):
                    raise
        raise AssertionError

    def _put_piece(self, name: bytes, piece: bytes) -> None:
        """Writes a piece, and asks again where the answer was lost: it is written once at most."""
        for _ in range(SETTLING + 1):
            try:
                self.pieces.put_if_absent(name, piece)
                return
            except Mismatch as there:
                if there.value == piece:
                    return
                raise
            except Unknown:
                pass
        raise Unasked("a piece was not acknowledged, and the header not written")

    def _replace(self, name: bytes, header: _Header, new: _Pieces | None, version: int | None, absent: bool) -> int:
        """Writes or deletes a header behind the one that is there, and removes the pieces that are of no use then."""
        try:
            for _ in range(TRIES):
                said = self._swap(name, header.version, new)
                if isinstance(said, int):
                    self._remove(header.pieces)
                    return said
                header = said
                header.check(version, absent)
                if new is None and header.pieces is None:
                    return header.version
            raise Changing("others change the value all the time")
        except _Gone as gone:
            self._remove(header.pieces)
            self._remove(new)
            if new is None and version is None and gone.absent is not None:
                return gone.absent
            raise Unknown("unknown: it may have been done, and was replaced since") from None
        except Unknown:
            for pieces in (header.pieces, new):
                if pieces is not None:
                    self._leave(pieces, pieces.count, (name, header.version))
            raise
        except Error:
            self._remove(new)
            raise

    def _swap(self, name: bytes, version: int, new: _Pieces | None) -> int | _Header:
        """Writes or deletes a header, if this is still its version, and asks again where the answer was lost. Gives the
        new version, or what is there of others."""
        is_lost = False
        for _ in range(SETTLING + 1):
            try:
                if new is None:
                    return self.headers.delete_if(name, version)
                return self.headers.put_if(name, version, new.header())
            except Mismatch as mismatch:
                there = _Header.of(mismatch.found)
                return self._settled(there, version, new) if is_lost else there
            except Unknown:
                is_lost = True
            except Collision:
                if is_lost:
                    raise _Gone(None) from None
                raise
            except Error:
                if not is_lost:
                    raise
        raise Unknown("unknown: it may have been done, or may still be done")

    @staticmethod
    def _settled(there: _Header, version: int, new: _Pieces | None) -> int | _Header:
        """What became of a header whose answer was lost, where this is there now."""
        if new is not None and there.pieces == new:
            return there.version
        if there.version == version + 1 and (new is not None or there.pieces is not None):
            return there  # another one's stands directly behind that version: so this one never does
        raise _Gone(there.version if there.pieces is None else None)

    def _remove(self, pieces: _Pieces | None, count: int | None = None) -> None:
        """Removes pieces, or keeps in mind that they are to be removed."""
        if pieces is None:
            return
        count = pieces.count if count is None else count
        try:
            self._try_remove(pieces, count)
        except Error:
            self._leave(pieces, count, None)

    def _leave(self, pieces: _Pieces, count: int, until: tuple[bytes, int] | None) -> None:
        if len(self.left) < MOST_LEFT:
            self.left.append((pieces, count, until))

    def _try_remove(self, pieces: _Pieces, count: int) -> None:
        for index in range(count):
            for last in range(SETTLING, -1, -1):
                try:
                    self.pieces.delete(pieces.name(index))
                    break
                except Collision:
                    break
                except Unknown:
                    if not last:
                        raise
