"""A module as what differs from another one: most of a program with a rule broken is as in the right one."""

import struct

CHUNK, STRIDE = 32, 16
"""How many bytes are looked for at once, and how far apart they begin in the one that is searched."""
NUMBERS = struct.Struct("<III")


def common(base: bytes, at: int, other: bytes, to: int) -> int:
    """How many bytes from these places on are the same."""
    length, step = 0, 1 << 16
    while step:
        while (to + length + step <= len(other)
               and base[at + length:at + length + step] == other[to + length:to + length + step]):
            length += step
        step >>= 1
    return length


def difference(base: bytes, other: bytes) -> bytes:
    """What makes the other one of the base: pieces, each three numbers of 32 bits and bytes. They say where in the base
    to copy from, how many bytes, and how many new ones follow, which then stand here."""
    places = {base[at:at + CHUNK]: at for at in range(len(base) - CHUNK, -1, -STRIDE)}
    pieces, begin, length, at, new = [], 0, 0, 0, 0

    def end(until: int) -> None:
        pieces.append(NUMBERS.pack(begin, length, until - new) + other[new:until])

    while at < len(other):
        found = places.get(other[at:at + CHUNK])
        if found is None:
            at += 1
        else:
            end(at)
            begin, length = found, common(base, found, other, at)
            at = new = at + length
    end(len(other))
    return b"".join(pieces)


def restored(base: bytes, pieces: bytes) -> bytes:
    """The other one again, as page/live/program.mjs makes it."""
    made, at = bytearray(), 0
    while at < len(pieces):
        begin, length, new = NUMBERS.unpack_from(pieces, at)
        at += NUMBERS.size
        made += base[begin:begin + length] + pieces[at:at + new]
        at += new
    return bytes(made)
