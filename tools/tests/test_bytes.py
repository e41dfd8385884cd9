"""The examples of docs/BYTES.md, worked anew by the rules that stand there."""

import re
import struct
import unittest
from pathlib import Path

PAGE = (Path(__file__).resolve().parents[2] / "docs" / "BYTES.md").read_text()
HEXADECIMAL = re.compile(r"(?:[0-9a-f]{2})+(?:\s+(?:[0-9a-f]{2})+)*\s*")
FIRST_SUM, FACTOR = 14_695_981_039_346_656_037, 11_400_714_819_323_198_485
MOST = 2**64 - 1


def sum_of(content: bytes) -> int:
    """The sum over these bytes, as a record has it."""
    whole = len(content) // 8 * 8
    numbers = [*(number for (number,) in struct.iter_unpack("<Q", content[:whole])), *content[whole:]]
    found = FIRST_SUM
    for number in numbers:
        product = (found ^ number) * FACTOR & MOST
        found = product ^ product >> 32
    return found >> 32


def framed(content: bytes) -> bytes:
    """These bytes as a record."""
    return struct.pack("<QI", len(content), sum_of(content)) + content


def blocks() -> list[bytes]:
    """The blocks of the page that are bytes."""
    found = re.findall(r"^```\n(.*?)^```$", PAGE, re.M | re.S)
    return [bytes.fromhex(block) for block in found if HEXADECIMAL.fullmatch(block)]


def within(line: str) -> bytes:
    """The bytes that stand in backquotes in the line that begins so."""
    begun = next(it for it in PAGE.splitlines() if it.startswith(line))
    return bytes.fromhex(begun.split("`")[1])


class Bytes(unittest.TestCase):
    def test_the_message_is_of_its_fields(self) -> None:
        addresses = struct.pack("<BBI", 1, 0, 1) + struct.pack("<BBI", 1, 1, 1)
        entry = struct.pack("<IIQQ", 1, 7, 258, 1) + struct.pack("<BQ", 1, 2) + b"hi"
        append = struct.pack("<BHQ", 6, 3, 2) + struct.pack("<Q", 1) + entry
        self.assertEqual(blocks()[0], b"\x01" + addresses + append)

    def test_records_and_saves_have_their_lengths_and_sums(self) -> None:
        self.assertEqual(within("A Stop is"), framed(b"\x01\x03"))
        self.assertEqual(within("A new coordinator is") + bytes(64), framed(b"\x01\x0a" + bytes(64)))
        self.assertEqual(len(blocks()), 2)
        self.assertEqual(blocks()[1], framed(blocks()[1][12:]))

    def test_the_host_is_of_its_fields(self) -> None:
        head = struct.pack("<BBHBIB", 2, 2, 4, 1, 1, 1)
        held = struct.pack("<BIB", 0, 1, 1) + struct.pack("<QQH", 0, 1, 3)
        save = b"\x01\x09" + head + struct.pack("<BI", 2, 1) + struct.pack("<Q", 1) + held
        self.assertEqual(blocks()[1], framed(save))
