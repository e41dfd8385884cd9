"""What may be wrong where a text is no JSON."""

from __future__ import annotations

import re
from typing import NamedTuple

from .dialects import Dialect
from .pieces import place

MOST_BYTES = 16_777_216
"""How many bytes the program reads."""

MOST_DEPTH = 127
"""How many lists and objects may stand open at once."""

CUT_OFF = "the text ends before all of its quotes and brackets are closed"
DEEP = "lists and objects may stand 127 deep in one another; this would be the 128th"
CONTROL = (
    "here stands a line feed, a tab or another control character; in a text it is written \\n, \\t or \\u and four "
    "hexadecimal digits"
)
ESCAPE = "JSON has no such escape; a backslash itself is written \\\\"
LONE = "half of a pair of escapes stands alone here; \\ud800 to \\udbff go with one of \\udc00 to \\udfff behind them"
NUMBER = "this number is too great, or written in a way that JSON does not have"
GREAT = "this number is too great: numbers go up to some 1.8e308"

BLANKS = b" \t\n\r"
"""What JSON takes for blanks."""

GAP = re.compile(rb"[ \t\n\r]*")
LETTERS = re.compile(rb'[^"\\\x00-\x1f]*')
ESCAPED = re.compile(rb'\\(?:["\\/bfnrt]|u[0-9a-fA-F]{4})')
FRACTION = re.compile(rb"-?(?:0|[1-9][0-9]*)(?:\.[0-9]+)?(?:[eE][+-]?[0-9]+)?")
LITERAL = re.compile(rb"true|false|null")


class Fault(NamedTuple):
    """Where a text is no JSON, and why; nowhere, where it is cut off."""

    at: int | None
    why: str


def reason(dialect: Dialect, text: bytes) -> str:
    """Why these bytes are no JSON text."""
    if len(text) > MOST_BYTES:
        return f"{dialect.whole} has more than {MOST_BYTES} bytes"
    if not text.strip(BLANKS):
        return f"the input is empty; expected an object, as {dialect.example}"
    try:
        text.decode()
    except UnicodeDecodeError as error:
        return f"{_place(text, error.start)}the bytes are not UTF-8 from here on"
    fault = fault_of(text)
    if fault is None:
        return "the bytes are no JSON text"
    return (_place(text, fault.at) if fault.at is not None else "") + fault.why


def _place(text: bytes, at: int) -> str:
    """The line and the column of a byte, both from 1; a column is a character."""
    before = text[:at].decode()
    return place(before, len(before))


def fault_of(text: bytes) -> Fault | None:
    """The first place where a text stops being JSON, if it does."""
    reader = Reader(text)
    reader.read()
    return reader.fault


class Reader:
    """A reader of a JSON text, which keeps no more than the brackets that are open."""

    def __init__(self, text: bytes) -> None:
        self.text = text
        self.at = 0
        self.fault: Fault | None = None
        self.open: list[int] = []
        """The bracket that closes each list and object that is open."""

    def read(self) -> None:
        """Reads one value and nothing behind it, up to the first fault."""
        self._begin_value()
        while self.open and self.fault is None:
            self._go_on()
        if self.fault is None and self._byte() is not None:
            self._guess()

    def _byte(self) -> int | None:
        """The next byte that is no blank."""
        self.at = GAP.match(self.text, self.at).end()
        return self.text[self.at] if self.at < len(self.text) else None

    def _fail(self, at: int | None, why: str) -> None:
        self.fault = self.fault or Fault(at, why)

    def _begin_value(self) -> None:
        """Reads a value; of a list or an object what opens it, and the name of its first member."""
        byte = self._byte()
        if byte is None:
            self._fail(None, CUT_OFF)
        elif byte in b"[{":
            self._open(byte)
        elif byte == ord('"'):
            self._read_text()
        elif byte in b"-0123456789":
            self._read_number()
        elif literal := LITERAL.match(self.text, self.at):
            self.at = literal.end()
        else:
            self._guess()

    def _open(self, byte: int) -> None:
        if len(self.open) >= MOST_DEPTH:
            self._fail(self.at, DEEP)
            return
        self.open.append(ord("]") if byte == ord("[") else ord("}"))
        self.at += 1
        if self._byte() == self.open[-1]:
            self.at += 1
            self.open.pop()
        else:
            self._begin_item()

    def _begin_item(self) -> None:
        if self.open[-1] == ord("}"):
            self._read_name()
        if self.fault is None:
            self._begin_value()

    def _go_on(self) -> None:
        """What follows a value: a comma with the next one, or the bracket that closes its list or object."""
        byte = self._byte()
        if byte is None:
            self._fail(None, CUT_OFF)
        elif byte == self.open[-1]:
            self.at += 1
            self.open.pop()
        elif byte == ord(","):
            self.at += 1
            self._begin_item()
        else:
            self._guess()

    def _read_name(self) -> None:
        byte = self._byte()
        if byte != ord('"'):
            self._fail(None, CUT_OFF) if byte is None else self._guess()
            return
        self._read_text()
        if self.fault is None:
            byte = self._byte()
            if byte == ord(":"):
                self.at += 1
            elif byte is None:
                self._fail(None, CUT_OFF)
            else:
                self._guess()

    def _read_text(self) -> None:
        at = LETTERS.match(self.text, self.at + 1).end()
        while at < len(self.text) and self.text[at] != ord('"'):
            escape = ESCAPED.match(self.text, at)
            if self.text[at] < 32:
                return self._fail(at, CONTROL)
            if escape is None:
                is_cut = len(self.text) - at < 6 and b'"' not in self.text[at + 2:]
                return self._fail(None, CUT_OFF) if is_cut and self.text[at + 1:] in (b"", b"u") else self._fail(
                    at + 1, ESCAPE)
            end = self._end_of_escape(at, escape.end())
            if end is None:
                return self._fail(at, LONE)
            at = LETTERS.match(self.text, end).end()
        if at >= len(self.text):
            return self._fail(None, CUT_OFF)
        self.at = at + 1

    def _end_of_escape(self, at: int, end: int) -> int | None:
        """Where an escape ends, with the second one of its pair; nowhere, where half of a pair stands alone."""
        if self.text[at + 1] != ord("u"):
            return end
        unit = int(self.text[at + 2:end], 16)
        if not 0xD800 <= unit < 0xE000:
            return end
        second = ESCAPED.match(self.text, end)
        if unit >= 0xDC00 or second is None or self.text[end + 1] != ord("u"):
            return None
        return second.end() if 0xDC00 <= int(self.text[end + 2:second.end()], 16) < 0xE000 else None

    def _read_number(self) -> None:
        number = FRACTION.match(self.text, self.at)
        behind = self.text[number.end():number.end() + 1] if number else b""
        if number is None or behind.isalnum() or behind in (b".", b"+", b"-"):
            return self._fail(self.at, NUMBER)
        if float(number[0]) in (float("inf"), -float("inf")):
            return self._fail(self.at, GREAT)
        self.at = number.end()

    def _guess(self) -> None:
        """Says what may be wrong at the next byte."""
        byte, at = self.text[self.at], self.at
        before = self.text[max(0, at - 4096):at].rstrip(BLANKS)[-1:]
        if byte == 0xEF and self.text.startswith(b"\xef\xbb\xbf"):
            why = "a byte order mark stands here; JSON begins without one"
        elif byte in b"]}" and before == b",":
            why = "a comma stands before this bracket; JSON has none there"
        elif byte == ord("'"):
            why = "JSON has texts and names in double quotes"
        elif byte in b'"{[' and before not in (b"", b",", b":", b"[", b"{"):
            why = "a comma is missing before this; or, if it is the end, nothing may follow"
        elif byte in b"-+.0123456789":
            why = NUMBER
        elif byte in b"]}" and self.open and byte != self.open[-1]:
            why = f"this is the wrong bracket: {chr(self.open[-1])} closes what stands open here"
        else:
            why = "this is no JSON from here on"
        self._fail(at, why)
