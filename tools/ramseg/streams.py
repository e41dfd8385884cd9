"""Standard input, output and error, where each may be closed, or be a pipe whose reader has ended."""

import os

MOST_BYTES = 16_777_216
"""How many bytes a scenario, a trace or a history has at most: what is longer is refused by the program."""


def hold_places() -> list[int]:
    """Opens nothing in the place of a standard stream that is closed, so that no other file takes its number. Gives
    which were closed."""
    closed = []
    for number in (0, 1, 2):
        try:
            os.fstat(number)
        except OSError:
            os.open(os.devnull, os.O_RDWR)
            closed.append(number)
    return closed


def say(text: str) -> None:
    """Writes on standard error, where that can be written."""
    try:
        _write_all(2, text.encode(errors="surrogateescape"))
    except OSError:
        pass


def read_all(number: int) -> bytes:
    """All that can be read of a file, or as much as is certainly too long."""
    parts, left = [], MOST_BYTES + 1
    while left > 0 and (part := os.read(number, min(left, 1 << 20))):
        parts.append(part)
        left -= len(part)
    return b"".join(parts)


def write(data: bytes, to: int = 1) -> bool:
    """Writes this, and gives whether all was written. Says why not, but where the reader of a pipe has ended: it wants
    no more."""
    try:
        _write_all(to, data)
    except BrokenPipeError:
        return False
    except OSError as error:
        say(f"ramseg: what is told could not be written: {error.strerror}\n")
        return False
    return True


def _write_all(number: int, data: bytes) -> None:
    left = memoryview(data)
    while left:
        left = left[os.write(number, left):]


def is_terminal(number: int) -> bool:
    """Whether this is a terminal."""
    return os.isatty(number)
