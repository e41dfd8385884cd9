"""The program that `./ramseg` runs: which it is, and what it answers."""

from __future__ import annotations

import os
import select
import signal
from typing import NamedTuple

from .streams import is_terminal, say

TOP = os.path.dirname(os.path.dirname(os.path.dirname(os.path.realpath(__file__))))
"""The folder of the repository."""

NOT_BUILT = 70
"""The status where there is no program; it is none of the program's own."""

FIRST_WAIT, LATER_WAITS = 2, 10
"""After so many seconds a terminal is told that a command goes on, and then each time so many have passed."""

MUCH = b"the messages of this run take"
"""How the program says that a run takes much memory."""


class Program(NamedTuple):
    """A program, and what it is."""

    path: str
    what: str


class Answer(NamedTuple):
    """What a program answers."""

    status: int
    told: bytes
    """What it wrote on standard output."""
    said: bytes
    """What it wrote on standard error, where that was kept."""


class Unexpected(Exception):
    """The program has told what is not known here: it is of another version."""


class NoProgram(Exception):
    """There is no program, for which this is the status."""

    def __init__(self, status: int) -> None:
        super().__init__(status)
        self.status = status


def find(choice: list[str]) -> Program:
    """The program: the one that RAMSEG_PROGRAM names, or that scripts/ramseg/program finds or builds."""
    named = os.environ.get("RAMSEG_PROGRAM")
    if named and not choice:
        if os.path.realpath(named) == os.path.join(TOP, "ramseg"):
            say("ramseg: RAMSEG_PROGRAM names this script itself\n")
            raise NoProgram(NOT_BUILT)
        return Program(os.path.abspath(named), "named by RAMSEG_PROGRAM")
    answer = ask(os.path.join(TOP, "scripts/ramseg/program"), choice, shows=True)
    if answer.status != 0:
        raise NoProgram(answer.status)
    path, _, what = answer.told.decode(errors="surrogateescape").strip().partition("\n")
    return Program(path, what)


def ask(path: str, words: list[str], given: bytes | None = None, shows: bool = False, title: str = "") -> Answer:
    """Runs a program on these words and this input, or on standard input where none is given. What it says on standard
    error is kept, or shown at once. Where standard error is a terminal and there is a title, a program that takes long
    is told of there."""
    told, said = _memory("told"), None if shows else _memory("said")
    actions = [(os.POSIX_SPAWN_DUP2, told, 1)]
    if said is not None:
        actions.append((os.POSIX_SPAWN_DUP2, said, 2))
    if given is not None:
        actions.append((os.POSIX_SPAWN_DUP2, _memory("given", given), 0))
    try:
        worker = os.posix_spawn(path, [path, *words], os.environ, file_actions=actions, setsigdef=[signal.SIGPIPE])
    except OSError as error:
        say(f"ramseg: {path} can't be run: {error.strerror}\n")
        raise NoProgram(NOT_BUILT) from None
    status = _wait(worker, title, said)
    answer = Answer(status, _content(told), b"" if said is None else _content(said))
    for _, number, _ in actions:
        os.close(number)
    return answer


def _memory(name: str, content: bytes = b"") -> int:
    """A file in memory, at its beginning."""
    number = os.memfd_create(name)
    if content:
        with os.fdopen(os.dup(number), "wb") as file:
            file.write(content)
        os.lseek(number, 0, os.SEEK_SET)
    return number


def _content(number: int) -> bytes:
    with os.fdopen(os.dup(number), "rb") as file:
        file.seek(0)
        return file.read()


def _wait(worker: int, title: str, said: int | None) -> int:
    """Waits for a process, and gives its status. Who interrupts that, ends it."""
    try:
        if title and is_terminal(2):
            _tell_progress(worker, title, said)
        _, ended = os.waitpid(worker, 0)
    except BaseException:
        _end(worker)
        raise
    code = os.waitstatus_to_exitcode(ended)
    return code if code >= 0 else 128 - code


def _end(worker: int) -> None:
    try:
        os.kill(worker, signal.SIGTERM)
        os.waitpid(worker, 0)
    except (ChildProcessError, ProcessLookupError):
        pass


def _tell_progress(worker: int, title: str, said: int | None) -> None:
    """Tells now and then that a process goes on, until it has ended."""
    ended = os.pidfd_open(worker)
    waiting = select.poll()
    waiting.register(ended, select.POLLIN)
    seconds, pause = 0, FIRST_WAIT
    while not waiting.poll(pause * 1000):
        seconds, pause = seconds + pause, LATER_WAITS
        say(f"ramseg: {title} goes on, {seconds} s{_memory_hint(said)}\n")
    os.close(ended)


def _memory_hint(said: int | None) -> str:
    """What the program has said of the memory that it takes, if it has."""
    text = b"" if said is None else os.pread(said, 4096, 0)
    at = text.find(MUCH)
    return "" if at < 0 else "; " + text[at:].split(b"\n")[0].decode(errors="replace")
