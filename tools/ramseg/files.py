"""Several inputs, one after another: files, `-` for standard input; and where what is told of each goes."""

from __future__ import annotations

import os

from .answering import Teller, Told
from .command_line import Asked
from .streams import is_terminal, read_all, say, write

ENDINGS = (".html", ".json", ".log", ".report", ".trace", ".audit", ".mermaid", ".svg", ".txt")
"""How a name ends that is no folder's."""

MOST_NAMES = 1_000
"""Among how many files of a folder one with a similar name is looked for."""


class Unread(Exception):
    """Why an input can't be read."""


def tell_standard_input(asked: Asked, teller: Teller, is_closed: bool) -> int:
    """Tells of standard input on standard output, and gives the status."""
    if asked.folder is not None:
        say("ramseg: -o wants files: what is told of standard input goes to standard output\n")
        return 2
    if is_terminal(0):
        say(f"ramseg: {asked.command} reads from here until the end of input (Control-D); ./ramseg {asked.command} "
            "FILE reads a file\n")
    try:
        text = read("-", is_closed)
    except Unread as why:
        say(f"ramseg: standard input can't be read: {why}\n")
        return 4
    told = teller.tell(text, None)
    is_written = write(told.text)
    say("".join(f"{line}\n" for line in told.said))
    return told.status if is_written else 4


class Files:
    """Tells of files, of which each line on standard error is told with its name where there are several."""

    def __init__(self, asked: Asked, teller: Teller, is_closed: bool) -> None:
        self.asked, self.teller, self.is_closed = asked, teller, is_closed
        self.written: set[str] = set()

    def tell(self) -> int:
        """Tells of each, and gives the greatest status."""
        status = self._look_at_options()
        if status:
            return status
        names_each = len(self.asked.files) > 1 and self.asked.folder is None
        for name in self.asked.files:
            if names_each and not write(f"== {name}\n".encode(errors="surrogateescape")):
                return 4
            status = max(status, self._tell_one(name))
        return status

    def _look_at_options(self) -> int:
        """Says once what is wrong with where things go, before any file is looked at."""
        folder, files = self.asked.folder, self.asked.files
        if self.asked.is_whole and folder is None and len(files) > 1:
            say(f"ramseg: {self.asked.command} writes one whole text for each file: -o FOLDER puts each into a file of "
                "its own\n")
            return 2
        if folder is None:
            return 0
        if folder.endswith(ENDINGS) and not os.path.isdir(folder):
            say(f"ramseg: -o wants a folder: for one file write ./ramseg {self.asked.command} FILE > {folder}\n")
            return 2
        try:
            os.makedirs(folder, exist_ok=True)
        except OSError as error:
            say(f"ramseg: {folder}: it can't be made: {error.strerror}\n")
            return 4
        return 0

    def _tell_one(self, name: str) -> int:
        try:
            text = read(name, self.is_closed)
            target = self._target(name)
        except Unread as why:
            say(f"ramseg: {name}: {why}\n")
            return 4
        title = None if name == "-" else _stem(name)
        told = self.teller.tell(text, title)
        is_written = write(told.text) if target is None else _write_file(target, told.text)
        self._say(name, told)
        return told.status if is_written else 4

    def _say(self, name: str, told: Told) -> None:
        """Names the file at each line, or at a place in it where it is the only one."""
        is_alone = len(self.asked.files) == 1
        say("".join(f"{line}\n" if is_alone and not line.startswith("line ") else f"{name}: {line}\n"
                    for line in told.said))

    def _target(self, name: str) -> str | None:
        """The file for what is told of this one, if it goes into a folder."""
        if self.asked.folder is None:
            return None
        stem = "input" if name == "-" else _stem(name)
        target = os.path.join(self.asked.folder, f"{stem}.{_ending(self.asked)}")
        is_it = name != "-" and os.path.exists(target) and os.path.samefile(target, name)
        if is_it or target in self.written:
            raise Unread(f"nothing is written, since {target} is that file, or was written for another one")
        self.written.add(target)
        return target


def _stem(name: str) -> str:
    """The name of a file without folders and without its ending, where that is `.json`, or a script's `.txt`."""
    return os.path.basename(name).removesuffix(".json").removesuffix(".txt")


def _write_file(target: str, text: bytes) -> bool:
    """Writes a file; none is left where there is nothing to tell."""
    try:
        with open(target, "wb") as file:
            file.write(text)
        if not text:
            os.remove(target)
    except OSError as error:
        say(f"ramseg: {target}: it could not be written: {error.strerror}\n")
        return False
    return True


def _ending(asked: Asked) -> str:
    """How the name of what is told of a file ends."""
    if asked.is_json:
        return {"run": "report.json", "audit": "audit.json"}[asked.command]
    if asked.command == "picture":
        return "mermaid" if asked.has("--mermaid") else "html"
    if asked.has("--json"):
        return "log.json"
    return {"shrink": "json", "heal": "json", "run": "report"}.get(asked.command, asked.command)


def read(name: str, is_closed: bool) -> bytes:
    """All of a file, or of standard input."""
    try:
        if name == "-":
            if is_closed:
                raise Unread("it is closed")
            return read_all(0)
        if os.path.isdir(name):
            raise Unread("it is a folder; name files in it, as FOLDER/*.json")
        number = os.open(name, os.O_RDONLY)
        try:
            return read_all(number)
        finally:
            os.close(number)
    except FileNotFoundError:
        raise Unread(f"there is no such file{_question(name)}") from None
    except PermissionError:
        raise Unread("it may not be read") from None
    except OSError as error:
        raise Unread(error.strerror or "it can't be read") from None


def _question(name: str) -> str:
    """Asks whether a file with nearly this name was meant, where there is one."""
    from .nearest import question

    folder, own = os.path.split(name)
    try:
        others = sorted(os.listdir(folder or ".")[:MOST_NAMES], key=lambda it: (not it.endswith((".json", ".txt")), it))
    except OSError:
        return ""
    return question(own, others)
