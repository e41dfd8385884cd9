"""Options that a command does not have, and what may have been meant."""

from __future__ import annotations

import re

from .command_line import FORMATTED, READING
from .nearest import nearest
from .program import Program, ask

OPTION = re.compile(r"^ +(?:-\w, )?(--[\w-]+)", re.M)


def of_script(command: str) -> set[str]:
    """The options that a command has of the script."""
    formats, folders = {"--format"} if command in FORMATTED else set(), {"--output"} if command in READING else set()
    return {"--help"} | formats | folders | ({"--expect"} if command == "run" else set())


def unknown(program: Program, command: str, words: list[str]) -> str:
    """Why one of these words is no option of the command, and which there are; nothing, where each is one."""
    known: list[str] = []
    for word in words:
        if re.fullmatch(r"-[0-9.]+", word):
            return f"error: '{word}' is no value: a number has decimal digits alone, without a sign\n"
        name = word.partition("=")[0]
        if not name.startswith("-") or name in ("-h", "-"):
            continue
        if not known:
            told = ask(program.path, [command, "--help"]).told.decode(errors="replace").partition("Options:")[2]
            known = sorted({*OPTION.findall(told), *of_script(command)})
        if name not in known:
            return text(name, command, known)
    return ""


def text(name: str, command: str, known: list[str]) -> str:
    """What is said of an option that a command does not have, and has these."""
    near = nearest(name, known)
    asks = f"; did you mean '{near}'?" if near else ""
    return f"error: '{command}' has no option '{name}'{asks}\n\nIts options are: {' '.join(known)}\n"
