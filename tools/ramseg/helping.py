"""Help: what the program says of its commands, with what the script has beside them."""

from __future__ import annotations

import pathlib

from .command_line import FORMATTED, READING
from .program import Program, ask

TEXTS = pathlib.Path(__file__).resolve().parent / "help"
STATUSES = (
    "\nExit status: 0 clean, 1 a breach, 2 a wrong input or command line, 3 no memory, 4 a failed read or write, "
    "70 not built.\n"
)
FORMAT = "      --format <json>  Prints one JSON document in place of the text"
BEHIND = {"log": "", "picture": "log", "explain": "heal"}
"""The commands of which the script has the help, each with the one that it stands behind in the list of all where the
program has none of that name."""


def own(command: str) -> str:
    """The script's own help of a command; nothing, where it has none."""
    file = TEXTS / f"{command}.txt"
    return file.read_text() if file.exists() else ""


def of_all(program: Program) -> tuple[int, str]:
    """The list of all commands, with its status."""
    answer = ask(program.path, ["--help"])
    lines = answer.told.decode().split("\n")
    for command, before in BEHIND.items():
        line = f"  {command:<7}  {own(command).partition(chr(10))[0]}"
        at, place = _line_of(lines, command), _line_of(lines, before)
        if at is not None:
            lines[at] = line
        elif place is not None:
            lines.insert(place + 1, line)
    return answer.status, "\n".join(lines) + (TEXTS / "all.txt").read_text() + STATUSES


def _line_of(lines: list[str], command: str) -> int | None:
    return next((at for at, line in enumerate(lines) if line.startswith(f"  {command} ")), None)


def of_command(program: Program, command: str) -> str:
    """The help of one command of the program or of the script."""
    told = own(command)
    if not told:
        told = ask(program.path, [command, "--help"]).told.decode()
        if command in FORMATTED:
            told = _with_format(told.replace(f"Usage: ramseg {command}\n", f"Usage: ramseg {command} [OPTIONS]\n"))
    return told + _files(command)


def _with_format(told: str) -> str:
    """The help of a command of the program with the option that the script adds, in the same columns."""
    if "--format" in told:
        return told
    before, title, rest = told.partition("\nOptions:\n")
    if not title:
        return told
    options = rest.split("\n")
    column = options[0].index("  ", 10) if len(options[0]) > 10 else 0
    width = max(column, len(FORMAT.partition(">")[0]) + 1)
    says = FORMAT.partition(">")[2].strip()
    moved = [_moved(line, width) for line in options]
    return f"{before}{title}{'      --format <json>':<{width}}  {says}\n" + "\n".join(moved)


def _moved(line: str, width: int) -> str:
    """A line of an option, of which what it says begins in this column; any other line as it is."""
    if not line.startswith(("      --", "  -h, --")):
        return line
    spelt, _, says = line[6:].partition("  ")
    return f"{line[:6] + spelt:<{width}}  {says.strip()}"


def _files(command: str) -> str:
    """What the help of a command that reads has beside what the program says of it."""
    if command not in READING:
        return ""
    options = "--keep TEXT" if command == "shrink" else "[OPTIONS]"
    told = f"\nFiles: ./ramseg {command} {options} [-o FOLDER] [--] FILE..\n"
    if command == "run":
        told += "       ./ramseg run --expect EXPECTED FILE..\n"
    return told + STATUSES
