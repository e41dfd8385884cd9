"""`./ramseg`: finds the program, and tells what the words of a command line ask for."""

from __future__ import annotations

import os
import signal
import sys

from . import command_line
from .command_line import COMMANDS, DRAWING, FLAGS, Asked
from .nearest import nearest
from .program import NOT_BUILT, TOP, NoProgram, Program, Unexpected, find
from .streams import hold_places, is_terminal, say, write


def main(words: list[str]) -> int:
    """Does what these words ask for, and gives the exit status."""
    signal.signal(signal.SIGTERM, lambda *_: sys.exit(143))
    closed = hold_places()
    if 1 in closed:
        say("ramseg: standard output is closed, so nothing can be told\n")
        return 4
    try:
        return _dispatch(words, 0 in closed)
    except KeyboardInterrupt:
        return 130
    except NoProgram as error:
        return error.status
    except Unexpected as error:
        say(f"ramseg: the program is of another version: {error}\n")
        return NOT_BUILT
    except command_line.Wrong as wrong:
        say(str(wrong))
        return 2


def _dispatch(words: list[str], is_closed: bool) -> int:
    choice, rule = [], None
    if words[:1] == ["--prove"]:
        choice, words = words[:1], ["--version"]
    elif words[:1] == ["--without"]:
        choice, rule, words = words[:2], (words[1:2] or [""])[0], words[2:]
    elif words[:1] == ["help"] and len(words) > 1:
        words = [words[1], "--help"]
    command, rest = (words[0], words[1:]) if words else ("", [])
    if command == "explain" and not rule:
        return _explain(command_line.read(command, _in_one_word(rest)), None)
    if command == "page":
        return _page(rest, rule)
    if command not in ("", "--help", "-h", "help", "--version", "-V", *COMMANDS):
        return _unknown(command, words)
    program = find(choice)
    if command in ("", "--help", "-h", "help"):
        return _help(program, command)
    if command in ("--version", "-V"):
        return _version(program)
    return _command(program, rule, command, rest, is_closed)


def _page(words: list[str], rule: str | None) -> int:
    """Writes the live page; `--without RULE` may stand before the command, too."""
    from page.main import main as write_page

    return write_page([*words, *(["--without", rule] if rule is not None else [])])


def _command(program: Program, rule: str | None, command: str, rest: list[str], is_closed: bool) -> int:
    """A command, by this program."""
    if command == "script":
        from .scripting import script

        return script(program, rest, is_closed)
    if command == "test":
        from .testing import test

        return test(program, rest)
    if command == "history" and rest[:1] == ["explore"]:
        from .drawn import history

        return history(program, rest[1:])
    asked = command_line.read(command, _in_one_word(rest) if command == "explain" else rest)
    if command == "explain":
        return _explain(asked, rule)
    if asked.wants_help:
        from .helping import of_command

        return 0 if write(of_command(program, command).encode()) else 4
    if command in DRAWING:
        from .drawn import tell

        return tell(asked, program, rule)
    return _read(asked, program, rule, is_closed)


def _read(asked: Asked, program: Program, rule: str | None, is_closed: bool) -> int:
    """A command that reads files or standard input."""
    if asked.expected is not None:
        if asked.command != "run" or asked.options or asked.is_json or asked.folder or not asked.files:
            say("ramseg: --expect goes with run and files, and with no other option\n")
            return 2
        from .testing import expect

        return expect(program, asked.expected, asked.files)
    if asked.options and asked.command not in FLAGS:
        from .options import unknown

        if said := unknown(program, asked.command, asked.options):
            say(said)
            return 2
    if asked.command == "picture" and asked.folder is None and not asked.options and is_terminal(1):
        say("ramseg: a picture is a page for a browser, and this is a terminal: ./ramseg picture FILE > run.html\n")
        return 2
    from .answering import Teller
    from .files import Files, tell_standard_input

    teller = Teller(asked, program, rule)
    if asked.options and asked.files and (status := teller.look_at_options()):
        return status
    if asked.files:
        return Files(asked, teller, is_closed).tell()
    return tell_standard_input(asked, teller, is_closed)


def _help(program: Program, command: str) -> int:
    from .helping import of_all

    status, text = of_all(program)
    if command:
        return status if write(text.encode()) else 4
    say(text)
    return 2


def _version(program: Program) -> int:
    """The version, and on standard error what the program is."""
    from .program import ask

    say(f"ramseg: {program.what}, of commit {_commit()}\n")
    answer = ask(program.path, ["--version"])
    return answer.status if write(answer.told) else 4


def _commit() -> str:
    """Which commit the sources are of."""
    import subprocess

    def git(*words: str) -> str:
        run = subprocess.run(["git", "-C", TOP, *words], capture_output=True, text=True, check=False)
        return run.stdout.strip() if run.returncode == 0 else ""

    try:
        head = git("rev-parse", "--short", "HEAD") or "no commit"
        return head + (" with changes" if git("status", "--porcelain", "--", "crates", "crates.txt") else "")
    except OSError:
        return "no commit"


def _in_one_word(words: list[str]) -> list[str]:
    """`refused 11`, as a report has it, in one word or two, is the code 11."""
    kept: list[str] = []
    for word in words:
        number = word.removeprefix("refused ")
        if kept[-1:] == ["refused"] and word.isdigit():
            kept.pop()
        kept.append(number if number.isdigit() else word)
    return kept


def _explain(asked: Asked, rule: str | None) -> int:
    """What a word means."""
    from . import explaining
    from .helping import own

    if asked.wants_help:
        return 0 if write(own("explain").encode()) else 4
    word = " ".join(asked.options) if asked.options else None
    if asked.is_json and (document := explaining.document(word)) is not None:
        return 0 if write(document.encode()) else 4
    meaning = explaining.explain(word)
    if not meaning.is_known or asked.is_json:
        say(meaning.text if not meaning.is_known else
            f"error: '{word}' has no JSON document; without '--format json' it is explained\n")
        return 2
    text = f"without {rule}\n{meaning.text}" if rule else meaning.text
    return 0 if write(text.encode()) else 4


def _unknown(command: str, words: list[str]) -> int:
    """Says what may have been meant where there is no such command."""
    if command.startswith("-"):
        say(f"error: unexpected argument '{command}' found\n\n`ramseg help` lists the commands.\n")
        return 2
    if os.path.isfile(command):
        say(f"error: '{command}' is no command, but a file; did you mean './ramseg {_reader(command)} "
            f"{' '.join(words)}'?\n\n`ramseg help` lists the commands.\n")
        return 2
    near = nearest(command, (*COMMANDS, "help"))
    asks = f"; did you mean '{near}'?" if near else ""
    say(f"error: '{command}' is no command{asks}\n\n`ramseg help` lists the commands.\n")
    return 2


def _reader(name: str) -> str:
    """The command that reads a file."""
    from .reasons.refusals import kind_of
    from .streams import MOST_BYTES

    try:
        with open(name, "rb") as file:
            return kind_of(file.read(MOST_BYTES))[1] or "run"
    except OSError:
        return "run"
