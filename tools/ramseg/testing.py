"""`ramseg test`: runs scenarios, and says whether each run is as a file beside it expects.

NAME.expect has a line for each thing:

    TEXT          a line of the report begins with these words, or is one of its counts, as `acknowledged 1`
    ! TEXT        no line of the report does; so `! refused` says that nothing was refused
    status N      the exit status is N; 0, if nothing is said
    # ..          is passed over, as an empty line is

A line that begins as none of a report does is wrong.
"""

from __future__ import annotations

import pathlib
import re
from collections.abc import Iterator

from .answering import Teller
from .command_line import Asked
from .program import Program
from .streams import MOST_BYTES, say, write

USAGE = ("usage: ./ramseg test PATH..   the scenarios NAME.json and scripts NAME.txt of these files and folders that "
         "have a NAME.expect")
WORDS = ("own", "ack", "read", "refused", "split", "plan", "stopped", "error", "messages", "acknowledged", "plans",
         "grants", "audit")
"""How the lines of a report begin."""

COUNT = re.compile(r"[a-z]+ [0-9]+")


def test(program: Program, words: list[str]) -> int:
    """Runs the scenarios of these files and folders. The status is 1 where anything differs, and 2 where nothing was
    found to be run."""
    for word in words:
        if word in ("-h", "--help"):
            return 0 if write(f"{USAGE}\n".encode()) else 4
        if word.startswith("-"):
            say(f"ramseg: test has no option {word}; {USAGE}\n")
            return 2
    return Suite(program).run(list(_scenarios(words or ["."])))


def expect(program: Program, expected: str, files: list[str]) -> int:
    """The same of these files, and of this file of what is expected."""
    return Suite(program, pathlib.Path(expected)).run([pathlib.Path(name) for name in files])


def _scenarios(words: list[str]) -> Iterator[pathlib.Path]:
    for path in map(pathlib.Path, words):
        if path.is_dir():
            scripts = (file for file in path.rglob("*.txt") if file.with_suffix(".expect").exists())
            yield from sorted([*path.rglob("*.json"), *scripts])
        elif path.suffix == ".expect":
            is_script = path.with_suffix(".txt").exists() and not path.with_suffix(".json").exists()
            yield path.with_suffix(".txt" if is_script else ".json")
        else:
            yield path


class Suite:
    """Scenarios that are run one after another."""

    def __init__(self, program: Program, given: pathlib.Path | None = None) -> None:
        self.teller = Teller(Asked("run"), program, None)
        self.given = given
        self.passed = self.failed = self.alone = 0

    def run(self, scenarios: list[pathlib.Path]) -> int:
        """Runs each, tells how many passed and failed, and gives the status."""
        for scenario in scenarios:
            expected = self.given or scenario.with_suffix(".expect")
            if not scenario.is_file():
                self._fail(f"{scenario}\n  there is no such file, or it may not be read")
            elif self.given and not expected.is_file():
                self._fail(f"there is no file {expected}")
            elif not expected.exists():
                self.alone += 1
            else:
                self._look(scenario, expected)
        if self.alone:
            self._tell(f"without a file of what is expected: {self.alone}")
        self._tell(f"{self.passed} passed, {self.failed} failed")
        if self.passed + self.failed == 0:
            say("ramseg: nothing was run: NAME.json, or the script NAME.txt, is run where NAME.expect lies beside it "
                "(docs/FORMATS.md, 17)\n")
        return 2 if self.passed + self.failed == 0 else int(self.failed > 0)

    def _tell(self, line: str) -> None:
        write(f"{line}\n".encode(errors="surrogateescape"))

    def _fail(self, text: str) -> None:
        self.failed += 1
        self._tell(f"FAILED: {text}")

    def _look(self, scenario: pathlib.Path, expected: pathlib.Path) -> None:
        """Runs one scenario."""
        try:
            with scenario.open("rb") as file:
                text = file.read(MOST_BYTES + 1)
            wanted = expected.read_text()
        except (OSError, UnicodeDecodeError):
            self._fail(f"{scenario}\n  it, or what is expected, can't be read")
            return
        told = self.teller.tell(text, None)
        found = list(differences(told.text.decode().splitlines(), told.status, wanted))
        if not found:
            self.passed += 1
            self._tell(f"ok: {scenario}")
        else:
            self._fail("\n".join([str(scenario), *(f"  {it}" for it in found), *(f"    {it}" for it in told.said)]))


def differences(report: list[str], status: int, expected: str) -> Iterator[str]:
    """What a run does not have, or has though it should not."""
    wanted_status = 0
    for line in map(str.rstrip, expected.splitlines()):
        if not line.strip() or line.lstrip().startswith("#"):
            continue
        found = re.fullmatch(r"status +([0-9]+)", line)
        if found:
            wanted_status = int(found[1])
            continue
        is_absent = line.startswith("! ")
        text = line[2:] if is_absent else line
        if not re.match("[a-z]", text) or text.split()[0] == "status":
            yield f"this line says nothing of a report: {line}"
        elif text.split()[0] not in WORDS:
            yield f"no line of a report begins with {text.split()[0]}, but with: {' '.join(WORDS)}"
        elif is_absent and _begins(report, text):
            yield f"has a line that begins with: {text}"
        elif not is_absent and not _begins(report, text):
            yield f"has no line that begins with: {text}"
    if status != wanted_status:
        yield f"ended with status {status}, not {wanted_status}"


def _begins(report: list[str], text: str) -> bool:
    """Whether a line is this text, or begins with these words; a count has to be the same."""
    return any(line == text or not COUNT.fullmatch(line) and f"{line} ".startswith(f"{text} ") for line in report)
