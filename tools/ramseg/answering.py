"""What is told of one scenario, trace or history: the program's answer, why there is none, and hints."""

from __future__ import annotations

import re
from typing import TYPE_CHECKING, Any

from .command_line import SCENARIO_READING, Asked
from .program import Answer, Program, ask
from .streams import say

if TYPE_CHECKING:
    from .scripting import Made

MOST_HINTED = 4_000_000
"""How many bytes a scenario has at most for which hints are looked for: that plays it once more."""

REFUSED = re.compile(rb"error F17 at (\d+)\n")
STOPPED = re.compile(r"^stopped F18 at event (\d+)$", re.M)
SENT = re.compile(r"^messages (\d+)$", re.M)
CODE = re.compile(rb"^refused (\d+) from ", re.M)


class Told:
    """What is told, and with which status."""

    def __init__(self, status: int) -> None:
        self.status = status
        self.text = b""
        """What goes to standard output, or into a file."""
        self.said: list[str] = []
        """The lines for standard error."""

    def say(self, text: str | bytes | None) -> None:
        """Says these lines, if there are any."""
        if text:
            lines = text.decode(errors="replace") if isinstance(text, bytes) else text
            self.said += lines.splitlines()


class Teller:
    """Tells what a command line asks for of one input after another."""

    def __init__(self, asked: Asked, program: Program, rule: str | None) -> None:
        self.asked, self.program, self.rule = asked, program, rule
        self.script: Made | None = None
        """The script that the input is, where it is one."""

    def look_at_options(self) -> int:
        """Says what is wrong with the options of the program, if something is, and gives the status."""
        answer = ask(self.program.path, [*self._words(), "--help"])
        if answer.status:
            say(answer.said.decode(errors="replace"))
        return answer.status

    def tell(self, text: bytes, name: str | None) -> Told:
        """What is told of this input, of which the name stands above a page. A script is made a scenario first."""
        self.script = None
        if self.asked.command in SCENARIO_READING and not text.lstrip().startswith(b"{"):
            from . import scripting

            if scripting.looks_so(text):
                try:
                    self.script = scripting.made(self.program, text)
                except scripting.Wrong as wrong:
                    told = Told(2)
                    told.say(str(wrong))
                    return told
        return self._tell(text if self.script is None else self.script.text, name)

    def _tell(self, text: bytes, name: str | None) -> Told:
        """What is told of this input, a scenario, a trace or a history."""
        answer = self._ask(self._words(), text, title=self.asked.command)
        told = Told(answer.status)
        told.say(answer.said)
        refused = REFUSED.match(answer.told)
        if refused:
            self._tell_refusal(told, text, int(refused[1]), answer)
        elif self.asked.command in ("log", "picture"):
            self._tell_story(told, text, answer, name)
        else:
            self._tell_text(told, text, answer)
        return told

    def _words(self) -> list[str]:
        if self.asked.command in ("log", "picture"):
            return ["log", "--json"]
        return [self.asked.command, *self.asked.options]

    def _ask(self, words: list[str], text: bytes, title: str = "") -> Answer:
        return ask(self.program.path, words, text, title=title)

    def _tell_refusal(self, told: Told, text: bytes, at: int, answer: Answer) -> None:
        """The one line of an input that is wrong (F17), and why."""
        from .reasons import refusals

        told.say(self._placed(refusals.reason(self.asked.command, text, at), at - 2 if at > 1 else None))
        if self.asked.is_apart:
            told.say(answer.told)
        else:
            told.text = self._marked(answer.told)

    def _tell_story(self, told: Told, text: bytes, answer: Answer, name: str | None) -> None:
        """The story of a run, as it is wanted; with why it stopped, or hints."""
        if not answer.told:
            return
        from . import stories

        story = stories.read(answer.told)
        told.text = stories.write(self.asked, answer.told, story, self._title(name), self.rule)
        stopped = story["stopped"]
        if stopped is None:
            self._hint(told, text, story)
        elif stopped["code"] == "F18":
            self._tell_stop(told, text, stopped["place"], len(story["messages"]))

    def _title(self, name: str | None) -> str:
        title = name or "Story of a run"
        return f"Without {self.rule}: {title}" if self.rule else title

    def _tell_text(self, told: Told, text: bytes, answer: Answer) -> None:
        """What the program has told, as a text or as a document; with why it stopped, or hints."""
        told.text = answer.told
        if self.asked.is_json:
            from .documents import document

            told.text = document(self.asked.command, self.asked.options, answer.told.decode()).encode()
        elif self.asked.command in ("run", "audit", "check"):
            told.text = self._marked(told.text)
        if answer.status == 2:
            self._tell_status_2(told, text, answer)
        elif answer.status in (0, 1) and self.asked.command != "check":
            self._hint(told, text, None, answer.told)
        self._warn(told)

    def _tell_status_2(self, told: Told, text: bytes, answer: Answer) -> None:
        """A run that stopped, or what was looked for is not there."""
        if b"error:" in answer.said:
            return
        if self.asked.command == "shrink":
            told.say("error: no line of the report begins with the text of '--keep'")
            return
        report = answer if self.asked.command == "run" else self._ask(["run"], text)
        lines = report.told.decode()
        stopped, sent = STOPPED.search(lines), SENT.search(lines)
        if stopped and sent:
            self._tell_stop(told, text, int(stopped[1]), int(sent[1]))

    def _tell_stop(self, told: Told, text: bytes, number: int, sent: int) -> None:
        from .reasons.stops import reason_of_stop

        told.say(self._placed(reason_of_stop(text, number, sent), number))

    def _placed(self, reason: str, event: int | None) -> str:
        """A reason, with the line of the script in place of that of the scenario, where the input is one."""
        return reason if self.script is None else self.script.placed(reason, event)

    def _warn(self, told: Told) -> None:
        """What was asked for, and says nothing."""
        if self.asked.command == "shrink" and told.text.partition(b"\n")[2] == b"]}\n":
            told.say("ramseg: no event is left: each report has a line that begins so, as 'acknowledged 0'; name more")
        if self.asked.command == "check" and told.text.startswith(b"operations 0\n"):
            told.say("ramseg: the history has no operation, so nothing was judged")

    def _hint(self, told: Told, text: bytes, story: dict[str, Any] | None, report: bytes = b"") -> None:
        """What may not have been meant in what went through, and the codes with which something was refused."""
        from .reasons.dialects import SCENARIO, TRACE
        from .reasons.twice import hint_of_twice

        is_trace = self.asked.command == "audit"
        told.say(hint_of_twice(TRACE if is_trace else SCENARIO, text))
        if is_trace or self.asked.command in ("shrink", "heal"):
            return
        if story is None and len(text) > MOST_HINTED:
            told.say(names_of_codes(codes_in(report)))
            return
        from . import stories

        story = story or stories.read(self._ask(["log", "--json"], text).told)
        told.say(names_of_codes(stories.codes(story)))
        told.say(stories.hints(story))

    def _marked(self, text: bytes) -> bytes:
        """What was told, with a word that a rule is broken, where one is."""
        return f"without {self.rule}\n".encode() + text if self.rule and text else text


def codes_in(report: bytes) -> set[int]:
    """The codes with which something was refused, of a report."""
    return {int(number) for number in CODE.findall(report)}


def names_of_codes(numbers: set[int]) -> str:
    """A line for each of these codes, in their order."""
    if not numbers:
        return ""
    from .explaining import short_of_code

    return "".join(f"{short_of_code(number)}\n" for number in sorted(numbers))
