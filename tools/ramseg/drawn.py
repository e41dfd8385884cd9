"""Commands that read nothing: what the program draws or runs, as a text or as a document."""

from __future__ import annotations

import re

from .answering import codes_in, names_of_codes
from .command_line import Asked
from .nearest import nearest
from .options import unknown
from .program import Program, ask
from .streams import say, write


COUNT = re.compile(rb"^(?:acknowledged|plans|grants) \d+$", re.M)
"""The lines of a report that count what a fault could have lost."""

STAKES = {
    "fuzz": "'explore' draws events that reach more",
    "stops": "'stops --explored' cuts runs that reach more",
    "explored": "a cut could have lost each write acknowledged before it",
}
"""What else reaches more, or what the counts mean."""


def tell(asked: Asked, program: Program, rule: str | None) -> int:
    """Tells what such a command does, and gives the status."""
    if said := unknown(program, asked.command, asked.options):
        say(said)
        return 2
    status = _unknown_goal(asked, program)
    if status:
        return status
    # progress is told at once, so standard error is the program's own
    answer = ask(program.path, [asked.command, *asked.options], shows=True, title=asked.command)
    told = answer.told
    if asked.is_json and not asked.has("--save"):
        from .documents import document

        told = document(asked.command, asked.options, told.decode()).encode()
    elif rule and told and not asked.has("--save"):
        told = f"without {rule}\n".encode() + told
    is_written = write(told)
    if answer.status in (0, 1):
        say(names_of_codes(codes_in(answer.told)) + _stake(asked, program, answer.told))
    return answer.status if is_written else 4


def _stake(asked: Asked, program: Program, told: bytes) -> str:
    """What was at stake in drawn events: where nothing was, that no promise broke says nothing."""
    if asked.command == "fuzz":
        return _stake_in(told, "fuzz")
    if asked.command != "stops":
        return ""
    is_explored = asked.has("--explored")
    options = [word for word in asked.options if word != "--explored"]
    if not any(word.partition("=")[0] == "--steps" for word in options):
        options += ["--steps", "300"]
    report = ask(program.path, ["explore" if is_explored else "fuzz", *options]).told
    return _stake_in(report, "explored" if is_explored else "stops")


def _stake_in(report: bytes, what: str) -> str:
    counts = [count.decode() for count in COUNT.findall(report)]
    return f"at stake: {'; '.join([*counts, STAKES[what]])}\n" if counts else ""


def _unknown_goal(asked: Asked, program: Program) -> int:
    """Says what may have been meant where `--until` names nothing that a run can reach, before any run."""
    goal = next((word.partition("=")[2] for word in asked.options if word.startswith("--until=")), None)
    if asked.has("--until"):
        goal = (asked.options[asked.options.index("--until") + 1:] or [None])[0]
    if asked.command != "explore" or goal is None or asked.wants_help:
        return 0
    answer = ask(program.path, ["explore", "--until", goal, "--seeds", "1..1", "--steps", "0"])
    first, _, names = answer.said.decode(errors="replace").partition("\n\nThey are:")
    if answer.status != 2 or not names:
        return 0
    near = nearest(goal, names.split())
    asks = f"; did you mean '{near}'?" if near and "did you mean" not in first else ""
    say(f"{first}{asks}\n\nThey are:{names}")
    return 2


def history(program: Program, options: list[str]) -> int:
    """What the clients of a drawn run saw; what goes with `explore` goes with it."""
    if "--help" in options or "-h" in options:
        write(ask(program.path, ["explore", "--help"]).told)
        return 0
    for word in options:
        name = word.partition("=")[0]
        if name in ("--seeds", "--until", "--save", "--format"):
            say(f"ramseg: 'history explore' writes what the clients of one run saw: '{name}' does not go with it\n")
            return 2
    drawn = ask(program.path, ["explore", *options, "--save"], shows=True, title="explore")
    if drawn.status != 0:
        return drawn.status
    from .answering import Teller
    from .files import Told

    told: Told = Teller(Asked("history"), program, None).tell(drawn.told, None)
    is_written = write(told.text)
    say("".join(f"{line}\n" for line in told.said))
    return told.status if is_written else 4
