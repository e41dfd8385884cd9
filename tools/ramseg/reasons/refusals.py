"""Why an input is refused, by the command that was to read it."""

from __future__ import annotations

import json

from . import histories
from .dialects import SCENARIO, TRACE
from .faults import reason_of_fault


def reason(command: str, text: bytes, at: int) -> str:
    """Why a command refuses this input at this place, and which command reads it, if another one does."""
    other = _other_command(command, text)
    if command == "check":
        return other or histories.reason(text, at)
    if other:
        return f"{other}`ramseg explain F17` says what the place stands for.\n"
    told = reason_of_fault(TRACE if command == "audit" else SCENARIO, text, at)
    return _with_script(told) if command != "audit" and text.lstrip()[:1].isalpha() else told


def _with_script(told: str) -> str:
    """Why a text is no scenario, with what a script is: it may have been meant for one."""
    first, line_feed, rest = told.partition("\n")
    return f"{first}; nor is it a script, which begins as 'start 0..3': `ramseg help script`{line_feed}{rest}"


def _other_command(command: str, text: bytes) -> str:
    """Says which command reads an input of another kind than this one's; nothing, where it is of this one's."""
    kind, reader = kind_of(text)
    if kind is None or reader == command or reader == "run" and command not in ("audit", "check"):
        return ""
    wanted = {"audit": "a trace", "check": "a history"}.get(command, "a scenario")
    maker = {"audit": "trace", "check": "history"}.get(command)
    makes = f", and `ramseg {maker}` makes {wanted} of it" if maker and reader == "run" else ""
    return f"line 1, column 1: this is {kind}, and {wanted} is wanted; `ramseg {reader}` reads it{makes}\n"


def kind_of(text: bytes) -> tuple[str | None, str]:
    """What kind of input a text is, and the command that reads it; none, where it is none of the four."""
    from ..scripting import looks_so

    if looks_so(text):
        return "a script", "run"
    first = text.lstrip()[:65_536].partition(b"\n")[0]
    line = _value_of(first)
    if isinstance(line, dict) and "process" in line and "type" in line:
        return "a history", "check"
    value = line if isinstance(line, dict) else _value_of(text)
    if isinstance(value, dict) and "events" in value:
        return "a scenario", "run"
    if isinstance(value, dict) and "messages" in value:
        return "a trace", "audit"
    return None, ""


def _value_of(text: bytes) -> object:
    """What the bytes say as JSON, if they are any."""
    try:
        return json.loads(text)
    except (ValueError, RecursionError):
        return None
