"""Why a history is refused: the line, and what is wrong with it (docs/FORMATS.md, section 16)."""

from __future__ import annotations

import json
import re
from typing import Any, NamedTuple

from .syntax import MOST_BYTES, fault_of

STAGES = ("invoke", "ok", "fail", "info")
KEY = re.compile(r"\+?([0-9]+)/\+?([0-9]+)")

Line = dict[str, Any]


class Wrong(ValueError):
    """What is wrong with a line."""


class Open(NamedTuple):
    """An operation that a process has invoked, and that has no response yet."""

    call: tuple[str, int, int]
    """What is done, to which table and key."""
    value: str | None


def reason(text: bytes, number: int) -> str:
    """Why a history is refused at this line, counted from 1; at 0, where it is too long."""
    if number == 0:
        return f"the history has more than {MOST_BYTES} bytes\n"
    waiting: dict[int, Open] = {}
    for at, line in enumerate(text.split(b"\n")[:number], 1):
        try:
            if line.strip():
                _take(waiting, _value_of(line))
        except Wrong as wrong:
            return f"line {at}: {wrong}\n"
    return f"line {number}: it is wrong\n"


def _value_of(line: bytes) -> Line:
    """What a line says."""
    try:
        is_right = fault_of(line) is None
        value = json.loads(line) if is_right else None
    except ValueError:
        value = None
    if not isinstance(value, dict):
        raise Wrong("it is no JSON object")
    return value


def _take(waiting: dict[int, Open], line: Line) -> None:
    """Takes a line."""
    process = line.get("process")
    if not _is_number(process):
        raise Wrong("'process' is to be a number from 0 on")
    stage = line.get("type")
    if stage not in STAGES:
        raise Wrong('\'type\' is to be "invoke", "ok", "fail" or "info"')
    said = Open(_call_of(line), _value_in(line))
    version = line.get("version")
    if version is not None and not _is_number(version):
        raise Wrong("'version' is to be a number from 0 on")
    if stage == "invoke":
        if process in waiting:
            raise Wrong("its process has not ended the operation before")
        waiting[process] = said
    else:
        _take_response(waiting.pop(process, None), said, stage, version)


def _take_response(asked: Open | None, said: Open, stage: str, version: int | None) -> None:
    """Takes the response to what its process has asked."""
    if asked is None:
        raise Wrong("its process has invoked no operation")
    if asked.call != said.call:
        raise Wrong("its process has invoked another operation")
    if stage == "ok" and version is None:
        raise Wrong("an \"ok\" wants a 'version'")
    if stage == "ok" and said.call[0] == "write" and asked.value != said.value:
        raise Wrong("its process has invoked another operation")


def _call_of(line: Line) -> tuple[str, int, int]:
    if line.get("f") not in ("write", "read"):
        raise Wrong("'f' is to be \"write\" or \"read\"")
    key = line.get("key")
    found = KEY.fullmatch(key) if isinstance(key, str) else None
    if found is None or int(found[1]) >= 2**32 or int(found[2]) >= 2**64:
        raise Wrong("'key' is to be a text TABLE/KEY of two numbers, as \"7/5\"")
    return line["f"], int(found[1]), int(found[2])


def _value_in(line: Line) -> str | None:
    value = line.get("value")
    if value is not None and not isinstance(value, str):
        raise Wrong("'value' is to be a text, or null")
    return value


def _is_number(value: object) -> bool:
    return isinstance(value, int) and not isinstance(value, bool) and 0 <= value < 2**64
