"""The story of a run, by the package `story`, which is read only where one is wanted."""

from __future__ import annotations

from typing import Any

from .command_line import Asked
from .program import Unexpected

Story = dict[str, Any]
"""What `log --json` prints, as a value (docs/schemas/log.json)."""

Message = dict[str, Any]
"""A message of it."""


def read(text: bytes) -> Story:
    """The story of a run, of what the program has printed."""
    from story.reading import StoryError, read_story

    try:
        return read_story(text)
    except StoryError as error:
        raise Unexpected(str(error)) from None


def write(asked: Asked, text: bytes, story: Story, title: str, rule: str | None) -> bytes:
    """The story as a command line wants it, with a word that a rule is broken, where one is."""
    if asked.has("--json"):
        return text
    if asked.command == "log":
        from story.log import log_text

        return _marked(f"without {rule}\n", rule, log_text(story, asked.has("--whole")))
    if asked.has("--mermaid"):
        from story.mermaid import mermaid

        return _marked(f"%% without {rule}\n", rule, mermaid(story))
    from story.page import page

    return page(story, title).encode()


def _marked(line: str, rule: str | None, text: str) -> bytes:
    return ((line if rule and text else "") + text).encode()


def hints(story: Story) -> str:
    """What may not have been meant in a run, in lines."""
    from story.hints import hints as hints_of

    return "".join(f"{line}\n" for line in hints_of(story))


def codes(story: Story) -> set[int]:
    """The codes with which something was refused."""
    return {int(str(it["code"]).lstrip("F")) for it in story["messages"] if it["kind"] == "Refused"}


def message_text(number: int, message: Message) -> str:
    """A message with its number, in words."""
    from story.spelling import message_text as text_of

    return text_of(number, message, False)


def fields_text(message: Message) -> str:
    """What a message says, in words."""
    from story.spelling import fields_text as text_of

    return text_of(message, False)
