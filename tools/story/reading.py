"""The story of a run as `log --json` of the program prints it: docs/schemas/log.json."""

import json
from typing import Any

Story = dict[str, Any]
Event = dict[str, Any]
Message = dict[str, Any]

FORMAT = 2


class StoryError(ValueError):
    """It is no story of this format."""


def read_story(text: str | bytes) -> Story:
    """The story that this JSON is. Where it is none, a StoryError says why."""
    try:
        story = json.loads(text)
    except ValueError as error:
        raise StoryError(f"the story is no JSON: {error}") from error
    if not isinstance(story, dict) or story.get("format") != FORMAT:
        raise StoryError(f"the story is not of format {FORMAT}: log --json of another version has printed it")
    return story


def name_of(node: str | list[int]) -> str:
    """The name of a node, which an event spells as a scenario does: `0.1` for [0, 1], and `c`."""
    return node if isinstance(node, str) else f"{node[0]}.{node[1]}"


def is_server(node: str) -> bool:
    """Whether the name of a node is that of a server, and not of the coordinator or the outside."""
    return node not in ("c", "out")


def host_of(server: str) -> int:
    """The host of a server, by its name."""
    return int(server.partition(".")[0])


def generation_of(server: str) -> int:
    """The generation of a server, by its name."""
    return int(server.partition(".")[2])
