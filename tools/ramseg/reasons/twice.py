"""A member that comes twice in an object, of which the last one counts: JSON allows it, and it is seldom meant."""

from __future__ import annotations

from .dialects import Dialect
from .pieces import Piece, by_name, items, members, place, whole

MOST_BYTES = 65_536
"""How long a text may be in which members are looked for: longer ones come from programs."""


def hint_of_twice(dialect: Dialect, text: bytes) -> str | None:
    """A hint at the first member that comes twice in the outermost object or in an item of the list, if one does. The
    text is a right one of this dialect."""
    if len(text) > MOST_BYTES:
        return None
    letters = text.decode()
    piece = whole(letters)
    hint = _hint_of(letters, piece)
    for item in items(letters, by_name(letters, piece)[dialect.list].value):
        hint = hint or _hint_of(letters, item)
    return hint


def _hint_of(text: str, piece: Piece) -> str | None:
    seen: set[str] = set()
    for member in members(text, piece):
        name = member.name.of(text)
        if name in seen:
            where = place(text, member.name.begin - 1)
            return (f'hint: {where}the member "{member.name.shown(text)}" comes twice in this object; the last one '
                    "counts")
        seen.add(name)
    return None
