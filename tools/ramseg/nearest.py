"""What a name that is misspelt may have been meant for."""

from collections.abc import Iterable


def nearest(name: str, names: Iterable[str]) -> str | None:
    """The nearest of these names, if one is near."""
    best, least = None, None
    for other in names:
        distance = _distance(name, other)
        if (least is None or distance < least) and _is_near(name, other, distance):
            best, least = other, distance
    return best


def question(name: str, names: Iterable[str], quote: str = "'") -> str:
    """Asks whether the nearest of these names was meant; nothing, where none is near."""
    near = nearest(name, names)
    return f"; did you mean {quote}{near}{quote}?" if near else ""


def _distance(name: str, other: str) -> int:
    """How many letters are wrong. Small and capital letters are the same; a name that is cut off is nearly right."""
    if name.lower() == other.lower():
        return 0
    if other.startswith(name) or name.startswith(other):
        return 1
    return _edits(name[:64], other)


def _edits(name: str, other: str) -> int:
    """The edits that make the one of the other: a letter more, less or another, or two neighbours that are swapped."""
    before: list[int] = []
    last = list(range(len(other) + 1))
    for row, letter in enumerate(name, 1):
        now = [row]
        for column, wanted in enumerate(other, 1):
            cost = min(last[column] + 1, now[-1] + 1, last[column - 1] + (letter != wanted))
            if row > 1 and column > 1 and letter == other[column - 2] and name[row - 2] == wanted:
                cost = min(cost, before[column - 2] + 1)
            now.append(cost)
        before, last = last, now
    return last[-1]


def _is_near(name: str, other: str, distance: int) -> bool:
    """Whether so many wrong letters leave the name recognizable."""
    return len(name) > 1 and distance * 3 <= max(len(name), len(other)) + 1
