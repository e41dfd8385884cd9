"""Why a scenario or a trace is wrong at a place (F17)."""

from __future__ import annotations

from collections.abc import Iterable
from dataclasses import dataclass

from ..nearest import nearest
from . import syntax
from .dialects import MESSAGES, OPTIONAL, SCENARIO, Dialect
from .pieces import Member, Piece, by_name, item, members, place, whole
from .values import NAME, Wrong, want_of, wrong_in

REMARK = "`ramseg explain F17` says what the place stands for."


def reason_of_fault(dialect: Dialect, text: bytes, at: int) -> str:
    """Why a text is wrong at this place, as `error F17 at P` counts them, in two lines."""
    if at == 0:
        told = syntax.reason(dialect, text)
    elif at == 1:
        told = _of_whole(dialect, text.decode())
    else:
        told = _of_item(dialect, text.decode(), at - 2)
    return f"{told}\n{REMARK}\n"


@dataclass(frozen=True)
class Object:
    """An object whose members are looked at."""

    text: str
    piece: Piece
    name: str
    """What it is called."""
    kind: str
    """The kind of the item that it is, or the name of the list of the whole."""
    wanted: tuple[str, ...]
    """The names of its members."""
    first: str = ""
    """A member that it has beside these."""

    def told(self, at: int) -> str:
        """Where something of it stands, and its name."""
        return place(self.text, at) + self.name

    def fault(self) -> str:
        """What is told of the first member that is strange, missing or wrong."""
        last = {}
        for member in members(self.text, self.piece):
            name = member.name.of(self.text)
            if name not in self.wanted and name != self.first:
                return self._strange(member)
            last[name] = member
        for name in self.wanted:
            want = want_of(self.kind, name)
            if name in last:
                wrong = wrong_in(self.text, last[name].value, want)
                if wrong is not None:
                    return self._wrong(last[name], wrong)
            elif name not in OPTIONAL:
                return f'{self.told(self.piece.begin)} lacks the member "{name}": {want.words}'
        return f"{self.told(self.piece.begin)} is wrong"

    def _strange(self, member: Member) -> str:
        """A member that does not belong here."""
        told = f'{self.told(member.name.begin - 1)} has no member "{member.name.shown(self.text)}"'
        return told + _asked(member.name.of(self.text), self.wanted, "; its members are")

    def _wrong(self, member: Member, wrong: Wrong) -> str:
        """A value that is not what it has to be."""
        name, shown = member.name.shown(self.text), wrong.shown.shown(self.text)
        is_whole = wrong.shown.begin == member.value.begin
        stands = f': "{name}" is {shown}' if is_whole else f': in "{name}" stands {shown}'
        told = f"{self.told(wrong.at)}{stands}; expected {wrong.want.words}"
        if wrong.want is NAME:
            near = nearest(wrong.shown.unquoted(self.text) or "", MESSAGES)
            told += f'; did you mean "{near}"?' if near else ""
        return told


def _asked(spelt: str, names: Iterable[str], before: str) -> str:
    """Asks whether the nearest of these names was meant; where none is near, lists them."""
    near = nearest(spelt, names)
    return f'; did you mean "{near}"?' if near else f"{before} {', '.join(names)}"


def _of_whole(dialect: Dialect, text: str) -> str:
    """Why what stands round the list is wrong."""
    piece = whole(text)
    if text[piece.begin] != "{":
        return f"{place(text, piece.begin)}{dialect.whole} has to be an object, as {dialect.example}"
    found = by_name(text, piece)
    format = found["format"].value.of(text) if "format" in found else ""
    if dialect is SCENARIO and format == "1" and {"factors", "free"} & found.keys():
        return (f'{place(text, piece.begin)}the members "factors" and "free" belong to format 2; this is '
                f'"format":1')
    return Object(text, piece, dialect.whole, dialect.list, dialect.members(format)).fault()


def item_of(dialect: Dialect, text: str, number: int) -> Piece | None:
    """The item of this number of the list."""
    found = by_name(text, whole(text))
    return item(text, found[dialect.list].value, number) if dialect.list in found else None


def _of_item(dialect: Dialect, text: str, number: int) -> str:
    """Why an item of the list is wrong."""
    name = f"{dialect.item} {number}"
    piece = item_of(dialect, text, number)
    if piece is None:
        return f"{name} is wrong"
    if text[piece.begin] != "{":
        example = f'{{"{dialect.kind}":"{next(iter(dialect.kinds))}", ..}}'
        return f"{place(text, piece.begin)}{name} is {piece.shown(text)}; expected an object, as {example}"
    member = by_name(text, piece).get(dialect.kind)
    if member is None:
        return (f'{place(text, piece.begin)}{name} lacks the member "{dialect.kind}", which says what it is: '
                f"{', '.join(dialect.kinds)}")
    kind = member.value.unquoted(text) or ""
    if kind not in dialect.kinds:
        told = f'{place(text, member.value.begin)}{name}: "{dialect.kind}" is {member.value.shown(text)}'
        return f"{told}, which is no kind of {dialect.item}{_asked(kind, dialect.kinds, '; these are:')}"
    return Object(text, piece, f"{name} ({kind})", kind, dialect.kinds[kind], dialect.kind).fault()
