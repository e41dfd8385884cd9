"""Modules of JavaScript in one text: a page that opens without a server can't load them one by one."""

import re
from pathlib import Path

IMPORT = re.compile(r'^import \{[^}]*\} from "\./([\w-]+\.mjs)";\n', re.M)
"""An import as the modules of page/live write it: of names, from a module beside it."""
EXPORT = re.compile(r"^export (?=const|function|class|async)", re.M)
DECLARED = re.compile(r"^(?:async )?(?:const|let|function|class) (\w+)", re.M)
FURTHER = re.compile(r"^const .*$", re.M)
CONSTANT = re.compile(r", ([A-Z][A-Z_]*) = ")
"""Constants behind the first one of a line."""


class Clash(ValueError):
    """Two modules declare one name."""


def order_of(folder: Path, name: str, found: list[str] | None = None) -> list[str]:
    """The modules that this one stands on, and itself, each behind those that it imports."""
    order = [] if found is None else found
    for other in IMPORT.findall((folder / name).read_text()):
        if other not in order:
            order_of(folder, other, order)
    if name not in order:
        order.append(name)
    return order


def bundle(folder: Path, name: str) -> str:
    """A module and all that it stands on, as one module. Each name is declared once in all of them, else it is a
    Clash."""
    texts, owners = [], dict[str, str]()
    for part in order_of(folder, name):
        text = EXPORT.sub("", IMPORT.sub("", (folder / part).read_text()))
        further = (name for line in FURTHER.findall(text) for name in CONSTANT.findall(line))
        for declared in (*DECLARED.findall(text), *further):
            if owners.setdefault(declared, part) != part:
                raise Clash(f"{declared} is declared in {owners[declared]} and in {part}")
        texts.append(text.strip("\n"))
    return "\n\n".join(texts) + "\n"
