"""`page`: writes the live page, one file that a browser opens without a server."""

import sys
from pathlib import Path
from typing import NamedTuple

from .building import NotBuilt, lacking, module, rules
from .making import page

USAGE = "usage: ./ramseg page [-o FILE] [--without RULE]..   writes the program as a page for a browser; ramseg.html, " \
        "where no FILE is named"
MORE = """
The page opens without a server. It runs scenarios and scripts, and shows each node at each event. With --without it also
runs them by a program in which this rule is broken, beside the right one; --without may stand several times.
The program is built once for it, in some minutes, and once for each rule. That takes `rt`, wasm-ld (Debian's package
lld), and wasm-opt (binaryen), without which a browser needs memory64.
"""
WRONG_COMMAND, NOT_WRITTEN, UNBUILT = 2, 4, 70


class Wanted(NamedTuple):
    """What a command line asks for."""

    file: Path
    rules: list[str]


class Wrong(ValueError):
    """What is wrong with a command line."""


def read(words: list[str]) -> Wanted:
    """What these words ask for."""
    file, broken, left = "ramseg.html", list[str](), list(words)
    while left:
        name, is_joined, value = left.pop(0).partition("=")
        if name not in ("-o", "--output", "--without"):
            raise Wrong(USAGE)
        if not is_joined and not left:
            raise Wrong(f"{name} wants {'a rule' if name == '--without' else 'a file'} after it")
        value = value if is_joined else left.pop(0)
        if name == "--without" and value not in rules():
            raise Wrong(f"there is no rule '{value}'; `ramseg explain` lists those that can be broken")
        if name == "--without":
            broken.append(value)
        else:
            file = value
    if Path(file).is_dir():
        raise Wrong(f"{file} is a folder, and the page is a file")
    return Wanted(Path(file), list(dict.fromkeys(broken)))


def say(text: str) -> None:
    """Says a line on standard error."""
    print(f"ramseg: {text}", file=sys.stderr, flush=True)


def written(wanted: Wanted) -> str:
    """The page. It is said which program is built."""
    say("building the program for a page; after a change of a source that takes minutes")
    base = module()
    broken = {}
    for place, rule in enumerate(wanted.rules, 1):
        say(f"building it with a rule broken, {place} of {len(wanted.rules)}: {rule}")
        broken[rule] = module(rule)
    return page(base, broken)


def main(words: list[str]) -> int:
    """Writes the page, and gives the status."""
    if {"-h", "--help"} & {*words}:
        print(USAGE + MORE.rstrip())
        return 0
    try:
        wanted = read(words)
    except Wrong as why:
        say(str(why))
        return WRONG_COMMAND
    missing = lacking()
    if missing:
        say(f"the page can't be built: {missing}")
        return UNBUILT
    try:
        text = written(wanted)
    except (NotBuilt, OSError) as why:
        say(str(why))
        return UNBUILT
    try:
        wanted.file.write_text(text)
    except OSError as error:
        say(f"{wanted.file}: {error.strerror}")
        return NOT_WRITTEN
    print(f"{wanted.file}: {len(text.encode()) / 1e6:.1f} MB; open it in a browser")
    return 0
