"""The words of a command line: the command, its options, and the files that it reads."""

from __future__ import annotations

READING = ("run", "trace", "audit", "log", "picture", "shrink", "heal", "history", "check")
"""Commands that read standard input, or files."""

SCENARIO_READING = ("run", "trace", "log", "picture", "shrink", "heal", "history")
"""Those of them that read a scenario, or a script."""

DRAWING = ("fuzz", "stops", "threads", "explore")
"""Commands of the program that read nothing."""

OWN = ("explain", "script", "test", "page")
"""Commands of the script that read neither a scenario, a trace nor a history."""

COMMANDS = (*READING, *DRAWING, *OWN)

FORMATTED = ("run", "audit", "fuzz", "stops", "explore", "explain")
"""Commands that take `--format json`."""

FLAGS = {"log": ("--json", "--whole"), "picture": ("--mermaid",), "explain": ()}
"""The flags of the commands of which the program knows nothing, or another form."""

WITH_VALUE = ("--heap", "--keep")
"""Options of the program with a value, of the commands that read."""

WHOLE = ("trace", "picture", "shrink", "heal", "history")
"""Commands that write one whole text for each file."""

MORE = "For more information, try '--help'.\n"


class Wrong(Exception):
    """What is wrong with a command line, in lines."""


class Asked:
    """What a command line asks for."""

    def __init__(self, command: str) -> None:
        self.command = command
        self.options: list[str] = []
        """The options, for the program; of a command of which it knows nothing, its flags and words."""
        self.files: list[str] = []
        self.folder: str | None = None
        """Where what is told of each file goes."""
        self.expected: str | None = None
        """The file of what a run is expected to tell."""
        self.is_json = False
        """Whether a JSON document is wanted in place of the text."""

    @property
    def is_whole(self) -> bool:
        """Whether one whole text is written for each file."""
        return self.command in WHOLE or self.is_json or self.has("--json")

    @property
    def is_apart(self) -> bool:
        """Whether an error is said on standard error alone, since a page, JSON or a scenario was asked for."""
        return self.command in ("picture", "shrink", "heal", "history", "check") or self.is_json or self.has("--json")

    @property
    def wants_help(self) -> bool:
        """Whether help is wanted, and nothing else."""
        return self.has("--help") or self.has("-h")

    def has(self, option: str) -> bool:
        """Whether this option was given, as it is spelt."""
        return option in self.options


def read(command: str, words: list[str]) -> Asked:
    """What these words after the command ask for."""
    asked = Asked(command)
    left = list(words)
    while left:
        word = left.pop(0)
        if word == "--":
            asked.files += left
            left = []
        elif not _take(asked, word, left):
            (asked.options if word.startswith("-") and word != "-" else asked.files).append(word)
    if command not in READING:
        asked.options, asked.files = _in_order(words, asked), []
    _see_flags(asked)
    return asked


def _in_order(words: list[str], asked: Asked) -> list[str]:
    """The words of a command that reads no file, as they were given, but for those that the script takes."""
    left, kept = list(words), []
    while left:
        word = left.pop(0)
        if asked.command in FORMATTED and word.partition("=")[0] == "--format":
            left[:] = left[0 if "=" in word else 1:]
        else:
            kept.append(word)
    return kept


def _take(asked: Asked, word: str, left: list[str]) -> bool:
    """Takes an option of the script, or one with a value, and gives whether it was one."""
    name, is_joined, value = word.partition("=")
    if name == "--format" and asked.command in FORMATTED:
        _see_format(asked, value if is_joined else _value(left, f"{name} <json>"))
    elif asked.command not in READING:
        return False
    elif word in ("-o", "--output") or name == "--output":
        asked.folder = value if is_joined else _value(left, word, "a folder")
    elif word.startswith("-o") and not word.startswith("--"):
        asked.folder = word[2:]
    elif name == "--expect":
        asked.expected = value if is_joined else _value(left, word, "a file")
    elif word in WITH_VALUE:
        asked.options += [word, *left[:1]]
        del left[:1]
    else:
        return False
    return True


def _value(left: list[str], option: str, wanted: str | None = None) -> str:
    """The word that follows an option."""
    if left:
        return left.pop(0)
    if wanted:
        raise Wrong(f"ramseg: {option} wants {wanted} after it\n")
    raise Wrong(f"error: a value is required for '{option}' but none was supplied\n\n{MORE}")


def _see_format(asked: Asked, value: str) -> None:
    if value != "json":
        raise Wrong(f"error: '{value}' is no value for '--format': json\n\n{MORE}")
    if asked.is_json:
        usage = f"Usage: ramseg {asked.command} [OPTIONS]"
        raise Wrong(f"error: the argument '--format <json>' cannot be used multiple times\n\n{usage}\n\n{MORE}")
    asked.is_json = True


def _see_flags(asked: Asked) -> None:
    """Refuses what the script's own commands do not have."""
    if asked.command not in FLAGS or asked.wants_help:
        return
    flags = FLAGS[asked.command]
    for word in asked.options:
        if word.startswith("-") and word not in flags:
            from .options import of_script, text

            raise Wrong(text(word, asked.command, sorted({*flags, *of_script(asked.command)})))
        if asked.command != "explain" and asked.options.count(word) > 1:
            raise Wrong(f"error: the argument '{word}' cannot be used multiple times\n\n{MORE}")
