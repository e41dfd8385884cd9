"""What docs/RECIPES.md and docs/copies.tsv name of copies: each is there, and none is left out that a search finds."""

import re
import unittest
from collections.abc import Iterator
from pathlib import Path

TOP = Path(__file__).resolve().parents[2]
LIMIT = re.compile(r"\b1[,_]?024\b")
FOLDERS = ("page/live", "tools/ramseg", "tools/story", "docs/schemas", "crates/rc_traces/src", "crates/rc_story/src",
           "crates/rc_study/src", "crates/rc_codec/src", "crates/rc_types/src")
"""Where the texts and the bytes of a kind of message stand."""


def recipe(name: str) -> str:
    """The text of a recipe."""
    return (TOP / "docs" / "RECIPES.md").read_text().split(f"\n## {name}\n")[1].split("\n## ")[0]


def copies() -> Iterator[Path]:
    """The files that have a copy of a limit."""
    for line in (TOP / "docs" / "copies.tsv").read_text().splitlines()[1:]:
        yield TOP / line.split("\t")[1]


class Recipes(unittest.TestCase):
    def test_each_copy_of_a_limit_has_it(self) -> None:
        paths = list(copies())
        self.assertGreater(len(paths), 20)
        for path in paths:
            self.assertTrue(LIMIT.search(path.read_text()), path)

    def test_a_kind_of_message_has_each_file_of_texts_and_bytes(self) -> None:
        named = recipe("A kind of message")
        files = [path for folder in FOLDERS for path in (TOP / folder).rglob("*")
                 if path.suffix in (".mjs", ".py", ".json", ".rt") and "tests" not in path.parts]
        found = {path for path in files if re.search(r"\bSplitOk\b", path.read_text())}
        self.assertGreater(len(found), 8)
        self.assertEqual([str(path) for path in sorted(found) if f"{path.name}`" not in named], [])
