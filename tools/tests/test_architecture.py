"""What docs/ARCHITECTURE.md has to name: each crate, and each folder of sources beside the crates."""

import re
import unittest
from pathlib import Path

TOP = Path(__file__).resolve().parents[2]
PAGE = (TOP / "docs" / "ARCHITECTURE.md").read_text()
MOST_WORDS = 1250


class Architecture(unittest.TestCase):
    def test_each_crate_is_named(self) -> None:
        lines = (TOP / "crates.txt").read_text().splitlines()
        names = [line.split(":")[0].split()[0] for line in lines if line and not line.startswith("#")]
        self.assertEqual([name for name in names if not re.search(rf"\b{name}\b", PAGE)], [])

    def test_each_folder_of_sources_is_named(self) -> None:
        folders = [folder for folder in (TOP / "cluster").iterdir() if folder.name not in ("built", "target")
                   and [*folder.glob("Cargo.toml"), *folder.glob("*.py"), *folder.glob("*.c")]]
        names = {f"cluster/{folder.name}" for folder in folders} | {"page/live", "tools/story", "wrong/", "HANDLES"}
        self.assertEqual([name for name in sorted(names) if f"`{name}" not in PAGE], [])

    def test_each_whole_path_is_there(self) -> None:
        paths = re.findall(r"`([\w.]+(?:/[\w.]+)+\.\w+)`", PAGE)
        self.assertGreater(len(paths), 15)
        self.assertEqual([path for path in paths if not (TOP / path).exists() and not (TOP / "crates" / path).exists()],
                         [])

    def test_it_stays_short(self) -> None:
        self.assertLess(len(PAGE.split()), MOST_WORDS)
