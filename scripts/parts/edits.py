"""Edits, which make a function or a rule wrong: files NAME.edit, read and applied here.

Each line is `KEY: TEXT`. `file:` names a file, `old:` a text of one line that stands in it exactly once, and `new:`
what is to stand there instead; further pairs, and further files, follow below. Before the first file stand lines for
the script that tries the edit:

    fails: FUNCTION              whose proof must fail
    refused by: CRATE FUNCTION   a law, or a worked run, that must fail; `at LEMMA` behind it names the first that fails
    breaks: RUN SENTENCE..       just these sentences are broken in this worked run
    unorders: RUN                the reads of this worked run are out of the order of time

A file is named from the crate in whose folder the edit lies: crates/CRATE/must-fail (which the gate reads, and which
has no such lines), wrong/bodies/CRATE, wrong/rules/CRATE. An edit of wrong/code is one of several crates: its files are
named from crates/. A path of the crate that is edited begins with `crate::`, not with its name.

usage: python3 scripts/parts/edits.py EDIT CRATES     puts the edit into the copies of crates in the folder CRATES
"""

import pathlib
import re
import sys

sys.path.append(str(pathlib.Path(__file__).resolve().parents[1]))
from parts.tree import CRATES, TOP  # noqa: E402

HEADS = ("fails", "refused by", "breaks", "unorders")


class Unfit(Exception):
    """Why an edit can't be put where it belongs."""


class Edit:
    """An edit: its name, the crate in whose folder it lies (none, for wrong/code), what stands before its first file,
    by key, and its changes, each a file below crates/, the old text and the new one."""

    def __init__(self, path):
        self.path, self.name = pathlib.Path(path), pathlib.Path(path).stem
        folder = self.path.resolve().parent
        if folder.name == "must-fail":
            folder = folder.parent
        self.crate = None if folder.name == "code" else folder.name
        self.heads, self.changes = {key: [] for key in HEADS}, []
        file = old = None
        for line in self.path.read_text(encoding="utf-8").splitlines():
            key, _, text = line.partition(":")
            text = text.removeprefix(" ")
            if key in HEADS:
                self.heads[key].append(text.strip())
            elif key == "file":
                file = f"{self.crate}/{text.strip()}" if self.crate else text.strip()
            elif key == "old":
                old = text
            elif key == "new" and file and old:
                self.changes.append((file, old, text))
            elif line.strip():
                raise Unfit(f"this line is none of an edit: {line}")
        if not self.changes:
            raise Unfit("it changes nothing")

    def changed(self, crates):
        """Each file that it changes, with its text before and after."""
        texts = {}
        for name, old, new in self.changes:
            file = crates / name
            if not file.exists():
                raise Unfit(f"there is no file {name}")
            before, after = texts.get(file) or (file.read_text(encoding="utf-8"),) * 2
            if after.count(old) != 1:
                raise Unfit(f"this stands {after.count(old)} times in {name}: {old.strip()}")
            own = re.compile(rf"(?<![\w:]){re.escape(name.split('/')[0])}::")
            if own.search(new) and not own.search(old):
                raise Unfit(f"a path in {name} begins with the crate's own name, and not with crate::")
            texts[file] = before, after.replace(old, new)
        return texts

    def apply(self, crates):
        """Puts it into these crates, and returns what its files were."""
        texts = self.changed(crates)
        for file, (_, after) in texts.items():
            file.write_text(after, encoding="utf-8")
        return {file: before for file, (before, _) in texts.items()}


def all_edits():
    """The path of each edit of the repository."""
    return sorted([*CRATES.glob("*/must-fail/*.edit"), *TOP.glob("wrong/**/*.edit")])


if __name__ == "__main__":
    try:
        Edit(sys.argv[1]).apply(pathlib.Path(sys.argv[2]))
    except (OSError, Unfit) as why:
        sys.exit(f"{sys.argv[1]}: {why}")
