"""The tree of the repository, for the scripts: its top, the crates of crates.txt, and other scripts as modules."""

import importlib.machinery
import importlib.util
import pathlib
import shutil
import subprocess
import sys

TOP = pathlib.Path(__file__).resolve().parents[2]
CRATES = TOP / "crates"
EXAMPLES = TOP / "examples"
# a module that is read leaves nothing behind
sys.dont_write_bytecode = True
# the packages of tools/, as `story`
sys.path.append(str(TOP / "tools"))


def libraries():
    """Which libraries each crate names, in the order of crates.txt."""
    named = {}
    for line in (TOP / "crates.txt").read_text().splitlines():
        name, colon, words = line.partition("#")[0].partition(":")
        if colon:
            named[name.split()[0]] = words.split()
    return named


def all_below(crate, named):
    """Every crate of the repository that this one stands on, lowest first."""
    found = []
    for library in named[crate]:
        if library in named:
            found += [it for it in [*all_below(library, named), library] if it not in found]
    return found


def copy_crates(room, crates):
    """Copies these crates into the folder, with what their checks have kept."""
    shutil.copy(TOP / "HANDLES", room)
    lines = [it for it in (TOP / "crates.txt").read_text().splitlines() if it.partition(":")[0].split(" ")[0] in crates]
    (room / "crates.txt").write_text("\n".join(lines) + "\n")
    for crate in crates:
        (room / "crates" / crate).mkdir(parents=True)
        for part in ("src", "specs", "proofs", "out"):
            source = CRATES / crate / part
            if source.is_dir():
                subprocess.run(["cp", "-a", "--reflink=auto", source, room / "crates" / crate], check=True)


def script(path):
    """The script of this path below the top, as a module."""
    name = pathlib.Path(path).name.replace("-", "_")
    loader = importlib.machinery.SourceFileLoader(name, str(TOP / path))
    module = importlib.util.module_from_spec(importlib.util.spec_from_loader(name, loader))
    loader.exec_module(module)
    return module


def program_of(name=None):
    """The program that is named, or ./ramseg."""
    return pathlib.Path(name or TOP / "ramseg").resolve()
