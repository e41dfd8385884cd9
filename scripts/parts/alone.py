"""The check of a crate's files of lemmas alone, for the scripts that change proofs: it leaves out what functions do."""

import contextlib
import shutil
import subprocess
import sys

NAME = "reads_lemmas"


@contextlib.contextmanager
def lemmas_alone(folder):
    """Gives the words of a check that reads each file of lemmas of the crate in this folder, and no other proofs.

    For that time the crate has a function that does nothing, whose answers import these files: a check of functions by
    name reads what their answers import.
    """
    root = next(it for it in (folder / "src/lib.rt", folder / "src/main.rt") if it.exists())
    listed = subprocess.run(["git", "ls-files", "proofs/*.antt"], cwd=folder, capture_output=True, text=True).stdout
    files = [it for it in listed.split() if not it.endswith(("/Answers.antt", "/Invariants.antt", "/Lib.antt"))]
    modules = [".".join(["Rattle", folder.name, *it.removesuffix(".antt").split("/")]) for it in files]
    text, answers = root.read_text(), folder / "proofs" / NAME
    if answers.exists():
        sys.exit(f"{answers} is there: a check was killed. Take it away, and `fn {NAME}` at the end of {root}")
    answers.mkdir()
    try:
        lines = [f"use {it} as Of{number}\n" for number, it in enumerate(modules)]
        (answers / "Answers.antt").write_text("".join(lines))
        root.write_text(f"{text}\nfn {NAME}() {{}}\n")
        yield ["--only", NAME]
    finally:
        root.write_text(text)
        shutil.rmtree(answers)
