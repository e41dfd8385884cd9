"""The program, as scripts ask it."""

import collections
import json
import os
import pathlib
import subprocess

from parts.tree import TOP

Answer = collections.namedtuple("Answer", "status printed said")


def ask(program, *words, given=b""):
    """What the program answers, given a file, a text, bytes, or what is to be written as JSON: its status, what it
    prints, and what it says on standard error."""
    if isinstance(given, pathlib.Path):
        given = given.read_bytes()
    elif not isinstance(given, bytes):
        given = (given if isinstance(given, str) else json.dumps(given)).encode()
    return _answer([program, *words], given, os.environ)


def tell(program, *words, given=b""):
    """The same of the script ./ramseg over this program: it tells also why an input is refused, and hints."""
    if isinstance(given, pathlib.Path):
        given = given.read_bytes()
    named = {} if program == TOP / "ramseg" else {"RAMSEG_PROGRAM": str(program)}
    return _answer([TOP / "ramseg", *words], given, {**os.environ, **named})


def _answer(words, given, environment):
    run = subprocess.run(words, input=given, capture_output=True, env=environment, check=False)
    return Answer(run.returncode, *(it.decode(errors="surrogateescape") for it in (run.stdout, run.stderr)))
