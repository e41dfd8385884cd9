"""Runs that the program draws and that are cut anywhere, for the scripts that have it heal them."""

import json
import random

from parts.program import ask


class Wrong(Exception):
    """Something is not as it was said."""


def asked(program, *words, given=b""):
    """What the program prints, and the lines that it says beside."""
    status, printed, said = ask(program, *words, given=given)
    if status != 0:
        raise Wrong(f"{' '.join(words)}: status {status}: {said.strip() or printed.strip()}")
    return printed, said.splitlines()


def drawn(program, seed, options):
    """What `explore` draws from the seed with these options, up to an event that is drawn from the seed too."""
    scenario = json.loads(asked(program, "explore", "--seed", str(seed), "--save", *options)[0])
    events = scenario["events"]
    return {**scenario, "events": events[:random.Random(seed).randrange(len(events) + 1)]}


def server(name):
    """The id that a name stands for."""
    index, generation = name.split(".")
    return [int(index), int(generation)]
