"""The rows of `crates/test_rows`: what it is asked, and what it has to answer, section by section."""

from parts.tree import CRATES

ROWS = CRATES / "test_rows"


def section(topic, name):
    """The lines below `=== TOPIC` in a file of the crate, `stdin` or `stdout`, up to the next section."""
    sections = ("\n" + (ROWS / name).read_text()).split("\n=== ")
    return next(it for it in sections if it.startswith(topic + "\n")).partition("\n")[2]


def command_lines(name):
    """The rows of command lines in a file of the crate, each without its `== `."""
    return ("\n" + section("command lines", name)).removesuffix("\n").split("\n== ")[1:]
