"""Hints of who owns what. `examples/hints` has a run of each, too."""

import unittest
from typing import Any

from story.hints import hints
from tests.stories import Made, event, message, own, starts, story

STOP = event("stop", id=[0, 1])
GRANTED = event("deliver", n=0)


def refused(code: int, sender: str = "0.1") -> Made:
    """A refusal to the outside."""
    return message("Refused", sender, "out", code=f"F{code}", name="")


def write(to: str, table: int, key: str) -> Made:
    """A request."""
    return message("Write", "out", to, table=table, key=key, value=None)


def said(events: list[Made], messages: list[Made], **members: Any) -> list[str]:
    """The hints of a run with four hosts, in which 0.1 was granted the first ten keys of table 7."""
    ready = [message("Ready", f"{host}.1", "c") for host in (0, 1)]
    made = story([*starts(0, 1, 2, 3), event("deliver", n=1), event("deliver", n=2),
                  event("create", [0], table=7, owner=[0, 1]), GRANTED, *events],
                 [own("0.1", 1), *ready, *messages], **members)
    return [hint for hint in hints(made) if "hosts that run" not in hint]


class Owners(unittest.TestCase):
    """Each hint."""

    def test_stopped(self) -> None:
        found = said([STOP], [])
        self.assertEqual(found, ["hint: 0.1 owns table 7, has stopped and was not suspected, so nobody takes its place: it "
                                 "takes a suspect, a settle, a decide and a settle"])
        self.assertEqual(said([STOP, event("suspect", id=[0, 1])], []), [])
        self.assertEqual(said([STOP, event("start", host=0)], []), [])

    def test_decide(self) -> None:
        decide = event("decide", [3], id=[0, 1])
        words = "hint: 0.1 was not suspected before the decide, so no recovery of it had begun: it takes a suspect, and a " \
                "settle, for the backups to be asked"
        self.assertEqual(said([decide], [refused(10, "c")]), [words])
        self.assertEqual(said([event("suspect", id=[0, 1]), decide], [refused(10, "c")]), [])
        self.assertEqual(said([decide], [refused(8, "c")]), [])

    def test_misdirected(self) -> None:
        asked = event("deliver", [4], n=3)
        self.assertEqual(said([asked], [write("1.1", 7, "5"), refused(2, "1.1")]),
                         ["hint: the write of table 7 key 5 went to 1.1, and 0.1 owns that"])
        self.assertEqual(said([asked, asked], [write("0.1", 8, "5"), refused(2)]),
                         ["hint: the write of table 8 key 5 went to 0.1, and there is no table 8: create it first; there is "
                          "table 7; so it was with 2 requests in all"])
        # its Own is on its way: another hint says so
        self.assertEqual(said([asked], [write("0.1", 7, "5"), refused(2)]), [])


if __name__ == "__main__":
    unittest.main()
