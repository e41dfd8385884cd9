"""What may not have been meant in a run. `examples/hints` has a run of each, too."""

import unittest
from typing import Any

from story.hints import hints
from tests.stories import Made, append, event, message, own, starts, story, write_ok

UP = [*starts(0, 1, 2)]
PART = {"table": 7, "lo": "0", "hi": "9", "previous": 1, "term": 4}
STALE = "hint: the read of table 7 key 5 at 0.1 is stale: it shows version 1, and 1.1 had acknowledged version 2 under " \
        "term 2; a read is confirmed once its master acknowledges a write that it took after it"


def said(events: list[Made], messages: list[Made] | None = None, **members: Any) -> list[str]:
    """The hints of a run."""
    return hints(story(events, messages or [], **members))


class Hints(unittest.TestCase):
    """Each hint."""

    def test_none(self) -> None:
        self.assertEqual(said(UP), [])

    def test_early(self) -> None:
        words = "so it was refused: it takes a settle behind the starts, and enough hosts"
        self.assertEqual(said([*UP, event("create", table=7, owner=[0, 1])]),
                         [f"hint: the create of table 7 came before 0.1 was ready, {words}"])
        write = message("Write", "out", "0.1", table=7, key="5", value=None)
        self.assertEqual(said([*UP, event("deliver", n=0)], [write]),
                         [f"hint: a write came to 0.1 before that was ready, {words}"])
        ready = [message("Ready", "0.1", "c"), write]
        self.assertEqual(said([*UP, event("deliver", n=0), event("deliver", n=1)], ready), [])

    def test_waiting(self) -> None:
        messages = [append(), append(), append(to="2.1"), append(to="9.1"), write_ok(1)]
        self.assertEqual(said(UP, messages), ["hint: messages that wait at the end: 3 (2 Append to 1.1, 1 Append to 2.1); "
                                              "a settle would deliver them"])
        many = [append(), append(to="2.1"), append(to="0.1"), message("Ready", "0.1", "c"), message("Enlist", "0.1", "c")]
        self.assertIn("1 Ready to c, ..); a settle", said(UP, many)[0])

    def test_lost_own(self) -> None:
        self.assertEqual(said(UP, [own("0.1", 1)])[1],
                         "hint: the Own of table 7 has not reached 0.1, and nothing sends it again: where it is lost, stop "
                         "0.1 and start its host, and decide")
        self.assertEqual(len(said(UP, [own("0.1", 1, attempt=2)])), 1)

    def test_unheard(self) -> None:
        read = event("read", to=[5, 1], table=7, key=5)
        self.assertEqual(said([*UP, read]), ["hint: 5.1 was asked while it did not run: nothing comes of that"])
        self.assertEqual(said([*UP, read, read]), ["hint: 5.1 was asked while it did not run: nothing comes of that; so it "
                                                   "was with 2 requests in all"])

    def test_unstarted(self) -> None:
        self.assertEqual(said([*UP, event("suspect", id=[5, 1])]),
                         ["hint: 5.1 was suspected, but had never been started: nothing comes of that"])

    def test_few_hosts(self) -> None:
        words = "it takes 3 for the master of host 0 to open a segment or to replace a backup"
        self.assertEqual(said(starts(0, 1)), [f"hint: hosts that run at the end: 2; with factor 2 {words}"])
        self.assertEqual(said([*starts(0, 1, 2), event("suspect", id=[2, 1])]),
                         [f"hint: hosts that run at the end and were not suspected: 2; with factor 2 {words}"])
        self.assertEqual(said(starts(0, 1), factors=[1, 1]), [])
        self.assertEqual(said(starts(0, 1, 2), factors=[1, 4]),
                         ["hint: hosts that run at the end: 3; with factor 4 it takes 5 for the master of host 1 to open a "
                          "segment or to replace a backup"])

    def test_stale_reads(self) -> None:
        read = message("ReadOk", "0.1", "out", table=7, key="5", version="1", value="61")
        asked = [*UP, event("read", to=[0, 1], table=7, key=5)]
        messages = [write_ok(1), write_ok(2, "1.1", 2), read]
        self.assertEqual(said(asked, messages), [STALE])
        self.assertEqual(said(asked, [*messages, read]), [STALE + "; so it is with 2 reads in all"])
        self.assertEqual(said(asked, [read, *messages[:2]]), [])


def after_suspicion(messages: list[Made], delivered: list[int], *more: Made) -> list[str]:
    """The hints of a run in which 0.1 was suspected, and the coordinator asked 1.1."""
    gather = message("Gather", "c", "1.1", attempt=3, master="0.1")
    events = [*starts(0, 1, 2, 3), event("stop", id=[0, 1]), event("suspect", id=[0, 1])]
    events += [event("deliver", n=number) for number in delivered]
    return said([*events, *more], [gather, *messages])


def recovery(messages: list[Made], delivered: list[int], *more: Made) -> str:
    """The last of them."""
    return after_suspicion(messages, delivered, *more)[-1]


class Recoveries(unittest.TestCase):
    """Recoveries that are not at their end."""

    plan = message("Plan", "c", "1.1", attempt=3, master="0.1", head=1,
                   rows=[{"seg": 1, "holder": "2.1", "len": 1}], parts=[PART])
    fetch = message("Fetch", "1.1", "2.1", attempt=3, master="0.1", seg=1, len=1, part=PART)
    data = message("Data", "2.1", "1.1", attempt=3, seg=1, term=4, entries=[])
    open_end = "hint: the recovery of 0.1 (attempt 3) is not at its end: parts that were not granted: 1; the first is to " \
               "be recovered by 1.1"

    def test_no_plan(self) -> None:
        answer = message("Replicas", "1.1", "c", attempt=3, rows=[])
        self.assertEqual(recovery([answer], [0, 1]), "hint: the recovery of 0.1 (attempt 3) has no plan: answers have come "
                                                     "to 1 of 1 Gathers; it takes a decide, once they suffice")

    def test_stages(self) -> None:
        self.assertEqual(recovery([self.plan], [0]), self.open_end + ", which the plan has not reached")
        self.assertEqual(recovery([self.plan, self.fetch], [0, 1]), self.open_end + ", which waits for segment 1 from 2.1")
        self.assertEqual(recovery([self.plan, self.fetch, self.data], [0, 1, 2, 3]),
                         self.open_end + ", which has read all of it, and waits until its own backups have stored it")
        recovered = message("Recovered", "1.1", "c", attempt=3, term=4)
        self.assertEqual(recovery([self.plan, self.fetch, self.data, recovered], [0, 1, 2, 3]),
                         self.open_end + ", which has told the coordinator that it has it, and waits for the answer")

    def test_who_is_gone(self) -> None:
        gone = ", which runs no longer: suspect 0.1 once more"
        self.assertEqual(recovery([self.plan], [0], event("stop", id=[1, 1])), self.open_end + gone)
        self.assertEqual(recovery([self.plan, self.fetch], [0, 1], event("stop", id=[2, 1])),
                         self.open_end + ", which waits for segment 1 from 2.1" + gone)

    def test_a_place_that_is_not_filled(self) -> None:
        all_read = [self.plan, self.fetch, self.data]
        words = self.open_end + ", which has read all of it, and waits until its own backups have stored it"
        self.assertEqual(recovery(all_read, [0, 1, 2, 3], event("stop", id=[3, 1])),
                         words + "; 3.1 has stopped and was not suspected, so its place is not filled")
        self.assertEqual(recovery(all_read, [0, 1, 2, 3], event("suspect", id=[3, 1])),
                         words + "; 3.1 was suspected and runs: once it is stopped and its host is started, that can be one")

    def test_a_granted_part_is_at_its_end(self) -> None:
        self.assertEqual(after_suspicion([self.plan, own("1.1", 4, attempt=3)], [0, 1, 2]), [])


if __name__ == "__main__":
    unittest.main()
