"""What is worked out of a story: servers, silences, waits and the fates of writes."""

import unittest
from typing import Any

from story.log import log_text
from story.reading import StoryError, read_story
from story.run import Run, run_of
from story.waits import wait_of
from story.writes import unanswered_in
from tests.stories import append, event, message, own, starts, story, write_ok


def why(events: list[dict[str, Any]], messages: list[dict[str, Any]]) -> str | None:
    """Why the last event, a delivery, came to nothing."""
    run = run_of(story(events, messages))
    silence = run.turns[-1].silence
    return silence.text(messages[events[-1]["n"]]) if silence else None


def delivery(number: int, sent: list[int] | None = None) -> dict[str, Any]:
    """A delivery of the message of this number."""
    return event("deliver", sent, n=number)


class Reading(unittest.TestCase):
    """What is no story."""

    def test_other_texts(self) -> None:
        for text in ("", "[]", "error F17 at 3\n", '{"format":1}'):
            with self.subTest(text), self.assertRaises(StoryError):
                read_story(text)

    def test_a_story(self) -> None:
        self.assertEqual(read_story('{"format":2}'), {"format": 2})


class Servers(unittest.TestCase):
    """When servers ran."""

    def test_a_life(self) -> None:
        events = [event("start", host=3), event("suspect", id=[3, 1]), event("stop", id=[3, 1]), event("start", host=3),
                  event("suspect", id=[3, 1])]
        servers = run_of(story(events, [])).servers
        first, second = servers.items
        self.assertEqual((first.id, first.started, first.suspected, first.stopped), ("3.1", 0, 1, 2))
        self.assertEqual((second.id, second.started, second.suspected, second.stopped), ("3.2", 3, None, None))
        self.assertFalse(servers.runs("3.1"))
        self.assertTrue(servers.runs("3.2"))
        self.assertTrue(servers.is_there("c"))

    def test_acknowledged(self) -> None:
        run = run_of(story([*starts(0), event("tick", [0, 1], id=[0, 1])], [write_ok(1), write_ok(2)]))
        self.assertEqual(run.servers.items[0].acknowledged, 2)


class Silences(unittest.TestCase):
    """Why deliveries came to nothing."""

    def test_not_running(self) -> None:
        self.assertEqual(why([delivery(0)], [append()]), "1.1 was not running")

    def test_fenced(self) -> None:
        messages = [append(), message("Gather", "c", "1.1", attempt=4, master="0.1")]
        events = [*starts(0, 1), event("decide", [0, 1], id=[0, 1]), delivery(1), delivery(0)]
        self.assertEqual(why(events, messages), "1.1 had fenced 0.1 for attempt 4")

    def test_freed(self) -> None:
        messages = [append(), message("Free", "0.1", "1.1", seg=1)]
        self.assertEqual(why([*starts(0, 1), delivery(1), delivery(0)], messages), "1.1 had freed segment 1")

    def test_no_replica(self) -> None:
        self.assertEqual(why([*starts(0, 1), delivery(0)], [append()]), "1.1 has no open replica that it fits")

    def test_older_epoch(self) -> None:
        messages = [message("Stored", "1.1", "0.1", seg=1, epoch=1, len=0, closed=False),
                    message("Place", "0.1", "1.1", seg=1, epoch=2, digest=[], entries=[], closed=False)]
        events = [*starts(0, 1), event("tick", [1], id=[0, 1]), delivery(0)]
        self.assertEqual(why(events, messages), "the segment had already epoch 2")

    def test_stale_attempt(self) -> None:
        messages = [message("Gather", "c", "1.1", attempt=1, master="0.1"),
                    message("Gather", "c", "1.1", attempt=2, master="0.1"),
                    message("Replicas", "1.1", "c", attempt=1, rows=[])]
        events = [*starts(1), event("decide", [0, 1, 2], id=[0, 1]), delivery(2)]
        self.assertEqual(why(events, messages), "its attempt was replaced by 2")

    def test_older_list_and_deposed(self) -> None:
        messages = [message("List", "c", "0.1", version=3, rows=[]), message("List", "c", "0.1", version=2, rows=[]),
                    message("Refused", "c", "0.1", code="F5", name="Deposed"), own("0.1", 1)]
        events = [*starts(0), delivery(0), delivery(1)]
        self.assertEqual(why(events, messages), "it had already version 3")
        self.assertEqual(why([*starts(0), delivery(2), delivery(3)], messages), "0.1 was deposed")

    def test_what_sends_something_was_no_silence(self) -> None:
        self.assertIsNone(why([*starts(0, 1), delivery(0, [1])], [append(), append()]))


def member(name: str, told: int | None, closed: bool = False, lost: bool = False) -> dict[str, Any]:
    """A member of a segment."""
    return {"id": name, "lost": lost, "told": told, "closed": closed}


def segment(*members: dict[str, Any], length: int = 1, committed: bool = True, shut: bool = False) -> dict[str, Any]:
    """A segment of a log."""
    return {"seg": 1, "epoch": 1, "committed": committed, "len": length, "shut": shut, "members": list(members)}


def wait(phase: str, *segments: dict[str, Any], run: Run | None = None) -> str | None:
    """What master 0.1 waits for."""
    run = run or run_of(story(starts(0, 1, 2), []))
    return wait_of(run, {"id": "0.1", "phase": phase, "head": 1, "durable": 0, "segments": list(segments)})


class Waits(unittest.TestCase):
    """What masters wait for."""

    def test_each(self) -> None:
        self.assertIsNone(wait("deposed"))
        self.assertEqual(wait("opening"), "until enough servers are up in its list")
        self.assertEqual(wait("opening", segment(member("1.1", None))), "until segment 1 is placed at 1.1")
        self.assertEqual(wait("writing", segment(member("1.1", 0))), "until segment 1 is stored whole at 1.1")
        self.assertIsNone(wait("writing", segment(member("1.1", 1))))
        self.assertEqual(wait("writing", segment(member("1.1", None), length=0)), "until segment 1 is placed at 1.1")
        self.assertEqual(wait("writing", segment(member("1.1", 1), committed=False)), "for the commit of segment 1")
        self.assertEqual(wait("writing", segment(member("1.1", None, lost=True), member("2.1", 1))),
                         "for other servers in place of 1.1 (lost) for segment 1")

    def test_closing(self) -> None:
        old, head = segment(member("1.1", 1)), segment(member("1.1", 0))
        self.assertEqual(wait("closing", old, head), "until segment 1 is closed at 1.1")
        self.assertIsNone(wait("closing", segment(member("1.1", 1, closed=True), shut=True), head))

    def test_why_a_member_may_never_tell(self) -> None:
        gone = run_of(story(starts(0, 1), []))
        self.assertEqual(wait("opening", segment(member("2.1", None)), run=gone),
                         "until segment 1 is placed at 2.1 (does not run)")
        gather = message("Gather", "c", "1.1", attempt=1, master="0.1")
        fenced = run_of(story([*starts(0, 1), delivery(0)], [gather]))
        self.assertEqual(wait("opening", segment(member("1.1", None)), run=fenced),
                         "until segment 1 is placed at 1.1 (has fenced it)")


def fates(events: list[dict[str, Any]], messages: list[dict[str, Any]]) -> list[str]:
    """What became of the writes that were not acknowledged."""
    return [write.fate for write in unanswered_in(run_of(story(events, messages)))]


class Writes(unittest.TestCase):
    """What became of writes."""

    write = message("Write", "out", "0.1", table=7, key="5", value="61")
    taken = event("deliver", n=0, log_end={"seg": 1, "offset": 0})

    def test_unheard_and_refused(self) -> None:
        self.assertEqual(fates([delivery(0)], [self.write]), ["its server did not run"])
        refused = message("Refused", "0.1", "out", code="F3", name="Rolling")
        self.assertEqual(fates([*starts(0), delivery(0, [1])], [self.write, refused]), ["refused F3 Rolling"])

    def test_placed(self) -> None:
        self.assertEqual(fates([*starts(0), self.taken], [self.write]), ["at seg 1 offset 0"])
        self.assertEqual(fates([*starts(0), self.taken], [self.write, write_ok(1)]), [])

    def test_recovered(self) -> None:
        for length, words in ((1, "in"), (0, "not in")):
            plan = message("Plan", "c", "1.1", attempt=2, master="0.1", head=1,
                           rows=[{"seg": 1, "holder": "1.1", "len": length}], parts=[])
            self.assertEqual(fates([*starts(0), self.taken], [self.write, plan]),
                             [f"at seg 1 offset 0, {words} the recovered log of attempt 2"])


class Log(unittest.TestCase):
    """The lines of a log."""

    def test_lines(self) -> None:
        messages = [own("0.1", 1), message("Gather", "c", "1.1", attempt=1, master="0.1"), write_ok(1), own("1.1", 2)]
        events = [*starts(0, 1), event("create", [0], table=7, owner=[0, 1]), event("suspect", [1], id=[0, 1]),
                  event("deliver", [2], n=1), event("deliver", n=1), event("deliver", [3], n=0, master="0.1",
                                                                           phase="writing")]
        lines = log_text(story(events, messages, stopped={"code": "F18", "place": 3})).splitlines()
        self.assertEqual(lines[2:5], ["event 2 at 0: create table 7 owner 0.1",
                                      "    0 Own c -> 0.1 table 7 keys 0..9 term 1 after 0 attempt 0",
                                      "event 3 at 0: suspect 0.1"])
        self.assertIn("event 4 at 0: deliver 1 Gather c -> 1.1 attempt 1 of 0.1, 1.1 fences 0.1", lines)
        self.assertIn("event 5 at 0: deliver 1 Gather c -> 1.1 attempt 1 of 0.1, once more, nothing sent", lines)
        self.assertIn("    0.1 is now writing", lines)
        self.assertEqual(lines[lines.index("never delivered 1"):], [
            "never delivered 1", "    1 Own to 1.1: 3", "to the outside 1", "    1 WriteOk to out: 2", "servers 2",
            "    0.1 started at event 0, runs, suspected at event 3, acknowledged 1",
            "    1.1 started at event 1, runs, acknowledged 0", "masters 0", "replicas 0", "ranges 1",
            "    table 7 keys 0..9 term 2 owner 1.1", "keys 1", "    table 7 key 5 version 1 term 1 by 0.1",
            "writes delivered and not acknowledged 0", "audit clean", "stopped F18 at event 3 of the scenario"])


if __name__ == "__main__":
    unittest.main()
