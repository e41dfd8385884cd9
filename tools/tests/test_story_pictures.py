"""A story as a diagram, with its words as JSON, and as a page."""

import json
import re
import unittest

from story.mermaid import mermaid
from story.page import page, page_around
from story.telling import told, told_json
from tests.stories import append, event, message, own, starts, story, write_ok

LETTERS = message("Write", "out", "0.1", table=7, key="5", value=b"a;#<>&".hex())


def small() -> dict:
    """Two servers; a write with letters that have a meaning elsewhere, which arrives twice; and what it sends."""
    events = [*starts(0, 1), event("write", [0], to=[0, 1], table=7, key=5, value="a;#<>&"),
              event("deliver", [1, 2], n=0, master="0.1", phase="writing"), event("deliver", n=0),
              event("deliver", n=1, copies=[{"at": "1.1", "of": "0.1", "seg": 1, "epoch": 1, "len": 1, "closed": False,
                                             "fenced": False, "gone": False}])]
    segment = {"seg": 1, "epoch": 1, "committed": True, "len": 1, "shut": False,
               "members": [{"id": "1.1", "lost": False, "told": None, "closed": False}]}
    master = {"id": "0.1", "phase": "writing", "head": 1, "durable": 0, "segments": [segment]}
    return story(events, [LETTERS, append(), write_ok(1)], masters=[master], stopped={"code": "F18", "place": 4})


class Diagram(unittest.TestCase):
    """The lines of a diagram."""

    def test_lines(self) -> None:
        self.assertEqual(mermaid(small()).splitlines(), [
            "sequenceDiagram", "    participant out as Outside", "    participant c as Coordinator",
            "    participant s0_1 as 0.1", "    participant s1_1 as 1.1",
            "    Note over s0_1: start host 0 as 0.1", "    Note over s1_1: start host 1 as 1.1",
            '    out->>s0_1: 0 Write table 7 key 5 "a#59;#35;#60;#62;#38;"',
            "    s0_1->>out: 2 WriteOk seg 1 offset 0 term 1 table 7 key 5 version 1",
            '    out->>s0_1: 0 Write table 7 key 5 "a#59;#35;#60;#62;#38;", once more',
            '    s0_1-x' 's1_1: 1 Append seg 1 offset 0, 1 entry: term 1 table 7 key 5 version 1 "a", 1.1 has no open '
            "replica that it fits",
            "    Note over out,c: stopped F18 at event 4 of the scenario"])

    def test_what_is_never_delivered(self) -> None:
        lines = mermaid(story([*starts(0), event("tick", [0], id="c")], [own("0.1", 1)])).splitlines()
        self.assertEqual(lines[-1], "    c-xs0_1: 0 Own table 7 keys 0..9 term 1 after 0 attempt 0, never delivered")


class Told(unittest.TestCase):
    """The story with its words."""

    def test_events_and_messages(self) -> None:
        one = told(small())
        self.assertEqual(one["events"][3], {"n": 3, "place": 0, "kind": "deliver", "message": 0, "sent": [1, 2]})
        self.assertEqual(one["events"][5]["why"], "1.1 has no open replica that it fits")
        self.assertEqual(one["messages"][0], {"n": 0, "kind": "Write", "from": "out", "to": "0.1",
                                              "text": 'table 7 key 5 "a;#<>&"', "sent": 2, "delivered": [3, 4]})
        self.assertEqual(one["phases"], [{"event": 3, "id": "0.1", "phase": "writing"}])
        self.assertEqual([(copy["event"], copy["gone"], copy["at"]) for copy in one["copies"]], [(5, False, "1.1")])
        self.assertEqual(one["masters"][0]["waits"], "until segment 1 is stored whole at 1.1")

    def test_it_is_json_without_an_angle(self) -> None:
        text = told_json(told(small()))
        self.assertNotIn("<", text)
        self.assertEqual(json.loads(text), told(small()))

    def test_what_does_not_run(self) -> None:
        one = told(story([event("deliver", n=0)], [append()]))
        self.assertEqual(one["events"][0], {"n": 0, "place": 0, "kind": "deliver", "message": 0, "running": False,
                                            "why": "1.1 was not running", "sent": []})


class Page(unittest.TestCase):
    """The page."""

    def test_it_is_one_file(self) -> None:
        text = page(small())
        self.assertIn("<title>Story of a run</title>", text)
        self.assertEqual(text.count(told_json(told(small()))), 1)
        self.assertIsNone(re.search(r"(src|href)\s*=\s*[\"']?(?!data:)\w", text))
        self.assertNotIn("$story", text)

    def test_its_title(self) -> None:
        text = page_around("{}", "a<b> & $c")
        self.assertIn("<title>a&lt;b&gt; &amp; $c</title>", text)
        self.assertIn("<h1>a&lt;b&gt; &amp; $c</h1>", text)


if __name__ == "__main__":
    unittest.main()
