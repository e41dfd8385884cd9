"""The words of each kind of message and event."""

import unittest

from story.spelling import FIELDS, event_text, fields_text, message_text, place_of, value_text
from tests.stories import append, event, message

ENTRY = {"term": 1, "table": 7, "key": "5", "version": "2", "value": "6122"}
PART = {"table": 7, "lo": "0", "hi": "9", "previous": 1, "term": 4}
ROW = {"seg": 1, "epoch": 2, "len": 3, "closed": True, "digest": [1, 2]}

# each kind, with its fields, and the words of them
SAID = [
    ("Write", {"table": 7, "key": "5", "value": "61"}, 'table 7 key 5 "a"'),
    ("Read", {"table": 7, "key": "5"}, "table 7 key 5"),
    ("WriteOk", {"seg": 1, "offset": 2, "term": 3, "table": 7, "key": "5", "version": "6"},
     "seg 1 offset 2 term 3 table 7 key 5 version 6"),
    ("ReadOk", {"table": 7, "key": "5", "version": "6", "value": None}, "table 7 key 5 version 6 no value"),
    ("Refused", {"code": "F3", "name": "Rolling"}, "F3 Rolling"),
    ("Place", {"seg": 1, "epoch": 2, "digest": [1], "entries": [], "closed": False},
     "seg 1 epoch 2 digest 1 open, 0 entries"),
    ("Append", {"seg": 1, "offset": 2, "entries": [ENTRY]},
     "seg 1 offset 2, 1 entry: term 1 table 7 key 5 version 2 2 bytes 0x6122"),
    ("Close", {"seg": 1, "len": 3}, "seg 1 length 3"),
    ("Stored", {"seg": 1, "epoch": 2, "len": 3, "closed": True}, "seg 1 epoch 2 length 3 closed"),
    ("Commit", {"seg": 1, "epoch": 2}, "seg 1 epoch 2"),
    ("CommitOk", {"seg": 1, "epoch": 2}, "seg 1 epoch 2"),
    ("Enlist", {}, ""),
    ("Ready", {}, ""),
    ("List", {"version": 3, "rows": [{"id": "0.1", "up": True}, {"id": "1.1", "up": False}]},
     "version 3 0.1 up 1.1 down"),
    ("Gather", {"attempt": 1, "master": "0.1"}, "attempt 1 of 0.1"),
    ("Replicas", {"attempt": 1, "rows": [ROW]}, "attempt 1, 1 replica: seg 1 epoch 2 length 3 closed digest 1 2"),
    ("Plan", {"attempt": 1, "master": "0.1", "head": 2, "rows": [{"seg": 1, "holder": "1.1", "len": 3}], "parts": [PART]},
     "attempt 1 of 0.1 head 2 rows 1:1.1:3, 1 part: table 7 keys 0..9 term 1 to 4"),
    ("Fetch", {"attempt": 1, "master": "0.1", "seg": 1, "len": 3, "part": PART},
     "attempt 1 of 0.1 seg 1 length 3, part table 7 keys 0..9 term 1 to 4"),
    ("Data", {"attempt": 1, "seg": 1, "term": 4, "entries": []}, "attempt 1 seg 1 term 4, 0 entries"),
    ("Recovered", {"attempt": 1, "term": 4}, "attempt 1 term 4"),
    ("Own", {"table": 7, "lo": "0", "hi": "9", "term": 4, "previous": 1, "attempt": 1},
     "table 7 keys 0..9 term 4 after 1 attempt 1"),
    ("SplitOk", {"table": 7, "at": "9"}, "table 7 at 9"),
    ("Free", {"seg": 1}, "seg 1"),
]

# each kind of event, its members, where it happens, and its words
HAPPENED = [
    ("start", {"host": 0}, "0.2", "0.2", "start host 0 as 0.2"),
    ("start", {"host": 1, "kept": [[[0, 1], 3]]}, "1.2", "1.2", "start host 1 as 1.2 kept 0.1:3"),
    ("write", {"to": [0, 1], "table": 7, "key": 5, "value": "a"}, None, "out", 'write to 0.1 table 7 key 5 "a"'),
    ("write", {"to": [0, 1], "table": 7, "key": 5, "value": None}, None, "out", "write to 0.1 table 7 key 5 no value"),
    ("read", {"to": [0, 1], "table": 7, "key": 5}, None, "out", "read to 0.1 table 7 key 5"),
    ("tick", {"id": "c"}, None, "c", "tick c"),
    ("tick", {"id": [0, 1]}, None, "0.1", "tick 0.1"),
    ("stop", {"id": [0, 1]}, None, "0.1", "stop 0.1"),
    ("suspect", {"id": [0, 1]}, None, "c", "suspect 0.1"),
    ("decide", {"id": [0, 1]}, None, "c", "decide 0.1"),
    ("create", {"table": 7, "owner": [0, 1]}, None, "c", "create table 7 owner 0.1"),
    ("split", {"table": 7, "at": 9}, None, "c", "split table 7 at 9"),
]


class Messages(unittest.TestCase):
    """The words of messages."""

    def test_each_kind(self) -> None:
        self.assertEqual([kind for kind, _, _ in SAID], list(FIELDS))
        for kind, fields, words in SAID:
            with self.subTest(kind):
                self.assertEqual(fields_text(message(kind, "0.1", "1.1", **fields), whole=False), words)

    def test_a_line_has_number_kind_and_nodes(self) -> None:
        self.assertEqual(message_text(3, message("Ready", "0.1", "c"), whole=False), "3 Ready 0.1 -> c")
        self.assertEqual(message_text(4, append(), whole=False),
                         '4 Append 0.1 -> 1.1 seg 1 offset 0, 1 entry: term 1 table 7 key 5 version 1 "a"')

    def test_values(self) -> None:
        self.assertEqual(value_text("", whole=False), ' ""')
        self.assertEqual(value_text("22", whole=False), " 1 byte 0x22")
        self.assertEqual(value_text("5c", whole=False), " 1 byte 0x5c")
        self.assertEqual(value_text("c3a4", whole=False), " 2 bytes 0xc3a4")
        self.assertEqual(value_text("61" * 32, whole=False), f' "{"a" * 32}"')
        self.assertEqual(value_text("61" * 33, whole=False), f" 33 bytes 0x{'61' * 32}..")
        self.assertEqual(value_text("61" * 33, whole=True), f' "{"a" * 33}"')
        self.assertEqual(value_text("00" * 33, whole=True), f" 33 bytes 0x{'00' * 33}")

    def test_long_lists(self) -> None:
        entries = {"seg": 1, "offset": 0, "entries": [ENTRY] * 5}
        self.assertTrue(fields_text(message("Append", "0.1", "1.1", **entries), whole=False).endswith("0x6122; .."))
        self.assertEqual(fields_text(message("Append", "0.1", "1.1", **entries), whole=True).count("term 1"), 5)
        place = message("Place", "0.1", "1.1", seg=1, epoch=1, digest=list(range(20)), entries=[], closed=False)
        self.assertIn(" 14 15 and 4 more open", fields_text(place, whole=False))
        self.assertIn(" 18 19 open", fields_text(place, whole=True))
        rows = message("List", "c", "0.1", version=1, rows=[{"id": "0.1", "up": True}] * 66)
        self.assertTrue(fields_text(rows, whole=False).endswith(" up and 2 more"))


class Events(unittest.TestCase):
    """The words of events."""

    def test_each_kind(self) -> None:
        for kind, members, started, node, words in HAPPENED:
            with self.subTest(words):
                happened = event(kind, **members)
                self.assertEqual(event_text(happened, started, whole=False), words)
                self.assertEqual(place_of(happened, started), node)

    def test_many_kept_names(self) -> None:
        happened = event("start", host=1, kept=[[[0, 1], 3]] * 65)
        self.assertTrue(event_text(happened, "1.2", whole=False).endswith(" 0.1:3 and 1 more"))


if __name__ == "__main__":
    unittest.main()
