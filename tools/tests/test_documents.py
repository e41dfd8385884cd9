"""What a command tells as a JSON document, of reports and lines that were worked by hand in docs/FORMATS.md."""

import json
import unittest

from ramseg.documents import document
from ramseg.program import Unexpected

REPORT = """own 0.1 term 1 table 7 from 0 to 18446744073709551615 after 0 attempt 0
ack 0.1 seg 1 at 0 term 1 table 7 key 5 version 1
plan 1 of 0.1 to 1.1 head 1 rows 1:1.1:1 2:2.1:0
read 0.1 table 7 key 5 version 1
refused 12 from c to out
split table 7 at 9
messages 38
acknowledged 1
refused 1
plans 1
grants 1
audit clean
"""


class Documents(unittest.TestCase):
    def test_a_report_has_a_line_for_each_message(self) -> None:
        value = json.loads(document("run", [], REPORT))
        own, ack, plan, read, refused, split = value["lines"]
        self.assertEqual(own, {"line": "own", "id": "0.1", "term": 1, "table": 7, "from": 0, "to": 2**64 - 1,
                               "after": 0, "attempt": 0})
        self.assertEqual(ack, {"line": "ack", "id": "0.1", "seg": 1, "at": 0, "term": 1, "table": 7, "key": 5,
                               "version": 1})
        rows = [{"seg": 1, "holder": "1.1", "length": 1}, {"seg": 2, "holder": "2.1", "length": 0}]
        self.assertEqual(plan, {"line": "plan", "attempt": 1, "of": "0.1", "to": "1.1", "head": 1, "rows": rows})
        self.assertEqual(read, {"line": "read", "id": "0.1", "table": 7, "key": 5, "version": 1})
        self.assertEqual(refused, {"line": "refused", "code": 12, "from": "c", "to": "out"})
        self.assertEqual(split, {"line": "split", "table": 7, "at": 9})
        rest = {name: value[name] for name in list(value)[2:]}
        self.assertEqual(rest, {"messages": 38, "acknowledged": 1, "refused": 1, "plans": 1, "grants": 1,
                                "audit": "clean", "stopped": None})

    def test_where_a_run_stopped_is_told(self) -> None:
        value = json.loads(document("run", [], "messages 0\naudit clean\nstopped F18 at event 3\n"))
        self.assertEqual(value["stopped"], {"code": "F18", "event": 3})

    def test_a_breach_has_what_it_names(self) -> None:
        text = "messages 9\naudit breach version term 1 table 7 key 5 version 1 term 2 version 1\n"
        value = json.loads(document("audit", [], text))
        self.assertEqual(value, {"format": 1, "messages": 9, "audit": {
            "breach": "version", "term": 1, "table": 7, "key": 5, "version": 1, "later-term": 2, "later-version": 1}})

    def test_other_texts_have_a_member_for_each_line(self) -> None:
        self.assertEqual(json.loads(document("stops", [], "cuts 9\nbreaches 0\n")),
                         {"format": 1, "cuts": 9, "breaches": 0})
        text = "drawn seeds 1..2 steps 9 hosts 5 factor 2 segment 2 free\nseed 1 events 3 rules 4/49 clean\nruns 1\n"
        self.assertEqual(json.loads(document("explore", ["--seeds=1..2"], text)), {
            "format": 1, "seeds": [{"seed": 1, "events": 3, "rules": 4, "audit": "clean"}],
            "drawn": {"free": True, "seeds": [1, 2], "steps": 9, "hosts": 5, "factor": 2, "segment": 2}, "runs": 1})
        text = "drawn seed 1 steps 9\nuntil roll event 134 kind Deliver message 114 body Write from out to 0.1\n"
        self.assertEqual(json.loads(document("explore", ["--until", "roll"], text))["until"], "roll")

    def test_nothing_is_told_of_nothing(self) -> None:
        self.assertEqual(document("run", [], ""), "")

    def test_a_line_that_is_no_record_is_refused(self) -> None:
        with self.assertRaises(Unexpected):
            document("run", [], "ack 0.1 seg\n")
