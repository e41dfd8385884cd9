"""Why a scenario, a trace or a history is refused, and why a run stopped. `examples/wrong` has some eighty more."""

import unittest

from ramseg.reasons.dialects import SCENARIO, TRACE
from ramseg.reasons.faults import reason_of_fault
from ramseg.reasons.refusals import kind_of, reason
from ramseg.reasons.stops import reason_of_stop
from ramseg.reasons.twice import hint_of_twice


def scenario(*events: str) -> bytes:
    return ('{"format":1,"factor":2,"segment":8,"events":[' + ",".join(events) + "]}").encode()


def first_line(text: str) -> str:
    return text.splitlines()[0]


class Faults(unittest.TestCase):
    def test_a_member_is_named_with_its_place_and_what_it_has_to_be(self) -> None:
        told = reason_of_fault(SCENARIO, scenario('{"e":"start","host":64}'), 2)
        self.assertEqual(first_line(told), 'line 1, column 66: event 0 (start): "host" is 64; expected a host, a whole '
                                           "number from 0 to 63")

    def test_a_misspelt_name_is_asked_for(self) -> None:
        told = reason_of_fault(SCENARIO, scenario('{"e":"settel"}'), 2)
        self.assertTrue(first_line(told).endswith('which is no kind of event; did you mean "settle"?'))
        told = reason_of_fault(SCENARIO, scenario('{"e":"settle","kind":["Ready"]}'), 2)
        self.assertTrue(first_line(told).endswith('event 0 (settle) has no member "kind"; did you mean "kinds"?'))

    def test_the_last_of_two_members_counts(self) -> None:
        told = reason_of_fault(SCENARIO, scenario('{"e":"start","host":0,"host":"0"}'), 2)
        self.assertIn('"host" is "0"; expected a host', told)

    def test_a_long_value_is_cut_and_its_line_feeds_are_blanks(self) -> None:
        told = reason_of_fault(SCENARIO, scenario('{"e":"deliver","n":[1,\n2,' + "3," * 50 + "4]}"), 2)
        # 40 characters: 6, and 17 of the pairs
        self.assertIn('"n" is [1, 2,' + "3," * 17 + "..; expected a whole number", told)

    def test_a_key_may_have_64_bits_and_no_more(self) -> None:
        event = '{{"e":"read","to":[0,1],"table":7,"key":{}}}'
        self.assertIn('"key" is', reason_of_fault(SCENARIO, scenario(event.format(2**64)), 2))
        told = reason_of_fault(SCENARIO, scenario(event.format(2**64 - 1)), 2)
        self.assertTrue(first_line(told).endswith("is wrong"))

    def test_an_entry_of_a_trace_is_looked_at_part_by_part(self) -> None:
        text = b'{"format":1,"messages":[{"m":"place","from":[0,1],"seg":1,"entries":[[1,7,5,1,"6A"]]}]}'
        self.assertIn('in "entries" stands [1,7,5,1,"6A"]; expected [term,', reason_of_fault(TRACE, text, 2))

    def test_an_input_of_another_kind_names_its_command(self) -> None:
        trace, history = b'{"format":1,"messages":[]}', b'{"index":0,"time":1,"process":0,"type":"invoke"}\n'
        self.assertEqual(kind_of(scenario())[1], "run")
        self.assertEqual(kind_of(trace)[1], "audit")
        self.assertEqual(kind_of(history)[1], "check")
        self.assertEqual(kind_of(b"[1]"), (None, ""))
        self.assertIn("this is a trace, and a scenario is wanted; `ramseg audit` reads it", reason("run", trace, 1))
        self.assertIn("this is a scenario, and a trace is wanted; `ramseg run` reads", reason("audit", scenario(), 1))
        self.assertIn("this is a scenario, and a history is wanted", reason("check", scenario(), 1))
        self.assertIn("this is a history, and a scenario is wanted", reason("heal", history * 2, 0))

    def test_a_stop_is_told_with_what_has_run(self) -> None:
        start, stop = '{"e":"start","host":0}', '{"e":"stop","id":[0,1]}'
        told = reason_of_stop(scenario(start, stop, stop), 2, 3)
        self.assertIn("event 2 (stop): 0.1 does not run: host 0 ran last as 0.1, which event 1 stopped", told)
        self.assertIn("host 0 runs already, as 0.1, since event 0", reason_of_stop(scenario(start, start), 1, 3))
        self.assertIn("host 0 has never been started", reason_of_stop(scenario(stop), 0, 0))
        told = reason_of_stop(scenario('{"e":"deliver","n":5}'), 0, 2)
        self.assertIn("message 5 was not sent; 2 were until then, 0 to 1", told)
        self.assertIn("a world takes no more", reason_of_stop(scenario('{"e":"settle"}'), 0, 9))

    def test_a_member_that_comes_twice_is_hinted_at(self) -> None:
        told = hint_of_twice(SCENARIO, scenario('{"e":"start","host":0,"host":1}'))
        self.assertEqual(told, 'hint: line 1, column 68: the member "host" comes twice in this object; the last one '
                               "counts")
        self.assertIsNone(hint_of_twice(SCENARIO, scenario('{"e":"start","host":0}', '{"e":"start","host":1}')))

    def test_a_line_of_a_history_is_told_with_its_number(self) -> None:
        invoked = b'{"process":0,"type":"invoke","f":"write","key":"7/5","value":"a"}\n'
        answered = b'{"process":0,"type":"ok","f":"write","key":"7/5","value":"a","version":1}\n'
        wrong = {
            b"[1]": "it is no JSON object",
            b'{"process":-1}': "'process' is to be a number from 0 on",
            b'{"process":1}': '\'type\' is to be "invoke", "ok", "fail" or "info"',
            b'{"process":1,"type":"ok"}': "'f' is to be \"write\" or \"read\"",
            b'{"process":1,"type":"ok","f":"read","key":"7"}': "'key' is to be a text TABLE/KEY of two numbers, as \"7/5\"",
            answered.replace(b'"a"', b"7"): "'value' is to be a text, or null",
            answered.replace(b":1}", b":-1}"): "'version' is to be a number from 0 on",
            answered.replace(b',"version":1', b""): "an \"ok\" wants a 'version'",
            answered.replace(b"7/5", b"7/6"): "its process has invoked another operation",
            answered.replace(b'"a"', b'"b"'): "its process has invoked another operation",
            invoked: "its process has not ended the operation before",
            answered.replace(b":0,", b":1,"): "its process has invoked no operation",
        }
        for line, why in wrong.items():
            self.assertEqual(reason("check", b"\n" + invoked + line.strip(), 3), f"line 3: {why}\n")
        self.assertEqual(reason("check", invoked + answered, 2), "line 2: it is wrong\n")
        self.assertIn("more than 16777216 bytes", reason("check", b"", 0))
