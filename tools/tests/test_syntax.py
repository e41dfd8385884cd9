"""Where a text is no JSON, and what is said of it."""

import json
import unittest

from ramseg.reasons.dialects import SCENARIO
from ramseg.reasons.syntax import CONTROL, CUT_OFF, DEEP, ESCAPE, GREAT, LONE, NUMBER, fault_of, reason

FAULTS = {
    b'{"a":1': (None, CUT_OFF),
    b'{"a":': (None, CUT_OFF),
    b'{"a': (None, CUT_OFF),
    b'["\\': (None, CUT_OFF),
    b"[1,]": (3, "a comma stands before this bracket; JSON has none there"),
    b"[1 2]": (3, NUMBER),
    b'["a" "b"]': (5, "a comma is missing before this; or, if it is the end, nothing may follow"),
    b"{} {}": (3, "a comma is missing before this; or, if it is the end, nothing may follow"),
    b"{'a':1}": (1, "JSON has texts and names in double quotes"),
    b"[01]": (1, NUMBER),
    b"[-]": (1, NUMBER),
    b"[1.]": (1, NUMBER),
    b"[.5]": (1, NUMBER),
    b"[1e400]": (1, GREAT),
    b'["a\tb"]': (3, CONTROL),
    b'["\\x"]': (3, ESCAPE),
    b'["\\u12"]': (3, ESCAPE),
    b'["\\ud800"]': (2, LONE),
    b'["\\udc00"]': (2, LONE),
    b'["\\ud800\\u0041"]': (2, LONE),
    b"[nul]": (1, "this is no JSON from here on"),
    b"{1:2}": (1, NUMBER),
    b'{"a"=1}': (4, "this is no JSON from here on"),
    b'{"a":[1}': (7, "this is the wrong bracket: ] closes what stands open here"),
    b"\xef\xbb\xbf{}": (0, "a byte order mark stands here; JSON begins without one"),
    b"[" * 128: (127, DEEP),
}

RIGHT = ['{"a":[1,2.5,-0,1e3,true,false,null,"\\u00e4\\n\\ud83d\\ude00"]}', "[]", " {} ", "0", '""',
         "[" * 127 + "]" * 127]


class Syntax(unittest.TestCase):
    def test_each_fault_is_found_at_its_byte(self) -> None:
        for text, wanted in FAULTS.items():
            with self.subTest(text[:20]):
                fault = fault_of(text)
                self.assertIsNotNone(fault)
                self.assertEqual(tuple(fault), wanted)

    def test_what_is_json_has_no_fault(self) -> None:
        for text in RIGHT:
            with self.subTest(text[:20]):
                json.loads(text)
                self.assertIsNone(fault_of(text.encode()))

    def test_the_place_counts_lines_and_characters(self) -> None:
        self.assertTrue(reason(SCENARIO, '{\n"ä":tru}'.encode()).startswith("line 2, column 5: "))
        self.assertTrue(reason(SCENARIO, b'{\n"a":"\xff"}').startswith("line 2, column 6: the bytes are not UTF-8"))

    def test_an_empty_or_a_long_input_is_told_of(self) -> None:
        self.assertIn("the input is empty; expected an object, as {", reason(SCENARIO, b" \n"))
        self.assertIn("more than 16777216 bytes", reason(SCENARIO, b" " * 16_777_217))
