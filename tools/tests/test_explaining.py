"""What `explain` says, and the file of its words."""

import json
import pathlib
import re
import unittest

from ramseg.explaining import HERE, KINDS, Words, document, explain, short_of_code
from ramseg.nearest import nearest
from ramseg.reasons.dialects import MESSAGES, SCENARIO

TOP = pathlib.Path(__file__).resolve().parents[2]


class Explaining(unittest.TestCase):
    def test_each_code_has_its_number_its_name_and_its_texts(self) -> None:
        source = (TOP / "crates/rc_types/src/faults.rt").read_text()
        codes = [(int(number), name) for name, number in re.findall(r"^    (\w+) = (\d+),$", source, re.M)]
        listed = Words().groups["codes"]
        self.assertEqual([(texts["number"], texts["name"]) for texts in listed], codes)
        self.assertTrue(all(texts["when"] and texts["remedy"] for texts in listed))

    def test_the_kinds_are_those_of_the_schema(self) -> None:
        schema = json.loads((TOP / "docs/schemas/scenario.json").read_text())
        events = next(it for it in _enums(schema) if "settle" in it)
        messages = next(it for it in _enums(schema) if "Ready" in it)
        self.assertEqual(Words().names("events"), events)
        self.assertEqual(Words().names("messages"), messages)
        self.assertEqual((list(SCENARIO.kinds), list(MESSAGES)), (events, messages))

    def test_the_rules_are_those_that_can_be_broken(self) -> None:
        rules = sorted(file.stem for file in (TOP / "wrong/code").glob("*.edit"))
        self.assertEqual(sorted(Words().names("rules")), rules)

    def test_the_counted_rules_are_those_of_explore(self) -> None:
        source = (TOP / "crates/rc_study/src/rules.rt").read_text()
        names = re.findall(r'^    "([a-z-]+)",$', source, re.M)
        self.assertEqual(list(Words().counted), names)
        self.assertLessEqual(set(names), set(explain(None).text.split()))

    def test_a_code_is_found_by_number_and_name(self) -> None:
        for word in ("F18", "f18", "18", "BadEvent", "badevent"):
            self.assertTrue(explain(word).text.startswith("F18 BadEvent: the event is not possible in this world\n"))
        self.assertEqual(short_of_code(3), "refused 3: Rolling, the master has no head to write to at the moment")

    def test_a_word_of_several_kinds_is_told_of_each(self) -> None:
        told = explain("write").text
        self.assertIn("Write, a message from outside to a master\n", told)
        self.assertIn("\n\nwrite, an event\n\nIn a script\n  write ID ", told)

    def test_words_of_the_glossary_and_counted_rules_are_explained(self) -> None:
        self.assertIn("a master that was replaced", explain("zombie").text)
        self.assertIn("a master from which a backup takes nothing", explain("fence").text)
        self.assertIn("a master opens a head after its first", explain("roll").text)
        self.assertIn("a new head is opened", explain("roll").text)
        self.assertIn("Who gives it\n  the coordinator\n", explain("term").text)

    def test_what_is_no_word_is_asked_for(self) -> None:
        meaning = explain("BadEvnt")
        self.assertFalse(meaning.is_known)
        self.assertIn("did you mean 'BadEvent'?", meaning.text)
        self.assertFalse(explain("F22").is_known)
        self.assertFalse(explain("9" * 5000).is_known)

    def test_no_line_below_a_heading_is_long(self) -> None:
        for group in KINDS:
            for name in Words().names(group):
                below = [line for line in explain(name).text.splitlines() if line.startswith("  ")]
                for line in below:
                    self.assertTrue(len(line) <= 80 or "./ramseg" in line or " " not in line.strip(), line)
        for line in (HERE / "explain.json").read_text().splitlines():
            self.assertLessEqual(len(line), 120)

    def test_documents_have_a_member_for_each_kind(self) -> None:
        value = json.loads(document("write"))
        self.assertEqual(list(value), ["format", "code", "message", "event", "rule"])
        self.assertIsNone(value["code"])
        self.assertEqual(value["message"]["name"], "Write")
        self.assertEqual(len(json.loads(document(None))["codes"]), 21)
        self.assertIsNone(document("zombie"))


class Nearest(unittest.TestCase):
    def test_letters_that_are_wrong_are_few(self) -> None:
        self.assertEqual(nearest("settel", ["start", "settle"]), "settle")
        self.assertEqual(nearest("SETTLE", ["start", "settle"]), "settle")
        self.assertEqual(nearest("hots", ["host", "hosts"]), "host")
        self.assertEqual(nearest("ex", ["explain"]), "explain")
        self.assertIsNone(nearest("crash", ["start", "settle"]))
        self.assertIsNone(nearest("x", ["xy"]))


def _enums(value: object) -> list[list[str]]:
    """All lists of names in a schema."""
    if isinstance(value, list):
        return [found for it in value for found in _enums(it)]
    if isinstance(value, dict):
        own = [value["enum"]] if isinstance(value.get("enum"), list) else []
        return own + [found for it in value.values() for found in _enums(it)]
    return []
