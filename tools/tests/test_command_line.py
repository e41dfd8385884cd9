"""The words of a command line, and what a run is expected to tell."""

import unittest

from ramseg.command_line import Wrong, read
from ramseg.testing import differences


class CommandLine(unittest.TestCase):
    def test_options_and_files_may_stand_in_any_order(self) -> None:
        asked = read("run", ["a.json", "--heap", "64", "-o", "out", "b.json", "--", "-c.json"])
        self.assertEqual((asked.options, asked.files, asked.folder), (["--heap", "64"], ["a.json", "b.json", "-c.json"],
                                                                      "out"))
        self.assertEqual(read("run", ["-oout", "-"]).files, ["-"])
        self.assertEqual(read("shrink", ["--keep=ack", "x"]).options, ["--keep=ack"])

    def test_a_format_is_json_and_comes_once(self) -> None:
        self.assertTrue(read("run", ["--format=json"]).is_json)
        asked = read("explore", ["--seed", "3", "--format", "json", "--free"])
        self.assertEqual((asked.is_json, asked.options), (True, ["--seed", "3", "--free"]))
        for words in (["--format", "xml"], ["--format"], ["--format=json", "--format=json"]):
            with self.assertRaises(Wrong):
                read("fuzz", words)
        self.assertEqual(read("threads", ["--format", "json"]).options, ["--format", "json"])

    def test_flags_of_the_script_are_looked_at(self) -> None:
        self.assertTrue(read("log", ["--whole", "x"]).has("--whole"))
        for command, words in (("log", ["--wole"]), ("picture", ["--json"]), ("log", ["--json", "--json"])):
            with self.assertRaises(Wrong):
                read(command, words)


class Expected(unittest.TestCase):
    REPORT = ["ack 0.1 seg 1 at 0", "messages 9", "acknowledged 1", "audit clean"]

    def found(self, expected: str, status: int = 0) -> list[str]:
        return list(differences(self.REPORT, status, expected))

    def test_a_line_begins_so_and_a_count_is_the_same(self) -> None:
        self.assertEqual(self.found("# a remark\n\nack 0.1 seg 1\nacknowledged 1\n! refused\naudit clean\n"), [])
        self.assertEqual(self.found("ack 0.1 se\n"), ["has no line that begins with: ack 0.1 se"])
        self.assertEqual(self.found("messages\n"), ["has no line that begins with: messages"])
        self.assertEqual(self.found("! ack\n"), ["has a line that begins with: ack"])

    def test_the_status_is_looked_at(self) -> None:
        self.assertEqual(self.found("status 2\n", 2), [])
        self.assertEqual(self.found("", 2), ["ended with status 2, not 0"])

    def test_what_says_nothing_of_a_report_is_wrong(self) -> None:
        for line in (" ack", "!ack", "Ack", "status two", "nothing 1"):
            self.assertEqual(len(self.found(line + "\n")), 1, line)
