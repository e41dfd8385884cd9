"""What the live page is made of: differences of modules, and texts of documents."""

import pathlib
import random
import tempfile
import unittest

from page.bundling import Clash, bundle
from page.differing import difference, restored
from page.main import Wrong, read
from page.making import steps
from page.markdown import html, sections
from page.rules import book


class Differing(unittest.TestCase):
    """A module as what differs from another one."""

    def test_it_is_restored(self) -> None:
        draw = random.Random(3)
        base = draw.randbytes(5000)
        others = [base, b"", base[100:], base + b"x", base[:2000] + b"new" + base[2100:], base[3000:] + base[:3000],
                  draw.randbytes(200)]
        for other in others:
            self.assertEqual(restored(base, difference(base, other)), other)

    def test_what_is_alike_is_not_repeated(self) -> None:
        base = random.Random(4).randbytes(100_000)
        self.assertLess(len(difference(base, base[:40_000] + b"new" + base[40_010:])), 200)


class Bundling(unittest.TestCase):
    """Modules in one text."""

    def test_a_name_is_declared_once(self) -> None:
        with tempfile.TemporaryDirectory() as name:
            folder = pathlib.Path(name)
            (folder / "a.mjs").write_text('import { B } from "./b.mjs";\nconst A = B;\n')
            (folder / "b.mjs").write_text("const C = 1;\nexport const B = C;\n")
            self.assertEqual(bundle(folder, "a.mjs"), "const C = 1;\nconst B = C;\n\nconst A = B;\n")
            (folder / "b.mjs").write_text("export const B = 1, A = 2;\n")
            with self.assertRaises(Clash):
                bundle(folder, "a.mjs")


class Documents(unittest.TestCase):
    """Texts of documents as HTML, and what of them stands in the page."""

    def test_blocks(self) -> None:
        self.assertEqual(html("A *b* **c** `<d>`,\nsee [e](f.md).\n\n- g\n  h\n- i\n\n```script\nj < k\n\nl\n```"),
                         "<p>A <i>b</i> <b>c</b> <code>&lt;d&gt;</code>, see e.</p>\n<ul><li>g h</li><li>i</li></ul>\n"
                         '<pre class="script">j &lt; k\n\nl</pre>')
        self.assertEqual(html("| a | b |\n|---|---|\n| `c` | d |"),
                         "<table><thead><tr><th>a</th><th>b</th></tr></thead><tbody><tr><td><code>c</code></td><td>d</td></tr>"
                         "</tbody></table>")

    def test_sections(self) -> None:
        self.assertEqual(sections("## 1. A\nb\n### 1.1 C\nd\n```\n# e\n```\n# F\ng", (2, 3)),
                         {"1. A": "b", "1.1 C": "d\n```\n# e\n```"})

    def test_each_kind_has_its_rule(self) -> None:
        named = book()
        self.assertTrue({"Append", "Gather", "suspect", "fenced"} <= {*named["of"]})
        self.assertEqual({it[0] for it in named["of"].values()}, {*named["sections"]})

    def test_the_tutorial_begins_with_four_servers(self) -> None:
        self.assertTrue(steps()[0]["script"].startswith("start 0..3\n"))
        self.assertTrue(all(step["script"].endswith("settle\n") for step in steps()))


class CommandLine(unittest.TestCase):
    """The words behind `page`."""

    def test_words(self) -> None:
        self.assertEqual(read(["-o", "a.html", "--without=stores_after_gather", "--without", "stores_after_gather"])[1],
                         ["stores_after_gather"])
        for words in (["x"], ["-o"], ["--without", "nosuch"], ["-o", "/"]):
            with self.assertRaises(Wrong):
                read(words)


if __name__ == "__main__":
    unittest.main()
