"""The page around the module."""

import gzip
import json
import re
from base64 import b64encode
from pathlib import Path
from string import Template
from typing import Any

from ramseg.scripting import FORMS
from story.page import page_around

from .bundling import bundle
from .differing import difference
from .markdown import html, sections
from .rules import book

TOP = Path(__file__).resolve().parents[2]
LIVE = TOP / "page" / "live"
HIDDEN = "\nh1, #details, body > p, #previous, #next { display: none; }\n#ending { margin-top: 14px; }\n"
"""What the picture leaves out in the page, which shows it by itself."""
STORY = re.compile(r'<script type="application/json" id="story">(.*?)</script>', re.S)
TITLE = re.compile(r"\*\*`([\w-]+)`: ([^*]+?)\.?\*\*")
STEP = re.compile(r"^```script\n(.*?)^```$", re.S | re.M)


def titles() -> dict[str, str]:
    """What the page of the examples says of each that it tells of, in its order."""
    return dict(TITLE.findall((TOP / "examples" / "README.md").read_text()))


def examples() -> dict[str, str]:
    """The texts of all examples, by the names of their files: of a script where there is one, else of the scenario.
    Those that have titles come first. One that is no UTF-8 can't stand in a text field."""
    found, told = {}, [*titles()]
    order = {name: place for place, name in enumerate(told)}
    for file in sorted((TOP / "examples").rglob("*.json"),
                       key=lambda file: (len(file.parts), order.get(file.stem, len(told)), file)):
        script = file.with_suffix(".txt")
        try:
            text = script.read_text() if script.exists() else spread(file.read_text())
            found[str(file.relative_to(TOP / "examples").with_suffix(""))] = text
        except UnicodeDecodeError:
            pass
    return found


def spread(text: str) -> str:
    """A scenario with each event in a line."""
    return re.sub(r'\},\{"e"', '},\n{"e"', text)


def steps() -> list[dict[str, str]]:
    """The steps of the tutorial that have a script: their titles and texts, and the lines that each adds."""
    found = sections((TOP / "docs" / "TUTORIAL.md").read_text(), (2,))
    return [{"title": title, "text": html(text), "script": "".join(STEP.findall(text))}
            for title, text in found.items() if STEP.search(text)]


def words() -> dict[str, str]:
    """The sections of the glossary."""
    return sections((TOP / "docs" / "GLOSSARY.md").read_text(), (2,))


def stored() -> dict[str, dict[str, Any]]:
    """The runs of examples/broken by programs in which a rule is broken, by the rule: the story with its words."""
    found = {}
    for file in sorted((TOP / "examples" / "broken").glob("*.html")):
        if story := STORY.search(file.read_text()):
            found[file.stem] = json.loads(story[1])
    return found


def frame() -> str:
    """The page of a run, with STORY where its story is to stand."""
    page = page_around("STORY", "Run")
    script = (LIVE / "framed.js").read_text()
    return page.replace("</style>", HIDDEN + "</style>").replace("</script>\n</body>", f"{script}</script>\n</body>")


def held(value: Any) -> str:
    """A value as JSON that can stand in an element of a page: no `<` stands in it."""
    return json.dumps(value, ensure_ascii=False).replace("<", "\\u003c")


def pictures() -> str:
    """The pictures of runs that were drawn before, for a browser that can't run the program; the zombie's first."""
    files = sorted((TOP / "docs/pictures").glob("*.svg"), key=lambda file: (file.stem != "zombie", file))
    said = {name: f"{name}: {title}" for name, title in titles().items()}
    return "".join(f"<h2>{said.get(file.stem, file.stem)}</h2>{file.read_text()}" for file in files)


def packed(content: bytes) -> str:
    """Bytes as letters, made small."""
    return b64encode(gzip.compress(content, mtime=0)).decode()


def page(base: tuple[Path, bool], broken: dict[str, tuple[Path, bool]]) -> str:
    """The page with this module, whose addresses have 64 bits or not, and with those in which a rule is broken."""
    module, is_long = base
    right = module.read_bytes()
    others = "\n".join(f'<script type="text/plain" class="broken" data-rule="{rule}">'
                       f"{packed(difference(right, file.read_bytes()))}</script>" for rule, (file, _) in broken.items())
    parts = {"examples": examples(), "titles": titles(), "steps": steps(), "book": book(),
             "worker": bundle(LIVE, "worker.mjs"), "frame": frame()}
    runs = packed(held(stored()).encode())
    return Template((LIVE / "live.html").read_text()).substitute(
        style=(TOP / "page/page.css").read_text() + (LIVE / "live.css").read_text(),
        pictures=pictures(),
        forms="\n".join(FORMS.values()).replace("&", "&amp;").replace("<", "&lt;").replace(">", "&gt;"),
        parts=held(parts),
        long="yes" if is_long else "no",
        module=packed(right),
        words="".join(f"<h3>{title}</h3>{html(text)}" for title, text in words().items()),
        broken=f'{others}\n<script type="text/plain" id="stored">{runs}</script>',
        script=bundle(LIVE, "live.mjs"))
