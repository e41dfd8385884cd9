"""The story of a run as a page for a browser. It is one file, which needs no network: the story with its words, and what
draws it, from the folder page/."""

from html import escape
from pathlib import Path
from string import Template

from .reading import Story
from .telling import told, told_json

PAGE = Path(__file__).resolve().parents[2] / "page"
SCRIPTS = ("story.js", "marks.js", "drawing.js", "findings.js", "moving.js", "ending.js")
"""In the order in which they run: each calls what those before it declare."""


def page(story: Story, title: str = "Story of a run") -> str:
    """The page of a story, under this title."""
    return page_around(told_json(told(story)), title)


def page_around(told_story: str, title: str) -> str:
    """The page around a story with its words, as `told_json` writes it."""
    return Template((PAGE / "template.html").read_text()).substitute(
        title=escape(title, quote=False),
        style=(PAGE / "page.css").read_text(),
        story=told_story,
        script="\n".join((PAGE / name).read_text() for name in SCRIPTS))
