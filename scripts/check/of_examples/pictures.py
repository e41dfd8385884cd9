"""For each scenario of examples/ `log --json` fits docs/schemas/log.json and agrees with the report of `run`
(acknowledgements, where the run stopped). What tools/story makes of it agrees with it: the log has a line for each event,
the page holds just this story and names no other place, and the diagram has each message that arrives. Where there is a
NAME.log or a NAME.mermaid, they are just that. The pages of examples/broken are of the parts that page/ has; with --write
they get these. Where a browser is there (chromium), it loads each page at two widths, and shows no error, the rows, the
verdict in the title, and at the head each zombie and the first stale reads."""

import json
import pathlib
import re
import shutil
import subprocess
import tempfile
from html import unescape

from of_examples.schemas import judge_of
from parts.program import ask
from parts.tree import EXAMPLES, TOP
from story.log import log_text
from story.mermaid import mermaid
from story.page import page as page_of
from story.page import page_around
from story.reading import read_story
from story.telling import told, told_json

# drawn by `drawings`, with the same marks
DRAWN = ("first-write", "roll", "backup-replaced", "zombie", "recovery")
BROWSERS = ("chromium", "chromium-browser", "google-chrome")


def disagreements(program, scenario, fits):
    """What is wrong with the story of a scenario, and with what is made of it."""
    report = scenario.with_suffix(".report").read_text()
    status = 2 if report.startswith(("error", "stopped")) or "\nstopped" in report else 0
    answer = ask(program, "log", "--json", given=scenario)
    if answer.status != status:
        yield f"log --json ends with status {answer.status}, and not {status}"
    if report.startswith("error"):
        # the script ./ramseg says an error of JSON on standard error alone
        if answer.printed not in ("", report.splitlines(keepends=True)[0]):
            yield "log --json prints something else than run"
        return
    story = read_story(answer.printed)
    if not fits(story):
        yield "log --json does not fit its schema"
    if [it for event in story["events"] for it in event["sent"]] != list(range(len(story["messages"]))):
        yield "the events do not send the messages in order"
    if f"audit {story['audit']}" not in report.splitlines():
        yield "another verdict than in the report"
    acknowledged = sum(it["kind"] == "WriteOk" for it in story["messages"])
    if acknowledged != len(re.findall("^ack ", report, re.M)):
        yield "other acknowledgements than in the report"
    stopped = re.search(r"^stopped (F\d+) at event (\d+)$", report, re.M)
    if (stopped and {"code": stopped[1], "place": int(stopped[2])}) != story["stopped"]:
        yield "it stops at another place than the report"
    yield from differences(story)
    for ending, made in ((".log", log_text), (".mermaid", mermaid)):
        file = scenario.with_suffix(ending)
        if file.exists() and file.read_text() != made(story):
            yield f"{file.name} is another text"


def differences(story):
    """Where what is made of a story differs from it."""
    words = told(story)
    lines = log_text(story).splitlines()
    if sum(it.startswith("event ") for it in lines) != len(story["events"]) or f"audit {story['audit']}" not in lines:
        yield "the log has another number of events, or another verdict"
    page = page_of(story)
    if page.count(told_json(words)) != 1 or re.search(r"(src|href)\s*=\s*[\"']?(?!data:)\w", page):
        yield "the page has not just this story, or asks for something else"
    arrived = sum(len(it["delivered"]) for it in words["messages"] if it["to"] != "out")
    arrows = len(re.findall(r"^    \w+->>(?!out)\w+: ", mermaid(story), re.M))
    crossed = sum("why" in event for event in words["events"])
    if arrows != arrived - crossed:
        yield f"the diagram has {arrows} arrows that arrive, and not {arrived - crossed}"


def with_parts(page):
    """The parts of page/ around the story of this page."""
    title, told_story = re.search('<title>(.*?)</title>.*?id="story">(.*?)</script>', page, re.S).groups()
    return page_around(told_story, unescape(title))


def findings(story):
    """What the head of a page has to say of a story."""
    owners, known, wanted = {}, {}, set()
    runs = {it["id"] for it in story["servers"] if it["stopped"] is None}
    deposed = {it["id"] for it in story["phases"] if it["phase"] == "deposed"}
    for message in story["messages"]:
        found = re.search(r"table (\d+) key (\d+) version (\d+)", message["text"])
        if message["kind"] == "Own" and message["delivered"]:
            keys = re.search(r"table \d+ keys \S+", message["text"])[0]
            if owners.get(keys, message["to"]) != message["to"] and owners[keys] in runs - deposed:
                wanted.add(f"{owners[keys]} is a zombie:")
            owners[keys] = message["to"]
        elif message["kind"] == "WriteOk" and found:
            known[found.group(1, 2)] = max(int(found[3]), known.get(found.group(1, 2), 0))
        elif message["kind"] == "ReadOk" and known.get(found.group(1, 2), 0) > int(found[3]):
            wanted.add(f"{message['from']} shows version {found[3]} ")
    return wanted


def browsed(browser, page, width, story):
    """What is wrong with the page of a story in a browser of this width."""
    words = [browser, "--headless=new", "--no-sandbox", "--disable-gpu", "--enable-logging=stderr", "--v=0",
             "--virtual-time-budget=3000", f"--window-size={width},900", "--dump-dom", page.as_uri()]
    ran = subprocess.run(words, stdout=subprocess.PIPE, stderr=subprocess.PIPE, timeout=120)
    for line in ran.stderr.decode(errors="replace").splitlines():
        if "CONSOLE" in line and re.search("error|exception|not defined|Uncaught", line, re.I):
            yield f"at {width} pixels: {line}"
    if b"<svg" not in ran.stdout or b"class=\"name\"" not in ran.stdout:
        yield f"at {width} pixels: nothing was drawn"
    dom = ran.stdout.decode(errors="replace")
    if f": audit {story['audit']}" not in re.search("<title>(.*)</title>", dom)[1]:
        yield f"at {width} pixels: the title has no verdict"
    marks = re.findall("</svg>([^<]*)</span>", re.search('<div id="legend">(.*?)</div>', dom, re.S)[1])
    drawn = [(TOP / f"docs/pictures/{name}.svg").read_text() for name in DRAWN]
    for mark in marks:
        if not all(f">{mark}</text>" in picture for picture in drawn):
            yield f"a picture that was drawn has no mark: {mark}"
    if len(marks) < 10:
        yield f"at {width} pixels: a legend of {len(marks)} marks"
    head = re.sub("<[^>]*>", "", re.search('<ul id="findings">(.*?)</ul>', dom, re.S)[1])
    for words in findings(story):
        if words not in head:
            yield f"at {width} pixels: the head does not say: {words}"


# what a reader does with a page; an element of its own says what did not come of it
HANDS = """<script>
addEventListener("load", () => setTimeout(() => {
  const wrong = [];
  const expect = (isSo, what) => isSo || wrong.push(what);
  const press = (target, key) =>
    target.dispatchEvent(new KeyboardEvent("keydown", { key, bubbles: true, cancelable: true }));
  const arrows = () => [...document.querySelectorAll("[data-message]")];
  const [first, second] = arrows();
  const empty = byId("details").textContent;
  press(first, "Enter");
  expect(location.hash === `#message-${first.dataset.message}`, "Enter opens no arrow");
  expect(byId("details").textContent !== empty, "an arrow that was opened has no details");
  press(arrows().find((arrow) => arrow.dataset.message === second.dataset.message), " ");
  expect(location.hash === `#message-${second.dataset.message}`, "Space opens no arrow");
  press(document.body, "End");
  expect(location.hash === `#event-${events.length - 1}`, "End leads to no last event");
  byId("search").value = "WriteOk";
  press(byId("search"), "Enter");
  const found = location.hash.match(/^#message-([0-9]+)$/);
  expect(found && messages[found[1]].kind === "WriteOk", "the search finds no WriteOk");
  byId("kind").value = "WriteOk";
  byId("kind").dispatchEvent(new Event("change"));
  setTimeout(() => {
    const kinds = arrows().map((arrow) => messages[arrow.dataset.message].kind);
    expect(kinds.includes("WriteOk") && kinds.every((kind) => kind === "WriteOk"), `a kind shows ${kinds}`);
    document.body.insertAdjacentHTML("beforeend", `<pre id="wrong">${wrong.join("\\n") || "nothing"}</pre>`);
  }, 200);
}, 200));
</script>
"""


def handled(browser, page):
    """What does not come of the keys, the search and the filters of a page."""
    page.write_text(page.read_text().replace("</body>", HANDS + "</body>") if "</body>" in page.read_text()
                    else page.read_text() + HANDS)
    words = [browser, "--headless=new", "--no-sandbox", "--disable-gpu", "--virtual-time-budget=3000",
             "--window-size=1440,900", "--dump-dom", page.as_uri()]
    ran = subprocess.run(words, stdout=subprocess.PIPE, stderr=subprocess.PIPE, timeout=120)
    # (the first is that of the script itself)
    told = re.findall('<pre id="wrong">(.*?)</pre>', ran.stdout.decode(errors="replace"), re.S)[1:]
    return [] if told == ["nothing"] else [f"by hand: {told[0] if told else 'nothing was tried'}"]


def check(program, writes=False):
    fits = judge_of(json.loads((TOP / "docs/schemas/log.json").read_text()))
    browser = next(filter(None, map(shutil.which, BROWSERS)), None)
    scenarios = sorted(EXAMPLES.glob("*.json"))
    for page in sorted((EXAMPLES / "broken").glob("*.html")):
        text = with_parts(page.read_text())
        if writes:
            page.write_text(text)
        elif text != page.read_text():
            yield f"{page.name} has other parts than page/"
    with tempfile.TemporaryDirectory() as room:
        page = pathlib.Path(room, "page.html")
        for scenario in scenarios:
            found = list(disagreements(program, scenario, fits))
            if browser and not scenario.with_suffix(".report").read_text().startswith("error"):
                story = read_story(ask(program, "log", "--json", given=scenario).printed)
                page.write_text(page_of(story))
                found += [it for width in (375, 1440) for it in browsed(browser, page, width, told(story))]
                if scenario.stem == "zombie":
                    found += handled(browser, page)
            yield from (f"{scenario.name}: {it}" for it in found)
    return f"{len(scenarios)} scenarios; pages {'loaded' if browser else 'not loaded, as there is no browser'}"
