"""docs/pictures/NAME.svg of some examples is drawn from what `log --json` tells of them. Time runs down, a row for each
event; an arrow leads from where a message was sent to where it was delivered. The marks are those of the page that
`picture` makes; the legend at the foot of each has them. With --write they are drawn anew."""

import re

from parts.program import ask
from parts.tree import EXAMPLES, TOP
from story.reading import read_story
from story.telling import told

DRAWN = ("first-write", "roll", "backup-replaced", "zombie", "recovery")
ROW, COLUMN, LEFT, RIGHT = 17, 150, 126, 24
# whose set-up, up to the first create, is drawn too
WHOLE = ("first-write",)
TONES = {"WriteOk": "good", "ReadOk": "good", "Refused": "bad", "Own": "grant"}
STYLE = """
text { font: 11px system-ui, sans-serif; fill: #1b2130 }
.name { font-weight: 700; text-anchor: middle }
.verdict { font-weight: 700 } .clean { fill: #0f7a43 } .unclean { fill: #b3261e }
.at { fill: #586174; text-anchor: end }
.life { stroke: #c6ccd8 }
.band { fill: #b9d0f4 } .opening { fill: #e6e9ef; stroke: #c6ccd8 } .closing { fill: #f3d9a4 }
.deposed { fill: #f2c2be }
.copy { fill: #ffffff; stroke: #6d7689 } .closed { fill: #6d7689 } .fenced { stroke-dasharray: 3 3 }
.closed.fenced { fill: url(#hatched) } .stripe { fill: #6d7689 } .head { fill: none; stroke: context-stroke }
.full { fill: context-stroke } .hollow { fill: #ffffff }
.arrow { stroke: #3b5c9f; fill: none }
.good { stroke: #0f7a43 } .bad { stroke: #b3261e } .grant { stroke: #7b3aa5 } .stale { stroke: #a35a00 }
.owner { fill: #7b3aa5 } .former { fill: #ffffff; stroke: #7b3aa5; stroke-dasharray: 3 2 }
.doubt { fill: #f6ddb8 } .lost-keys { fill: #f0b8b3 } .tag { fill: #a35a00; text-anchor: middle }
.lock { fill: #ffffff; stroke: #1b2130 }
.lost { stroke-dasharray: 4 3 }
.note { fill: #f3f5f9; stroke: #586174 }
.words { paint-order: stroke; stroke: #ffffff; stroke-width: 3px }
.ground { fill: #ffffff } .under { opacity: 0.86 }
@media (prefers-color-scheme: dark) {
  .ground { fill: #13161c } text { fill: #e6e9f0 } .at { fill: #9aa3b5 } .life { stroke: #3a4150 }
  .band { fill: #2f4a76 } .opening { fill: #2a303b; stroke: #3a4150 } .closing { fill: #6b5220 }
  .deposed { fill: #6b2b27 } .copy { fill: #13161c; stroke: #8d97ab } .closed, .stripe { fill: #8d97ab }
  .closed.fenced { fill: url(#hatched) } .hollow { fill: #13161c }
  .arrow { stroke: #8fb0f0 } .good { stroke: #5fcf92 } .bad { stroke: #ff8a80 }
  .grant { stroke: #cf9cf2 } .note { fill: #1c2129 } .words { stroke: #13161c } .stale { stroke: #ffb454 }
  .owner { fill: #cf9cf2 } .former { fill: #13161c; stroke: #cf9cf2 } .doubt { fill: #7d5c22 }
  .lost-keys { fill: #93423a } .clean { fill: #5fcf92 } .unclean { fill: #ff8a80 }
  .lock { fill: #13161c; stroke: #e6e9f0 } .tag { fill: #ffb454 }
}
"""


DOUBT = '<rect class="doubt" width="4" height="9"/>'
HATCHED = "".join(f'<pattern id="{name}" width="{size}" height="{size}" patternUnits="userSpaceOnUse" '
                  f'patternTransform="rotate(45)">{shapes}</pattern>' for name, size, shapes in (
                      ("suspected", 9, DOUBT), ("fenced", 9, DOUBT + '<rect class="doubt" width="9" height="4"/>'),
                      ("replaced", 9, '<rect class="lost-keys" width="6" height="9"/>'),
                      ("hatched", 4, '<rect class="stripe" width="2" height="4"/>')))
MARKERS = "".join(f'<marker id="{name}" viewBox="-8 -4 9 8" refX="0" markerWidth="9" markerHeight="8" orient="auto">'
                  f'<path class="head {kind}" d="{way}"/></marker>' for name, kind, way in (
                      ("head", "full", "M-7 -3L0 0L-7 3Z"), ("hollow", "hollow", "M-7 -3L-1 0L-7 3Z"),
                      ("cross", "", "M-3 -3L3 3M-3 3L3 -3")))


def lock(x, y):
    """A fence."""
    return (f'<path class="lock" d="M{x - 3} {y - 1}v-3a3 3 0 0 1 6 0v3"/>'
            f'<rect class="lock" x="{x - 5}" y="{y - 1}" width="10" height="7" rx="1"/>')


def escaped(text):
    return text.replace("&", "&amp;").replace("<", "&lt;").replace(">", "&gt;")


def host_of(node):
    return node.split(".")[0]


def replicas_of(story):
    """Each replica as bars, one after another, in a lane of its host; a start ends those that it does not name."""
    bars, standing, changes = [], {}, {}
    for copy in story["copies"]:
        changes.setdefault(copy["event"], []).append(copy)
    for event in story["events"]:
        here = set()
        for copy in changes.get(event["n"], []):
            host = host_of(copy["at"])
            key = host, copy["of"], copy["seg"]
            here.add(key)
            before = standing.pop(key, None)
            if before:
                before["until"] = event["n"]
            if not copy["gone"]:
                taken = {bar["lane"] for other, bar in standing.items() if other[0] == host}
                lane = before["lane"] if before else min(set(range(len(taken) + 1)) - taken)
                bars.append({**copy, "lane": lane, "from": event["n"], "until": len(story["events"]) - 1})
                standing[key] = bars[-1]
        if event["kind"] == "start":
            for key in [key for key in standing if key[0] == host_of(event["at"]) and key not in here]:
                standing.pop(key)["until"] = event["n"]
    return bars


class Findings:
    """What is to be seen in a story, as the page tells it: who was replaced, and which reads are stale."""

    def __init__(self, story):
        self.story = story
        self.stops = {it["id"]: len(story["events"]) - 1 if it["stopped"] is None else it["stopped"]
                      for it in story["servers"]}
        self.owners, self.stales = [], []
        self.find_owners()
        self.find_stale_reads()
        self.stages = {it["id"]: self.stages_of(it) for it in story["servers"]}

    def find_owners(self):
        """The grants that arrived: how long each owner has its range, and who has it next."""
        for message in self.story["messages"]:
            if message["kind"] != "Own" or not message["delivered"]:
                continue
            form = r"table (\d+) keys (\d+)\.\.(\d+) term (\d+)"
            table, low, high, term = map(int, re.search(form, message["text"]).groups())
            if any((it["id"], it["term"]) == (message["to"], term) for it in self.owners):
                continue
            for it in self.owners:
                if (it["table"] == table and it["term"] < term and it["low"] <= high and low <= it["high"]
                        and not it["next"]):
                    it["next"], it["lost"] = message["to"], max(message["sent"], it["from"])
                    it["until"] = min(it["until"], it["lost"])
            self.owners.append({"id": message["to"], "table": table, "low": low, "high": high, "term": term,
                                "next": None, "granted": message["sent"], "from": message["delivered"][0],
                                "until": self.stops[message["to"]]})

    def stages_of(self, server):
        """The events at which a server that runs is suspected, fenced and replaced."""
        fences = [(event, "fenced", f"fenced by {it['to']}") for it in self.story["messages"]
                  if it["kind"] == "Gather" and it["text"].endswith(f" of {server['id']}")
                  for event in it["delivered"] if "why" not in self.story["events"][event]]
        losses = [(it["lost"], "replaced", f"replaced by {it['next']}") for it in self.owners
                  if it["id"] == server["id"] and it["next"]]
        found = [] if server["suspected"] is None else [(server["suspected"], "suspected", "suspected")]
        found += [min(it) for it in (fences, losses) if it]
        return sorted(it for it in found if it[0] < self.stops[server["id"]])

    def find_stale_reads(self):
        """The reads that show less than was acknowledged before them."""
        known = {}
        for message in self.story["messages"]:
            found = re.search(r"table (\d+) key (\d+) version (\d+)", message["text"])
            if message["kind"] not in ("ReadOk", "WriteOk") or not found:
                continue
            key, version = found.group(1, 2), int(found[3])
            if message["kind"] == "ReadOk" and known.get(key, (0,))[0] > version:
                self.stales.append((message, version, key, *known[key]))
            elif message["kind"] == "WriteOk" and known.get(key, (0,))[0] <= version:
                term = re.search(r"term (\d+)", message["text"])[1]
                known[key] = version, message["from"], term, message["sent"]

    def lines(self):
        """The verdict, and what is to be seen."""
        yield f"audit {self.story['audit']}"
        for node, stages in self.stages.items():
            if stages and stages[-1][1] == "replaced":
                how = ", ".join(f"{text} at event {event}" for event, _, text in stages)
                yield f"{node} is a zombie: {how}; it does not know it, and serves on"
        for it in self.owners:
            if it["next"] and self.stops[it["id"]] < it["lost"]:
                yield (f"{it['id']} stopped at event {self.stops[it['id']]}, and was replaced by {it['next']} at event "
                       f"{it['lost']}")
        for message, version, (table, key), newest, by, term, event in self.stales:
            yield (f"stale read at event {message['sent']}: {message['from']} shows version {version} of key {key} of "
                   f"table {table}; {by} had acknowledged version {newest} under term {term} at event {event}")


class Picture:
    """A picture that is drawn from the back to the front."""

    def __init__(self, name, story):
        self.name, self.story, self.lines = name, story, []
        self.findings = Findings(story)
        self.stops, self.said = self.findings.stops, list(self.findings.lines())
        self.names = ["out", "c", *(it["id"] for it in story["servers"])]
        creates = [it["n"] for it in story["events"] if it["kind"] == "create"]
        self.folded = 0 if name in WHOLE or not creates else creates[0] - 1
        self.top = 16 * len(self.said) + 50
        self.height = self.top + ROW * (len(story["events"]) - self.folded + 1)
        self.width = LEFT + COLUMN * len(self.names) + RIGHT

    def x(self, node):
        return LEFT + COLUMN * self.names.index(node) + COLUMN // 2

    def y(self, event):
        return self.top + ROW * max(event - self.folded, 0)

    def draw_head(self):
        tone = "clean" if self.said[0] == "audit clean" else "unclean"
        for place, text in enumerate(self.said):
            kind = f' class="verdict {tone}"' if place == 0 else ""
            self.lines.append(f'<text{kind} x="20" y="{18 + 16 * place}">{escaped(text)}</text>')

    def draw_lines_of_life(self):
        top = self.top - 20
        for node in self.names:
            title = {"out": "outside", "c": "coordinator"}.get(node, node)
            self.lines += [f'<text class="name" x="{self.x(node)}" y="{top - 6}">{title}</text>',
                           f'<path class="life" d="M{self.x(node)} {top}V{self.height}"/>']

    def draw_bar(self, kind, x, wide, begin, end):
        """A bar over these events, if it is seen."""
        top, bottom = self.y(begin), self.y(end)
        if bottom > top:
            self.lines.append(f'<rect class="{kind}" x="{x}" y="{top}" width="{wide}" height="{bottom - top}"/>')

    def draw_phases(self):
        """The phases of each master, one after another, and the replicas of its host on the right of its line."""
        ends = dict(self.stops)
        for it in reversed(self.story["phases"]):
            self.draw_bar(f"band {it['phase']}", self.x(it["id"]) - 4, 8, it["event"], ends[it["id"]])
            ends[it["id"]] = it["event"]
        for bar in replicas_of(self.story):
            kind = "copy" + " closed" * bar["closed"] + " fenced" * bar["fenced"]
            if bar["lane"] < 7:
                self.draw_bar(kind, self.x(bar["at"]) + 7 + 6 * bar["lane"], 4, bar["from"], bar["until"])

    def draw_stages(self):
        """The columns of who is suspected, fenced and replaced, hatched from these events on."""
        for node, stages in self.findings.stages.items():
            ends = [event for event, _, _ in stages[1:]] + [self.stops[node]]
            for (event, name, _), until in zip(stages, ends):
                top, bottom = self.y(event), self.y(until)
                self.lines.append(f'<rect fill="url(#{name})" x="{self.x(node) - 50}" y="{top}" width="100" '
                                  f'height="{bottom - top}"/>')

    def draw_owners(self):
        """A bar for each grant, on the left of its owner's line; it goes on hollow where another owner follows."""
        for it in self.findings.owners:
            x, end = self.x(it["id"]) - 13, self.stops[it["id"]]
            self.draw_bar("owner", x, 4, it["from"], it["until"])
            self.draw_bar("former", x, 4, it["until"], end)

    def draw_tag(self, node, event, text):
        self.lines.append(f'<text class="tag words" x="{self.x(node)}" y="{self.y(event) + 4}">{text}</text>')

    def draw_becomings(self):
        """Who is suspected, fenced and replaced, and who fences whom."""
        for node, stages in self.findings.stages.items():
            for event, _, text in stages:
                self.draw_tag(node, event, text)
        for message in self.story["messages"]:
            for event in message["delivered"] if message["kind"] == "Gather" else []:
                if "why" not in self.story["events"][event]:
                    self.lines.append(lock(self.x(message["to"]), self.y(event)))

    def shown_by(self, message):
        """What an answer shows, and whether it is a stale read."""
        found = re.search(r"version (\d+) ?(.*)", message["text"])
        if message["kind"] not in ("ReadOk", "WriteOk") or not found:
            return "", False
        is_stale = any(it[0] is message for it in self.findings.stales)
        return f" v{found[1]} {escaped(found[2])}".rstrip() + (" stale" if is_stale else ""), is_stale

    def draw_arrow(self, message, end, tip):
        if self.folded and end <= self.folded:
            return
        start, stop = self.x(message["from"]), self.x(message["to"])
        way = 1 if stop > start else -1
        shown, is_stale = self.shown_by(message)
        tone = "stale" if is_stale else TONES.get(message["kind"], "")
        kind = f"arrow {tone} {'lost' if tip == 'cross' else ''}".split()
        self.lines.append(f'<path class="{" ".join(kind)}" marker-end="url(#{tip})" '
                          f'd="M{start} {self.y(message["sent"])}L{stop - 5 * way} {self.y(end)}"/>')
        text, y = f"{message['n']} {message['kind']}{shown}", self.y(end) + 4
        anchor = "start" if way > 0 else "end"
        begin = stop + 6 * way - (0 if way > 0 else 6 * len(text))
        self.words += [f'<rect class="ground under" x="{begin}" y="{y - 10}" width="{6 * len(text)}" height="13"/>',
                       f'<text text-anchor="{anchor}" x="{stop + 6 * way}" y="{y}">{text}</text>']

    def draw_messages(self):
        self.words = []
        for message in self.story["messages"]:
            if message["to"] == "out" or not message["delivered"]:
                self.draw_arrow(message, message["sent"] + 1, "head" if message["to"] == "out" else "cross")
            for number in message["delivered"] if message["to"] != "out" else []:
                self.draw_arrow(message, number, "hollow" if "why" in self.story["events"][number] else "head")
        self.lines += self.words

    def draw_events(self):
        place = None
        if self.folded:
            wide = self.width - LEFT
            self.lines += [f'<rect class="note" x="{LEFT}" y="{self.top - 8}" width="{wide}" height="16"/>',
                           f'<text x="{LEFT + 8}" y="{self.top + 4}">set-up: events 0 to {self.folded}</text>']
        for event in self.story["events"][self.folded + 1 if self.folded else 0:]:
            y = self.y(event["n"])
            if event["place"] != place:
                place = event["place"]
                self.lines.append(f'<text class="at" x="{LEFT - 76}" y="{y + 4}">at {place}</text>')
            if "at" in event and event["kind"] not in ("write", "read"):
                x, half = self.x(event["at"]), 4 * len(event["kind"]) + 6
                self.lines += [f'<rect class="note" x="{x - half}" y="{y - 7}" width="{2 * half}" height="14" rx="4"/>',
                               f'<text text-anchor="middle" x="{x}" y="{y + 4}">{event["kind"]}</text>']

    def draw_legend(self):
        """All marks, at the foot. Gives how high it is."""
        def arrow(tone, tip="head"):
            return lambda x, y: f'<path class="arrow {tone}" marker-end="url(#{tip})" d="M{x - 10} {y}L{x + 9} {y}"/>'

        def box(kind, wide=4):
            return lambda x, y: f'<rect class="{kind}" x="{x - wide // 2}" y="{y - 6}" width="{wide}" height="12"/>'

        def hatched(name):
            return lambda x, y: f'<rect fill="url(#{name})" x="{x - 10}" y="{y - 6}" width="20" height="12"/>'
        marks = [*((name, box(f"band {name}", 8)) for name in ("opening", "closing", "writing", "deposed")),
                 *((name, hatched(name)) for name in ("suspected", "fenced", "replaced")), ("fences another", lock),
                 ("owns a range", box("owner")), ("owned it", box("former")), ("open replica", box("copy")),
                 ("closed", box("copy closed")), ("of a fenced master", box("copy fenced")),
                 ("acknowledged, read", arrow("good")), ("stale read", arrow("stale")), ("refused", arrow("bad")),
                 ("granted", arrow("grant")), ("no effect", arrow("", "hollow")),
                 ("never delivered", arrow("lost", "cross"))]
        x, y = 20, self.height + 12
        for text, mark in marks:
            if x + 40 + 6 * len(text) > self.width:
                x, y = 20, y + 18
            self.lines += [mark(x, y), f'<text x="{x + 16}" y="{y + 4}">{text}</text>']
            x += 40 + 6 * len(text)
        return y + 20 - self.height

    def text(self):
        self.draw_head()
        self.draw_stages()
        self.draw_lines_of_life()
        self.draw_phases()
        self.draw_owners()
        self.draw_messages()
        self.draw_events()
        self.draw_becomings()
        tall = self.height + self.draw_legend()
        size = f'width="{self.width}" height="{tall}" viewBox="0 0 {self.width} {tall}"'
        head = [f'<svg xmlns="http://www.w3.org/2000/svg" {size} role="img">',
                f"<title>{escaped(self.name)}: {escaped(self.said[0])}</title>", f"<style>{STYLE}</style>",
                f"<defs>{MARKERS}{HATCHED}</defs>", '<rect class="ground" width="100%" height="100%"/>']
        return "\n".join([*head, *self.lines, "</svg>", ""])


def check(program, writes=False):
    for name in DRAWN:
        story = read_story(ask(program, "log", "--json", given=EXAMPLES / f"{name}.json").printed)
        file, text = TOP / f"docs/pictures/{name}.svg", Picture(name, told(story)).text()
        if writes:
            file.write_text(text)
        elif not file.exists() or file.read_text() != text:
            yield f"{file.name} is another picture than it would be"
    return f"{len(DRAWN)} pictures"
