"""The story of a run as a sequence diagram for Mermaid."""

from collections.abc import Iterator

from .reading import Event, Message, Story, is_server
from .run import Run, run_of
from .spelling import event_text, fields_text, place_of

SPELLED = str.maketrans({";": "#59;", "#": "#35;", "<": "#60;", ">": "#62;", "&": "#38;"})
"""Letters of which Mermaid makes more, and how it takes them for themselves."""


def mermaid(story: Story) -> str:
    """An arrow for each message where it is delivered, or, where it goes to the outside or is never delivered, where it
    is sent."""
    run = run_of(story)
    lines = ["sequenceDiagram", "    participant out as Outside", "    participant c as Coordinator"]
    lines.extend(f"    participant {name_in(server)} as {server}" for server in servers_of(run))
    for number, event in enumerate(run.events):
        if event["e"] == "deliver":
            lines.extend(delivery_lines(run, number, event))
        elif event["e"] not in ("write", "read"):
            lines.append(note_line(event, run.turns[number].started))
        lines.extend(sent_lines(run, event))
    if story["stopped"]:
        code, place = story["stopped"]["code"], story["stopped"]["place"]
        lines.append(f"    Note over out,c: stopped {code} at event {place} of the scenario")
    return "\n".join(lines) + "\n"


def servers_of(run: Run) -> dict[str, None]:
    """Each server that was started, and then those that were only named."""
    names = {server.id: None for server in run.servers.items}
    names.update({message["to"]: None for message in run.messages if is_server(message["to"])})
    return names


def name_in(node: str) -> str:
    """A node as a diagram names it."""
    return f"s{node.replace('.', '_')}" if is_server(node) else node


def arrow_line(arrow: str, number: int, message: Message) -> str:
    """A message as an arrow."""
    fields = fields_text(message, whole=False).translate(SPELLED)
    return f"    {name_in(message['from'])}{arrow}{name_in(message['to'])}: {number} {message['kind']}" \
           f"{' ' if fields else ''}{fields}"


def note_line(event: Event, started: str | None) -> str:
    """An event that is no message."""
    text = event_text(event, started, whole=False).translate(SPELLED)
    return f"    Note over {name_in(place_of(event, started))}: {text}"


def delivery_lines(run: Run, number: int, event: Event) -> Iterator[str]:
    """A delivery. What goes to the outside stands where it was sent."""
    message, silence = run.messages[event["n"]], run.turns[number].silence
    if message["to"] == "out":
        return
    line = arrow_line("-x" if silence else "->>", event["n"], message)
    if run.is_delivered_before(event["n"], number):
        line += ", once more"
    yield f"{line}, {silence.text(message)}" if silence else line


def sent_lines(run: Run, event: Event) -> Iterator[str]:
    """What an event sent that no event delivers."""
    for number in event["sent"]:
        message = run.messages[number]
        if message["to"] == "out":
            yield arrow_line("->>", number, message)
        elif run.is_lost(number):
            yield arrow_line("-x", number, message) + ", never delivered"
