"""The two texts that the program reads as JSON: what their parts are called, and which members these have."""

from dataclasses import dataclass

MESSAGES = (
    "Write", "Read", "WriteOk", "ReadOk", "Refused", "Place", "Append", "Close", "Stored", "Commit", "CommitOk",
    "Enlist", "Ready", "List", "Gather", "Replicas", "Plan", "Fetch", "Data", "Recovered", "Own", "SplitOk", "Free",
)
"""The kinds of messages, as `kinds` of a settle names them."""

OPTIONAL = ("kept", "kinds", "hosts")
"""The members that may be left out."""


@dataclass(frozen=True)
class Dialect:
    """A kind of text."""

    whole: str
    """What the whole is called."""
    example: str
    """An example of the whole."""
    list: str
    """The member with the list of items."""
    item: str
    """What an item is called."""
    kind: str
    """The member that names the kind of an item."""
    kinds: dict[str, tuple[str, ...]]
    """The kinds of items, each with its other members."""
    formats: dict[str, tuple[str, ...]]
    """The members of the whole by its format; the last one stands for a format that there is not."""

    def members(self, format: str) -> tuple[str, ...]:
        """The members of the whole, where its format is spelt so."""
        return self.formats.get(format, self.formats[max(self.formats)])


SCENARIO = Dialect(
    whole="the scenario",
    example='{"format":1,"factor":2,"segment":8,"events":[]}',
    list="events",
    item="event",
    kind="e",
    kinds={
        "start": ("host", "kept"),
        "stop": ("id",),
        "suspect": ("id",),
        "decide": ("id",),
        "tick": ("id",),
        "write": ("to", "table", "key", "value"),
        "read": ("to", "table", "key"),
        "deliver": ("n",),
        "settle": ("kinds", "hosts"),
        "create": ("table", "owner"),
        "split": ("table", "at"),
    },
    formats={
        "1": ("format", "factor", "segment", "events"),
        "2": ("format", "factor", "factors", "free", "segment", "events"),
    },
)

TRACE = Dialect(
    whole="the trace",
    example='{"format":1,"messages":[]}',
    list="messages",
    item="message",
    kind="m",
    kinds={
        "place": ("from", "seg", "entries"),
        "append": ("from", "seg", "offset", "entries"),
        "ok": ("from", "seg", "offset", "term", "table", "key", "version"),
        "plan": ("attempt", "of", "rows"),
        "own": ("to", "table", "lo", "hi", "term", "previous", "attempt"),
    },
    formats={"1": ("format", "messages")},
)
