"""Reads that show less than was acknowledged before them."""

from collections.abc import Iterator

from .ending import Acknowledged
from .reading import Message


def stale_hints(messages: list[Message]) -> Iterator[str]:
    """The first stale read, and how many there are."""
    newest, found = Acknowledged(), []
    for message in messages:
        newest.note(message)
        if message["kind"] == "ReadOk":
            missed = newest.get((message["table"], message["key"]))
            if missed and int(missed["version"]) > int(message["version"]):
                found.append((message, missed))
    if found:
        more = f"; so it is with {len(found)} reads in all" if len(found) > 1 else ""
        yield missed_text(*found[0]) + more


def missed_text(read: Message, missed: Message) -> str:
    """What a read misses."""
    return f"the read of table {read['table']} key {read['key']} at {read['from']} is stale: it shows version " \
           f"{read['version']}, and {missed['from']} had acknowledged version {missed['version']} under term " \
           f"{missed['term']}; a read is confirmed once its master acknowledges a write that it took after it"
