"""Texts of the documents as HTML: what stands in docs/ of headings, paragraphs, lists, tables, code and links."""

import re
from collections.abc import Iterator
from html import escape

INLINE = re.compile(r"`([^`]+)`|\*\*([^*]+)\*\*|\*([^*]+)\*|\[([^]]+)\]\(([^)]*)\)")
ITEM = re.compile(r"( *)(?:-|\d+\.) (.*)")
HEADING = re.compile(r"(#+) (.*)")


def inline(text: str) -> str:
    """A line with its code, its emphasis and its links, of which the words alone stay."""
    told, at = [], 0
    for found in INLINE.finditer(text):
        code, strong, stressed, words, _ = found.groups()
        told.append(escape(text[at:found.start()], quote=False))
        if code is not None:
            told.append(f"<code>{escape(code, quote=False)}</code>")
        elif strong is not None:
            told.append(f"<b>{inline(strong)}</b>")
        elif stressed is not None:
            told.append(f"<i>{inline(stressed)}</i>")
        else:
            told.append(inline(words))
        at = found.end()
    return "".join(told) + escape(text[at:], quote=False)


def blocks(text: str) -> Iterator[list[str]]:
    """Lines that belong together: those of one block of code, or those up to an empty line."""
    lines: list[str] = []
    is_code = False
    for line in text.splitlines():
        is_fence = line.lstrip().startswith("```")
        if is_fence and not is_code and lines:
            yield lines
            lines = []
        if line.strip() or is_code:
            lines.append(line)
        if lines and (is_fence and is_code or not is_code and not line.strip()):
            yield lines
            lines = []
        is_code ^= is_fence
    if lines:
        yield lines


def listed(lines: list[str]) -> str:
    """A list, as one of items at one depth."""
    items: list[str] = []
    for line in lines:
        found = ITEM.match(line)
        if found:
            items.append(found[2])
        else:
            items[-1] += f" {line.strip()}"
    return "<ul>" + "".join(f"<li>{inline(item)}</li>" for item in items) + "</ul>"


def table(lines: list[str]) -> str:
    """A table, of which the second line is a rule."""
    rows = [[cell.strip() for cell in line.strip("|").split("|")] for line in lines]
    told = "".join(f"<tr>{''.join(f'<td>{inline(cell)}</td>' for cell in row)}</tr>" for row in rows[2:])
    heads = "".join(f"<th>{inline(cell)}</th>" for cell in rows[0])
    return f"<table><thead><tr>{heads}</tr></thead><tbody>{told}</tbody></table>"


def block(lines: list[str]) -> str:
    """One block."""
    if lines[0].lstrip().startswith("```"):
        code = escape("\n".join(lines[1:-1]), quote=False)
        return f'<pre class="{escape(lines[0].strip("` ")) or "told"}">{code}</pre>'
    if heading := HEADING.match(lines[0]):
        return f"<h4>{inline(heading[2])}</h4>" + (block(lines[1:]) if lines[1:] else "")
    if lines[0].startswith("|"):
        return table(lines)
    start = next((at for at, line in enumerate(lines) if ITEM.match(line)), None)
    if start is None:
        return f"<p>{inline(' '.join(map(str.strip, lines)))}</p>"
    return (block(lines[:start]) if start else "") + listed(lines[start:])


def html(text: str) -> str:
    """A text as HTML."""
    return "\n".join(map(block, blocks(text)))


def sections(text: str, depths: tuple[int, ...]) -> dict[str, str]:
    """The sections of a document below headings of these depths, by their headings; each ends at the next heading."""
    found: dict[str, list[str]] = {}
    name = None
    is_code = False
    for line in text.splitlines():
        is_code ^= line.startswith("```")
        heading = None if is_code else HEADING.match(line)
        if heading:
            name = heading[2] if len(heading[1]) in depths else None
            if name:
                found[name] = []
        elif name:
            found[name].append(line)
    return {name: "\n".join(lines).strip() for name, lines in found.items()}
