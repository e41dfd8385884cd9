"""Lines of a proof that fit into one."""

import re

MOST = 118
# what begins a line of its own
BEGINS = re.compile(r"(let|where|in|\||record|module|use|pub|mod|unfolding|abbrev|data|elim|open)\b|[})\]]")
HEADS = re.compile(r"(pub )?(module|use|record|data|mod|unfolding|open)\b")
FIELD = re.compile(r"[\w\-]+ = |(pub |abbrev |unfoldable )*[^\s(){}]+ : ")


def joined(text):
    """The text with each line that continues another behind it, where both fit."""
    lines = text.split("\n")
    found = lines[:1]
    for line in lines[1:]:
        if fits(found[-1], line):
            found[-1] = f"{found[-1].rstrip()} {line.strip()}"
        else:
            found.append(line)
    return "\n".join(found)


def fits(line, more):
    """Whether the second line continues the first, and both fit into one."""
    said, indents = more.strip(), [len(it) - len(it.lstrip()) for it in (line, more)]
    if not line.strip() or not said or "--" in line or said.startswith("--"):
        return False
    if line.rstrip().endswith(("{", "[", "where", " in", "(", ";", ",")) or HEADS.match(line.strip()):
        return False
    if BEGINS.match(said) or FIELD.match(said) or said.endswith(("{", "[")):
        return False
    if indents[1] < indents[0] or indents[0] == indents[1] and said[0] not in "(∙⊎→×":
        return False
    return len(line.rstrip()) + 1 + len(said) <= MOST
