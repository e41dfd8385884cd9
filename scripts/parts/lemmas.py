"""The lemmas of proofs/, for the scripts that change them: signatures, clauses, and who calls what.

A text is taken apart by its indents: a unit is a line with all lines below it that stand deeper. Of a signature the
named arguments are read, of a clause its patterns and its body, and of a body each call of a lemma with its arguments.
"""

import collections
import re
import subprocess

TOKEN = re.compile(r"--[^\n]*|[(){}\[\],;]|[^\s(){}\[\],;]+")
NAME = re.compile(r"^[\w'][\w'\-·.≡◌∷+*≤<≢∙∈⊎]*$")
SIGNATURE = re.compile(r"^\s*((?:abbrev |unfoldable |pub )*)([^\s(){}\[\],;:]+) :(?=\s)")
ITEMS = re.compile(r"^(pub )?use (\S+?)\.\{(.*)\}\s*$")
MODULE = re.compile(r"^(?:pub )?use (Rattle\.[\w.]+)(?: as (\w+))?\s*$")
OPERATORS = set("∙ ≡ ≢ → ↔ × ⊎ ∷ ++ + - * / < ≤ = ↦ ← | : λ && || . ⊕ >>= ∘ ^ ⊢".split())
WORDS = set("in where let of as elim do at module use open record data unfolding pub abbrev unfoldable".split())
TACTICS = set("rw simp search grind omega cc grw first_of assumption ←".split())
NO_LEMMAS = ("record ", "pub record ", "data ", "pub data ", "ruleset", "pub ruleset", "unfolding", "open ", "infix",
             "axiom", "deriving", "use ", "pub use ", "mod ", "pub mod ")

Token = collections.namedtuple("Token", "text start end")
Unit = collections.namedtuple("Unit", "indent start end")
Argument = collections.namedtuple("Argument", "start end before")


def tokens(text, start=0, end=None):
    """The tokens of this part of the text, without comments."""
    found = TOKEN.finditer(text, start, len(text) if end is None else end)
    return [Token(it.group(), it.start(), it.end()) for it in found if not it.group().startswith("--")]


def is_plain(token):
    """Whether a token is an atom by itself: no bracket, no operator, no word of the language, no bound `x.`."""
    is_bound = token.endswith(".") and len(token) > 1
    return not (is_bound or token in OPERATORS or token in WORDS or token[0] in "(){}[],;")


def units(text, start, end):
    """The units of this part of the text, which begins and ends with a line."""
    found, indent, at = [], None, start
    while at < end:
        after = text.find("\n", at, end)
        after = end if after < 0 else after + 1
        line = text[at:after].strip()
        if line and not line.startswith("--"):
            own = len(text[at:after]) - len(text[at:after].lstrip(" "))
            indent = own if indent is None else indent
            # a bracket that is closed at the indent of the unit belongs to it
            if own <= indent and line[0] not in "})]":
                found.append(Unit(own, at, after))
            elif found:
                found[-1] = found[-1]._replace(end=after)
        at = after
    return found


def closed(given, at):
    """The place behind the group that opens at this token."""
    depth = 0
    while at < len(given):
        depth += (given[at].text in "([{") - (given[at].text in ")]}")
        at += 1
        if depth == 0:
            break
    return at


def atom(given, at):
    """The place behind the atom that begins at this token, or the same place if none does."""
    if at >= len(given):
        return at
    text = given[at].text
    if text in "({":
        after = closed(given, at)
        if text == "{":
            return after
    elif text == "[" and given[at + 1 : at + 2] and given[at + 1].text == "]":
        after = at + 2
    elif not is_plain(text):
        return at
    else:
        after = at + 1
    while after < len(given) and given[after].start == given[after - 1].end and given[after].text.startswith("."):
        # a field of it, not the point behind what a λ binds
        if given[after].text == ".":
            break
        after += 1
    return after


def top_level(given, word, at=0):
    """The place of the first token with this text that stands in no bracket, from this place on, or None."""
    depth = 0
    for place in range(at, len(given)):
        text = given[place].text
        depth += (text in "([{") - (text in ")]}")
        if text == word and depth == 0:
            return place
    return None


class Group:
    """Names of one type in a signature, in one bracket."""

    def __init__(self, given, start, colon, end):
        self.start, self.end, self.bracket = given[start].start, given[end - 1].end, given[start].text
        self.names = [it.text for it in given[start + 1 : colon]]
        self.type = (given[colon].end, given[end - 2].end)


def groups_of(given, start, end):
    """The groups of names that these tokens are, or None if they are something else."""
    found = []
    while start < end:
        if given[start].text not in "({":
            return None
        after = closed(given, start)
        colon = top_level(given[: after - 1], ":", start + 1)
        if colon is None or not all(NAME.match(it.text) for it in given[start + 1 : colon]):
            return None
        found.append(Group(given, start, colon, after))
        start = after
    return found


class Lemma:
    """A lemma: where its signature stands, its arguments in their order, and its clauses."""

    def __init__(self, file, text, unit, sections):
        head = SIGNATURE.match(text[unit.start : unit.end])
        self.file, self.words, self.name = file, head[1], head[2]
        self.start, self.end, self.sections, self.clauses = unit.start, unit.end, sections, []
        self.type_start = unit.start + head.end()
        # of each argument that is given by its place: its name and its group, or None where it has no name
        self.arguments, self.groups = [], []
        given, at = tokens(text, self.type_start, unit.end), 0
        while (arrow := top_level(given, "→", at)) is not None:
            groups = groups_of(given, at, arrow)
            if groups:
                self.groups += groups
                self.arguments += [(name, it) for it in groups if it.bracket == "(" for name in it.names]
            else:
                self.arguments.append(None)
            at = arrow + 1

    def __repr__(self):
        return f"{self.file}:{self.name}"


class Clause:
    """A clause of a lemma: its patterns, and where its body begins."""

    def __init__(self, text, unit, given, equals):
        self.start, self.end, self.body = unit.start, unit.end, given[equals].end
        self.patterns, at = [], 1
        while self.patterns is not None and at < equals:
            after = atom(given, at)
            if after == at:
                self.patterns = None
            elif given[at].text != "{":
                self.patterns.append((given[at].start, given[after - 1].end))
            at = after


class Call:
    """A call of a lemma: the place of its name, its arguments, and how many of them are of the sections around it."""

    def __init__(self, lemma, token, kind, arguments, skipped, within):
        self.lemma, self.at, self.kind, self.arguments = lemma, token.start, kind, arguments
        self.skipped, self.within = skipped, within


class File:
    """A file of proofs."""

    def __init__(self, path, text):
        self.path, self.text, self.lemmas, self.twice = path, text, {}, set()
        self.items, self.modules, self.bodies, self.calls, self.names = [], {}, [], [], {}
        for line in re.findall(r"(?m)^(?:pub )?use .*$", text):
            if found := ITEMS.match(line):
                self.items.append((bool(found[1]), found[2], [it.strip().split(" as ") for it in found[3].split(",")]))
            elif found := MODULE.match(line):
                self.modules[found[2] or found[1].rsplit(".", 1)[1]] = found[1]
        self.read(0, len(text), (), None)

    def read(self, start, end, sections, within):
        """Reads the units of this part, in these sections, within the lemma of that name, if any."""
        text, pending = self.text, None
        for unit in units(text, start, end):
            said = text[unit.start : unit.end].strip()
            if re.match(r"(pub )?module ", said):
                pending = None
                self.read_section(unit, sections, within)
            elif said.startswith("mutual"):
                self.read(text.find("\n", unit.start) + 1, unit.end, sections, within)
            elif said.startswith(NO_LEMMAS):
                pending = pending if said.startswith("unfolding") else None
            elif SIGNATURE.match(text[unit.start : unit.end]):
                pending = Lemma(self.path, text, unit, sections)
                self.bodies.append((within or pending.name, pending.type_start, unit.end, sections))
                if within is None:
                    self.twice |= {pending.name} & self.lemmas.keys()
                    self.lemmas[pending.name] = pending
            else:
                self.read_clause(unit, sections, within, pending)

    def read_section(self, unit, sections, within):
        """Reads a `module _ (..) where`: what stands in it takes its arguments first, from outside."""
        head = re.search(r"\bwhere[ ]*\n", self.text[unit.start : unit.end])
        if head:
            given, at, count = tokens(self.text, unit.start, unit.start + head.start()), 0, 0
            while at < len(given):
                after = max(atom(given, at), at + 1)
                if given[at].text == "(":
                    count += sum(len(it.names) for it in groups_of(given, at, after) or ())
                at = after
            self.read(unit.start + head.end(), unit.end, (*sections, (unit.start, count)), within)

    def read_clause(self, unit, sections, within, pending):
        """Reads a clause of the lemma whose signature stands above it, and what stands under its `where`."""
        text, given = self.text, tokens(self.text, unit.start, unit.end)
        equals = top_level(given, "=")
        if equals is None:
            return
        where = next((it for it in given[equals:] if it.text == "where" and first_of_line(text, it.start)), None)
        name = within or (pending.name if pending else given[0].text)
        self.bodies.append((name, given[equals].end, where.start if where else unit.end, sections))
        if pending and given[0].text == pending.name:
            pending.clauses.append(Clause(text, unit, given, equals))
        if where:
            self.read(text.find("\n", where.start) + 1, unit.end, sections, name)


def first_of_line(text, at):
    """Whether nothing stands before this place in its line."""
    return not text[text.rfind("\n", 0, at) + 1 : at].strip()


class Proofs:
    """All files of proofs of the repository."""

    def __init__(self, top):
        listed = subprocess.run(["git", "ls-files", "crates/*/proofs/*.antt"], cwd=top, capture_output=True, text=True)
        self.files = {path: File(path, (top / path).read_text()) for path in listed.stdout.split()}
        for file in self.files.values():
            for _, module, items in file.items:
                file.names |= {it[-1]: found for it in items if (found := self.find(module, it[0]))}
            file.names |= file.lemmas
        for file in self.files.values():
            for body in file.bodies:
                file.calls += self.calls_in(file, *body)

    def find(self, module, name, seen=()):
        """The lemma of this name in that module, or in one whose names it passes on."""
        path = "crates/" + "/".join(module.split(".")[1:])
        file = self.files.get(f"{path}.antt") or self.files.get(f"{path}/Lib.antt")
        if not file or file in seen:
            return None
        passed = ((other, it[0]) for is_pub, other, items in file.items if is_pub for it in items if it[-1] == name)
        return file.lemmas.get(name) or next(filter(None, (self.find(*it, (*seen, file)) for it in passed)), None)

    def named(self, file, name):
        """The lemma that a file calls by this name."""
        first, dot, rest = name.partition(".")
        if name in file.names:
            return file.names[name]
        if dot and first in file.modules:
            name = f"{file.modules[first]}.{rest}"
        return self.find(*name.rsplit(".", 1)) if name.startswith("Rattle.") else None

    def calls_in(self, file, within, start, end, sections):
        """The calls of lemmas in this part of a file."""
        given, around, found = tokens(file.text, start, end), [], []
        for at, token in enumerate(given):
            before = given[at - 1].text if at else "="
            if token.text in "([{":
                around.append(before)
            elif token.text in ")]}":
                around = around[:-1]
            elif lemma := self.named(file, token.text):
                kind, arguments = "call", []
                if before in ")}" or is_plain(before) and before not in TACTICS:
                    kind = "argument"
                elif before in TACTICS - {"←"}:
                    kind = "listed"
                else:
                    arguments = arguments_at(given, at + 1)
                    if not arguments and (before == "←" or around[-1:] and around[-1] in TACTICS):
                        kind = "listed"
                inside = [it for it in lemma.sections if lemma.file == file.path and it in sections]
                skipped = sum(count for it in lemma.sections if it not in inside for count in it[1:])
                found.append(Call(lemma, token, kind, arguments, skipped, within))
        return found


def arguments_at(given, at):
    """The arguments that stand at these tokens, but for those that are given by their names."""
    found = []
    while (after := atom(given, at)) > at:
        if given[at].text != "{":
            found.append(Argument(given[at].start, given[after - 1].end, given[at - 1].end))
        at = after
    return found


def changed(text, edits, start=0, end=None):
    """This part of the text after the edits (start, end, new); what stands in a part that goes is not looked at."""
    end = len(text) if end is None else end
    inside = sorted({it for it in edits if start <= it[0] and it[1] <= end}, key=lambda it: (it[0], it[1]))
    gone = [it for it in inside if it[2] == "" and it[1] > it[0]]
    found, at = [], start
    for first, last, new in inside:
        is_in = any(it[0] <= first and last <= it[1] and (first, last) != it[:2] for it in gone)
        if first >= at and (not is_in or new and (first in {it[1] for it in gone} or last in {it[0] for it in gone})):
            found += [text[at:first], new]
            at = last
    return "".join(found) + text[at:end]
