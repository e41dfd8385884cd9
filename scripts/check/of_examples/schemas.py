"""Each scenario and trace of examples/ fits its schema in docs/schemas exactly where its report is no `error`, and so
does each line of its histories, and each document that `--format json` gives of these and of drawn runs. The schemas
of what is printed take kinds as names; a scenario's alone lists them, so that an editor can complete it. An
editor finds them by `.vscode/settings.json`: all that fit, and also a file NAME.scenario.json and a NAME.trace. A
FOLDER has further inputs: NAME.stdin, with the command in NAME.args and what the program prints in NAME.stdout. The
library jsonschema judges where it is there, else the few words that the schemas use are judged here."""

import json
import pathlib
import re

from parts.program import tell
from parts.tree import EXAMPLES, TOP

TYPES = {"object": dict, "array": list, "string": str, "boolean": bool, "integer": int, "null": type(None)}


def has_type(value, name):
    return isinstance(value, TYPES[name]) and (name != "integer" or not isinstance(value, bool))


def is_same(one, other):
    return type(one) is type(other) and one == other


def fits(value, schema, whole):
    """Whether the value fits the schema, of which the definitions stand in the whole."""
    if isinstance(schema, bool):
        return schema
    if not all(fits(value, it, whole) for it in schema.get("allOf", [])):
        return False
    branch = "then" if "if" in schema and fits(value, schema["if"], whole) else "else"
    if "if" in schema and not fits(value, schema.get(branch, True), whole):
        return False
    if "$ref" in schema:
        return fits(value, whole["$defs"][schema["$ref"].rsplit("/", 1)[1]], whole)
    names = schema.get("type", [])
    names = names if isinstance(names, list) else [names]
    if names and not any(has_type(value, name) for name in names):
        return False
    if "const" in schema and not is_same(value, schema["const"]):
        return False
    if "enum" in schema and not any(is_same(value, it) for it in schema["enum"]):
        return False
    if has_type(value, "integer"):
        return schema.get("minimum", value) <= value <= schema.get("maximum", value)
    if isinstance(value, str):
        return re.search(schema.get("pattern", ""), value) is not None
    if isinstance(value, list):
        lengths = schema.get("minItems", 0) <= len(value) <= schema.get("maxItems", len(value))
        first = schema.get("prefixItems", [])
        pairs = [*zip(value, first), *((it, schema.get("items", {})) for it in value[len(first):])]
        return lengths and all(fits(it, of, whole) for it, of in pairs)
    if isinstance(value, dict):
        known, other = schema.get("properties", {}), schema.get("additionalProperties", True)
        named = all(name in value for name in schema.get("required", []))
        named = named and all(fits(name, schema.get("propertyNames", True), whole) for name in value)
        return named and all(fits(it, known.get(name, other), whole) for name, it in value.items())
    return True


def judge_of(schema):
    try:
        import jsonschema
    except ImportError:
        return lambda value: fits(value, schema, schema)
    validator = jsonschema.Draft202012Validator(schema)
    return validator.is_valid


def refuse(word):
    raise ValueError(word)


def value_of(data):
    """What the bytes say, or nothing where they are no JSON text. Numbers with a point are none of the formats."""
    try:
        value = json.loads(data.decode(), parse_constant=refuse, parse_float=lambda text: f"the number {text}")
        json.dumps(value, ensure_ascii=False).encode()
    except (ValueError, RecursionError):
        return None
    return value


def inputs(folders):
    for file in sorted([*EXAMPLES.glob("*.json"), *(EXAMPLES / "codes").glob("*.json")]):
        yield "scenario", file, file.with_suffix(".report").read_bytes(), file.read_bytes()
    for file in sorted(EXAMPLES.glob("*.trace")):
        yield "trace", file, file.with_suffix(".audit").read_bytes(), file.read_bytes()
    for file in sorted(EXAMPLES.glob("*.history")):
        for line in file.read_bytes().splitlines():
            yield "history", file, b"", line
    for folder in folders:
        for file in sorted(pathlib.Path(folder).rglob("*.stdin")):
            command = file.with_suffix(".args").read_text().split()[0]
            kind = {"run": "scenario", "trace": "scenario", "audit": "trace"}.get(command)
            if kind:
                yield kind, file, file.with_suffix(".stdout").read_bytes(), file.read_bytes()


def matches(file, form):
    """Whether a pattern of an editor is that of a file: `**/` stands for any folders, `*` for part of a name."""
    form = re.escape(form if "/" in form else f"**/{form}")
    return re.fullmatch(form.replace(r"\*\*/", "(.*/)?").replace(r"\*", "[^/]*"), str(file)) is not None


def schema_of(words):
    """The schema of the document that a command line asks for."""
    command = words[0]
    if command == "explore":
        return "until" if "--until" in words else "survey" if "--seeds" in words else "explore"
    return {"fuzz": "run"}.get(command, command)


DRAWN = ("fuzz --steps 200", "fuzz --steps 200 --free", "stops --steps 20", "stops --explored --steps 20",
         "explore --steps 300", "explore --steps 300 --free", "explore --seeds 1..3 --steps 100", "explore --until roll",
         "explain", "explain F18", "explain write", "explain stores_after_gather")


def documents(program):
    """What `--format json` gives in place of a text, each with its schema."""
    asked = [(["run"], file) for file in sorted([*EXAMPLES.glob("*.json"), *(EXAMPLES / "codes").glob("*.json")])]
    asked += [(["audit"], file) for file in sorted([*EXAMPLES.glob("*.trace"), *(EXAMPLES / "broken").glob("*.trace")])]
    asked += [(line.split(), b"") for line in DRAWN]
    for words, given in asked:
        printed = tell(program, *words, "--format", "json", given=given).printed
        if printed:
            yield schema_of(words), f"{' '.join(words)} of {given or 'nothing'}", b"", printed.encode()


def unmapped():
    """Which files an editor does not find the schema of."""
    mapped = json.loads((TOP / ".vscode/settings.json").read_text())["json.schemas"]
    for kind, own, ending in (("scenario", "own/my.scenario.json", ".json"), ("trace", "own/my.trace", ".trace")):
        forms = [form for it in mapped if it["url"] == f"./docs/schemas/{kind}.json" for form in it["fileMatch"]]
        for file in [own, *(it.relative_to(TOP) for it in sorted(EXAMPLES.rglob(f"*{ending}")))]:
            if not any(matches(file, form) for form in forms):
                yield f".vscode/settings.json: no schema of {file}"


def check(program, words=()):
    yield from unmapped()
    kinds = ("scenario", "trace", "history", "run", "audit", "stops", "explore", "survey", "until", "explain")
    judges = {kind: judge_of(json.loads((TOP / f"docs/schemas/{kind}.json").read_text())) for kind in kinds}
    number = refused = 0
    for kind, file, printed, data in [*inputs(words), *documents(program)]:
        value = value_of(data)
        taken = not printed.startswith(b"error")
        number, refused = number + 1, refused + (not taken)
        if taken != (value is not None and judges[kind](value)):
            yield f"{file}: the program {'takes' if taken else 'refuses'} it, the schema does not"
    return f"{number} inputs, of which the program refuses {refused}"
