"""`heal` of each scenario of examples/stuck/ writes NAME.healed, and says NAME.told. The status is 0."""

from of_examples.wrong import told
from parts.program import ask
from parts.tree import EXAMPLES


def check(program):
    scenarios = sorted((EXAMPLES / "stuck").glob("*.json"))
    for file in scenarios:
        status, healed, said = ask(program, "heal", given=file)
        wanted = file.with_suffix(".told").read_text()
        if (status, healed, said) != (0, file.with_suffix(".healed").read_text(), wanted):
            yield f"{file.name}{told(said, wanted)}"
    return f"{len(scenarios)} scenarios"
