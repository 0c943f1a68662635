"""`jl rules` and `jl explain RULE`."""

from __future__ import annotations

from .options import Parser
from .output import write_standard
from .program import ProgramError
from .rules import BY_NAME, RULES


def list_rules(words: list[str]) -> int:
    """Writes a line for each rule."""
    Parser("jl rules", description="Lists the rules.", allow_abbrev=False).parse_args(words)
    width = max(len(rule.name) for rule in RULES)
    lines = [f"{rule.number:>2}  {rule.name:<{width}}  {rule.sentence}\n" for rule in RULES]
    write_standard(lambda out: out.writelines(lines))
    return 0


def explain(words: list[str]) -> int:
    """Writes the page of a rule."""
    parser = Parser("jl explain", description="Writes the page of a rule.", allow_abbrev=False)
    parser.add_argument("rule", metavar="RULE")
    name = parser.parse_args(words).rule
    if name not in BY_NAME:
        raise ProgramError(f"there is no rule {name!r}; `jl rules` lists them")
    with open(BY_NAME[name].page, encoding="utf-8") as file:
        page = file.read()
    write_standard(lambda out: out.write(page))
    return 0
