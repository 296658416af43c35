"""What a program declares, by its normal form, and the text that defines its procedures anew."""
import re
from dataclasses import dataclass
from typing import Dict, List

# A comment, which is kept, or a reducer. The word is a name nowhere, and stands in no other place.
REDUCER = re.compile(r"(#[^\n]*)|\breducer\b(?:#[^\n]*|[^;#])*;")
PROCEDURE = re.compile(r"(?:memo )?proc (\w+) ")


@dataclass(frozen=True)
class Outline:
    """A program's reducers, each with what its declaration says of it, its kind and its initial value, and the text of each procedure in its normal form."""

    reducers: Dict[str, str]
    procedures: Dict[str, str]


def outline_of(normal):
    """The outline of a program in its normal form, in which a line holds a reducer, or begins a procedure, or goes on with it."""
    reducers: Dict[str, str] = {}
    procedures: Dict[str, List[str]] = {}
    lines: List[str] = []
    for line in normal.splitlines(keepends=True):
        if line.startswith("reducer "):
            name, _, kind = line[len("reducer ") : -len(" ;\n")].split(None, 2)
            reducers[name] = kind
            continue
        begun = PROCEDURE.match(line)
        if begun:
            lines = procedures[begun[1]] = []
        lines.append(line)
    return Outline(reducers, {name: "".join(text) for name, text in procedures.items()})


def definitions(text, outline):
    """The lines of a command that defines all procedures of a program's text anew, each on the line that it has there."""
    kept = REDUCER.sub(lambda found: found[1] or re.sub(r"[^\n]", " ", found[0]), text)
    lines = kept.split("\n")
    if any(line.split() == ["end"] for line in lines):
        # Such a line would end the command, and the normal form has none.
        lines = "".join(outline.procedures.values()).splitlines()
    return ["define", *lines, "end"]


def others(old, new):
    """The names of procedures that are defined in the new outline, and not so in the old one."""
    return [name for name, text in new.procedures.items() if old.procedures.get(name) != text]
