"""The table of the program's commands, read from what `irs --help` prints (examples/help/output)."""
from __future__ import annotations

import re
from dataclasses import dataclass
from pathlib import Path
from typing import List

TOP = Path(__file__).resolve().parent.parent
HELP = TOP / "examples" / "help" / "output"

#: A line of the table: two spaces, `irs`, the name, the parameters, and perhaps what it does.
LINE = re.compile(r"^  irs ([a-z]+(?:-[a-z]+)*) ((?:[A-Z]+(?:\.\.)?)(?: [A-Z]+(?:\.\.)?)*)(?: {2,}(.*))?$")

#: The next line has what it does where the first has no room for it.
CONTINUED = re.compile(r"^ {10,}(\S.*)$")


@dataclass(frozen=True)
class Command:
    """A command: its name, its parameters as `DOC` or `CAL..`, and what it does."""

    name: str
    parameters: List[str]
    summary: str


def help_text() -> str:
    """What `irs --help` prints."""
    return HELP.read_text()


def commands() -> List[Command]:
    """The commands in the order of the table; ValueError where a line can't be read."""
    found: List[Command] = []
    for line in help_text().splitlines():
        told, more = LINE.match(line), CONTINUED.match(line)
        if told:
            found.append(Command(told[1], told[2].split(), told[3] or ""))
        elif more and found and not found[-1].summary:
            found[-1] = Command(found[-1].name, found[-1].parameters, more[1])
        elif line.startswith("  irs "):
            raise ValueError(f"this line of the table can't be read: {line}")
    return found


def notes() -> List[str]:
    """The paragraphs after the table."""
    _, _, after = help_text().partition("\n\n")
    return after.partition("\n\n")[2].rstrip("\n").split("\n\n")
