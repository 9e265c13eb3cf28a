"""A document of terms from a file, whose elements the engine can read."""
from __future__ import annotations

from pathlib import Path
from typing import Any, NamedTuple

from .calls import check
from .documents import value_of
from .errors import Refused
from .files import read_for_engine
from .tools import BadInput


class Checked(NamedTuple):
    """A document: its file, its bytes, and its JSON value."""

    path: Path
    content: bytes
    value: Any


def read_checked(path: Path) -> Checked:
    """The document of a file; `BadInput` with the engine's sentence where its elements can't be read (K1 to K7)."""
    content = read_for_engine(path)
    try:
        check(content)
    except Refused as why:
        if int(why.rule[1:]) < 8:
            raise BadInput(f"{path}: {why.sentence}") from why
    return Checked(path, content, value_of(content))
