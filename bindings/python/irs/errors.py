"""What a call refuses, as errors with their place."""
from __future__ import annotations

from typing import Any, Optional, Tuple, Type


class Error(Exception):
    """Any refusal of the library. `line` is the text that the program prints."""

    status: int

    def __init__(self, line: str, sentence: str) -> None:
        super().__init__(sentence)
        self.line = line
        self.sentence = sentence

    def __reduce__(self) -> Tuple[Type["Error"], Tuple[Any, ...]]:
        return type(self), (self.line, self.sentence)


class Refused(Error):
    """The terms break a rule (docs/RULES.md).

    `rule` is its name, as ``K12``; `stream` counts from 1, and is 0 outside the streams; `path` is the
    element below the stream; `index` the position of the repeated element, or the number of the period,
    payment or exchange, else 0.
    """

    status = 2

    def __init__(self, line: str, sentence: str) -> None:
        super().__init__(line, sentence)
        _, rule, stream, path, index = line.split()
        self.rule: str = rule
        self.stream: int = int(stream)
        self.path: str = path
        self.index: int = int(index)


class BadFile(Error):
    """A calendar, fixing or flow file isn't as such files are written.

    `kind` is ``calendar``, ``fixings`` or ``flows``. `file` is the number of the calendar, from 1, and
    `row` the first line at fault; `fault` says how. Faults of flows have `stream`, `path` and `index`
    in the place of a line.
    """

    status = 3

    def __init__(self, line: str, sentence: str) -> None:
        super().__init__(line, sentence)
        words = line.split()
        self.kind: str = words[1]
        self.file: Optional[int] = int(words[2]) if self.kind == "calendar" else None
        self.row: Optional[int] = None if self.kind == "flows" else int(words[-2])
        self.fault: str = words[2] if self.kind == "flows" else words[-1]
        self.stream: Optional[int] = int(words[3]) if self.kind == "flows" else None
        self.path: Optional[str] = words[4] if self.kind == "flows" else None
        self.index: Optional[int] = int(words[5]) if self.kind == "flows" else None


class BadWords(Error, ValueError):
    """A parameter isn't one that the command takes."""

    status = 4


class NoFile(Error, LookupError):
    """A file that the words name isn't there. `word` is its place after the command, from 1."""

    status = 5

    def __init__(self, line: str, sentence: str) -> None:
        super().__init__(line, sentence)
        self.word: int = int(line.split()[-1])


class OutOfMemory(Error, MemoryError):
    """Memory ran out; there is no text."""

    status = 7


class TooLong(Error, ValueError):
    """A file has more than 4,194,304 bytes. `word` is its place after the command, from 1."""

    status = 8

    def __init__(self, line: str, sentence: str) -> None:
        super().__init__(line, sentence)
        self.word: int = int(line.split()[-1])


class NotText(Error, ValueError):
    """A word of the command isn't text."""

    status = 9


#: The error of each status but 0, 1, and 6, which the library never answers.
KINDS = {kind.status: kind for kind in (Refused, BadFile, BadWords, NoFile, OutOfMemory, TooLong, NotText)}


def error_of(status: int, line: str, sentence: str) -> Error:
    """The error of an answer whose status isn't 0 or 1; of a status that this package doesn't know a plain `Error`."""
    if status == OutOfMemory.status:
        return OutOfMemory(line, sentence or "memory ran out")
    if status in KINDS:
        return KINDS[status](line, sentence)
    unknown = Error(line, sentence or f"the library answered status {status}")
    unknown.status = status
    return unknown
