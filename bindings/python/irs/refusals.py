"""A refusal for people: what was refused, in one sentence, its place, and the lines around it."""
from __future__ import annotations

import json
import re
from typing import Callable, List, NamedTuple, Optional

from .documents import is_xml
from .errors import BadFile, Refused
from .places import Spot, element_spot, flow_spot
from .plain import visible
from .replies import Reply

#: How many lines are shown before and after the one at fault, and how many characters of a line.
AROUND, MOST = 3, 120

#: The end of a sentence on a document in XML. A name in a sentence never comes last, so none passes for it.
_NAMED_LINE = re.compile(r"(?:; see line (\d+)|\(reading stopped at line (\d+), column \d+\))\Z")

_WHAT = {
    2: "The terms break a rule",
    3: "A file isn't as such files are written",
    5: "A file can't be read",
    7: "Memory ran out",
    8: "A file is too long",
}


class Line(NamedTuple):
    """A line of a file: its number from 1, whether the fault is in it, and its text: what is
    before the faulty element, the element, and what is after it."""

    number: int
    marked: bool
    before: str
    fault: str
    after: str

    @property
    def text(self) -> str:
        """The whole line."""
        return self.before + self.fault + self.after


class Refusal(NamedTuple):
    """Why there is no answer. `line` is what the program prints, `sentence` what it says, and
    `rule` the rule's name or empty. `steps` are the names on the way to the element, and
    `position` is the index of the line (docs/RULES.md), or 0; `file` and `lines` show the
    text around it, and are empty where nothing can be shown."""

    what: str
    line: str
    sentence: str
    rule: str
    stream: int
    steps: List[str]
    position: int
    file: str
    lines: List[Line]


def _piece(text: str) -> str:
    return visible(text.expandtabs(4))


def _line(number: int, text: str, marked: bool, column: int, length: int) -> Line:
    """The line with at most `MOST` characters around its fault, which is `length` long from
    `column` on."""
    start = max(0, column - MOST // 2) if column + length > MOST else 0
    last = start + MOST
    return Line(
        number,
        marked,
        ("\u2026" if start else "") + _piece(text[start:column]),
        _piece(text[column : min(column + length, last)]),
        _piece(text[min(column + length, last) : last]) + ("\u2026" if last < len(text) else ""),
    )


def lines_around(content: bytes, number: int, column: int = 0, length: int = 0) -> List[Line]:
    """The lines of a file around the one of that number, which is marked. Lines count from 1,
    columns from 0."""
    lines = content.decode(errors="replace").split("\n")
    first, last = max(1, number - AROUND), min(len(lines) - (lines[-1] == ""), number + AROUND)
    return [
        _line(
            place,
            lines[place - 1].rstrip("\r"),
            place == number,
            *((column, length) if place == number else (0, 0)),
        )
        for place in range(first, max(last, number) + 1)
    ]


def _lines_at(content: bytes, spot: Optional[Spot]) -> List[Line]:
    if spot is None:
        return []
    text = content.decode(errors="replace")
    before = text[: spot.start]
    length = len(text[spot.start : spot.end].partition("\n")[0])
    return lines_around(content, before.count("\n") + 1, len(before) - before.rfind("\n") - 1, length)


def _lines_of_bad_json(content: bytes) -> List[Line]:
    try:
        json.loads(content.decode(), parse_int=str, parse_float=str)
    except UnicodeDecodeError as why:
        before = content[: why.start]
        return lines_around(content, before.count(b"\n") + 1, len(before) - before.rfind(b"\n") - 1)
    except json.JSONDecodeError as why:
        return lines_around(content, why.lineno, why.colno - 1)
    except (ValueError, RecursionError):
        pass
    return []


def _lines_of_xml(content: bytes, sentence: str) -> List[Line]:
    """The lines around the one that the engine's sentence ends with; none where it names none."""
    named = _NAMED_LINE.search(sentence)
    return lines_around(content, int(named[1] or named[2])) if named else []


def _lines_of(content: bytes, sentence: str, unread: bool, find: Callable[[str], Optional[Spot]]) -> List[Line]:
    # Places are found in JSON alone; of XML the engine has the line.
    if is_xml(content):
        return _lines_of_xml(content, sentence)
    return _lines_of_bad_json(content) if unread else _lines_at(content, find(content.decode(errors="replace")))


def _of_rule(reply: Reply) -> Refusal:
    why = Refused(reply.line, reply.sentence)
    content = reply.files[reply.words[1]].content
    lines = _lines_of(
        content,
        reply.sentence,
        why.rule == "K1",
        lambda text: element_spot(text, why.stream, why.path, why.index),
    )
    return Refusal(
        _WHAT[2],
        reply.line,
        reply.sentence,
        why.rule,
        why.stream,
        why.path.split("/"),
        why.index,
        reply.words[1],
        lines,
    )


def _of_flows(reply: Reply, kind: str, stream: int, path: str, index: int) -> Refusal:
    word = reply.words[3]
    content = reply.files[word].content
    lines = _lines_of(
        content, reply.sentence, kind == "notjson", lambda text: flow_spot(text, stream, path, index)
    )
    return Refusal(_WHAT[3], reply.line, reply.sentence, "", stream, path.split("/"), index, word, lines)


def _of_file(reply: Reply) -> Refusal:
    why = BadFile(reply.line, reply.sentence)
    if why.stream is not None and why.path is not None and why.index is not None:
        return _of_flows(reply, why.fault, why.stream, why.path, why.index)
    calendars = reply.words[len(reply.words) - _calendars(reply) :]
    word = reply.words[2] if why.file is None else calendars[why.file - 1]
    assert why.row is not None  # flows alone have no line
    return Refusal(
        _WHAT[3],
        reply.line,
        reply.sentence,
        "",
        0,
        [],
        0,
        word,
        lines_around(reply.files[word].content, why.row),
    )


def _calendars(reply: Reply) -> int:
    before = {"check": 2, "audit": 4}.get(reply.words[0], 3)
    return len(reply.words) - before


def refusal_of(reply: Reply) -> Refusal:
    """The refusal of a reply whose status is neither 0 nor 1."""
    if reply.status == 2:
        return _of_rule(reply)
    if reply.status == 3:
        return _of_file(reply)
    return Refusal(
        _WHAT.get(reply.status, "The engine gives no answer"),
        reply.line,
        reply.sentence,
        "",
        0,
        [],
        0,
        "",
        [],
    )
