"""The place of an element in the text of a document: for the lines around a fault.

The engine names an element by its path; this module finds that path in the JSON text. It keeps
nothing of the text but where a value begins and ends. The text is one that the engine read.
"""
from __future__ import annotations

import json
import re
from typing import Iterator, NamedTuple, Optional, Sequence, Tuple

_WHITE = re.compile(r"[ \t\r\n]*")
_STRING = re.compile(r'"(?:[^"\\]|\\.)*"')
_SCALAR = re.compile(r'[^\s,:{}\[\]"]+')
_BRACKET = re.compile(r'"(?:[^"\\]|\\.)*"|[{}\[\]]')

#: The roots of a document that lead to its swap.
_ROOTS = (("swap",), ("trade", "swap"), ("dataDocument", "trade", "swap"))


class Spot(NamedTuple):
    """The place of a value in a text: that of its first character and that after its last."""

    start: int
    end: int


def _skip(text: str, place: int) -> int:
    found = _WHITE.match(text, place)
    return place if found is None else found.end()


def _end(text: str, start: int) -> int:
    if text[start : start + 1] not in ("{", "["):
        found = _STRING.match(text, start) or _SCALAR.match(text, start)
        return len(text) if found is None else found.end()
    depth = 0
    for found in _BRACKET.finditer(text, start):
        depth += {"{": 1, "[": 1, "}": -1, "]": -1}.get(found.group(), 0)
        if depth == 0:
            return found.end()
    return len(text)


def root_of(text: str) -> Spot:
    """The place of the value of the whole text."""
    start = _skip(text, 0)
    return Spot(start, _end(text, start))


def members_of(text: str, spot: Spot) -> Iterator[Tuple[str, Spot]]:
    """The members of an object in order: their names and the places of their values."""
    place = _skip(text, spot.start + 1)
    while text[spot.start] == "{":
        name = _STRING.match(text, place)
        if name is None:
            return
        start = _skip(text, _skip(text, name.end()) + 1)
        end = _end(text, start)
        yield json.loads(name.group()), Spot(start, end)
        place = _skip(text, end)
        if text[place : place + 1] != ",":
            return
        place = _skip(text, place + 1)


def item_spots(text: str, spot: Spot) -> Iterator[Spot]:
    """The places of the items of an array; a value that is no array is its own item."""
    if text[spot.start] != "[":
        yield spot
        return
    place = _skip(text, spot.start + 1)
    while text[place : place + 1] not in ("", "]"):
        end = _end(text, place)
        yield Spot(place, end)
        place = _skip(text, end)
        if text[place : place + 1] != ",":
            return
        place = _skip(text, place + 1)


def item_of(text: str, spot: Spot, number: int) -> Optional[Spot]:
    """The place of the item of that number, from 1, or `None`."""
    for place, item in enumerate(item_spots(text, spot), 1):
        if place == number:
            return item
    return None


def member_of(text: str, spot: Spot, name: str) -> Optional[Spot]:
    """The place of the member of that name: the last of equal names, as the engine reads it, or
    `None`."""
    only = item_of(text, spot, 1) or spot
    found = None
    for other, value in members_of(text, only):
        found = value if other == name else found
    return found


def swap_spot(text: str) -> Optional[Spot]:
    """The place of the swap of a document, or `None`."""
    for names in _ROOTS:
        spot: Optional[Spot] = root_of(text)
        for name in names:
            spot = None if spot is None else member_of(text, spot, name)
        if spot is not None:
            return item_of(text, spot, 1)
    return None


def stream_spot(text: str, stream: int) -> Optional[Spot]:
    """The place of the stream of that number, from 1, or `None`."""
    swap = swap_spot(text)
    streams = None if swap is None else member_of(text, swap, "swapStream")
    return None if streams is None else item_of(text, streams, stream)


def _below(text: str, spot: Spot, names: Sequence[str], index: int) -> Spot:
    """The deepest element of a path that is there; `index` counts in its one repeated element."""
    for name in names:
        found = member_of(text, spot, name)
        if found is None:
            return spot
        spot = item_of(text, found, index or 1) or found if name in ("step", "businessCenter") else found
    return spot


def element_spot(text: str, stream: int, path: str, index: int) -> Optional[Spot]:
    """The place of the element of a refusal, or the nearest one around it that is there.

    `stream`, `path` and `index` are those of the refusal's line (docs/RULES.md).
    """
    top = stream_spot(text, stream) if stream else swap_spot(text)
    if top is None or path == "document":
        return root_of(text)
    names = [name for name in path.split("/") if name not in ("swap", "swapStream")]
    found = _below(text, top, names, index)
    return _below(text, found, ["businessCenters", "businessCenter"], index) if index else found


def _counted(text: str, flows: Spot, index: int) -> Optional[Spot]:
    """The calculation period of that number, counted through the payments of a stream."""
    payments = member_of(text, flows, "paymentCalculationPeriod")
    for payment in () if payments is None else item_spots(text, payments):
        periods = member_of(text, payment, "calculationPeriod")
        for period in () if periods is None else item_spots(text, periods):
            index -= 1
            if index == 0:
                return period
    return None


def flow_spot(text: str, stream: int, path: str, index: int) -> Optional[Spot]:
    """The place of the element of a fault of cash flows, or the nearest one around it that is
    there."""
    top = stream_spot(text, stream) if stream else swap_spot(text)
    flows = None if top is None else member_of(text, top, "cashflows")
    if top is None or flows is None:
        return top or root_of(text)
    kind, *names = path.split("/")
    listed = member_of(text, flows, kind)
    row = (
        _counted(text, flows, index)
        if kind in ("calculationPeriod", "rateObservation")
        else (None if listed is None else item_of(text, listed, index))
    )
    return flows if row is None else _below(text, row, names, 0)
