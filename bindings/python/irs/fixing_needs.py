"""Which fixings a document needs: what the engine prints `-` or `missing` for, and nothing worked out here.

A reset without a rate is one that needs a fixing. Which index and tenor it takes is found by a run with
another small rate for each index and tenor that the stream names: the rate that the engine prints says which.
Where the terms state an overnight rate, its days are those on which `observations` observes one. Of another stream
they are those that `overnight` reports as missing, until none is.
"""
from __future__ import annotations

import datetime
from dataclasses import dataclass
from decimal import Decimal
from typing import Any, Collection, Iterator, List, Optional, Sequence, Set, Tuple

from .calls import observations, overnight, schedule
from .checked import Checked
from .documents import child_of, streams_of, text_at
from .errors import Error, Refused
from .rows import Missing, Observation, Reset
from .tools import BadInput

#: The smallest rate of a file of fixings.
SMALLEST = Decimal("0.000000001")

_FLOAT = ("calculationPeriodAmount", "calculation", "floatingRateCalculation")
_STUB = "stubCalculationPeriodAmount"


@dataclass(frozen=True, order=True)
class Key:
    """What a fixing is of: its date, its tenor (`-` for none) and its index."""

    date: datetime.date
    tenor: str
    index: str


#: A tenor and an index.
Rate = Tuple[str, str]


def _rate(value: Any) -> Rate:
    tenor = child_of(value, "indexTenor")
    number, unit = (text_at(tenor, name) for name in ("periodMultiplier", "period"))
    index = text_at(value, "floatingRateIndex") or ""
    return ("-" if number is None or unit is None else f"{int(number)}{unit}"), index


def rates_of(stream: Any) -> Iterator[Rate]:
    """The indexes that a stream names: its own, and those of its stubs."""
    ways = (_FLOAT, (_STUB, "initialStub", "floatingRate"), (_STUB, "finalStub", "floatingRate"))
    for value in (child_of(stream, *way) for way in ways):
        if value is not None:
            yield _rate(value)


def _probe(resets: Sequence[Reset], streams: Sequence[Any], rates: Sequence[Rate]) -> str:
    lines: Set[str] = set()
    for reset in resets:
        for rate in rates_of(streams[reset.stream - 1]):
            lines.add(f"{reset.fixing} {(rates.index(rate) + 1) * SMALLEST:f} {rate[0]} {rate[1]}")
    return "\n".join(sorted(lines)) + "\n"


def reset_needs(document: Checked, calendars: Sequence[bytes], without: Collection[int] = ()) -> Set[Key]:
    """The fixings that `schedule` asks for, but for the streams of `without`.

    `Refused` or `BadFile` where the engine gives no schedule.
    """
    resets = [
        reset
        for reset in schedule(document.content, None, calendars).resets()
        if reset.observed is None and reset.stream not in without
    ]
    streams = streams_of(document.value)
    rates = list(dict.fromkeys(rate for stream in streams for rate in rates_of(stream)))
    known = schedule(document.content, _probe(resets, streams, rates), calendars).resets()
    observed = {(reset.stream, reset.number): reset.observed for reset in known}
    needs: Set[Key] = set()
    for reset in resets:
        rate = observed[reset.stream, reset.number]
        if rate is None:
            raise BadInput(f"{document.path}: the engine takes no fixing of {reset.fixing} in stream {reset.stream}")
        needs.add(Key(reset.fixing, *rates[int(rate / SMALLEST) - 1]))
    return needs


def observed_streams(document: Checked) -> List[int]:
    """The numbers of the streams whose terms state an overnight rate."""
    way = (*_FLOAT, "calculationParameters")
    return [n for n, stream in enumerate(streams_of(document.value), 1) if child_of(stream, *way) is not None]


def observed_needs(document: Checked, stream: int, calendars: Sequence[bytes]) -> Set[Key]:
    """The daily rates of a stream whose terms state an overnight rate: the days on which one is observed."""
    index = _rate(child_of(streams_of(document.value)[stream - 1], *_FLOAT))[1]
    rows = observations(stream, document.content, None, calendars)
    return {Key(row.observed, "1D", index) for row in rows if isinstance(row, Observation)}


def overnight_needs(
    document: Checked, stream: int, calendars: Sequence[bytes], until: Optional[datetime.date]
) -> Set[Key]:
    """The daily rates that `overnight` asks for in a stream, up to a day.

    A call of the engine gives the first missing day of each period, so there are as many calls as a period has
    days. `Refused` where it is no floating stream, or counts its days otherwise (K40 to K44).
    """
    streams = streams_of(document.value)
    index = _rate(child_of(streams[stream - 1], *_FLOAT))[1] if stream <= len(streams) else ""
    days: Set[datetime.date] = set()
    while True:
        daily = "".join(f"{day} 0 1D {index}\n" for day in sorted(days))
        rows = overnight(stream, document.content, daily, calendars)
        lacking = {row.date for row in rows if isinstance(row, Missing) and (until is None or row.date <= until)}
        if not lacking:
            return {Key(day, "1D", index) for day in days}
        if lacking <= days:
            raise BadInput(f"{document.path}: the engine takes no daily rate of '{index}' in stream {stream}")
        days |= lacking


def daily_streams(document: Checked, indexes: Collection[str]) -> List[int]:
    """The numbers of the floating streams with one of these indexes."""
    found: List[int] = []
    for number, stream in enumerate(streams_of(document.value), 1):
        floating = child_of(stream, *_FLOAT)
        if floating is not None and _rate(floating)[1] in indexes:
            found.append(number)
    return found


def needs_of(
    document: Checked,
    calendars: Sequence[bytes],
    streams: Collection[int] = (),
    until: Optional[datetime.date] = None,
) -> Set[Key]:
    """The fixings that a document needs: daily rates for these streams and for those whose terms state them, and
    what `schedule` asks for the others."""
    observed = observed_streams(document)
    try:
        needs = reset_needs(document, calendars, {*streams, *observed})
        for stream in observed:
            needs |= observed_needs(document, stream, calendars)
        for stream in set(streams) - set(observed):
            needs |= overnight_needs(document, stream, calendars, until)
    except Error as why:
        raise BadInput(f"{document.path}: {why.sentence}") from why
    return {need for need in needs if until is None or need.date <= until}


def every_need(document: Checked, calendars: Sequence[bytes], daily: Collection[str]) -> Set[Key]:
    """What a document needs in any way: what `schedule` asks for, and the daily rates of these indexes where
    `overnight` takes them."""
    needs = needs_of(document, calendars)
    for stream in daily_streams(document, daily):
        try:
            needs |= overnight_needs(document, stream, calendars, None)
        except Refused as why:
            if why.rule not in ("K40", "K41", "K42"):
                raise BadInput(f"{document.path}: {why.sentence}") from why
    return needs
