"""A timeline of a schedule as an SVG picture: periods, stubs, resets, payments, exchanges, today.

The picture is cut into bands, one under the other, so that 480 periods are as easy to read as 60.
The place of a mark follows from the printed dates; no date is worked out. The templates write the
picture's text.
"""
from __future__ import annotations

from datetime import date
from typing import Dict, Iterable, List, NamedTuple, Optional, Sequence, Set

from .printed import StreamText

#: The most bands of a picture. Where there are more periods than they hold, the marks are
#: closer.
MOST_BANDS = 16

#: Heights in the picture's own units.
AXIS, LANE, GAP = 22, 34, 10

#: How wide the label of a year, of a month, and of the month in which a band begins is with its
#: gap.
YEAR, MONTH, START = 44, 34, 64

_MONTHS = ("Jan", "Feb", "Mar", "Apr", "May", "Jun", "Jul", "Aug", "Sep", "Oct", "Nov", "Dec")


class Tick(NamedTuple):
    """A line of a year or a month and its label, empty where there is no room for one."""

    x: float
    label: str
    is_year: bool


class Lane(NamedTuple):
    """A stream in a band: its label and the paths of what falls into the band."""

    label: str
    y: float
    left: float
    right: float
    stubs: List[Sequence[float]]
    boundaries: str
    payments: str
    resets: str
    exchanges: str


class Band(NamedTuple):
    """A stretch of time: its ticks, its lanes, and the place of today in it."""

    y: float
    height: float
    ticks: List[Tick]
    lanes: List[Lane]
    today: Optional[float]


class Timeline(NamedTuple):
    """A picture: its size, its bands, and what it is in one sentence."""

    width: int
    height: float
    left: int
    bands: List[Band]
    sentence: str
    has: Dict[str, bool]


class _Dates(NamedTuple):
    """The dates of a stream as day numbers."""

    label: str
    boundaries: List[int]
    stubs: List[Sequence[int]]
    payments: List[int]
    resets: List[int]
    exchanges: List[int]


class _Scale(NamedTuple):
    """A band's stretch of days, and the stretch of the picture for it."""

    first: int
    last: int
    left: float
    width: float

    def x(self, day: int) -> float:
        """The place of a day."""
        return round(self.left + (day - self.first) * self.width / (self.last - self.first), 1)

    def within(self, days: Iterable[int]) -> List[float]:
        """The places of the days of the band; the first day counts and the last doesn't."""
        return [self.x(day) for day in days if self.first <= day < self.last]


def _number(text: str) -> int:
    return date.fromisoformat(text).toordinal()


def _dates(stream: StreamText, stubs: Set[int]) -> _Dates:
    spans = [(_number(row.adjusted_start), _number(row.adjusted_end)) for row in stream.periods]
    boundaries = [start for start, _ in spans] + [end for _, end in spans[-1:]]
    return _Dates(
        f"{stream.stream} {stream.currency}",
        boundaries,
        [spans[number - 1] for number in sorted(stubs) if number <= len(spans)],
        [_number(row.adjusted) for row in stream.payments],
        [_number(row.fixing) for row in stream.resets.values()],
        [_number(row.adjusted) for row in stream.exchanges],
    )


def _all_days(streams: Sequence[_Dates]) -> List[int]:
    return [
        day
        for dates in streams
        for days in (dates.boundaries, dates.payments, dates.resets, dates.exchanges)
        for day in days
    ]


def _ticks(scale: _Scale) -> List[Tick]:
    first, last = date.fromordinal(scale.first), date.fromordinal(scale.last - 1)
    years = last.year - first.year + 1
    step = next(
        (step for step in (1, 2, 5, 10, 20, 50, 100) if scale.width / max(1, years / step) >= YEAR),
        200,
    )
    ticks = [
        Tick(scale.x(date(year, 1, 1).toordinal()), str(year) if year % step == 0 else "", True)
        for year in range(first.year, last.year + 1)
        if scale.first <= date(year, 1, 1).toordinal()
    ]
    a_month = scale.width / max(1.0, (scale.last - scale.first) / 30.4)
    if a_month >= 4:
        ticks += _months(scale, first, last, a_month >= MONTH)
    if not any(tick.label and tick.is_year and tick.x < scale.left + START for tick in ticks):
        ticks = [tick if tick.x >= scale.left + START else tick._replace(label="") for tick in ticks]
        ticks.append(Tick(scale.left, f"{_MONTHS[first.month - 1]} {first.year}", False))
    return sorted(ticks)


def _months(scale: _Scale, first: date, last: date, labelled: bool) -> List[Tick]:
    days = [date(year, month, 1) for year in range(first.year, last.year + 1) for month in range(2, 13)]
    return [
        Tick(scale.x(day.toordinal()), _MONTHS[day.month - 1] if labelled else "", False)
        for day in days
        if scale.first <= day.toordinal() < scale.last
    ]


def _path(xs: Iterable[float], shape: str) -> str:
    return "".join(shape.format(x=f"{x:g}") for x in xs)


def _lane(dates: _Dates, scale: _Scale, y: float) -> Lane:
    ends = (
        [max(dates.boundaries[0], scale.first), min(dates.boundaries[-1], scale.last)] if dates.boundaries else [0, 0]
    )
    left, right = (scale.x(ends[0]), scale.x(ends[1])) if ends[0] < ends[1] else (0.0, 0.0)
    stubs = [
        (scale.x(max(start, scale.first)), scale.x(min(end, scale.last)))
        for start, end in dates.stubs
        if start < scale.last and scale.first < end
    ]
    top, bottom = y + 10, y + 24
    return Lane(
        dates.label,
        y,
        left,
        right,
        [(start, end - start) for start, end in stubs],
        _path(scale.within(dates.boundaries), f"M{{x}} {top}v14"),
        _path(scale.within(dates.payments), f"M{{x}} {bottom}l-3.5 7h7z"),
        _path(
            scale.within(dates.resets),
            f"M{{x}} {y + 5}m-2.5 0a2.5 2.5 0 1 0 5 0a2.5 2.5 0 1 0-5 0",
        ),
        _path(scale.within(dates.exchanges), f"M{{x}} {y + 11}l6 6l-6 6l-6-6z"),
    )


def _bands(first: int, last: int, count: int) -> List[Sequence[int]]:
    edges = [first + (last - first) * place // count for place in range(count + 1)]
    return [(start, end) for start, end in zip(edges, edges[1:])]


def _band(streams: Sequence[_Dates], scale: _Scale, y: float, today: int) -> Band:
    lanes = [_lane(dates, scale, y + AXIS + place * LANE) for place, dates in enumerate(streams)]
    here = scale.x(today) if scale.first <= today < scale.last else None
    return Band(y, AXIS + len(lanes) * LANE, _ticks(scale), lanes, here)


def _sentence(streams: Sequence[StreamText], first: int, last: int) -> str:
    each = "; ".join(
        f"stream {stream.stream} has {len(stream.periods)} periods " f"and {len(stream.payments)} payments"
        for stream in streams
    )
    return f"Timeline from {date.fromordinal(first)} to {date.fromordinal(last)}: {each}."


def timeline(
    streams: Sequence[StreamText], stubs: Sequence[Set[int]], today: date, width: int, most: int
) -> Optional[Timeline]:
    """A picture `width` units wide with at most about `most` periods of a stream in a band.

    `stubs` has the numbers of the periods of each stream that are stubs by its terms. `None` where
    the streams have no rows.
    """
    dated = [_dates(stream, asked) for stream, asked in zip(streams, stubs)]
    days = _all_days(dated)
    if not days:
        return None
    first, last = min(days), max(days) + 1
    longest = max(len(dates.boundaries) - 1 for dates in dated)
    count = min(MOST_BANDS, max(1, -(-longest // most)), last - first)
    left = 64
    bands: List[Band] = []
    y = 4.0
    for start, end in _bands(first, last, count):
        bands.append(_band(dated, _Scale(start, end, left, width - left - 12), y, today.toordinal()))
        y += bands[-1].height + GAP
    has = {
        "stubs": any(dates.stubs for dates in dated),
        "resets": any(dates.resets for dates in dated),
        "exchanges": any(dates.exchanges for dates in dated),
        "today": any(band.today is not None for band in bands),
    }
    return Timeline(width, y, left, bands, _sentence(streams, first, last - 1), has)
