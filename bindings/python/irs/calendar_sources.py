"""Where the days off of a centre come from: QuantLib, `holidays`, an ICS file, or a CSV of dates.

Nothing here is proved. QuantLib, `holidays` and `icalendar` are used where they are installed. Each source
says which years it knows, and gives no day outside them.
"""
from __future__ import annotations

import datetime
from collections import Counter
from dataclasses import dataclass
from pathlib import Path
from typing import Any, Callable, Dict, FrozenSet, List, Optional, Protocol, Sequence, Tuple

from .calendar_files import WEEKDAYS, days_between
from .centres import CENTRES, VERSIONS, Known, Span
from .csv_rows import day_of, rows_of
from .files import read_bytes
from .packages import package
from .tools import BadInput

#: A year of a file that has fewer than this part of the usual number of days is one that the file doesn't know.
THIN = 0.5


class Source(Protocol):
    """What each source has: its name and version, the years that it knows, its doubts, and its days off."""

    name: str
    years: Tuple[Span, ...]
    doubts: Tuple[str, ...]

    def off(self, first: datetime.date, last: datetime.date) -> FrozenSet[datetime.date]:
        """Every day off from the first to the last, weekend days included."""


def _known(code: str, source: str) -> Known:
    if code not in CENTRES:
        raise BadInput(f"'{code}' is no centre of the table; `irs-calendar --list` has them")
    if source not in CENTRES[code].sources:
        raise BadInput(f"{source} isn't used for {code}; `irs-calendar --list` says what is")
    return CENTRES[code].sources[source]


def _version_doubts(source: str, version: str) -> Tuple[str, ...]:
    if version == VERSIONS[source]:
        return ()
    return (f"the years and the doubts are those of {source} {VERSIONS[source]}, and this is {version}",)


class QuantLibSource:
    """A calendar of QuantLib's Python package."""

    def __init__(self, code: str) -> None:
        known = _known(code, "quantlib")
        self._module = package("QuantLib", "the source quantlib", "QuantLib", "quantlib-python")
        version = str(self._module.__version__)
        try:
            kind = getattr(self._module, known.calendar)
            self._calendar = kind(getattr(kind, known.option)) if known.option else kind()
        except (AttributeError, TypeError) as why:
            raise BadInput(f"QuantLib {version} has no calendar {known.calendar} {known.option}") from why
        self.name = f"QuantLib {version}, {known.calendar} {known.option}".rstrip()
        self.years = known.years
        self.doubts = known.doubts + _version_doubts("quantlib", version)

    def off(self, first: datetime.date, last: datetime.date) -> FrozenSet[datetime.date]:
        """Every day off, by QuantLib's own list of a span."""
        date = self._module.Date
        ends = (date(day.day, day.month, day.year) for day in (first, last))
        return frozenset(day.to_date() for day in self._calendar.holidayList(*ends, True))


class HolidaysSource:
    """A country of the package `holidays`, with Saturdays and Sundays off."""

    def __init__(self, code: str) -> None:
        known = _known(code, "holidays")
        module = package("holidays", "the source holidays", "`holidays`", "python3-holidays")
        version = str(module.__version__)
        options: Dict[str, object] = (
            {"include_sundays": False} if known.option == "no Sundays" else {"prov": known.option}
        )
        try:
            self._listed = getattr(module, known.calendar)(**(options if known.option else {}))
        except (AttributeError, TypeError) as why:
            raise BadInput(f"holidays {version} has no country {known.calendar} {known.option}") from why
        self.name = f"holidays {version}, {known.calendar} {known.option}".rstrip()
        self.years = known.years
        self.doubts = known.doubts + _version_doubts("holidays", version)

    def off(self, first: datetime.date, last: datetime.date) -> FrozenSet[datetime.date]:
        """The country's holidays, and each Saturday and Sunday."""
        return frozenset(day for day in days_between(first, last) if day.weekday() >= 5 or day in self._listed)


class ListedSource:
    """A list of holidays from a file, and a weekend that doesn't change.

    The list knows the years from its first to its last day. A first or last year with less than half of the
    usual number of days is left out, since such a list often ends in the middle of a year.
    """

    def __init__(self, name: str, days: FrozenSet[datetime.date], weekend: Sequence[str]) -> None:
        self.name = name
        self._days = days
        self._weekend = frozenset(WEEKDAYS.index(day) for day in weekend)
        self.years = spans_of(days)
        self.doubts: Tuple[str, ...] = ()

    def off(self, first: datetime.date, last: datetime.date) -> FrozenSet[datetime.date]:
        """The listed days, and each day of the weekend."""
        return frozenset(
            day for day in days_between(first, last) if day.weekday() in self._weekend or day in self._days
        )


def spans_of(days: FrozenSet[datetime.date]) -> Tuple[Span, ...]:
    """The years that a list of days knows: those with at least half of the usual number of days."""
    counts = Counter(day.year for day in days)
    usual = sorted(counts.values())[len(counts) // 2] if counts else 0
    known = sorted(year for year, count in counts.items() if count >= usual * THIN)
    spans: List[Span] = []
    for year in known:
        if spans and spans[-1][1] == year - 1:
            spans[-1] = (spans[-1][0], year)
        else:
            spans.append((year, year))
    return tuple(spans)


def ics_source(path: Path, weekend: Sequence[str]) -> ListedSource:
    """The all-day events of an ICS file. `BadInput` where it can't be read, or has an event that repeats."""
    module = package("icalendar", "an ICS file", "`icalendar`", "python3-icalendar")
    try:
        events = module.Calendar.from_ical(read_bytes(path)).walk("VEVENT")
    except (ValueError, TypeError, LookupError, AttributeError) as why:  # whatever icalendar trips over
        raise BadInput(f"{path} isn't an ICS file") from why
    days: List[datetime.date] = []
    for event in events:
        days += _days_of_event(path, event)
    if not days:
        raise BadInput(f"{path} has no event")
    return ListedSource(f"the ICS file {path.name}", frozenset(days), weekend)


def _days_of_event(path: Path, event: Any) -> List[datetime.date]:
    name = event.get("SUMMARY", "without a name")
    if event.errors:
        raise BadInput(f"{path} has an event that can't be read: {name}")
    if any(rule in event for rule in ("RRULE", "RDATE", "EXDATE")):
        raise BadInput(f"{path} has an event that repeats by a rule: {name}")
    start, end, length = (getattr(event.get(part), "dt", None) for part in ("DTSTART", "DTEND", "DURATION"))
    if type(start) is datetime.date and type(length) is datetime.timedelta and length.seconds == 0:
        end = start + length
    elif length is not None or type(start) is not datetime.date or type(end) not in (datetime.date, type(None)):
        raise BadInput(f"{path} has an event that isn't of whole days: {name}")
    if end is None or end <= start:
        return [start]
    return list(days_between(start, end))[:-1]


def csv_source(path: Path, column: Optional[str], form: str, delimiter: str, weekend: Sequence[str]) -> ListedSource:
    """The days in a column of a CSV file, the first column where none is named."""
    rows = rows_of(path, delimiter)
    if not rows:
        raise BadInput(f"{path} has no day")
    name = column if column is not None else next(iter(rows[0].fields))
    days = frozenset(day_of(path, row, name, form) for row in rows)
    return ListedSource(f"the CSV file {path.name}, column {name}", days, weekend)


@dataclass(frozen=True)
class Choice:
    """How the source of a centre is chosen: `source` is ``quantlib``, ``holidays``, ``ics:FILE``, ``csv:FILE``,
    or `None` for the first of the centre's own that is installed and knows the years. The rest is for files."""

    source: Optional[str] = None
    column: Optional[str] = None
    form: str = "YYYY-MM-DD"
    delimiter: str = ","
    weekend: Tuple[str, ...] = ("SAT", "SUN")


def knows(source: Source, first: int, last: int) -> bool:
    """Whether the source knows every year from the first to the last."""
    return any(begin <= first and last <= end for begin, end in source.years)


def years_text(source: Source) -> str:
    """The years that a source knows, as a person writes them."""
    return " and ".join(f"{first} to {last}" if first != last else str(first) for first, last in source.years)


_PACKAGES: Dict[str, Callable[[str], Source]] = {"quantlib": QuantLibSource, "holidays": HolidaysSource}


def candidates(code: str, choice: Choice) -> List[Source]:
    """The sources of a centre that are there, in the order in which they are tried; at least one.

    `BadInput` where the code or the source is unknown, or no package is installed.
    """
    if choice.source is not None:
        return [_chosen(code, choice.source, choice)]
    if code not in CENTRES:
        raise BadInput(f"'{code}' is no centre of the table; `irs-calendar --list` has them")
    found: List[Source] = []
    refused: List[str] = []
    for name in CENTRES[code].sources:
        try:
            found.append(_PACKAGES[name](code))
        except BadInput as why:
            refused.append(str(why))
    if not found:
        raise BadInput("; ".join(refused))
    return found


def _chosen(code: str, name: str, choice: Choice) -> Source:
    kind, _, path = name.partition(":")
    if kind == "ics" and path:
        return ics_source(Path(path), choice.weekend)
    if kind == "csv" and path:
        return csv_source(Path(path), choice.column, choice.form, choice.delimiter, choice.weekend)
    if name not in _PACKAGES:
        raise BadInput(f"'{name}' is no source: quantlib, holidays, ics:FILE or csv:FILE")
    return _PACKAGES[name](code)


def source_of(code: str, choice: Choice, first: int, last: int) -> Source:
    """The first source of a centre that knows all these years; `BadInput` where there is none."""
    sources = candidates(code, choice)
    for source in sources:
        if knows(source, first, last):
            return source
    told = " and ".join(f"{source.name} knows {years_text(source)}" for source in sources)
    raise BadInput(f"no source knows {code} from {first} to {last}: {told}; --shorten leaves out the other years")


def shortened(code: str, choice: Choice, first: int, last: int) -> Tuple[Source, int, int]:
    """The source that knows the longest unbroken part of these years, and that part; the first of equals.

    `BadInput` where no source knows any of them.
    """
    best: Optional[Tuple[Source, int, int]] = None
    for source in candidates(code, choice):
        for begin, end in source.years:
            low, high = max(begin, first), min(end, last)
            if low <= high and (best is None or high - low > best[2] - best[1]):
                best = source, low, high
    if best is None:
        source_of(code, choice, first, last)
    assert best is not None
    return best
