"""Calendar files (docs/FORMATS.md, 'Calendar files'): the days off of centres, and their text.

Nothing here is proved; the engine reads each text before it is used or written.
"""
from __future__ import annotations

import datetime
import re
from collections import Counter
from dataclasses import dataclass, replace
from pathlib import Path
from typing import FrozenSet, Iterator, List, Sequence, Set, Tuple

from .end_lines import with_end
from .files import read_text
from .plain import visible
from .probes import check_calendars
from .tools import BadInput

#: The weekdays as a calendar file has them, Monday first.
WEEKDAYS = ("MON", "TUE", "WED", "THU", "FRI", "SAT", "SUN")

#: How many holidays a section may list (docs/FORMATS.md).
MOST_HOLIDAYS = 20_000

#: The line of a calendar file that names a centre.
_CENTRE = re.compile(rb"^center[ \t]+([!-~]+)[ \t]*\r?$", re.M)


def centres_in(calendar: bytes) -> List[str]:
    """The centres of the sections of a calendar file, in order."""
    return [centre.decode("ascii") for centre in _CENTRE.findall(calendar)]


def days_between(first: datetime.date, last: datetime.date) -> Iterator[datetime.date]:
    """Each day from the first to the last."""
    for number in range(first.toordinal(), last.toordinal() + 1):
        yield datetime.date.fromordinal(number)


@dataclass(frozen=True)
class Calendar:
    """The days off of a centre in whole years, weekend days included, and remarks for the file."""

    centre: str
    first: datetime.date
    last: datetime.date
    off: FrozenSet[datetime.date]
    remarks: Tuple[str, ...] = ()


def weekend_of(calendar: Calendar) -> Tuple[str, ...]:
    """The weekdays that are off throughout. None where a usual day off is worked, or the weekend changes:
    the section then lists every day off."""
    days = Counter(day.weekday() for day in days_between(calendar.first, calendar.last))
    off = Counter(day.weekday() for day in calendar.off)
    usual = [weekday for weekday in range(7) if 2 * off[weekday] > days[weekday]]
    if any(off[weekday] != days[weekday] for weekday in usual):
        return ()
    return tuple(WEEKDAYS[weekday] for weekday in usual)


def section(calendar: Calendar) -> str:
    """The section of a calendar file; `BadInput` where it would list more days than a section may."""
    weekend = weekend_of(calendar)
    listed = sorted(day for day in calendar.off if WEEKDAYS[day.weekday()] not in weekend)
    if len(listed) > MOST_HOLIDAYS:
        raise BadInput(
            f"{calendar.centre} has {len(listed)} days to list from {calendar.first} to {calendar.last};"
            f" a section has at most {MOST_HOLIDAYS}: ask for fewer years"
        )
    lines = [f"# {visible(remark)}" for remark in calendar.remarks]
    lines += [f"center {calendar.centre}", f"cover {calendar.first} {calendar.last}", " ".join(("weekend", *weekend))]
    lines += [day.isoformat() for day in listed]
    return "\n".join(lines) + "\n"


def text_of(calendars: Sequence[Calendar]) -> str:
    """A calendar file of these sections with its end line, which the engine read; `BadInput` where it refuses it."""
    text = with_end("".join(section(calendar) for calendar in calendars))
    check_calendars([text])
    return text


def read_calendars(path: Path) -> List[Calendar]:
    """The sections of a calendar file that the engine takes; `BadInput` where it refuses it."""
    text = read_text(path)
    check_calendars([text])
    found: List[Tuple[str, datetime.date, datetime.date, Set[str], Set[datetime.date]]] = []
    centre = ""
    first = last = datetime.date.min
    for words in (line.split() for line in text.split("\n") if not line.startswith("#")):
        if words[:1] == ["center"]:
            centre = words[1]
        elif words[:1] == ["cover"]:
            first, last = (datetime.date.fromisoformat(word) for word in words[1:])
        elif words[:1] == ["weekend"]:
            found.append((centre, first, last, set(words[1:]), set()))
        elif words:
            found[-1][4].add(datetime.date.fromisoformat(words[0]))
    return [
        Calendar(name, start, end, frozenset(days | _weekly(start, end, weekend)))
        for name, start, end, weekend, days in found
    ]


def _weekly(first: datetime.date, last: datetime.date, weekend: Set[str]) -> Set[datetime.date]:
    return {day for day in days_between(first, last) if WEEKDAYS[day.weekday()] in weekend}


def corrected(calendar: Calendar, off: Sequence[datetime.date], on: Sequence[datetime.date]) -> Calendar:
    """The calendar with days that are off, or aren't, against its source, and a remark for each.

    `BadInput` where a day is outside the cover, or is already so.
    """
    for day in (*off, *on):
        if not calendar.first <= day <= calendar.last:
            raise BadInput(f"{day} is outside the years of {calendar.centre}")
        if (day in calendar.off) == (day in off):
            raise BadInput(f"{day} is {'off' if day in off else 'on'} in the source of {calendar.centre} already")
    remarks = [f"corrected by the desk: {day} is {'off' if day in off else 'a business day'}" for day in (*off, *on)]
    return replace(calendar, off=(calendar.off | set(off)) - set(on), remarks=(*calendar.remarks, *remarks))


def differences(one: Calendar, other: Calendar) -> Iterator[Tuple[datetime.date, bool]]:
    """Each day on which two calendars differ, in their common cover, and whether it is off in the first."""
    first, last = max(one.first, other.first), min(one.last, other.last)
    for day in sorted(one.off ^ other.off):
        if first <= day <= last:
            yield day, day in one.off
