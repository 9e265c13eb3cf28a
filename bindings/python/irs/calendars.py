"""`irs-calendar CODE..`: calendar files for business centres, from QuantLib, `holidays`, an ICS file or a CSV.

    irs-calendar USNY EUTA --from 2024 --to 2033 -o desk.cal     sections of these centres, whole years
    irs-calendar --needed terms.json -o terms.cal                what the centres of a document need
    irs-calendar --diff quantlib:CHZU holidays:CHZU --from 2024 --to 2033
    irs-calendar --diff mine.cal theirs.cal                      day by day, by centre
    irs-calendar --list                                          the centres, and what each source knows

Without --source the sources of a centre are tried in the order that --list has; the first that is installed
and knows all the years is taken. A year that the source doesn't know is refused, or left out with --shorten.
Nothing of this is proved, and no source is a settlement system's own: compare with your vendor's days.
"""
from __future__ import annotations

import argparse
import datetime
import sys
from collections import Counter
from pathlib import Path
from typing import List, Optional, Sequence, Tuple

from .arguments import day
from .calendar_files import WEEKDAYS, Calendar, corrected, differences, read_calendars, text_of
from .calendar_sources import Choice, Source, shortened, source_of, years_text
from .calls import check
from .centres import CENTRES
from .checked import Checked, read_checked
from .csv_rows import DATE_FORMS, delimiter_of
from .documents import streams_of, texts_of
from .errors import Refused
from .files import write_whole
from .tools import BadInput, Parser, ended

#: The years that the engine has.
FIRST_YEAR, LAST_YEAR = 1901, 2299

#: How many years are added on both sides of a term, at most, where its days reach outside.
WIDER = 2


def calendar_of(code: str, source: Source, first: int, last: int) -> Calendar:
    """The days off of a centre in the years from the first to the last, all of which the source knows."""
    start, end = datetime.date(first, 1, 1), datetime.date(last, 12, 31)
    name = f" ({CENTRES[code].name})" if code in CENTRES else ""
    origin = [
        f"{code}{name} from {source.name}, made {datetime.date.today()}; not proved",
        f"the source knows {years_text(source)}; days decreed after its release aren't in it",
    ]
    return Calendar(
        code, start, end, source.off(start, end), (*origin, *(f"known doubt: {doubt}" for doubt in source.doubts))
    )


def made(codes: Sequence[str], first: int, last: int, choice: Choice, shorten: bool) -> List[Calendar]:
    """The calendars of the centres; `BadInput` where one can't be made."""
    if not FIRST_YEAR <= first <= last <= LAST_YEAR:
        raise BadInput(f"the years {first} to {last} aren't in order between {FIRST_YEAR} and {LAST_YEAR}")
    twice = [code for code, count in Counter(codes).items() if count > 1]
    if twice:
        raise BadInput(f"{twice[0]} is asked for twice")
    return [_one(code, first, last, choice, shorten) for code in codes]


def _one(code: str, first: int, last: int, choice: Choice, shorten: bool) -> Calendar:
    if shorten:
        return calendar_of(code, *shortened(code, choice, first, last))
    return calendar_of(code, source_of(code, choice, first, last), first, last)


# What a document needs.


def needed(paths: Sequence[Path], choice: Choice, shorten: bool) -> List[Calendar]:
    """The calendars of every centre that the documents name, for the whole years of their terms.

    The engine decides whether they reach far enough; a year is added on both sides where they don't.
    `BadInput` where a centre can't be made, or the engine refuses a document for another reason.
    """
    documents = [read_checked(path) for path in paths]
    streams = [stream for document in documents for stream in streams_of(document.value)]
    codes = list(dict.fromkeys(texts_of(streams, "businessCenter")))
    years = [int(text[:4]) for text in texts_of(streams, "unadjustedDate")]
    if not codes:
        raise BadInput(f"no business centre is named in {', '.join(str(path) for path in paths)}")
    for wider in range(WIDER + 1):
        calendars = made(
            codes, max(FIRST_YEAR, min(years) - wider), min(LAST_YEAR, max(years) + wider), choice, shorten
        )
        try:
            _check_all(documents, text_of(calendars), wider)
            return calendars
        except _TooShort:
            continue
    raise AssertionError("the last width raises BadInput")


class _TooShort(Exception):
    """A document needs days outside the years of its calendars."""


def _check_all(documents: Sequence[Checked], text: str, wider: int) -> None:
    for document in documents:
        try:
            check(document.content, [text])
        except Refused as why:
            if why.rule == "K33" and wider < WIDER:
                raise _TooShort() from why
            raise BadInput(f"{document.path}: {why.sentence}") from why


# Two calendars side by side.


def _is_source(word: str) -> bool:
    kind, colon, _ = word.partition(":")
    return bool(colon) and kind in ("quantlib", "holidays")


def _of_source(word: str, years: Tuple[int, int]) -> List[Calendar]:
    kind, _, code = word.partition(":")
    return made([code], *years, Choice(kind), False)


def _both_sides(words: Sequence[str], first: Optional[int], last: Optional[int]) -> List[List[Calendar]]:
    """The calendars of both sides. A source has the years that are given, or else those of the other side's file."""
    files = {word: read_calendars(Path(word)) for word in words if not _is_source(word)}
    covers = [calendar for calendars in files.values() for calendar in calendars]
    if (first is None or last is None) and not covers:
        raise BadInput("two sources need --from and --to")
    years = (
        min(calendar.first.year for calendar in covers) if first is None else first,
        max(calendar.last.year for calendar in covers) if last is None else last,
    )
    return [files[word] if word in files else _of_source(word, years) for word in words]


def compared(words: Sequence[str], first: Optional[int] = None, last: Optional[int] = None) -> Tuple[str, int]:
    """What `--diff` prints, and how many days differ; `BadInput` where the two have no centre in common."""
    ones, others = _both_sides(words, first, last)
    theirs = {calendar.centre: calendar for calendar in others}
    pairs = [(calendar, theirs[calendar.centre]) for calendar in ones if calendar.centre in theirs]
    if not pairs:
        raise BadInput(f"{words[0]} and {words[1]} have no centre in common")
    lines: List[str] = []
    count = 0
    for one, other in pairs:
        start, end = max(one.first, other.first), min(one.last, other.last)
        if start > end:
            raise BadInput(f"{words[0]} and {words[1]} have no day of {one.centre} in common")
        found = list(differences(one, other))
        count += len(found)
        lines.append(f"# {one.centre} from {start} to {end}: {len(found)} days differ")
        lines += [
            f"{one.centre} {day} {WEEKDAYS[day.weekday()]} is off in {words[0 if mine else 1]} alone"
            for day, mine in found
        ]
    return "\n".join(lines) + "\n", count


def listing() -> str:
    """What `--list` prints: a line a centre and source, with the years that it knows, and its doubts."""
    lines: List[str] = []
    for code, centre in CENTRES.items():
        for name, known in centre.sources.items():
            years = " ".join(f"{first}-{last}" for first, last in known.years)
            lines.append(f"{code}  {centre.name:24} {name:9} {years}")
            lines += [f"      {doubt}" for doubt in known.doubts]
    return "\n".join(lines) + "\n"


# The command.


def _weekend(text: str) -> Tuple[str, ...]:
    days = tuple(text.upper().split())
    if not set(days) <= set(WEEKDAYS):
        raise argparse.ArgumentTypeError(f"'{text}' isn't a list of weekdays as 'SAT SUN'")
    return days


def parser() -> Parser:
    """The parser of the command's words."""
    words = Parser(prog="irs-calendar", description=__doc__, formatter_class=argparse.RawDescriptionHelpFormatter)
    words.add_argument("codes", nargs="*", metavar="CODE", help="an FpML business centre code, as USNY")
    words.add_argument("--from", dest="first", type=int, metavar="YEAR", help="the first year")
    words.add_argument("--to", dest="last", type=int, metavar="YEAR", help="the last year")
    words.add_argument("--source", help="quantlib, holidays, ics:FILE or csv:FILE")
    words.add_argument("--column", help="the column of a CSV that has the dates (the first)")
    words.add_argument("--date-form", choices=sorted(DATE_FORMS), default="YYYY-MM-DD", help="how a CSV writes dates")
    words.add_argument(
        "--delimiter", type=delimiter_of, default=",", help="what separates the fields of a CSV, or `tab` (,)"
    )
    words.add_argument("--weekend", type=_weekend, default=("SAT", "SUN"), help="of an ICS or a CSV ('SAT SUN')")
    words.add_argument(
        "--off", action="append", type=day, default=[], metavar="DATE", help="a day off that the source lacks"
    )
    words.add_argument(
        "--on", action="append", type=day, default=[], metavar="DATE", help="a business day that the source has off"
    )
    words.add_argument("--shorten", action="store_true", help="leave out years that the source doesn't know")
    words.add_argument("-o", "--output", type=Path, metavar="FILE", help="where the file goes (standard output)")
    words.add_argument("--needed", nargs="+", type=Path, metavar="DOC", help="the centres and years of documents")
    words.add_argument("--diff", nargs=2, metavar=("A", "B"), help="two files, or SOURCE:CODE, day by day")
    words.add_argument("--list", action="store_true", help="the centres and their sources")
    return words


def _asked_for(asked: argparse.Namespace, choice: Choice) -> List[Calendar]:
    if asked.needed:
        if asked.codes or asked.first is not None or asked.last is not None:
            raise BadInput("--needed takes its centres and years from the documents: leave out CODE, --from and --to")
        return needed(asked.needed, choice, asked.shorten)
    if not asked.codes:
        raise BadInput("no centre is named; `irs-calendar --list` has them")
    if asked.first is None or asked.last is None:
        raise BadInput("--from YEAR and --to YEAR are needed")
    return made(asked.codes, asked.first, asked.last, choice, asked.shorten)


def _work(arguments: Optional[List[str]]) -> int:
    asked = parser().parse_args(arguments)
    if asked.list:
        write_whole(listing(), asked.output)
        return 0
    if asked.diff:
        text, count = compared(asked.diff, asked.first, asked.last)
        write_whole(text, asked.output)
        return 1 if count else 0
    calendars = _asked_for(asked, Choice(asked.source, asked.column, asked.date_form, asked.delimiter, asked.weekend))
    if asked.off or asked.on:
        if len(calendars) > 1:
            raise BadInput("--off and --on correct one centre: name it alone")
        calendars = [corrected(calendars[0], asked.off, asked.on)]
    write_whole(text_of(calendars), asked.output)
    for calendar in calendars:
        for remark in calendar.remarks:
            if remark.startswith("known doubt"):
                print(f"irs-calendar: {calendar.centre}: {remark}", file=sys.stderr)
    return 0


def main(arguments: Optional[List[str]] = None) -> int:
    """Runs the command: 0 where it is done, 1 where two calendars differ, 2 for bad input."""
    return ended("irs-calendar", _work, arguments)


if __name__ == "__main__":
    sys.exit(main())
