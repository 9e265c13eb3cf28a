"""`irs-fixings`: files of fixings from CSV, what a document's fixings lack, and what no document needs.

    irs-fixings sofr.csv --percent --index USD-SOFR --tenor 1D --date-column "Effective Date" \\
        --rate-column "Rate (%)" --date-form MM/DD/YYYY --where "Rate Type=SOFR" -o daily
    irs-fixings --missing terms.json --fixings daily --until 2025-12-31 --calendars desk.cal
    irs-fixings --unused daily --documents terms.json other.json --calendars desk.cal

The rates of a CSV are in percent or decimals, and one of --percent and --decimal says which. What a document
needs is what the engine asks for: the resets of `schedule` without a rate, the days of `observations` where the terms
state an overnight rate, and with --overnight STREAM the days that `overnight` misses. Nothing else of this is
proved.
"""
from __future__ import annotations

import argparse
import datetime
import sys
from pathlib import Path
from typing import List, Optional, Sequence, Set, Tuple

from .arguments import day
from .checked import read_checked
from .csv_rows import DATE_FORMS, delimiter_of
from .files import read_for_engine, write_whole
from .fixing_files import Columns, fixings_of, keys_of, text_of
from .fixing_needs import Key, every_need, needs_of
from .inputs import at_most_sixteen
from .tools import BadInput, Parser, ended


def missing(
    document: Path,
    fixings: Optional[Path],
    calendars: Sequence[Path],
    streams: Sequence[int],
    until: Optional[datetime.date],
) -> List[Key]:
    """The fixings that a document needs and the file lacks, up to a day, by date. Of these streams the daily
    rates are meant that `overnight` compounds. `BadInput` where the engine gives no answer."""
    needs = needs_of(read_checked(document), [read_for_engine(path) for path in calendars], streams, until)
    return sorted(needs - (set(keys_of(fixings)) if fixings is not None else set()))


def unused(fixings: Path, documents: Sequence[Path], calendars: Sequence[Path]) -> List[Key]:
    """The lines of a file that no document needs. Daily rates count for each stream with their index that
    `overnight` takes. `BadInput` where the engine gives no answer."""
    lines = keys_of(fixings)
    daily = {key.index for key in lines if key.tenor == "1D"}
    days = [read_for_engine(path) for path in calendars]
    needed: Set[Key] = set()
    for document in documents:
        needed |= every_need(read_checked(document), days, daily)
    return [key for key in lines if key not in needed]


# The command.


def _until(text: str) -> datetime.date:
    return datetime.date.today() if text == "today" else day(text)


def _pair(text: str) -> Tuple[str, str]:
    column, equals, value = text.partition("=")
    if not equals:
        raise argparse.ArgumentTypeError(f"'{text}' isn't COLUMN=TEXT")
    return column, value


def parser() -> Parser:
    """The parser of the command's words."""
    words = Parser(prog="irs-fixings", description=__doc__, formatter_class=argparse.RawDescriptionHelpFormatter)
    words.add_argument("csv", nargs="*", type=Path, metavar="CSV", help="CSV files with a header line")
    unit = words.add_mutually_exclusive_group()
    unit.add_argument("--percent", action="store_true", help="the rates are in percent: 5.31")
    unit.add_argument("--decimal", action="store_true", help="the rates are decimals: 0.0531")
    words.add_argument("--index", help="the index, as the terms have it")
    words.add_argument("--tenor", default="-", help="the tenor, as 6M, or 1D for an overnight rate (none)")
    words.add_argument("--index-column", metavar="COLUMN", help="the column that has the index")
    words.add_argument("--tenor-column", metavar="COLUMN", help="the column that has the tenor")
    words.add_argument("--date-column", default="date", metavar="COLUMN", help="the column of the dates (date)")
    words.add_argument("--rate-column", default="rate", metavar="COLUMN", help="the column of the rates (rate)")
    words.add_argument("--date-form", choices=sorted(DATE_FORMS), default="YYYY-MM-DD", help="how dates are written")
    words.add_argument("--delimiter", type=delimiter_of, default=",", help="what separates the fields, or `tab` (,)")
    words.add_argument(
        "--header-line", type=int, default=1, metavar="LINE", help="the line with the columns' names (1)"
    )
    words.add_argument("--decimal-comma", action="store_true", help="rates are written as 5,31")
    words.add_argument(
        "--where",
        action="append",
        type=_pair,
        default=[],
        metavar="COLUMN=TEXT",
        help="only the rows with this text in this column",
    )
    words.add_argument(
        "--skip", action="append", default=[], metavar="TEXT", help="pass over rows with this text as rate"
    )
    words.add_argument("--yes-above-100-percent", action="store_true", help="take rates above 100 percent")
    words.add_argument("-o", "--output", type=Path, metavar="FILE", help="where the file goes (standard output)")
    words.add_argument("--missing", type=Path, metavar="DOC", help="print what this document needs and --fixings lacks")
    words.add_argument("--fixings", type=Path, metavar="FILE", help="a file of fixings, for --missing")
    words.add_argument(
        "--overnight",
        action="append",
        type=int,
        choices=range(1, 9),
        default=[],
        metavar="STREAM",
        help="the daily rates of this stream are meant, which `irs overnight` compounds, for --missing",
    )
    words.add_argument("--until", type=_until, metavar="DATE", help="only fixings up to this day, or `today`")
    words.add_argument(
        "--unused", type=Path, metavar="FILE", help="print the lines of this file that no document needs"
    )
    words.add_argument("--documents", nargs="+", type=Path, default=[], metavar="DOC", help="documents, for --unused")
    words.add_argument("--calendars", nargs="+", type=Path, default=[], metavar="CAL", help="calendar files")
    return words


def _columns(asked: argparse.Namespace) -> Columns:
    if not asked.percent and not asked.decimal:
        raise BadInput("say whether the rates are in percent (--percent) or decimals (--decimal)")
    if asked.index is None and asked.index_column is None:
        raise BadInput("say which index it is: --index NAME or --index-column COLUMN")
    return Columns(
        asked.percent,
        asked.date_column,
        asked.rate_column,
        asked.date_form,
        asked.index,
        asked.tenor,
        asked.index_column,
        asked.tenor_column,
        asked.delimiter,
        asked.decimal_comma,
        asked.header_line,
        tuple(asked.where),
        tuple(asked.skip),
        asked.yes_above_100_percent,
    )


def _listed(keys: Sequence[Key], output: Optional[Path]) -> int:
    write_whole("".join(f"{key.date} {key.tenor} {key.index}\n" for key in keys), output)
    return 1 if keys else 0


def _work(arguments: Optional[List[str]]) -> int:
    asked = parser().parse_args(arguments)
    if [bool(asked.csv), asked.missing is not None, asked.unused is not None].count(True) != 1:
        raise BadInput("give one of CSV files, --missing DOC and --unused FILE; `irs-fixings --help` lists the options")
    at_most_sixteen(asked.calendars)
    if asked.missing is not None:
        return _listed(
            missing(asked.missing, asked.fixings, asked.calendars, asked.overnight, asked.until), asked.output
        )
    if asked.unused is not None:
        if not asked.documents:
            raise BadInput("--unused needs --documents DOC..")
        return _listed(unused(asked.unused, asked.documents, asked.calendars), asked.output)
    columns = _columns(asked)
    unit = "percent" if asked.percent else "decimals"
    names = ", ".join(path.name for path in asked.csv)
    remark = f"from {names}, column {columns.rate} in {unit}, made {datetime.date.today()}; not proved"
    found = fixings_of(asked.csv, columns)
    write_whole(text_of(found, [remark]), asked.output)
    weekend = sum(key.date.weekday() >= 5 for key in found)
    if weekend:
        print(
            f"irs-fixings: {weekend} of {len(found)} dates are Saturdays or Sundays: is {columns.date_form} right?",
            file=sys.stderr,
        )
    return 0


def main(arguments: Optional[List[str]] = None) -> int:
    """Runs the command: 0 where it is done, 1 where a fixing is missing or unused, 2 for bad input."""
    return ended("irs-fixings", _work, arguments)


if __name__ == "__main__":
    sys.exit(main())
