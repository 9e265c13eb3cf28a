"""`irs-report TRADE.. -o report.html`: one HTML file on one or more trades, which needs nothing
beside it.

TRADE is a document of terms as JSON, NAME.json. What is beside it is used as by irs-book:
NAME.fixings, or a file `fixings` for all; NAME.flows.json, another party's cash flows; and the
folder `calendars`. Options name others. The report has no script and fetches nothing. Every
number is the engine's; running totals are sums of its amounts. The engine's answers are proved,
and this layout of them isn't.
"""
from __future__ import annotations

import argparse
import functools
import sys
from datetime import date
from pathlib import Path
from typing import Callable, List, Optional, Tuple

from .arguments import day, parser_of
from .files import write_whole
from .inputs import Calendars, Inputs, Named, calendars_at, read_named
from .look import look_at
from .pages import environment, report
from .plain import visible
from .tools import BadInput, Parser, ended


class Asked(argparse.Namespace):
    """The words of the command line."""

    trades: List[Path]
    output: Path
    fixings: Optional[Path]
    flows: Optional[Path]
    calendar: List[Path]
    party: Optional[str]
    today: date


def parser() -> Parser:
    """The words that irs-report takes."""
    made = parser_of("irs-report", __doc__ or "")
    made.add_argument("trades", type=Path, nargs="+", metavar="TRADE", help="a document; - is standard input")
    made.add_argument("-o", "--output", type=Path, required=True, metavar="FILE", help="where the report goes")
    made.add_argument("--flows", type=Path, metavar="FILE", help="another party's cash flows, for a single trade")
    made.add_argument(
        "--today",
        type=day,
        default=date.today(),
        metavar="DATE",
        help="the day that the timeline marks",
    )
    return made


def _beside(trade: Path, *names: str) -> Optional[Named]:
    for name in names:
        path = trade.with_name(name)
        if str(trade) != "-" and path.is_file():
            return read_named(path)
    return None


def inputs_of(asked: Asked, trade: Path, calendars_of: Callable[[Tuple[Path, ...]], Calendars]) -> Inputs:
    """The files of a trade: those that options name, else those that are beside it.
    `calendars_of` gives the calendars of paths. Raises `BadInput`."""
    document = read_named(trade)
    fixings = _beside(trade, f"{trade.stem}.fixings", "fixings") if asked.fixings is None else read_named(asked.fixings)
    flows = _beside(trade, f"{trade.stem}.flows.json") if asked.flows is None else read_named(asked.flows)
    folder = trade.with_name("calendars") if str(trade) != "-" else None
    paths = asked.calendar or ([folder] if folder is not None and folder.is_dir() else [])
    calendars = calendars_of(tuple(paths))
    return Inputs(document, fixings, flows, calendars.needed_by(document), calendars.notes)


def _written(arguments: Optional[List[str]]) -> int:
    asked = parser().parse_args(arguments, Asked())
    if asked.flows is not None and len(asked.trades) > 1:
        raise BadInput("--flows goes with a single trade")
    environment()
    # The trades of a folder have their calendars in common: they are tried once.
    calendars_of = functools.lru_cache(maxsize=2)(calendars_at)
    looks = [look_at(inputs_of(asked, trade, calendars_of), asked.today, asked.party) for trade in asked.trades]
    for note in dict.fromkeys(note for look in looks for note in look.notes):
        print(f"irs-report: {visible(note)}", file=sys.stderr)
    write_whole(report(looks), asked.output)
    return 0


def main(arguments: Optional[List[str]] = None) -> int:
    """Writes the report; 0 where it is written, and 2, with a sentence, where it isn't."""
    return ended("irs-report", _written, arguments)


if __name__ == "__main__":
    sys.exit(main())
