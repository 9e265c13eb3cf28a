"""`irs-new --like KIND-TENOR`: the terms of a swap on standard output, ready for the engine.

    irs-new --like usd-sofr-5y > terms.json
    irs-new --like eur-euribor-5y --start 2025-03-19 --notional 50000000 --fixed-rate 0.0245 -o eur.json
    irs-new --list

KIND is a row of the table that --list prints, TENOR a number and d, w, m or y. What isn't given is the table's or an
example's, and all of it is written out in the document. The engine checks the document with calendars in which
every day is a business day; whether your calendars do, `irs check` says. Nothing else of this is proved.
"""
from __future__ import annotations

import argparse
import json
import sys
from pathlib import Path
from typing import Any, Dict, List, Mapping, Optional, Tuple

from .builder import Overnight, swap
from .calls import check
from .conventions import TABLE
from .documents import texts_of
from .errors import Refused
from .files import write_whole
from .tools import BadInput, Parser, ended

#: The words of :func:`irs.swap` that are options of the same name, and what each says.
OPTIONS: Mapping[str, str] = {
    "start": "the effective date, as 2025-01-15",
    "end": "the termination date, in the place of the tenor",
    "notional": "the notional of both streams",
    "fixed_rate": "the fixed rate as a decimal: 0.03 is 3 percent",
    "spread": "the spread on the floating rate, as a decimal",
    "pay": "what the first party pays: fixed or floating",
    "index": "the floating rate index",
    "index_tenor": "its tenor, as 6M",
    "fixed_frequency": "the periods of the fixed stream, as 1Y",
    "fixed_day_count": "its day count fraction, as 30/360",
    "floating_frequency": "the periods of the floating stream",
    "floating_day_count": "its day count fraction",
    "floating_payment_frequency": "its payments, where several periods are paid at once",
    "compounding": "None, Straight, Flat or SpreadExclusive",
    "roll": "the roll convention, as 15, EOM or IMM",
    "stub": "ShortInitial, LongInitial, ShortFinal or LongFinal",
    "first_regular": "the first regular period start date",
    "last_regular": "the last regular period end date",
    "convention": "the business day convention, as MODFOLLOWING",
}

#: Options that are whole numbers.
NUMBERS: Mapping[str, str] = {
    "payment_days": "business days from the end of a period to its payment",
    "fixing_days": "business days from the start of a period to its fixing, as -2",
    "rounding": "decimals of the rate as a decimal, as 7",
}

#: Options that are lists.
LISTS: Mapping[str, str] = {
    "centres": "business centres of periods and payments",
    "fixing_centres": "business centres of fixings",
    "parties": "the two parties, the first one first",
}


def _flag(name: str) -> str:
    return "--" + name.replace("_", "-")


def parser() -> Parser:
    """The parser of the command's words."""
    words = Parser(prog="irs-new", description=__doc__, formatter_class=argparse.RawDescriptionHelpFormatter)
    words.add_argument("--like", metavar="KIND-TENOR", help="as usd-sofr-5y; KIND alone with --end")
    words.add_argument("--list", action="store_true", help="the kinds of swap and their conventions")
    for name, meaning in OPTIONS.items():
        words.add_argument(_flag(name), help=meaning)
    for name, meaning in NUMBERS.items():
        words.add_argument(_flag(name), type=int, help=meaning)
    for name, meaning in LISTS.items():
        words.add_argument(_flag(name), nargs=2 if name == "parties" else "+", help=meaning)
    daily = words.add_argument_group("overnight rates in the terms (calculationParameters)")
    stated = daily.add_mutually_exclusive_group()
    stated.add_argument(
        "--daily-rates-in-terms",
        action="store_const",
        const=True,
        help="state the daily rates' rules in the terms (so it is where nothing is said)",
    )
    stated.add_argument(
        "--no-daily-rates-in-terms",
        action="store_const",
        const=False,
        dest="daily_rates_in_terms",
        help="a plain floating stream, whose fixings `irs overnight` makes",
    )
    daily.add_argument("--method", choices=("Compounding", "Averaging"), default="Compounding")
    for name in ("observation_shift", "lookback", "lockout"):
        daily.add_argument(_flag(name), type=int, metavar="DAYS")
    words.add_argument("-o", "--output", type=Path, metavar="FILE", help="where the document goes (standard output)")
    return words


def kind_and_tenor(like: str, end: Optional[str]) -> Tuple[str, Optional[str]]:
    """The kind and the tenor in a text such as ``usd-sofr-5y``; with an end the whole text is the kind."""
    if end is not None:
        return like.lower(), None
    kind, dash, tenor = like.lower().rpartition("-")
    if not dash:
        raise BadInput(f"'{like}' has no kind and tenor as usd-sofr-5y has")
    return kind, tenor.upper()


def document_of(asked: argparse.Namespace) -> Dict[str, Any]:
    """The document that the words ask for; `BadInput` where one of them can't be used."""
    if asked.like is None:
        raise BadInput("say what it is like: --like usd-sofr-5y; `irs-new --list` has the kinds")
    kind, tenor = kind_and_tenor(asked.like, asked.end)
    names = (*OPTIONS, *NUMBERS, *LISTS)
    given = {name: getattr(asked, name) for name in names if getattr(asked, name) is not None}
    overnight = Overnight(asked.method, asked.observation_shift, asked.lookback, asked.lockout)
    if asked.daily_rates_in_terms is not None:
        given["daily_rates_in_terms"] = asked.daily_rates_in_terms
    try:
        return swap(kind, tenor=tenor, overnight=overnight, **given)
    except (TypeError, ValueError) as why:
        raise BadInput(str(why)) from why


def check_without_holidays(document: Mapping[str, Any]) -> None:
    """Asks the engine to check a document whose centres have no holidays; `BadInput` with its sentence."""
    centres = dict.fromkeys(texts_of(document, "businessCenter"))
    calendar = "".join(f"center {centre}\ncover 1901-01-01 2299-12-31\nweekend\n" for centre in centres)
    try:
        check(document, [calendar])
    except Refused as why:
        hint = "; a term that isn't a whole number of periods needs --stub" if why.rule in ("K30", "K31") else ""
        raise BadInput(f"the engine refuses these terms: {why.sentence}{hint}") from why


#: What of a document is an example's where it isn't given.
EXAMPLES = ("start", "notional", "fixed_rate", "parties")


def note_of(asked: argparse.Namespace) -> str:
    """A sentence on what in the document is an example's; empty where all of it was given."""
    names = [name.replace("_", " ") for name in EXAMPLES if getattr(asked, name) is None]
    return f"of an example, as not given: {', '.join(names)}" if names else ""


def _work(arguments: Optional[List[str]]) -> int:
    asked = parser().parse_args(arguments)
    if asked.list:
        write_whole(TABLE, asked.output)
        return 0
    document = document_of(asked)
    check_without_holidays(document)
    write_whole(json.dumps(document, indent=1) + "\n", asked.output)
    if note_of(asked):
        print(f"irs-new: {note_of(asked)}", file=sys.stderr)
    return 0


def main(arguments: Optional[List[str]] = None) -> int:
    """Runs the command: 0 where it is done, 2 for bad input."""
    return ended("irs-new", _work, arguments)


if __name__ == "__main__":
    sys.exit(main())
