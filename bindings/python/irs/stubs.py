"""Which periods the terms ask to be stubs, and which index a period observes: from the document's
own texts.

Sources: FpML's `firstRegularPeriodStartDate`, `lastRegularPeriodEndDate`, `stubPeriodType` and
`stubCalculationPeriodAmount`. The engine decides what a stub is; here is what the terms ask for.
"""
from __future__ import annotations

from typing import Any, Set

from .documents import child_of, text_at
from .words import index_of


def _day(element: Any, *names: str) -> str:
    return (text_at(element, *names) or "").rstrip("Z")


def stubs_of(stream: Any, periods: int) -> Set[int]:
    """The numbers of the periods that the terms of a stream ask to be stubs: the first, the last,
    or both."""
    dates = child_of(stream, "calculationPeriodDates")
    start = _day(dates, "firstPeriodStartDate", "unadjustedDate") or _day(dates, "effectiveDate", "unadjustedDate")
    first, last = _day(dates, "firstRegularPeriodStartDate"), _day(dates, "lastRegularPeriodEndDate")
    kind = "" if first or last else text_at(dates, "stubPeriodType") or ""
    initial = kind.endswith("Initial") or bool(first) and first != start
    final = kind.endswith("Final") or bool(last) and last != _day(dates, "terminationDate", "unadjustedDate")
    return {number for number, asked in ((1, initial), (periods, final)) if asked and periods}


def index_of_period(stream: Any, number: int, periods: int) -> str:
    """The index and tenor that a period of a floating stream observes, as the document names them.

    A period with an `initialStub` or a `finalStub` of a `floatingRate` observes that one. Where the terms state an
    overnight rate it is its daily rates.
    """
    for element, place in (("initialStub", 1), ("finalStub", periods)):
        floating = child_of(stream, "stubCalculationPeriodAmount", element, "floatingRate")
        if number == place and floating is not None:
            return index_of(floating)
    floating = child_of(stream, "calculationPeriodAmount", "calculation", "floatingRateCalculation")
    daily = child_of(floating, "calculationParameters") is not None
    return f"daily rates of {index_of(floating)}" if daily else index_of(floating)
