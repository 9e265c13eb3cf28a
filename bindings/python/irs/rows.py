"""The rows of the texts that the library prints, as named tuples.

Dates are `datetime.date`, amounts, notionals and rates `decimal.Decimal` with the decimals that the text
has, fractions `fractions.Fraction`. What isn't known as a fixing is missing is `None`. All numbers count
from 1.
"""
from __future__ import annotations

import datetime
from datetime import date
from decimal import Decimal
from fractions import Fraction
from typing import Any, Callable, Dict, List, NamedTuple, Optional, Tuple, Union


class Stream(NamedTuple):
    """A stream: its currency, its day count as FpML names it, and whether it pays a floating rate."""

    stream: int
    currency: str
    day_count: str
    floating: bool


class Exchange(NamedTuple):
    """A principal exchange. A positive amount is paid by the stream's payer."""

    stream: int
    number: int
    unadjusted: date
    adjusted: date
    amount: Decimal


class Payment(NamedTuple):
    """A payment over the calculation periods from the first to the last."""

    stream: int
    number: int
    unadjusted: date
    adjusted: date
    first_period: int
    last_period: int
    amount: Optional[Decimal]


class Period(NamedTuple):
    """A calculation period. The rate has the spread in it; 0.05 is 5%."""

    stream: int
    number: int
    start: date
    end: date
    adjusted_start: date
    adjusted_end: date
    days: int
    fraction: Fraction
    notional: Decimal
    rate: Optional[Decimal]


class Reset(NamedTuple):
    """The reset of a period of a floating stream."""

    stream: int
    number: int
    reset: date
    fixing: date
    observed: Optional[Decimal]


class Net(NamedTuple):
    """What falls due between the two parties on a day in a currency, positive where the payer of stream
    1 pays it; `unknown` payments of that day wait for a fixing and aren't in the amount."""

    date: date
    currency: str
    amount: Decimal
    unknown: int


class Accrued(NamedTuple):
    """What has accrued in the running period of a stream; `period` is `None` where none runs."""

    stream: int
    period: Optional[int]
    days: Optional[int]
    fraction: Optional[Fraction]
    amount: Optional[Decimal]


class Derived(NamedTuple):
    """A rate that is derived from fixings, as a line of a fixing file has it."""

    date: date
    rate: Decimal
    tenor: Optional[str]
    index: str  # type: ignore[assignment]


class Missing(NamedTuple):
    """A period whose rate isn't there, and the first day whose fixing lacks."""

    period: int
    date: date


class PeriodFactor(NamedTuple):
    """What the daily rates of a period make: `method` is ``Compounding``, with the last factor, or ``Averaging``, with
    the sum of rates times days. `factor` is `None` where a rate isn't there. A stub with a rate of its own has the
    method ``stub`` and no factor."""

    period: int
    method: str
    factor: Optional[Decimal]


class Observation(NamedTuple):
    """A day of a period that takes a daily rate: its days, the day on which the rate is observed, and the rate, or
    `None` where the fixings lack it."""

    period: int
    date: date
    days: int
    observed: datetime.date
    rate: Optional[Decimal]


class Yes(NamedTuple):
    """The cash flows agree: how many rows the schedule has, and how many payments wait for a fixing."""

    rows: int
    unfixed: int


class No(NamedTuple):
    """The first departure of the cash flows from the schedule."""

    stream: int
    kind: str
    row: int
    field: str


#: A value of a field on one side of a break: a day, a number, a fraction, or a currency.
BreakValue = Union[date, Decimal, Fraction, int, str]


class Break(NamedTuple):
    """One difference between the schedule and the cash flows of another party.

    `kind` is ``stream``, ``exchange``, ``payment``, ``period`` or ``reset``. `what` is the field that differs, or
    ``missing`` (a row of the schedule that the flows lack), ``extra`` (a row that only the flows have) or
    ``undated`` (a row of the flows without its date). `date` is the schedule's date of the row, else the flows'.
    `ours` and `theirs` are the values of the field; of a whole row they are its amount, notional or observed rate.
    `None` is what isn't there, isn't known, or isn't stated.
    """

    stream: int
    kind: str
    date: Optional[date]
    our_number: Optional[int]
    their_number: Optional[int]
    what: str
    ours: Optional[BreakValue]
    theirs: Optional[BreakValue]


class Breaks(NamedTuple):
    """The breaks in order; the number of pairs of rows, and of fields of pairs that are compared, not stated by the
    flows, and not known to the schedule as a fixing is missing."""

    rows: List[Break]
    pairs: int
    compared: int
    unstated: int
    unknown: int


Row = Union[Stream, Exchange, Payment, Period, Reset]
Verdict = Union[Yes, No]


def _amount(text: str) -> Optional[Decimal]:
    return None if text == "-" else Decimal(text)


def _is_floating(text: str) -> bool:
    return text == "float"


def _fraction(text: str) -> Fraction:
    numerator, _, denominator = text.partition("/")
    return Fraction(int(numerator), int(denominator))


_day = date.fromisoformat

_READERS: Dict[str, Tuple[Any, Tuple[Callable[[str], object], ...]]] = {
    "stream": (Stream, (int, str, str, _is_floating)),
    "x": (Exchange, (int, int, _day, _day, Decimal)),
    "p": (Payment, (int, int, _day, _day, int, int, _amount)),
    "c": (Period, (int, int, _day, _day, _day, _day, int, _fraction, Decimal, _amount)),
    "r": (Reset, (int, int, _day, _day, _amount)),
    "n": (Net, (_day, str, Decimal, int)),
}


def row_of(line: str) -> Union[Row, Net]:
    """The row of a line of a schedule or of a net."""
    mark, *fields = line.split(" ")
    kind, readers = _READERS[mark]
    row: Union[Row, Net] = kind(*(read(field) for read, field in zip(readers, fields)))
    return row


def text_lines(text: bytes) -> List[str]:
    """The lines of a text. Each ends in LF alone: an index may have what Unicode takes for the end of a line."""
    return text.decode().split("\n")[:-1]


def inner_lines(text: bytes) -> List[str]:
    """The lines between the header and `end`."""
    return text_lines(text)[1:-1]


def accrued_of(line: str) -> Accrued:
    """What has accrued in a stream, of its line."""
    fields = line.split(" ")
    if fields[2] == "none":
        return Accrued(int(fields[1]), None, None, None, None)
    _, stream, period, days, fraction, amount = fields
    return Accrued(int(stream), int(period), int(days), _fraction(fraction), _amount(amount))


def derived_of(line: str) -> Union[Derived, Missing]:
    """A derived rate, or a missing one, of its line."""
    if line.startswith("# missing "):
        _, _, period, day = line.split(" ")
        return Missing(int(period), _day(day))
    day, rate, tenor, index = line.split(" ", 3)
    return Derived(_day(day), Decimal(rate), None if tenor == "-" else tenor, index)


def _given(text: str, read: Callable[[str], Any]) -> Any:
    return None if text == "-" else read(text)


def observed_of(line: str) -> Union[PeriodFactor, Observation]:
    """A row of `observations`, of its line."""
    mark, *fields = line.split(" ")
    if mark == "c":
        period, method, factor = fields
        return PeriodFactor(int(period), method, _given(factor, Decimal))
    period, day, days, observed, rate = fields
    return Observation(int(period), _day(day), int(days), _day(observed), _given(rate, Decimal))


def _fraction_or_decimal(text: str) -> Union[Fraction, Decimal]:
    return _fraction(text) if "/" in text else Decimal(text)


def _value_reader(what: str) -> Callable[[str], BreakValue]:
    if what.endswith("Date"):
        return _day
    if what == "currency":
        return str
    if what == "calculationPeriodNumberOfDays":
        return int
    if what == "dayCountYearFraction":
        return _fraction_or_decimal
    return Decimal


def break_of(line: str) -> Break:
    """A break, of its line."""
    _, stream, kind, day, our_number, their_number, what, ours, theirs = line.split(" ")
    read = _value_reader(what)
    return Break(
        int(stream),
        kind,
        _given(day, _day),
        _given(our_number, int),
        _given(their_number, int),
        what,
        _given(ours, read),
        _given(theirs, read),
    )


def breaks_of(text: bytes) -> Breaks:
    """The breaks and the counts of the text of `breaks`."""
    *lines, end = text_lines(text)[1:]
    _, _, *counts = end.split(" ")
    pairs, compared, unstated, unknown = map(int, counts)
    return Breaks([break_of(line) for line in lines], pairs, compared, unstated, unknown)


def verdict_of(text: bytes) -> Verdict:
    """The verdict of an audit."""
    fields = text.decode().split()
    if fields[0] == "yes":
        return Yes(int(fields[1]), int(fields[2]))
    _, stream, kind, row, field = fields
    return No(int(stream), kind, int(row), field)
