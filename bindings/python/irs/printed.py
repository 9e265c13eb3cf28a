"""The rows of a schedule as the texts that the engine prints, stream by stream.

`irs.Schedule` has the same rows as dates and decimals. Here each field stays the text that was
printed, so that a table shows what the engine says and nothing else.
"""
from __future__ import annotations

from datetime import date
from typing import Dict, List, NamedTuple, Optional, Tuple, Union

from .rows import inner_lines

#: What the engine prints for a number that waits for a fixing.
UNKNOWN = "-"


class ExchangeText(NamedTuple):
    """A principal exchange: an `x` line."""

    number: str
    unadjusted: str
    adjusted: str
    amount: str


class PaymentText(NamedTuple):
    """A payment: a `p` line."""

    number: str
    unadjusted: str
    adjusted: str
    first_period: str
    last_period: str
    amount: str


class PeriodText(NamedTuple):
    """A calculation period: a `c` line."""

    number: str
    start: str
    end: str
    adjusted_start: str
    adjusted_end: str
    days: str
    fraction: str
    notional: str
    rate: str


class ResetText(NamedTuple):
    """The reset of a period: an `r` line."""

    number: str
    reset: str
    fixing: str
    observed: str


class StreamText(NamedTuple):
    """A stream and its rows in order. Resets are by the number of their period."""

    stream: int
    currency: str
    day_count: str
    floating: bool
    exchanges: List[ExchangeText]
    payments: List[PaymentText]
    periods: List[PeriodText]
    resets: Dict[str, ResetText]

    def payment_of(self) -> Dict[str, PaymentText]:
        """The payments by the number of their last period."""
        return {payment.last_period: payment for payment in self.payments}


def printed(text: bytes) -> List[StreamText]:
    """The streams of a schedule's text, with their rows."""
    streams: List[StreamText] = []
    for line in inner_lines(text):
        mark, stream, *fields = line.split(" ")
        if mark == "stream":
            streams.append(StreamText(int(stream), fields[0], fields[1], fields[2] == "float", [], [], [], {}))
        elif mark == "x":
            streams[-1].exchanges.append(ExchangeText(*fields))
        elif mark == "p":
            streams[-1].payments.append(PaymentText(*fields))
        elif mark == "c":
            streams[-1].periods.append(PeriodText(*fields))
        elif mark == "r":
            streams[-1].resets[fields[0]] = ResetText(*fields)
    return streams


def _due(stream: StreamText) -> List[Union[ExchangeText, PaymentText]]:
    rows: List[Tuple[str, int, Union[ExchangeText, PaymentText]]] = [(row.adjusted, 0, row) for row in stream.exchanges]
    rows += [(row.adjusted, 1, row) for row in stream.payments]
    return [row for _, _, row in sorted(rows, key=lambda due: (due[0], due[1], int(due[2].number)))]


def _covered(payments: List[PaymentText]) -> List[str]:
    return [str(number) for row in payments for number in range(int(row.first_period), int(row.last_period) + 1)]


def _within(stream: StreamText, since: str, until: str, count: Optional[int]) -> StreamText:
    due = [row for row in _due(stream) if since <= row.adjusted <= until][:count]
    payments = [row for row in due if isinstance(row, PaymentText)]
    numbers = set(_covered(payments))
    return stream._replace(
        exchanges=[row for row in due if isinstance(row, ExchangeText)],
        payments=payments,
        periods=[row for row in stream.periods if row.number in numbers],
    )


def within(
    streams: List[StreamText],
    since: Optional[date] = None,
    until: Optional[date] = None,
    next_of_each: Optional[int] = None,
) -> List[StreamText]:
    """The streams with the rows alone that fall due from `since` to `until`, both included, and
    their periods.

    `next_of_each` is the number of payments and exchanges that are kept of each stream, from the first on.
    """
    if since is None and until is None and next_of_each is None:
        return streams
    first, last = (since or date.min).isoformat(), (until or date.max).isoformat()
    return [_within(stream, first, last, next_of_each) for stream in streams]


def known(text: str) -> Optional[str]:
    """The text of a number, or `None` where it waits for a fixing."""
    return None if text == UNKNOWN else text
