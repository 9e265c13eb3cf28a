"""The tables that people look at: columns and cells, the same for terminal, CSV, XLSX and HTML.

A cell is the text that the engine prints, or empty where a number waits for a fixing. How a cell
is laid out (thousands separators, per cent, cut zeros) is said by the kind of its column; it
changes no digit.
"""
from __future__ import annotations

from decimal import Decimal
from typing import List, Mapping, NamedTuple, Optional, Sequence, Tuple

from .ladder import RECEIVES, CashFlow
from .printed import PaymentText, PeriodText, ResetText, StreamText, known

#: Kinds of columns. A rate is a decimal that people read in per cent; `mark` and `name` are words.
COUNT, DATE, AMOUNT, NOTIONAL, RATE, FRACTION, WORD = (
    "count",
    "date",
    "amount",
    "notional",
    "rate",
    "fraction",
    "word",
)

#: Kinds whose cells are at the right of their column.
RIGHT = frozenset({COUNT, AMOUNT, NOTIONAL, RATE, FRACTION})

#: Days of the week as `date.weekday` counts them.
WEEKDAYS = ("Mon", "Tue", "Wed", "Thu", "Fri", "Sat", "Sun")


class Column(NamedTuple):
    """A column: the name for files, the head for people, and its kind."""

    name: str
    head: str
    kind: str


class Cell(NamedTuple):
    """A cell for the eye: its text, below it the unadjusted date where that is another one, and
    its place: ``right``, ``right open`` where it waits for a fixing, or empty."""

    text: str
    under: str
    place: str


class Table(NamedTuple):
    """A table: its title, its columns, and rows of cells, `None` where a number waits for a
    fixing and empty where a row has none."""

    title: str
    columns: List[Column]
    rows: List[List[Optional[str]]]

    def column(self, name: str) -> List[Optional[str]]:
        """The cells of the column of that name."""
        place = [column.name for column in self.columns].index(name)
        return [row[place] for row in self.rows]


_FLOW_COLUMNS = [
    Column("date", "Date", DATE),
    Column("weekday", "Day", WORD),
    Column("unadjusted_date", "Unadjusted", DATE),
    Column("stream", "Stream", COUNT),
    Column("kind", "What", WORD),
    Column("number", "No.", COUNT),
    Column("first_period", "First period", COUNT),
    Column("last_period", "Last period", COUNT),
    Column("payer", "Payer", WORD),
    Column("receiver", "Receiver", WORD),
    Column("direction", "Direction", WORD),
    Column("currency", "Currency", WORD),
    Column("amount", "Amount", AMOUNT),
    Column("total", "Running total", AMOUNT),
    Column("waiting", "Not known so far", COUNT),
]


def _optional(value: Optional[object]) -> str:
    return "" if value is None else str(value)


def _plain(amount: Optional[Decimal]) -> Optional[str]:
    return None if amount is None else f"{amount:f}"


def flow_table(flows: Sequence[CashFlow]) -> Table:
    """The cash flows in date order, a line a flow."""
    rows: List[List[Optional[str]]] = [
        [
            flow.date.isoformat(),
            WEEKDAYS[flow.date.weekday()],
            flow.unadjusted.isoformat(),
            str(flow.stream),
            flow.kind,
            str(flow.number),
            _optional(flow.first_period),
            _optional(flow.last_period),
            _optional(flow.payer),
            _optional(flow.receiver),
            flow.direction,
            flow.currency,
            _plain(flow.amount),
            _plain(flow.total) or "",
            str(flow.waiting),
        ]
        for flow in flows
    ]
    return Table("Cash flows", _FLOW_COLUMNS, rows)


def ledger_table(flows: Sequence[CashFlow]) -> Table:
    """The cash flows for the eye: what is received and what is paid in columns of their own,
    unsigned. The last column, how many amounts of the total aren't known, is there only where
    there are any."""
    columns = [
        Column("date", "Date", DATE),
        Column("weekday", "Day", WORD),
        Column("stream", "Stream", COUNT),
        Column("what", "What", WORD),
        Column("currency", "Cur", WORD),
        Column("receives", "Receives", AMOUNT),
        Column("pays", "Pays", AMOUNT),
        Column("total", "Running total", AMOUNT),
        Column("open", "Not known", COUNT),
    ]
    rows = []
    for flow in flows:
        amount = None if flow.amount is None else _plain(flow.amount.copy_abs())
        sides = [amount, ""] if flow.direction == RECEIVES else ["", amount]
        rows.append(
            [
                flow.date.isoformat(),
                WEEKDAYS[flow.date.weekday()],
                str(flow.stream),
                f"{flow.kind} {flow.number}",
                flow.currency,
                *sides,
                _plain(flow.total) or "",
                str(flow.waiting) if flow.waiting else "",
            ]
        )
    table = Table("Cash flows", columns, rows)
    return table if any(table.column("open")) else without(table, ["open"])


_PERIOD_COLUMNS = [
    Column("stream", "Stream", COUNT),
    Column("currency", "Currency", WORD),
    Column("period", "Period", COUNT),
    Column("unadjusted_start", "Unadjusted start", DATE),
    Column("unadjusted_end", "Unadjusted end", DATE),
    Column("start", "Start", DATE),
    Column("end", "End", DATE),
    Column("days", "Days", COUNT),
    Column("fraction", "Fraction", FRACTION),
    Column("notional", "Notional", NOTIONAL),
    Column("rate", "Rate", RATE),
    Column("reset_date", "Reset", DATE),
    Column("fixing_date", "Fixing", DATE),
    Column("observed", "Observed", RATE),
    Column("payment", "Payment", COUNT),
    Column("unadjusted_payment_date", "Unadjusted payment", DATE),
    Column("payment_date", "Paid on", DATE),
    Column("amount", "Amount", AMOUNT),
]


def _reset_cells(reset: Optional[ResetText]) -> List[Optional[str]]:
    return ["", "", ""] if reset is None else [reset.reset, reset.fixing, known(reset.observed)]


def _payment_cells(payment: Optional[PaymentText]) -> List[Optional[str]]:
    if payment is None:
        return ["", "", "", ""]
    return [payment.number, payment.unadjusted, payment.adjusted, known(payment.amount)]


def _period_row(stream: StreamText, period: PeriodText, payment: Optional[PaymentText]) -> List[Optional[str]]:
    return [
        str(stream.stream),
        stream.currency,
        period.number,
        period.start,
        period.end,
        period.adjusted_start,
        period.adjusted_end,
        period.days,
        period.fraction,
        period.notional,
        known(period.rate),
        *_reset_cells(stream.resets.get(period.number)),
        *_payment_cells(payment),
    ]


def period_table(streams: Sequence[StreamText]) -> Table:
    """The calculation periods with their resets; a payment is on the line of its last
    period."""
    rows = []
    for stream in streams:
        payments = stream.payment_of()
        rows += [_period_row(stream, period, payments.get(period.number)) for period in stream.periods]
    return Table("Periods", _PERIOD_COLUMNS, rows)


def exchange_table(streams: Sequence[StreamText]) -> Table:
    """The principal exchanges, as the engine prints them: a positive amount is paid by the
    stream's payer."""
    columns = [
        Column("stream", "Stream", COUNT),
        Column("currency", "Currency", WORD),
        Column("exchange", "Exchange", COUNT),
        Column("unadjusted_date", "Unadjusted", DATE),
        Column("date", "Date", DATE),
        Column("amount", "Amount", AMOUNT),
    ]
    rows: List[List[Optional[str]]] = [
        [str(stream.stream), stream.currency, row.number, row.unadjusted, row.adjusted, row.amount]
        for stream in streams
        for row in stream.exchanges
    ]
    return Table("Exchanges", columns, rows)


#: Columns of dates, and those of the dates that they were adjusted from.
ADJUSTED_FROM = {
    "start": "unadjusted_start",
    "end": "unadjusted_end",
    "payment_date": "unadjusted_payment_date",
    "date": "unadjusted_date",
}

#: The column of fixing dates, and that of the reset dates that they are counted from.
RESET_OF = {"fixing_date": "reset_date"}


def without(table: Table, names: Sequence[str]) -> Table:
    """The table without the columns of these names."""
    places = [place for place, column in enumerate(table.columns) if column.name not in names]
    return Table(
        table.title,
        [table.columns[place] for place in places],
        [[row[place] for place in places] for row in table.rows],
    )


def _grouped(digits: str) -> str:
    return f"{int(digits):,}" if digits.isdigit() and not digits.startswith("0") else digits


def _decimals(text: str) -> int:
    return len(text.partition(".")[2].rstrip("0"))


def separated(text: str, places: Optional[int] = None) -> str:
    """A printed number with thousands separators; with `places`, zeros after that many decimals
    go.

    >>> separated("-1234567.5000", 2)
    '-1,234,567.50'
    """
    sign, digits = ("-", text[1:]) if text.startswith("-") else ("", text)
    whole, _, part = digits.partition(".")
    if places is not None:
        part = part[:places]
    return f"{sign}{_grouped(whole)}{'.' if part else ''}{part}"


def per_cent(text: str, places: int = 7) -> str:
    """A printed rate in per cent, by moving its point; `places` decimals are shown and the rest
    are zeros.

    >>> per_cent("0.055000000", 2)
    '5.50%'
    """
    sign, digits = ("-", text[1:]) if text.startswith("-") else ("", text)
    whole, _, part = digits.partition(".")
    part = part.ljust(2, "0")
    moved = (whole + part[:2]).lstrip("0") or "0"
    return f"{sign}{moved}{'.' if places else ''}{part[2:2 + places]}%"


def _places(column: Column, cells: Sequence[Optional[str]]) -> int:
    used = max((_decimals(cell) for cell in cells if cell), default=0)
    return max(used - 2, 4) if column.kind == RATE else max(used, 2)


def laid_out(column: Column, cells: Sequence[Optional[str]], waits: str) -> List[str]:
    """The cells of a column for the eye, with `waits` for a number that isn't known."""
    if column.kind == RATE:
        places = _places(column, cells)
        return [waits if cell is None else per_cent(cell, places) if cell else "" for cell in cells]
    if column.kind in (AMOUNT, NOTIONAL):
        kept = _places(column, cells) if column.kind == NOTIONAL else None
        return [waits if cell is None else separated(cell, kept) for cell in cells]
    return [waits if cell is None else cell for cell in cells]


def laid_out_rows(table: Table, waits: str = "waits") -> List[List[str]]:
    """The rows of a table for the eye."""
    columns = [
        laid_out(column, [row[place] for row in table.rows], waits) for place, column in enumerate(table.columns)
    ]
    return [list(row) for row in zip(*columns)]


def other_dates(table: Table, others: Mapping[str, str]) -> List[List[str]]:
    """For each cell the date of the column that `others` names beside its own, where that is
    another date, else empty."""
    names = [column.name for column in table.columns]
    places = [names.index(others[name]) if others.get(name) in names else None for name in names]
    return [
        [(row[place] or "") if place is not None and row[place] != cell else "" for cell, place in zip(row, places)]
        for row in table.rows
    ]


def _unders(table: Table) -> List[List[str]]:
    adjusted, resets = other_dates(table, ADJUSTED_FROM), other_dates(table, RESET_OF)
    return [
        [f"from {day}" if day else f"reset {reset}" if reset else "" for day, reset in zip(*rows)]
        for rows in zip(adjusted, resets)
    ]


def cells_of(table: Table, waits: str = "waits") -> List[List[Cell]]:
    """The cells of a table for the eye, row by row."""
    sides = ["right" if column.kind in RIGHT else "" for column in table.columns]
    return [
        [
            Cell(text, under, "right open" if printed is None else side)
            for text, under, printed, side in zip(texts, unders, row, sides)
        ]
        for texts, unders, row in zip(laid_out_rows(table, waits), _unders(table), table.rows)
    ]


def folded(table: Table, left_out: Sequence[str] = ()) -> Tuple[List[Column], List[List[Cell]]]:
    """The columns and cells of a table, with each unadjusted date under its adjusted one in place
    of a column of its own, and without the columns of these names."""
    gone = {*ADJUSTED_FROM.values(), *RESET_OF.values(), *left_out}
    places = [place for place, column in enumerate(table.columns) if column.name not in gone]
    cells = cells_of(table)
    return [table.columns[place] for place in places], [[row[place] for place in places] for row in cells]
