"""Two sets of cash flows, a row of ours above the row of theirs: ours as the engine emits them, and another party's as
they state them.

Which rows belong together and which cell departs is the engine's answer and never this module's: it marks the
cells that `breaks` names. Texts are shown as they are stated.
"""
from __future__ import annotations

import re
from typing import Any, Dict, FrozenSet, List, NamedTuple, Optional, Sequence, Tuple

from .documents import child_of, items_of, streams_of, text_at
from .plain import brief
from .rows import inner_lines, text_lines
from .tables import separated

#: The kinds of rows and their fields, in the order of docs/FORMATS.md, 'Cash flows'.
FIELDS = {
    "exchange": (
        "unadjustedPrincipalExchangeDate",
        "adjustedPrincipalExchangeDate",
        "principalExchangeAmount",
    ),
    "payment": (
        "unadjustedPaymentDate",
        "adjustedPaymentDate",
        "calculationPeriod",
        "currency",
        "amount",
    ),
    "period": (
        "unadjustedStartDate",
        "unadjustedEndDate",
        "adjustedStartDate",
        "adjustedEndDate",
        "calculationPeriodNumberOfDays",
        "notionalAmount",
        "rate",
        "dayCountYearFraction",
    ),
    "reset": ("resetDate", "adjustedFixingDate", "observedRate"),
}

#: The fields' names for people.
HEADS = {
    "unadjustedPrincipalExchangeDate": "Unadjusted",
    "adjustedPrincipalExchangeDate": "Date",
    "principalExchangeAmount": "Amount",
    "unadjustedPaymentDate": "Unadjusted",
    "adjustedPaymentDate": "Paid on",
    "calculationPeriod": "Periods",
    "currency": "Currency",
    "amount": "Amount",
    "unadjustedStartDate": "Unadj. start",
    "unadjustedEndDate": "Unadj. end",
    "adjustedStartDate": "Start",
    "adjustedEndDate": "End",
    "calculationPeriodNumberOfDays": "Days",
    "notionalAmount": "Notional",
    "rate": "Rate",
    "dayCountYearFraction": "Fraction",
    "resetDate": "Reset",
    "adjustedFixingDate": "Fixing",
    "observedRate": "Observed",
}

#: The fields that are numbers.
NUMBERS = frozenset(
    {
        "principalExchangeAmount",
        "calculationPeriod",
        "amount",
        "calculationPeriodNumberOfDays",
        "notionalAmount",
        "rate",
        "dayCountYearFraction",
        "observedRate",
    }
)

_DECIMAL = re.compile(r"-?\d+(\.\d+)?")

_SEPARATED = frozenset({"principalExchangeAmount", "amount", "notionalAmount"})

Fields = Dict[str, str]

#: Breaks of a whole row: of one side alone, or without its date.
WHOLE = frozenset({"missing", "extra", "undated"})

#: The number that `breaks` prints where a side has no row.
NO_ROW = "-"


class Line(NamedTuple):
    """A break as the engine prints it: its stream, kind and date, the numbers of the row on both sides, what differs,
    and both values."""

    stream: int
    kind: str
    date: str
    our_number: str
    their_number: str
    what: str
    ours: str
    theirs: str

    def cells(self) -> List[str]:
        """Its texts as the page shows them: both numbers of the row before both values, which have separators where
        they are amounts."""
        field = "amount" if self.what in WHOLE else self.what
        values = [_laid_out(field, text) for text in (self.ours, self.theirs)]
        return [str(self.stream), self.kind, self.date, self.what, self.our_number, self.their_number, *values]


class Counts(NamedTuple):
    """The counts at the end of the engine's breaks."""

    breaks: int
    pairs: int
    compared: int
    unstated: int
    unknown: int


class Pair(NamedTuple):
    """A row with breaks: its date, its number and its cells on both sides, `None` where a side has none, and the fields
    that are marked."""

    date: str
    our_number: str
    their_number: str
    ours: Optional[List[str]]
    theirs: Optional[List[str]]
    marked: FrozenSet[str]


class Comparison(NamedTuple):
    """The rows with breaks of one kind in one stream, on both sides."""

    stream: int
    kind: str
    fields: Sequence[str]
    pairs: List[Pair]


def _text(row: Any, *names: str) -> str:
    return brief(text_at(row, *names) or "")


def _exchange(row: Any) -> Fields:
    return {field: _text(row, field) for field in FIELDS["exchange"]}


def _payment(row: Any) -> Fields:
    return {
        "unadjustedPaymentDate": _text(row, "unadjustedPaymentDate"),
        "adjustedPaymentDate": _text(row, "adjustedPaymentDate"),
        "calculationPeriod": str(len(items_of(row, "calculationPeriod"))),
        "currency": _text(row, "forecastPaymentAmount", "currency"),
        "amount": _text(row, "forecastPaymentAmount", "amount"),
    }


def _period(row: Any) -> Fields:
    fields = {field: _text(row, field) for field in FIELDS["period"]}
    return {
        **fields,
        "rate": _text(row, "fixedRate") or _text(row, "floatingRateDefinition", "calculatedRate"),
    }


def _reset(row: Any) -> Fields:
    observation = child_of(row, "floatingRateDefinition", "rateObservation")
    return {field: _text(observation, field) for field in FIELDS["reset"]}


def _rows(stream: Any) -> Dict[str, Dict[int, Fields]]:
    flows = child_of(stream, "cashflows")
    payments = items_of(flows, "paymentCalculationPeriod")
    periods = [period for payment in payments for period in items_of(payment, "calculationPeriod")]
    observed = {
        number: _reset(period)
        for number, period in enumerate(periods, 1)
        if child_of(period, "floatingRateDefinition", "rateObservation") is not None
    }
    return {
        "exchange": dict(enumerate(map(_exchange, items_of(flows, "principalExchange")), 1)),
        "payment": dict(enumerate(map(_payment, payments), 1)),
        "period": dict(enumerate(map(_period, periods), 1)),
        "reset": observed,
    }


def _laid_out(field: str, text: str) -> str:
    return separated(text) if field in _SEPARATED and _DECIMAL.fullmatch(text) else text


def _cells(kind: str, row: Optional[Fields]) -> Optional[List[str]]:
    return None if row is None else [_laid_out(field, row[field]) for field in FIELDS[kind]]


def _marked(kind: str, lines: Sequence[Line]) -> FrozenSet[str]:
    what = frozenset(line.what for line in lines)
    return frozenset(FIELDS[kind]) if what & WHOLE else what


def _pair(kind: str, lines: Sequence[Line], ours: Dict[int, Fields], theirs: Dict[int, Fields]) -> Pair:
    first = lines[0]

    def cells(rows: Dict[int, Fields], number: str) -> Optional[List[str]]:
        return None if number == NO_ROW else _cells(kind, rows.get(int(number)))

    return Pair(
        first.date,
        first.our_number,
        first.their_number,
        cells(ours, first.our_number),
        cells(theirs, first.their_number),
        _marked(kind, lines),
    )


def _grouped(lines: Sequence[Line]) -> Dict[Tuple[int, str], Dict[Tuple[str, str], List[Line]]]:
    found: Dict[Tuple[int, str], Dict[Tuple[str, str], List[Line]]] = {}
    for line in lines:
        rows = found.setdefault((line.stream, line.kind), {})
        rows.setdefault((line.our_number, line.their_number), []).append(line)
    return found


def _side(document: Any) -> List[Dict[str, Dict[int, Fields]]]:
    return [_rows(stream) for stream in streams_of(document)]


def _rows_at(side: Sequence[Dict[str, Dict[int, Fields]]], stream: int, kind: str) -> Dict[int, Fields]:
    return side[stream - 1][kind] if stream <= len(side) else {}


def side_by_side(ours: Any, theirs: Any, lines: Sequence[Line]) -> List[Comparison]:
    """The rows with breaks by stream and kind, those of both sides in one line, as the engine pairs them.

    `ours` and `theirs` are the values of documents of cash flows (docs/FORMATS.md, 'Cash flows'), `ours` as `emit`
    prints it; `lines` are the engine's breaks. A stream of one side alone has no rows here.
    """
    left, right = _side(ours), _side(theirs)
    return [
        Comparison(
            stream,
            kind,
            FIELDS[kind],
            [_pair(kind, row, _rows_at(left, stream, kind), _rows_at(right, stream, kind)) for row in rows.values()],
        )
        for (stream, kind), rows in _grouped(lines).items()
        if kind in FIELDS
    ]


def lines_of(text: bytes) -> List[Line]:
    """The breaks of the text of `breaks`, as they are printed."""
    rows = [line.split(" ")[1:] for line in inner_lines(text)]
    return [Line(int(stream), *rest) for stream, *rest in rows]


def counts_of(text: bytes) -> Counts:
    """The counts of the text of `breaks`."""
    return Counts(*map(int, text_lines(text)[-1].split(" ")[1:]))
