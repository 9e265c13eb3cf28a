"""Rows of a schedule as a pandas DataFrame."""
from __future__ import annotations

from datetime import date
from decimal import Decimal
from typing import TYPE_CHECKING, Any, List, Optional

from .packages import package
from .parties import Sides

if TYPE_CHECKING:
    from .calls import Schedule


def _direction(row: Any, sides: Optional[Sides], party: str) -> Optional[str]:
    """Whether a party pays or receives the amount of a row: a positive one is paid by the stream's payer."""
    amount = getattr(row, "amount", None)
    if amount is None or sides is None or party not in sides:
        return None
    return "pays" if (party == sides.payer) == (amount >= 0) else "receives"


def _column(pandas: Any, values: List[Any], numbers: str) -> Any:
    known = [value for value in values if value is not None]
    if known and isinstance(known[0], date):
        try:
            return pandas.to_datetime(values)
        except pandas.errors.OutOfBoundsDatetime:
            return values
    if numbers == "float" and known and isinstance(known[0], Decimal):
        return [float("nan") if value is None else float(value) for value in values]
    return values


def frame_of(schedule: "Schedule", kind: Any, numbers: str, party: Optional[str]) -> Any:
    """The rows of one kind; see `Schedule.frame`."""
    pandas = package("pandas", "Schedule.frame()", "pandas", "python3-pandas")
    rows = schedule.of(kind)
    sides = [schedule.parties.side(row.stream) for row in rows]
    currencies = {it.stream: it.currency for it in schedule.streams}
    columns = {name: _column(pandas, [getattr(row, name) for row in rows], numbers) for name in kind._fields}
    columns.setdefault("currency", [currencies[row.stream] for row in rows])
    columns["payer"] = [None if it is None else it.payer for it in sides]
    columns["receiver"] = [None if it is None else it.receiver for it in sides]
    if party is not None:
        seen_from = schedule.parties.find(party)
        columns["direction"] = [_direction(row, it, seen_from) for row, it in zip(rows, sides)]
    return pandas.DataFrame(columns)
