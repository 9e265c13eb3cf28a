"""What falls due between the two parties by date and currency: the engine's `net`, for the eye."""
from __future__ import annotations

from decimal import Decimal
from typing import List, NamedTuple

from .parties import Parties
from .rows import inner_lines
from .tables import AMOUNT, DATE, WORD, Column, Table


class NetRow(NamedTuple):
    """What falls due on a day in a currency: who pays it, the amount as the engine prints it
    without its sign, and a note on what isn't known. Where nothing is known the amount is empty.
    """

    day: str
    payer: str
    currency: str
    amount: str
    note: str


def counted(count: int, what: str) -> str:
    """A count and its noun.

    >>> counted(2, "amount")
    '2 amounts'
    """
    return f"{count} {what}{'' if count == 1 else 's'}"


def _row(line: str, parties: Parties) -> NetRow:
    _, day, currency, text, unknown = line.split(" ")
    first = parties.sides[0]
    assert first is not None  # the engine nets only streams that name their parties
    amount = Decimal(text)
    payer = parties.name(first.payer if amount > 0 else first.receiver) if amount else ""
    waiting = "" if unknown == "0" else f"{counted(int(unknown), 'amount')} not known"
    if waiting and not amount:
        return NetRow(day, "", currency, "", waiting)
    return NetRow(day, payer, currency, text.lstrip("-"), f"and {waiting}" if waiting else "")


def net_rows(text: bytes, parties: Parties) -> List[NetRow]:
    """The rows of the text that `net` prints."""
    return [_row(line, parties) for line in inner_lines(text)]


def net_table(rows: List[NetRow]) -> Table:
    """The rows as a table; a row of which nothing is known has an empty amount and its note."""
    columns = [
        Column("date", "Date", DATE),
        Column("payer", "Who pays", WORD),
        Column("currency", "Cur", WORD),
        Column("amount", "Net amount", AMOUNT),
        Column("note", "Note", WORD),
    ]
    return Table("Net", columns, [list(row) for row in rows])
