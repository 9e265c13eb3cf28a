"""Tables as CSV and as workbooks of Excel.

CSV has the printed digits. A workbook has numbers where a spreadsheet keeps every digit of them,
and text where it would drop some (more than 15 digits), so no cell differs from what the engine
prints.
"""
from __future__ import annotations

import csv
import datetime
import io
from decimal import Decimal
from typing import IO, Any, List, Optional, Sequence, Tuple

from .packages import package
from .plain import cell
from .tables import AMOUNT, COUNT, DATE, NOTIONAL, RATE, Column, Table

#: How many digits a number of a spreadsheet keeps.
MOST_DIGITS = 15

#: What each workbook says of itself.
ABOUT = (
    "The numbers are those that the engine prints; an empty cell waits for a fixing.",
    "Running totals are sums of the engine's amounts.",
    "The engine's answers are proved; this workbook's layout is not.",
)


def _word(text: Optional[str], column: Column) -> str:
    if text is None:
        return ""
    return text if column.kind in (AMOUNT, COUNT, DATE, NOTIONAL, RATE) else cell(text)


def write_csv(table: Table, file: IO[str]) -> None:
    """Writes a table as CSV: a header with the columns' names, then the rows."""
    writer = csv.writer(file, lineterminator="\n")
    writer.writerow([column.name for column in table.columns])
    writer.writerows([_word(text, column) for text, column in zip(row, table.columns)] for row in table.rows)


def csv_text(table: Table) -> str:
    """A table as the text of a CSV file."""
    file = io.StringIO(newline="")
    write_csv(table, file)
    return file.getvalue()


def _digits(text: str) -> int:
    return len(text.lstrip("-").replace(".", "").strip("0"))


def _decimals(text: str) -> int:
    return len(text.partition(".")[2])


def _number_format(column: Column, text: str) -> str:
    if column.kind == RATE:
        return "0." + "0" * max(_decimals(text) - 2, 2) + "%"
    part = "." + "0" * _decimals(text) if _decimals(text) else ""
    return "#,##0" + part


def _value(column: Column, text: Optional[str]) -> Tuple[Any, Optional[str]]:
    """The value of a workbook's cell and its number format, `None` for text."""
    if not text:
        return None, None
    if column.kind == DATE:
        return datetime.date.fromisoformat(text), "yyyy-mm-dd"
    if column.kind == COUNT and len(text) <= MOST_DIGITS:
        return int(text), "0"
    if column.kind in (AMOUNT, NOTIONAL, RATE) and _digits(text) <= MOST_DIGITS:
        return Decimal(text), _number_format(column, text)
    return _word(text, column), None


def _row(sheet: Any, table: Table, row: Sequence[Optional[str]], made: Any) -> List[Any]:
    cells = []
    for column, text in zip(table.columns, row):
        value, number_format = _value(column, text)
        written = made(sheet, value=value)
        if number_format is not None:
            written.number_format = number_format
        cells.append(written)
    return cells


def workbook(tables: Sequence[Table], about: Sequence[str] = ()) -> bytes:
    """A workbook with a sheet a table, and a first sheet that says what it is.

    Raises `MissingPackage` where openpyxl isn't installed.
    """
    openpyxl = package("openpyxl", "a workbook", "openpyxl", "python3-openpyxl")
    from openpyxl.cell import WriteOnlyCell

    book = openpyxl.Workbook(write_only=True)
    first = book.create_sheet("About")
    first.column_dimensions["A"].width = 100
    for line in (*about, *ABOUT):
        first.append([WriteOnlyCell(first, value=cell(line))])
    for table in tables:
        sheet = book.create_sheet(table.title)
        sheet.freeze_panes = "A2"
        for place, column in enumerate(table.columns):
            sheet.column_dimensions[openpyxl.utils.get_column_letter(place + 1)].width = max(12, len(column.head) + 2)
        sheet.append([column.head for column in table.columns])
        for row in table.rows:
            sheet.append(_row(sheet, table, row, WriteOnlyCell))
    file = io.BytesIO()
    book.save(file)
    return file.getvalue()
