"""Rows of a CSV file by the names of its columns, with dates in a stated form.

Nothing here is proved. The forms of dates are those that vendors and central banks send; none is guessed.
"""
from __future__ import annotations

import argparse
import csv
import datetime
import io
from pathlib import Path
from typing import Dict, List, NamedTuple, Optional

from .files import read_text
from .tools import BadInput

#: The forms of dates, by the names that a person writes, and as `strptime` has them. Zeros before a day or a month
#: may be left out where something separates them.
DATE_FORMS: Dict[str, str] = {
    "YYYY-MM-DD": "%Y-%m-%d",
    "YYYYMMDD": "%Y%m%d",
    "MM/DD/YYYY": "%m/%d/%Y",
    "DD/MM/YYYY": "%d/%m/%Y",
    "DD.MM.YYYY": "%d.%m.%Y",
    "DD-MM-YYYY": "%d-%m-%Y",
    "DD-MMM-YYYY": "%d-%b-%Y",
    "DD MMM YYYY": "%d %b %Y",
}


class Row(NamedTuple):
    """A row of a CSV file: its line, from 1, and its fields by the names of the columns."""

    line: int
    fields: Dict[str, str]


def delimiter_of(text: str) -> str:
    """What separates fields: one character that isn't part of a number or a date, or the word ``tab``."""
    if text == "tab":
        return "\t"
    if len(text) != 1 or text.isalnum() or text in '"\r\n+-./':
        raise argparse.ArgumentTypeError(f"'{text}' can't separate fields")
    return text


def rows_of(path: Path, delimiter: str = ",", header_line: int = 1) -> List[Row]:
    """The rows below the header line. Blank lines are passed over, and blanks around a field dropped.

    `BadInput` where the file can't be read, has no header, names a column twice, or has a row of another
    number of fields.
    """
    lines = io.StringIO(read_text(path), newline="")
    for _ in range(header_line - 1):
        lines.readline()
    reader = csv.reader(lines, delimiter=delimiter, strict=True)
    rows: List[Row] = []
    above = header_line - 1
    header: Optional[List[str]] = None
    try:
        for cells in reader:
            fields = [cell.strip() for cell in cells]
            if not any(fields):
                continue
            if header is None:
                header = _header(path, fields)
            elif len(fields) != len(header):
                raise BadInput(
                    f"{path} line {above + reader.line_num} has {len(fields)} fields, the header {len(header)}"
                )
            else:
                rows.append(Row(above + reader.line_num, dict(zip(header, fields))))
    except csv.Error as why:
        raise BadInput(f"{path} line {above + reader.line_num} isn't CSV: {why}") from why
    if header is None:
        raise BadInput(f"{path} has no line")
    return rows


def _header(path: Path, fields: List[str]) -> List[str]:
    twice = sorted({name for name in fields if fields.count(name) > 1})
    if twice:
        raise BadInput(f"{path} names the column '{twice[0]}' twice")
    return fields


def field_of(path: Path, row: Row, column: str) -> str:
    """A field of a row; `BadInput` where the file has no such column."""
    if column not in row.fields:
        raise BadInput(f"{path} has no column '{column}'; it has {', '.join(row.fields)}")
    return row.fields[column]


def day_of(path: Path, row: Row, column: str, form: str) -> datetime.date:
    """The day in a field, in one of `DATE_FORMS`; `BadInput` where the text isn't such a date."""
    text = field_of(path, row, column)
    try:
        if not text.isascii() or (form == "YYYYMMDD" and len(text) != 8):
            raise ValueError
        return datetime.datetime.strptime(text, DATE_FORMS[form]).date()
    except ValueError as why:
        raise BadInput(f"{path} line {row.line}: '{text}' isn't a date in the form {form}") from why
