"""Files of fixings (docs/FORMATS.md, 'Fixing files'): from rows of a CSV, and their text.

Nothing here is proved; the engine reads each text before it is used or written. A rate's point is moved from
percent to a decimal, and no rate is rounded.
"""
from __future__ import annotations

import datetime
import re
from dataclasses import dataclass
from decimal import Decimal
from pathlib import Path
from typing import Dict, Iterable, List, Optional, Sequence, Tuple

from .csv_rows import Row, day_of, field_of, rows_of
from .end_lines import with_end
from .files import read_text
from .fixing_needs import Key
from .plain import visible
from .probes import check_fixings
from .tools import BadInput

#: How a rate of a CSV is written: digits with at most one point, perhaps a sign, and no exponent.
NUMBER = re.compile(r"[+-]?([0-9]+\.?[0-9]*|\.[0-9]+)")

#: How many digits a number of a CSV may have: those that `Decimal` keeps exactly.
DIGITS = 28

#: How many decimals a rate of a file of fixings has at most (docs/FORMATS.md).
PLACES = 9


@dataclass(frozen=True)
class Columns:
    """Where a CSV has what a fixing needs, and in which form. `index_column` and `tenor_column` take the place
    of `index` and `tenor` where they are given; `where` keeps the rows with these texts in these columns."""

    percent: bool
    date: str
    rate: str
    date_form: str = "YYYY-MM-DD"
    index: Optional[str] = None
    tenor: str = "-"
    index_column: Optional[str] = None
    tenor_column: Optional[str] = None
    delimiter: str = ","
    decimal_comma: bool = False
    header_line: int = 1
    where: Tuple[Tuple[str, str], ...] = ()
    skip: Tuple[str, ...] = ()
    any_size: bool = False


def rate_of(path: Path, row: Row, columns: Columns) -> Decimal:
    """The rate of a row as a decimal: 5.31 percent is 0.0531. `BadInput` where the text is no number, has more
    than 9 decimals, or is above 1 in size."""
    text = field_of(path, row, columns.rate)
    number = text.replace(",", ".") if columns.decimal_comma else text
    if not NUMBER.fullmatch(number):
        raise BadInput(f"{path} line {row.line}: '{text}' isn't a number")
    if len(number) > DIGITS:
        raise BadInput(f"{path} line {row.line}: the number has more than {DIGITS} digits")
    value = Decimal(number).scaleb(-2 if columns.percent else 0)
    if abs(value) > 1 and not columns.any_size:
        meant = "" if columns.percent else ": is it in percent?"
        raise BadInput(f"{path} line {row.line}: {text} is above 100 percent{meant} (--yes-above-100-percent takes it)")
    exponent = value.normalize().as_tuple().exponent
    if isinstance(exponent, int) and -exponent > PLACES:
        raise BadInput(f"{path} line {row.line}: {text} has more than {PLACES} decimals as a decimal rate")
    return value


def fixings_of(paths: Sequence[Path], columns: Columns) -> Dict[Key, Decimal]:
    """The fixings of CSV files. `BadInput` where a row can't be read, a key has two values, or a file has none."""
    found: Dict[Key, Decimal] = {}
    for path in paths:
        rows = [row for row in rows_of(path, columns.delimiter, columns.header_line) if _is_meant(path, row, columns)]
        if not rows:
            raise BadInput(f"{path} has no fixing")
        for row in rows:
            key, rate = _key_of(path, row, columns), rate_of(path, row, columns)
            if found.setdefault(key, rate) != rate:
                raise BadInput(
                    f"{path} line {row.line}: {key.date} of {key.index} {key.tenor} has two values,"
                    f" {found[key]} and {rate}"
                )
    return found


def _is_meant(path: Path, row: Row, columns: Columns) -> bool:
    chosen = all(field_of(path, row, name) == text for name, text in columns.where)
    return chosen and field_of(path, row, columns.rate) not in columns.skip


def _key_of(path: Path, row: Row, columns: Columns) -> Key:
    index = columns.index if columns.index_column is None else field_of(path, row, columns.index_column)
    tenor = columns.tenor if columns.tenor_column is None else field_of(path, row, columns.tenor_column) or "-"
    return Key(day_of(path, row, columns.date, columns.date_form), tenor, index or "")


def text_of(fixings: Dict[Key, Decimal], remarks: Iterable[str] = ()) -> str:
    """A file of fixings by index, tenor and date with its end line, which the engine has read; `BadInput` where it
    refuses it."""
    lines = [f"# {visible(remark)}" for remark in remarks]
    for key in sorted(fixings, key=_order):
        rate = fixings[key].normalize() if fixings[key] else Decimal(0)
        lines.append(f"{key.date} {rate:f} {key.tenor} {key.index}")
    text = with_end("".join(f"{line}\n" for line in lines))
    check_fixings(text)
    return text


def _order(key: Key) -> Tuple[str, str, datetime.date]:
    return key.index, key.tenor, key.date


def keys_of(path: Path) -> List[Key]:
    """The lines of a file of fixings that the engine takes, without their rates."""
    text = read_text(path)
    check_fixings(text)
    # An index may begin and end with what Unicode takes for a blank.
    lines = (line.strip(" \t\r") for line in text.split("\n") if not line.startswith("#"))
    fields = (re.split(r"[ \t]+", line, maxsplit=3) for line in lines if line)
    return [Key(datetime.date.fromisoformat(day), tenor, index) for day, _, tenor, index in fields]
