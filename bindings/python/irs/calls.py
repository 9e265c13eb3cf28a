"""A function a command but for `bulk`: documents in, rows out.

A document, a flow document, a calendar and a file of fixings are bytes or text as docs/FORMATS.md has
them, or a path (`pathlib.Path`), whose file is read. A document is read as XML where it begins with `<`, after a
byte order mark and white space, and else as JSON, whatever the name of its file; it may also be a mapping, which
is written as JSON. A name in a `str` is no path: it would be a document. Every call raises `Refused` where the terms
break a rule, `BadFile` where a file isn't as such files are written, `TooLong` for a file of more than 4,194,304
bytes, `BadWords` for a parameter that the command doesn't take, `OutOfMemory` where memory runs out, and
TypeError for what is no document and no file.
"""
from __future__ import annotations

import datetime
import json
import os
from decimal import Decimal
from functools import cached_property
from pathlib import Path
from typing import Any, Dict, Iterable, Iterator, List, Mapping, Optional, Union

from .documents import word_for
from .errors import error_of
from .library import Answer, Text, run
from .looks import Looks
from .rows import (
    Accrued,
    Breaks,
    Derived,
    Exchange,
    Missing,
    Net,
    Observation,
    Payment,
    Period,
    PeriodFactor,
    Reset,
    Row,
    Stream,
    Verdict,
    accrued_of,
    breaks_of,
    derived_of,
    inner_lines,
    observed_of,
    row_of,
    text_lines,
    verdict_of,
)

File = Union[Text, "os.PathLike[str]"]
Document = Union[File, Mapping[str, Any]]
Day = Union[datetime.date, str]

#: A text of more characters is never taken for the name of a file.
LONGEST_NAME = 1024


class Schedule(Looks):
    """A schedule: its rows in order. `text` has the bytes that the program prints, and `document` the document
    that it was made of, or `None`: it gives the names of the parties to those who look at the schedule.

    `rows`, and what is made of them, are read from the text when they are first asked for.
    """

    def __init__(self, text: bytes, document: Union[Text, Mapping[str, Any], None] = None) -> None:
        self.text = text
        self.document = document

    @cached_property
    def rows(self) -> List[Row]:
        """All rows in the order of the text."""
        return [row_of(line) for line in inner_lines(self.text)]  # type: ignore[misc]

    def __iter__(self) -> Iterator[Row]:
        return iter(self.rows)

    def __len__(self) -> int:
        return max(0, self.text.count(b"\n") - 2)

    def __getitem__(self, place: Union[int, slice]) -> Any:
        return self.rows[place]

    def __eq__(self, other: object) -> bool:
        return isinstance(other, Schedule) and self.text == other.text

    def __hash__(self) -> int:
        return hash(self.text)

    def __repr__(self) -> str:
        told = [f"{it.stream} {it.currency} {'float' if it.floating else 'fixed'}" for it in self.streams]
        return f"<irs.Schedule of {len(self)} rows; {'; '.join(told)}>"

    def of(self, kind: type, stream: Optional[int] = None) -> List[Any]:
        """The rows of one kind, of one stream or of all."""
        return [row for row in self.rows if isinstance(row, kind) and stream in (None, row.stream)]

    @property
    def streams(self) -> List[Stream]:
        """The streams in order."""
        lines = self.text.split(b"\n")
        return [row_of(line.decode()) for line in lines if line.startswith(b"stream ")]  # type: ignore[misc]

    def payments(self, stream: Optional[int] = None) -> List[Payment]:
        """The payments of a stream, or of all."""
        return self.of(Payment, stream)

    def periods(self, stream: Optional[int] = None) -> List[Period]:
        """The calculation periods of a stream, or of all."""
        return self.of(Period, stream)

    def exchanges(self, stream: Optional[int] = None) -> List[Exchange]:
        """The principal exchanges of a stream, or of all."""
        return self.of(Exchange, stream)

    def resets(self, stream: Optional[int] = None) -> List[Reset]:
        """The resets of a stream, or of all."""
        return self.of(Reset, stream)

    def frame(self, kind: type = Payment, numbers: str = "decimal", party: Optional[str] = None) -> Any:
        """The rows of one kind as a pandas DataFrame; payments where nothing is said.

        A column a field, and `currency`, `payer` and `receiver` of the stream, as the document names them.
        Dates are datetime64, or `datetime.date` where one is past what pandas holds (2262). Amounts, rates
        and notionals are `Decimal` with `numbers="decimal"`, or float64. With `party`, an id or a name as in
        `flows`, the column `direction` says whether that party pays or receives the row's amount, `None` where neither
        or where the amount is unknown. ImportError without pandas; ValueError for other `numbers`, for a kind that a
        schedule hasn't, and for an unknown party.
        """
        if numbers not in ("decimal", "float"):
            raise ValueError("numbers are decimal or float")
        if kind not in (Stream, Exchange, Payment, Period, Reset):
            raise ValueError("a schedule has rows of the kinds Stream, Exchange, Payment, Period and Reset")
        from .frames import frame_of

        return frame_of(self, kind, numbers, party)


def _named_instead(text: Text) -> bool:
    """Whether a text is the name of a file, given in the place of the file."""
    if not isinstance(text, str) or len(text) > LONGEST_NAME or "\n" in text or "{" in text:
        return False
    try:
        return os.path.exists(text)
    except ValueError:
        return False


def content(file: File) -> Text:
    """What a file holds: a path is read, and bytes and texts are as they are; TypeError for anything else."""
    if isinstance(file, os.PathLike):
        return Path(file).read_bytes()
    if not isinstance(file, (str, bytes, bytearray, memoryview)):
        raise TypeError(f"a file is bytes, text or a path, and not {type(file).__name__}")
    if _named_instead(file):
        raise TypeError(f"{file!r} is the name of a file: give pathlib.Path({file!r})")
    return file


def _leaf(value: object) -> str:
    """A value of Python as the text of a leaf: a decimal with its digits, a day as FpML writes it."""
    if isinstance(value, Decimal):
        return f"{value:f}"
    if isinstance(value, datetime.date) and not isinstance(value, datetime.datetime):
        return value.isoformat()
    raise TypeError(f"a document has texts, whole numbers, decimals and days, and no {type(value).__name__}")


def _document(document: Document) -> Text:
    if isinstance(document, Mapping):
        return json.dumps(document, default=_leaf)
    return content(document)


def _day(day: Day) -> str:
    if isinstance(day, datetime.datetime):
        day = day.date()
    if isinstance(day, datetime.date):
        return day.isoformat()
    if isinstance(day, str):
        return day
    raise TypeError(f"a day is a datetime.date or a text as 2024-04-15, and not {type(day).__name__}")


def _calendars(calendars: Iterable[File]) -> List[Text]:
    if isinstance(calendars, (str, bytes, bytearray, memoryview, os.PathLike)):
        raise TypeError("calendars are a list of files: write [calendar] for one")
    return [content(calendar) for calendar in calendars]


def _asked(parts: List[Text], files: Dict[str, Text], calendars: Iterable[File]) -> Answer:
    words = list(parts)
    for number, calendar in enumerate(_calendars(calendars), 1):
        name = f"calendar {number}"
        files[name] = calendar
        words.append(name)
    answer = run(words, files)
    if answer.status > 1:
        line = answer.text.decode().rstrip("\n")
        sentence = "there wasn't enough memory" if answer.status == 7 else answer.sentence
        raise error_of(answer.status, line, sentence)
    return answer


def _of_document(command: str, document: Text, calendars: Iterable[File] = ()) -> Answer:
    name = word_for("document", document)
    return _asked([command, name], {name: document}, calendars)


def _with_rates(
    command: str,
    parameters: List[str],
    document: Text,
    rates: Optional[File],
    calendars: Iterable[File],
    flows: Optional[Text] = None,
) -> bytes:
    name = word_for("document", document)
    files: Dict[str, Text] = {name: document}
    words: List[Text] = [command, *parameters, name]
    if rates is None:
        words.append("-")
    else:
        files["rates"] = content(rates)
        words.append("rates")
    if flows is not None:
        name = word_for("flows", flows)
        files[name] = flows
        words.append(name)
    return _asked(words, files, calendars).text


def check(document: Document, calendars: Iterable[File] = ()) -> None:
    """Asks whether the terms keep every rule; raises `Refused` where they don't."""
    _of_document("check", _document(document), calendars)


def schedule(document: Document, fixings: Optional[File] = None, calendars: Iterable[File] = ()) -> Schedule:
    """The schedule of a document: every period, payment, exchange and reset."""
    text = _document(document)
    return Schedule(_with_rates("schedule", [], text, fixings, calendars), text)


def audit(
    document: Document, flows: Document, fixings: Optional[File] = None, calendars: Iterable[File] = ()
) -> Verdict:
    """Compares cash flows with the schedule: `Yes`, or `No` with the first departure."""
    return verdict_of(_with_rates("audit", [], _document(document), fixings, calendars, flows=_document(flows)))


def breaks(
    document: Document,
    flows: Document,
    fixings: Optional[File] = None,
    calendars: Iterable[File] = (),
    since: Optional[Day] = None,
) -> Breaks:
    """Every difference between cash flows and the schedule, with both values, in order.

    With `since` the exchanges and payments before that day are left aside, on both sides. `BadWords` where it is no day
    of the range.
    """
    start = "-" if since is None else _day(since)
    return breaks_of(_with_rates("breaks", [start], _document(document), fixings, calendars, flows=_document(flows)))


def carrier(document: File) -> bytes:
    """The value of a document in XML, as one line of JSON; `BadWords` where it doesn't begin with `<`."""
    return _of_document("carrier", content(document)).text


def emit(document: Document, fixings: Optional[File] = None, calendars: Iterable[File] = ()) -> bytes:
    """The schedule as cash flows in FpML's elements, one line of JSON."""
    return _with_rates("emit", [], _document(document), fixings, calendars)


def emit_xml(document: Document, fixings: Optional[File] = None, calendars: Iterable[File] = ()) -> bytes:
    """The schedule as cash flows in FpML XML: what :func:`emit` gives, as a document in XML."""
    return _with_rates("emit-xml", [], _document(document), fixings, calendars)


def accrue(
    day: Day, document: Document, fixings: Optional[File] = None, calendars: Iterable[File] = ()
) -> List[Accrued]:
    """What has accrued on a day in each stream; `BadWords` where the text is no day of the range."""
    text = _with_rates("accrue", [_day(day)], _document(document), fixings, calendars)
    return [accrued_of(line) for line in inner_lines(text)]


def net(document: Document, fixings: Optional[File] = None, calendars: Iterable[File] = ()) -> List[Net]:
    """What falls due between the two parties, by date and currency. The streams have to name their
    payer and receiver (rule K8)."""
    text = _with_rates("net", [], _document(document), fixings, calendars)
    return [row_of(line) for line in inner_lines(text)]  # type: ignore[misc]


def _derived(text: bytes) -> List[Union[Derived, Missing]]:
    return [derived_of(line) for line in text_lines(text)[1:]]


def overnight(
    stream: int, document: Document, daily: Optional[File] = None, calendars: Iterable[File] = ()
) -> List[Union[Derived, Missing]]:
    """A rate a calculation period of a floating stream, compounded from the daily rates of its index."""
    return _derived(_with_rates("overnight", [str(stream)], _document(document), daily, calendars))


def observations(
    stream: int, document: Document, fixings: Optional[File] = None, calendars: Iterable[File] = ()
) -> List[Union[PeriodFactor, Observation]]:
    """The days behind each rate of a stream whose terms state an overnight rate (`calculationParameters`): for each
    period a `PeriodFactor`, then its days. `Refused` (K49) for another stream."""
    text = _with_rates("observations", [str(stream)], _document(document), fixings, calendars)
    return [observed_of(line) for line in inner_lines(text)]


def average(
    stream: int,
    kind: str,
    step: str,
    document: Document,
    fixings: Optional[File] = None,
    calendars: Iterable[File] = (),
) -> List[Union[Derived, Missing]]:
    """A rate a calculation period of a floating stream, the mean of rates observed every `step`, as
    ``1W``; `kind` is ``plain`` or ``weighted``, which weighs a rate by its days."""
    return _derived(_with_rates("average", [str(stream), kind, step], _document(document), fixings, calendars))


def interpolate(
    stream: int,
    side: str,
    low: str,
    high: str,
    document: Document,
    fixings: Optional[File] = None,
    calendars: Iterable[File] = (),
) -> Union[Derived, Missing]:
    """The rate of a stub, ``initial`` or ``final``, on the line between the rates of two tenors."""
    parameters = [str(stream), side, low, high]
    return _derived(_with_rates("interpolate", parameters, _document(document), fixings, calendars))[0]
