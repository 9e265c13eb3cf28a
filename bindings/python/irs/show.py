"""`irs-show TERMS`: the schedule of a swap as tables on the terminal, or as CSV, a workbook or
JSON.

TERMS is a document of terms as JSON; `-` reads it from standard input. There is a table a stream
and then the cash flows of all streams in date order. Every number is the engine's; running totals
are sums of its amounts. The engine's answers are proved, and this layout of them isn't.
"""
from __future__ import annotations

import argparse
import json
import os
import sys
from datetime import date
from pathlib import Path
from typing import Dict, Iterator, List, Optional, Sequence

from .arguments import count, day, parser_of
from .due import net_rows, net_table
from .files import whole_file, write_whole
from .inputs import Inputs, calendars_at, read_named
from .ladder import CashFlow, cash_flows, view_sentence, viewer
from .looks import tables_of
from .parties import Parties, parties_of
from .plain import visible
from .printed import StreamText, printed, within
from .replies import ask
from .sheets import csv_text, workbook
from .tables import (
    ADJUSTED_FROM,
    RESET_OF,
    RIGHT,
    Column,
    Table,
    exchange_table,
    flow_table,
    laid_out_rows,
    ledger_table,
    other_dates,
    period_table,
    without,
)
from .tools import BadInput, Parser, ended

#: Columns of the periods that the terminal shows with `--unadjusted` alone.
UNADJUSTED = (*ADJUSTED_FROM.values(), *RESET_OF.values())

#: Columns that only a floating stream fills.
RESETS = ("reset_date", "fixing_date", "observed")

_MOVED = "* Business days or an offset moved this date."

_TOTALS = (
    "Running totals are sums of the engine's amounts shown here, by currency; " "what waits for a fixing isn't in them."
)


class Asked(argparse.Namespace):
    """The words of the command line."""

    terms: Path
    fixings: Optional[Path]
    calendar: List[Path]
    party: Optional[str]
    since: Optional[date]
    until: Optional[date]
    next: Optional[int]
    net: bool
    unadjusted: bool
    table: str
    csv: Optional[str]
    xlsx: Optional[str]
    json: bool


def parser() -> Parser:
    """The words that irs-show takes."""
    made = parser_of("irs-show", __doc__ or "")
    made.add_argument("terms", type=Path, metavar="TERMS", help="the document; - is standard input")
    made.add_argument("--from", dest="since", type=day, metavar="DATE", help="what falls due from that day")
    made.add_argument("--to", dest="until", type=day, metavar="DATE", help="what falls due up to that day")
    made.add_argument(
        "--next",
        type=count,
        nargs="?",
        const=1,
        metavar="N",
        help="the next N cash flows of each stream (1), from --from or today",
    )
    made.add_argument(
        "--net",
        action="store_true",
        help="what falls due between the two parties, in place of the tables",
    )
    made.add_argument(
        "--unadjusted",
        action="store_true",
        help="with the unadjusted dates in columns of their own",
    )
    made.add_argument("--csv", metavar="FILE", help="writes CSV; - is standard output")
    made.add_argument(
        "--table",
        choices=("flows", "periods", "exchanges"),
        default="flows",
        help="the table for --csv (flows)",
    )
    made.add_argument("--xlsx", metavar="FILE", help="writes a workbook")
    made.add_argument("--json", action="store_true", help="prints all tables as JSON")
    return made


def _widths(heads: Sequence[str], rows: Sequence[Sequence[str]]) -> List[int]:
    columns = zip(*rows) if rows else [()] * len(heads)
    return [max(map(len, (head, *cells))) for head, cells in zip(heads, columns)]


def _aligned(columns: Sequence[Column], rows: Sequence[Sequence[str]]) -> Iterator[str]:
    heads = [column.head for column in columns]
    widths = _widths(heads, rows)
    form = "  ".join(f"{{:{'>' if column.kind in RIGHT else '<'}{width}}}" for column, width in zip(columns, widths))
    yield form.format(*heads).rstrip()
    yield "  ".join("-" * width for width in widths)
    for row in rows:
        yield form.format(*row).rstrip()


def _starred(table: Table) -> Table:
    """The table with a star after each date that isn't the one that it was adjusted from."""
    rows = [
        [f"{cell}*" if under else cell for cell, under in zip(row, unders)]
        for row, unders in zip(table.rows, other_dates(table, ADJUSTED_FROM))
    ]
    return Table(table.title, table.columns, rows)


def _stream_table(table: Table, floating: bool, unadjusted: bool) -> Iterator[str]:
    left = [
        "stream",
        "currency",
        "payment",
        *([] if floating else RESETS),
        *([] if unadjusted else UNADJUSTED),
    ]
    kept = without(_starred(table), left)
    yield from _aligned(kept.columns, laid_out_rows(kept))


def stream_lines(stream: StreamText, parties: Parties, unadjusted: bool) -> Iterator[str]:
    """The lines of a stream: its head, its periods, its exchanges."""
    yield parties.heading(stream)
    yield ""
    if stream.periods:
        yield from _stream_table(period_table([stream]), stream.floating, unadjusted)
        yield ""
    if stream.exchanges:
        yield "Principal exchanges; a positive amount is paid by the stream's payer"
        yield ""
        yield from _stream_table(exchange_table([stream]), True, unadjusted)
        yield ""


def flow_lines(flows: Sequence[CashFlow], sentence: str) -> Iterator[str]:
    """The lines of the cash flows in date order."""
    yield f"Cash flows. {sentence}"
    yield ""
    table = ledger_table(flows)
    yield from _aligned(table.columns, laid_out_rows(table))
    yield ""
    yield _TOTALS


def lines(streams: List[StreamText], parties: Parties, party: Optional[str], unadjusted: bool = False) -> Iterator[str]:
    """The lines of the whole look. Raises `UnknownParty` for an unknown party."""
    flows = cash_flows(streams, parties, party)
    above = [line for stream in streams for line in stream_lines(stream, parties, unadjusted)]
    yield from above
    if any("*" in line for line in above):
        yield _MOVED
        yield ""
    yield from flow_lines(flows, view_sentence(parties, viewer(parties, party)))


def _records(table: Table) -> List[Dict[str, Optional[str]]]:
    names = [column.name for column in table.columns]
    return [dict(zip(names, row)) for row in table.rows]


def json_text(streams: List[StreamText], parties: Parties, party: Optional[str]) -> str:
    """All tables as JSON: cells are texts, `null` where a number waits for a fixing."""
    flows = cash_flows(streams, parties, party)
    return json.dumps(
        {
            "seen_from": view_sentence(parties, viewer(parties, party)),
            "streams": [parties.heading(stream) for stream in streams],
            "flows": _records(flow_table(flows)),
            "periods": _records(period_table(streams)),
            "exchanges": _records(exchange_table(streams)),
        },
        indent=1,
    )


def _written(target: str, text: str) -> None:
    write_whole(text, None if target == "-" else Path(target))


def _written_workbook(target: str, content: bytes) -> None:
    with whole_file(Path(target)) as out:
        out.write(content)


def _shown(asked: Asked, streams: List[StreamText], parties: Parties) -> None:
    if asked.csv is not None:
        flows, periods, exchanges = tables_of(streams, parties, asked.party)
        table = {"flows": flows, "periods": periods, "exchanges": exchanges}[asked.table]
        _written(asked.csv, csv_text(table))
    if asked.xlsx is not None:
        sentence = view_sentence(parties, viewer(parties, asked.party))
        _written_workbook(asked.xlsx, workbook(tables_of(streams, parties, asked.party), [sentence]))
    if asked.json:
        print(json_text(streams, parties, asked.party))
    if asked.csv is None and asked.xlsx is None and not asked.json:
        print("\n".join(lines(streams, parties, asked.party, asked.unadjusted)))


def _inputs(asked: Asked) -> Inputs:
    document = read_named(asked.terms)
    fixings = None if asked.fixings is None else read_named(asked.fixings)
    calendars = calendars_at(asked.calendar)
    return Inputs(document, fixings, None, calendars.needed_by(document), calendars.notes)


def _answer(command: str, inputs: Inputs) -> bytes:
    reply = ask(command, inputs)
    if reply.status:
        raise BadInput(f"{reply.line}: {reply.sentence}" if reply.line else reply.sentence)
    return reply.text


def _shown_net(asked: Asked, since: Optional[date], text: bytes, parties: Parties) -> None:
    first, last = str(since or date.min), str(asked.until or date.max)
    rows = [row for row in net_rows(text, parties) if first <= row.day <= last][: asked.next]
    table = net_table(rows)
    if asked.csv is not None:
        _written(asked.csv, csv_text(table))
    if asked.xlsx is not None:
        _written_workbook(asked.xlsx, workbook([table]))
    if asked.json:
        print(json.dumps({"net": _records(table)}, indent=1))
    if asked.csv is None and asked.xlsx is None and not asked.json:
        print("What falls due between the two parties\n")
        print("\n".join(_aligned(table.columns, laid_out_rows(table))))


def _look(asked: Asked) -> None:
    inputs = _inputs(asked)
    for note in inputs.notes:
        print(f"irs-show: {visible(note)}", file=sys.stderr)
    parties = parties_of(inputs.document.content)
    since = asked.since or (date.today() if asked.next is not None else None)
    if asked.net:
        _shown_net(asked, since, _answer("net", inputs), parties)
        return
    streams = within(printed(_answer("schedule", inputs)), since, asked.until, asked.next)
    _shown(asked, streams, parties)


def _run(arguments: Optional[List[str]]) -> int:
    asked = parser().parse_args(arguments, Asked())
    try:
        _look(asked)
        sys.stdout.flush()
    except BrokenPipeError:  # the reader has seen enough
        os.dup2(os.open(os.devnull, os.O_WRONLY), sys.stdout.fileno())
    return 0


def main(arguments: Optional[List[str]] = None) -> int:
    """Shows a schedule; 0 where it is shown, and 2, with a sentence, where there is none."""
    return ended("irs-show", _run, arguments)


if __name__ == "__main__":
    sys.exit(main())
