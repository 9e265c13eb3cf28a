"""What a schedule offers people who look at it: cash flows, CSV, workbooks, a notebook's table
and a picture.

`irs.Schedule` has these methods. They read the schedule's text and the names of the document's
parties, and compute no date, fraction or amount.
"""
from __future__ import annotations

from datetime import date
from functools import cached_property
from pathlib import Path
from typing import IO, Any, List, Optional, Union

from .documents import Document
from .ladder import CashFlow, cash_flows, view_sentence, viewer
from .parties import Parties, parties_of
from .printed import StreamText, printed, within
from .sheets import workbook, write_csv
from .tables import Table, exchange_table, flow_table, period_table

Target = Union[str, Path, IO[str]]


def tables_of(streams: List[StreamText], parties: Parties, party: Optional[str]) -> List[Table]:
    """The tables of streams: their cash flows seen from a party, periods and exchanges.

    Raises `UnknownParty` for an unknown party.
    """
    flows = cash_flows(streams, parties, party)
    return [flow_table(flows), period_table(streams), exchange_table(streams)]


class Looks:
    """The methods of `irs.Schedule` for people. `text` is the schedule's text, and `document` the
    document that it was made of, or `None` where it isn't known."""

    text: bytes
    document: Optional[Document]

    def texts(self) -> List[StreamText]:
        """The rows as the texts that the engine prints, stream by stream."""
        return printed(self.text)

    @cached_property
    def parties(self) -> Parties:
        """The parties of the document, and who pays each stream; empty without the document."""
        return Parties([], {}) if self.document is None else parties_of(self.document)

    def flows(
        self,
        party: Optional[str] = None,
        since: Optional[date] = None,
        until: Optional[date] = None,
        next_of_each: Optional[int] = None,
    ) -> List[CashFlow]:
        """The cash flows of all streams in date order, seen from a party, with running totals by
        currency.

        `party` is the id, the `partyName` or the `partyId` of a party of the document; without it
        the flows are seen from the payer of stream 1. `since` and `until` are the first and the
        last day, and `next_of_each` keeps that many flows of each stream. Raises `UnknownParty`
        for an unknown party.
        """
        return cash_flows(within(self.texts(), since, until, next_of_each), self.parties, party)

    def tables(self, party: Optional[str] = None) -> List[Table]:
        """The tables of the schedule: its cash flows, its periods with resets and payments, its
        exchanges."""
        return tables_of(self.texts(), self.parties, party)

    def to_csv(self, target: Target, table: str = "flows", party: Optional[str] = None) -> None:
        """Writes a table as CSV to a file, or to the file of that name: `table` is ``flows``,
        ``periods`` or ``exchanges``. Raises `ValueError` for another word and for an unknown
        party."""
        names = ("flows", "periods", "exchanges")
        if table not in names:
            raise ValueError(f"a table is one of {', '.join(names)}")
        asked = self.tables(party)[names.index(table)]
        if isinstance(target, (str, Path)):
            with open(target, "w", newline="", encoding="utf-8") as file:
                write_csv(asked, file)
        else:
            write_csv(asked, target)

    def to_excel(self, target: Union[str, Path, IO[bytes]], party: Optional[str] = None) -> None:
        """Writes a workbook with a sheet for each of `tables`, to a file or to the file of that
        name.

        Raises `MissingPackage` where openpyxl isn't installed and `UnknownParty` for an unknown
        party.
        """
        content = self.workbook(party)
        if isinstance(target, (str, Path)):
            Path(target).write_bytes(content)
        else:
            target.write(content)

    def _view(self, party: Optional[str]) -> str:
        return view_sentence(self.parties, viewer(self.parties, party))

    def workbook(self, party: Optional[str] = None) -> bytes:
        """The bytes of the workbook that `to_excel` writes."""
        return workbook(self.tables(party), [self._view(party)])

    def _repr_html_(self) -> Optional[str]:
        """The tables for a notebook; `None`, which shows the plain text, where Jinja2 isn't
        installed."""
        from .pages import notebook

        try:
            return notebook(self)
        except ImportError:
            return None

    def plot(self, party: Optional[str] = None) -> Any:
        """A figure of matplotlib: the cash flows by date, an axis a currency, received upwards.

        Raises `MissingPackage` where matplotlib isn't installed and `UnknownParty` for an unknown
        party.
        """
        from .plots import figure_of

        return figure_of(self.flows(party), self._view(party))
