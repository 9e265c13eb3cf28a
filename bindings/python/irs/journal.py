"""The journal of a run: each outcome as it comes, in a file of SQLite that can be read meanwhile.

The table `outcomes` has a row a trade: name, verdict, status, line, sentence, and the stamp of its files (sizes
and times), by which a resumed run sees what changed. The table `run` says which run it was.
"""
from __future__ import annotations

import contextlib
import sqlite3
import time
from pathlib import Path
from typing import Any, Dict, Iterator, Mapping

from .book import Outcome

TABLES = """
create table if not exists run (what text primary key, said text not null);
create table if not exists outcomes (name text primary key, verdict text not null, status integer, line text not null,
    sentence text not null, stamp text not null);
"""

#: Outcomes are written together after this number of seconds.
SECONDS = 0.5


class Journal:
    """An open journal. `begin` takes up the one that is there, or starts anew."""

    def __init__(self, path: Path) -> None:
        self.path = path
        self.base = sqlite3.connect(str(path), timeout=30.0, isolation_level=None)
        self.written = 0.0

    def begin(self, asked: Mapping[str, str], resume: bool) -> None:
        """Starts anew, or takes up a run that asked for the same; ValueError where it asked for something else."""
        self.base.executescript(TABLES)
        before: Dict[str, str] = dict(self.base.execute("select what, said from run"))
        if resume and before and before != dict(asked):
            differs = sorted(what for what in {*before, *asked} if before.get(what) != asked.get(what))
            raise ValueError(f"the journal {self.path} is of a run with another {', '.join(differs)}")
        self.base.execute("begin")
        if not resume:
            self.base.execute("delete from outcomes")
        self.base.execute("delete from run")
        self.base.executemany("insert into run values (?, ?)", asked.items())
        self.base.execute("commit")

    def stamps(self) -> Dict[str, str]:
        """The stamp of each trade that is done; one that failed is left out, and so tried again."""
        return dict(self.base.execute("select name, stamp from outcomes where verdict <> 'failed'"))

    def add(self, outcome: Outcome, name: str, stamp: str) -> None:
        """Writes an outcome; it is sure to be on the disk after at most half a second, or at `close`."""
        if not self.base.in_transaction:
            self.base.execute("begin")
        self.base.execute(
            "insert or replace into outcomes values (?, ?, ?, ?, ?, ?)",
            (name, outcome.verdict, outcome.status, outcome.line, outcome.sentence, stamp),
        )
        if time.monotonic() - self.written >= SECONDS:
            self.flush()

    def flush(self) -> None:
        """Writes what is waiting."""
        if self.base.in_transaction:
            self.base.execute("commit")
        self.written = time.monotonic()

    def forget(self, names: Iterator[str]) -> None:
        """Drops the outcomes of trades that are in the book no more."""
        with contextlib.closing(self.base.cursor()) as cursor:
            cursor.execute("begin")
            cursor.executemany("delete from outcomes where name = ?", ((name,) for name in names))
            cursor.execute("commit")

    def outcomes(self) -> Iterator[Outcome]:
        """Every outcome in the order of the names, which are as they are shown."""
        rows: Any = self.base.execute("select name, verdict, status, line, sentence from outcomes order by name")
        for row in rows:
            yield Outcome(*row)

    def close(self) -> None:
        """Writes what is waiting, and closes."""
        self.flush()
        self.base.close()
