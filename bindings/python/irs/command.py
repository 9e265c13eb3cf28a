"""`irs-book FOLDER`: a night's run over a folder of documents.

FOLDER has a document a trade, NAME.json, and beside it what it has of NAME.flows.json and NAME.fixings; a
file `fixings` serves each trade that has none of its own, and the folder `calendars` has the calendar files.
--names-from FILE takes the trades from a CSV file instead, with the columns name, document, flows and fixings.

Each outcome goes to the journal as it comes, a file of SQLite; at the end the CSV is written from it, and the
summary goes to standard output. The status is 0 where there is a trade and all agree, 1 where one doesn't, and
2 where the run couldn't be done or was ended.
"""
from __future__ import annotations

import argparse
import contextlib
import csv
import fcntl
import io
import logging
import os
import signal
import sys
from pathlib import Path
from typing import Any, Dict, Iterable, Iterator, List, NoReturn, Optional, Set, Union

from .arguments import count
from .book import COMMANDS, Outcome, Summary, Trade, outcomes, stamp, with_bar
from .common import Common, common_of, loaded
from .files import whole_file
from .journal import Journal
from .library import engine
from .packages import package
from .plain import cell, shown
from .tools import BadInput, Parser, ended

LOG = logging.getLogger("irs.book")

#: The columns of the CSV file.
COLUMNS = ("name", "verdict", "status", "line", "sentence")

#: The columns of a manifest.
MANIFEST = ("name", "document", "flows", "fixings")


class Ended(BaseException):
    """The run was ended by a signal."""

    def __init__(self, number: int) -> None:
        super().__init__(signal.Signals(number).name)


#: What is beside a document NAME.json, as endings of NAME.
FLOWS, FIXINGS, DOCUMENT = ".flows.json", ".fixings", ".json"


class Folder:
    """The trades of a folder: a document each, in the order of their names.

    It holds the names alone, and makes a trade when it is needed. `BadInput` where the folder can't be read.
    """

    def __init__(self, folder: Path) -> None:
        self.folder = folder
        beside: Dict[str, Set[str]] = {FLOWS: set(), FIXINGS: set(), DOCUMENT: set()}
        try:
            for name in os.listdir(folder):
                ending = next((it for it in (FLOWS, FIXINGS, DOCUMENT) if name.endswith(it)), None)
                if ending is not None:
                    beside[ending].add(name[: -len(ending)])
        except OSError as why:
            raise BadInput(f"{shown(str(folder))} can't be read: {why.strerror}") from why
        self.names = sorted(beside[DOCUMENT])
        self.flows, self.fixings = beside[FLOWS], beside[FIXINGS]
        for ending in (FLOWS, FIXINGS):
            for name in sorted(beside[ending] - beside[DOCUMENT]):
                LOG.warning("%s has no document beside it", shown(name + ending))

    def __len__(self) -> int:
        return len(self.names)

    def __iter__(self) -> Iterator[Trade]:
        for name in self.names:
            yield Trade(
                _as_utf8(name),
                self.folder / (name + DOCUMENT),
                self._beside(name, FIXINGS, self.fixings),
                self._beside(name, FLOWS, self.flows),
            )

    def _beside(self, name: str, ending: str, names: Set[str]) -> Optional[Path]:
        return self.folder / (name + ending) if name in names else None


def _as_utf8(name: str) -> str:
    """A name as UTF-8 has it, whatever the locale."""
    return os.fsencode(name).decode("utf-8", "surrogateescape")


#: The trades of a run: their number, and each in turn, as often as they are needed.
Trades = Union[Folder, List[Trade]]


def trades_named(manifest: Path, folder: Path) -> List[Trade]:
    """The trades of a manifest, whose files are named from the folder; `BadInput` where it isn't one."""
    try:
        with open(manifest, newline="", encoding="utf-8-sig", errors="surrogateescape") as file:
            return _of_manifest(csv.DictReader(file, strict=True), manifest, folder)
    except (OSError, csv.Error) as why:
        raise BadInput(f"{shown(str(manifest))} can't be read: {why}") from why


def _of_manifest(rows: "csv.DictReader[str]", manifest: Path, folder: Path) -> List[Trade]:
    given = tuple(rows.fieldnames or ())
    if not {"name", "document"} <= {*given} or not {*given} <= {*MANIFEST}:
        raise BadInput(f"{shown(str(manifest))} has other columns than {', '.join(MANIFEST)}")
    found: Dict[str, Trade] = {}
    for row in rows:
        cells = [(row.get(column) or "").strip() for column in MANIFEST]
        where = f"{shown(str(manifest))}, line {rows.line_num}"
        if not cells[0] or not cells[1] or len(row) > len(given):
            raise BadInput(f"{where}: a row has a name, a document, and a cell a column")
        if cells[0] in found:
            raise BadInput(f"{where}: the name {shown(cells[0])} comes twice")
        document, flows, fixings = (folder / it if it else None for it in cells[1:])
        assert document is not None
        found[cells[0]] = Trade(cells[0], document, fixings, flows)
    return list(found.values())


def common_in(folder: Path) -> Common:
    """The calendar files of the folder, and its fixings for all; `BadInput` where those can't be read."""
    calendars = []
    for path in sorted((folder / "calendars").glob("*.cal")):
        if path.is_file() and os.access(path, os.R_OK):
            calendars.append(path)
        else:
            LOG.warning("the calendar %s can't be read: a trade that needs it breaks rule K12", shown(path.name))
    fixings = folder / "fixings"
    if os.path.lexists(fixings) and not (fixings.is_file() and os.access(fixings, os.R_OK)):
        raise BadInput(f"{shown(str(fixings))} can't be read")
    return common_of(calendars, fixings if fixings.is_file() else None)


@contextlib.contextmanager
def client_of(address: Optional[str]) -> Iterator[Any]:
    """A client of the cluster at that address, or `None`; `BadInput` where there is none there."""
    if address is None:
        yield None
        return
    distributed = package("distributed", "--scheduler", "dask's `distributed`", "python3-distributed")
    try:
        client = distributed.Client(address)
    except (OSError, ValueError) as why:
        raise BadInput(f"there is no scheduler at {shown(address)}: {why}") from why
    with client:
        yield client


@contextlib.contextmanager
def journal_at(path: Path) -> Iterator[Journal]:
    """The journal, which no other run writes meanwhile; `BadInput` where it can't be opened."""
    try:
        lock = open(f"{path}.lock", "w", encoding="utf-8")
    except OSError as why:
        raise BadInput(f"{shown(str(path))} can't be written: {why.strerror}") from why
    with lock:
        try:
            fcntl.flock(lock, fcntl.LOCK_EX | fcntl.LOCK_NB)
        except OSError as why:
            raise BadInput(f"another run writes {shown(str(path))}") from why
        try:
            journal = Journal(path)
        except Exception as why:
            raise BadInput(f"{shown(str(path))} can't be written: {why}") from why
        try:
            yield journal
        finally:
            journal.close()


def write_csv(path: Path, told: Iterator[Outcome]) -> None:
    """Writes the outcomes, whose names are as they are shown; `BadInput` where the file can't be written."""
    with whole_file(path) as file:
        out = io.TextIOWrapper(file, encoding="utf-8", newline="")
        writer = csv.writer(out)
        writer.writerow(COLUMNS)
        for it in told:
            status = "" if it.status is None else it.status
            writer.writerow([cell(it.name), it.verdict, status, cell(shown(it.line)), cell(shown(it.sentence))])
        out.detach()


def work(
    trades: Iterable[Trade], count: int, common: Common, words: argparse.Namespace, executor: Any, journal: Journal
) -> None:
    """Works the trades, each outcome into the journal."""
    told = outcomes(
        trades,
        words.command,
        common=common,
        executor=executor,
        jobs=words.jobs,
        chunk=words.chunk,
        timeout=words.timeout,
    )
    with contextlib.closing(told):  # type: ignore[type-var]
        for outcome in with_bar(told, count) if sys.stderr.isatty() else told:
            if outcome.verdict == "failed":
                LOG.warning("%s failed: %s", shown(outcome.name), shown(outcome.line))
            journal.add(outcome, shown(outcome.name), outcome.stamp)


def done_before(trades: Trades, journal: Journal) -> Set[str]:
    """The names of the trades that are in the journal and whose files are the same; it forgets what is no trade now."""
    stamps = journal.stamps()
    if not stamps:
        return set()
    names = {shown(trade.name) for trade in trades}
    journal.forget(name for name in stamps if name not in names)
    return {trade.name for trade in trades if stamps.get(shown(trade.name)) == stamp(trade)}


def asked_of(words: argparse.Namespace, common: Common) -> Dict[str, str]:
    """What the journal says of a run: a resumed one has to ask for the same."""
    names = ", ".join(name for name, _ in common.calendars)
    return {
        "command": words.command,
        "folder": shown(str(words.folder.resolve())),
        "library": engine(),
        "calendars and common fixings": f"{names} {common.stamp}",
        "end lines": "required" if common.require_end else "",
        "manifest": shown(str(words.names_from.resolve())) if words.names_from else "",
    }


def seconds(text: str) -> float:
    """A time above 0, of a word of the command line."""
    number = float(text)
    if not 0 < number < 1e9:
        raise argparse.ArgumentTypeError("has to be above 0")
    return number


def parser() -> Parser:
    """The words that irs-book takes."""
    made = Parser(prog="irs-book", description=__doc__, formatter_class=argparse.RawDescriptionHelpFormatter)
    made.add_argument("folder", type=Path)
    made.add_argument("--command", choices=COMMANDS, default="audit")
    made.add_argument("--names-from", type=Path, metavar="FILE", help="a manifest with the trades")
    made.add_argument("--csv", type=Path, default=Path("irs-book.csv"), help="where the outcomes go (irs-book.csv)")
    made.add_argument("--journal", type=Path, help="where they go as they come (the CSV's name and .journal)")
    made.add_argument("--resume", action="store_true", help="go on with the journal that is there")
    made.add_argument(
        "--accept", action="append", choices=["unverified"], default=[], help="a verdict that counts as 0"
    )
    made.add_argument(
        "--require-end",
        action="store_true",
        help="a calendar file or file of fixings without a true last line '# end N' is a bad file",
    )
    made.add_argument("--jobs", type=count, default=len(os.sched_getaffinity(0)), help="processes (one a processor)")
    made.add_argument("--scheduler", metavar="ADDRESS", help="a dask scheduler, as tcp://host:8786")
    made.add_argument("--chunk", type=count, default=50, help="trades that are sent at once (50)")
    made.add_argument("--timeout", type=seconds, default=60.0, help="the most seconds for a trade here (60)")
    made.add_argument("--verbose", action="store_true", help="more on standard error")
    return made


def _end(number: int, _: Any) -> NoReturn:
    # A second signal doesn't break off what ends the first one.
    for each in (signal.SIGINT, signal.SIGTERM, signal.SIGHUP):
        signal.signal(each, signal.SIG_IGN)
    raise Ended(number)


def _trades(words: argparse.Namespace) -> Trades:
    folder, manifest = words.folder, words.names_from
    trades: Trades = Folder(folder) if manifest is None else trades_named(manifest, folder)
    if len(trades) == 0:
        raise BadInput(f"there is no trade in {shown(str(words.names_from or words.folder))}")
    return trades


def _checked(path: Path) -> None:
    """`BadInput` where the CSV couldn't be written, before anything is worked."""
    if path.is_dir():
        raise BadInput(f"{shown(str(path))} is a folder")
    if not os.access(path.parent, os.W_OK | os.X_OK):
        raise BadInput(f"{shown(str(path.parent))} can't be written")


def _summarised(journal: Journal) -> Summary:
    journal.flush()
    summary = Summary()
    for outcome in journal.outcomes():
        summary.add(outcome, outcome.name)
    print(summary)
    return summary


def night(words: argparse.Namespace) -> int:
    """The run that the words ask for."""
    trades = _trades(words)
    common = common_in(words.folder)._replace(require_end=words.require_end)
    _checked(words.csv)
    try:
        # What is wrong with the common files is said once, and processes of this machine have them already.
        loaded(common)
    except (OSError, ValueError) as why:
        raise BadInput(f"the common files can't be taken: {shown(str(why))}") from why
    with journal_at(words.journal or words.csv.with_name(f"{words.csv.name}.journal")) as journal:
        try:
            journal.begin(asked_of(words, common), words.resume)
        except Exception as why:
            raise BadInput(shown(str(why))) from why
        done = done_before(trades, journal)
        left, count = (trade for trade in trades if trade.name not in done), len(trades) - len(done)
        LOG.info("%d trades, %d of them to be worked, by %s", len(trades), count, engine().partition("\n")[0])
        try:
            with client_of(words.scheduler) as executor:
                work(left, count, common, words, executor, journal)
        except Ended as why:
            _summarised(journal)
            print(f"irs-book: ended by {why}; --resume goes on", file=sys.stderr)
            return 2
        summary = _summarised(journal)
        write_csv(words.csv, journal.outcomes())
    return 0 if summary.is_clean(words.accept) else 1


def _run(arguments: Optional[List[str]]) -> int:
    words = parser().parse_args(arguments)
    logging.basicConfig(format="irs-book: %(message)s", level=logging.INFO if words.verbose else logging.WARNING)
    for number in (signal.SIGINT, signal.SIGTERM, signal.SIGHUP):
        signal.signal(number, _end)
    try:
        return night(words)
    except Ended as why:
        print(f"irs-book: ended by {why}", file=sys.stderr)
        return 2


def main(arguments: Optional[List[str]] = None) -> int:
    """Runs the book: 0 where all agree, 1 where one doesn't, 2 where the run couldn't be done."""
    return ended("irs-book", _run, arguments)


if __name__ == "__main__":
    sys.exit(main())
