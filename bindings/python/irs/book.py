"""A whole book: one command over many trades, in this process, in several, or on a cluster.

A trade is a `Trade`: a name, a document, and what goes with it, in memory or as paths that the worker reads.
`outcomes` gives an `Outcome` a trade as they are done; `run` adds them up. Each trade ends with one of `VERDICTS`.
One that can't be worked, kills its process or takes too long is `failed`, and neither ends the run nor
fails another.
"""
from __future__ import annotations

import itertools
import queue
from collections import Counter, deque
from concurrent.futures import BrokenExecutor
from functools import partial
from pathlib import Path
from typing import Any, Callable, Deque, Dict, Iterable, Iterator, List, NamedTuple, Optional, Sequence, Tuple, Union

from .common import Common, Loaded, common_of, loaded, stamp_of
from .end_lines import end_of
from .errors import OutOfMemory
from .files import read_regular
from .library import Answer, Text, as_bytes, engine
from .many import Calendar, Item
from .plain import shown
from .pool import TRIES, Processes
from .rows import Yes, verdict_of

#: The commands that a book can run.
COMMANDS = ("check", "schedule", "audit", "emit", "net")

#: How a trade may end, the best first. `agrees` is an audit's alone, where every amount was compared; another command
#: is `done`. `unverified`: it agrees, but amounts wait for a fixing and weren't compared; the sentence says how many,
#: and which fixing is missing. `departs`: the cash flows depart from the schedule. `refused`: the terms break a rule.
#: `bad file`: a file isn't as such files are written, or isn't there. `failed`: it couldn't be worked.
VERDICTS = ("agrees", "done", "unverified", "departs", "refused", "bad file", "failed")

#: The verdicts that a run without fault has.
CLEAN = ("agrees", "done")

#: How many names of failed trades a summary keeps.
MOST_NAMES = 100

#: A worker reads the files of as many trades at once as have this many bytes, and of one at least.
MOST_READ = 1 << 25


class Trade(NamedTuple):
    """A trade of a book. `fixings` and `flows` are `None` where there are none; without fixings of its own a trade
    has those that are common. Calendars of its own it has beside the common ones. A path is read by the worker."""

    name: str
    document: Union[Text, Path]
    fixings: Union[Text, Path, None] = None
    flows: Union[Text, Path, None] = None
    calendars: Sequence[Text] = ()


class Outcome(NamedTuple):
    """What a trade comes to: one of `VERDICTS`, the program's status, the first line of the text, and what that means.

    `status` is `None` where the trade couldn't be worked at all; the line says why then. `stamp` has the sizes and
    times of the files that were read.
    """

    name: str
    verdict: str
    status: Optional[int]
    line: str
    sentence: str
    stamp: str = ""


def _kind(outcome: Outcome) -> str:
    """The kind of an outcome within its verdict: the field that departs, the rule that is broken, the file."""
    words = outcome.line.split()
    if outcome.verdict == "departs":
        return f"{words[2]} {words[4]}"
    if outcome.verdict in ("refused", "bad file"):
        return " ".join(words[:2]) if outcome.status != 2 else words[1]
    return ""


class Summary:
    """How the trades of a run end: how many by verdict, and within a verdict by field, rule or file."""

    def __init__(self, outcomes: Iterable[Outcome] = ()) -> None:
        self.verdicts: Counter[str] = Counter()
        self.kinds: Dict[str, Counter[str]] = {verdict: Counter() for verdict in VERDICTS}
        self.failed: List[str] = []
        for outcome in outcomes:
            self.add(outcome)

    def add(self, outcome: Outcome, name: Optional[str] = None) -> None:
        """Counts a trade; `name` is how it is shown, where that is known already."""
        self.verdicts[outcome.verdict] += 1
        kind = _kind(outcome)
        if kind:
            self.kinds[outcome.verdict][kind] += 1
        if outcome.verdict == "failed" and len(self.failed) < MOST_NAMES:
            self.failed.append(shown(outcome.name) if name is None else name)

    @property
    def trades(self) -> int:
        """How many trades there are."""
        return sum(self.verdicts.values())

    def is_clean(self, accept: Iterable[str] = ()) -> bool:
        """Whether there is a trade, and each agrees or is done, or has a verdict that is accepted."""
        good = {*CLEAN, *accept}
        return self.trades > 0 and all(verdict in good for verdict in self.verdicts)

    def __str__(self) -> str:
        lines = [f"{self.trades} trades"]
        for verdict in VERDICTS:
            if self.verdicts[verdict] or verdict != "done":
                lines.append(f"{verdict:<12}{self.verdicts[verdict]:>9}")
            lines += [f"  {shown(kind):<44}{count:>9}" for kind, count in sorted(self.kinds[verdict].items())]
        lines += [f"failed: {name}" for name in self.failed]
        more = self.verdicts["failed"] - len(self.failed)
        return "\n".join(lines + ([f"failed: and {more} more"] if more else []))


class _Unreadable(Exception):
    """A file of a trade that can't be read."""


def _read(source: Union[Text, Path]) -> bytes:
    if not isinstance(source, Path):
        return as_bytes(source)
    try:
        return read_regular(source)
    except OSError as why:
        raise _Unreadable(f"{source.name}: {why.strerror or why}") from why


def stamp(trade: Trade) -> str:
    """The sizes and times of a trade's files as they are now; empty where none is a path."""
    sources = (trade.document, trade.fixings, trade.flows)
    stamps = [stamp_of(it) if isinstance(it, Path) else "" for it in sources]
    return " ".join(stamps) if any(stamps) else ""


class _Given(NamedTuple):
    """A trade whose files were read, and what the files were then."""

    trade: Trade
    item: Item
    own: Tuple[Calendar, ...]
    stamp: str

    @property
    def size(self) -> int:
        """How many bytes its files have."""
        return sum(len(held) for held in self.item if held is not None)


def _given(trade: Trade) -> _Given:
    """Reads the files of a trade; `_Unreadable` or TypeError where they can't be had."""
    before = stamp(trade)
    item = Item(
        _read(trade.document),
        None if trade.flows is None else _read(trade.flows),
        None if trade.fixings is None else _read(trade.fixings),
    )
    own = tuple((f"{number} of the trade", as_bytes(held)) for number, held in enumerate(trade.calendars, 1))
    return _Given(trade, item, own, before)


def _first_line(text: bytes) -> str:
    return text.partition(b"\n")[0].decode(errors="replace")


def _unfixed(audit: Answer) -> int:
    """How many amounts an audit that agrees didn't compare."""
    verdict = verdict_of(audit.text)
    assert isinstance(verdict, Yes)  # the status is 0
    return verdict.unfixed


def _verdict(command: str, answer: Answer) -> str:
    """The verdict of an answer."""
    if answer.status == 0 and command == "audit":
        return "unverified" if _unfixed(answer) else "agrees"
    if answer.status in (3, 5, 8):
        return "bad file"
    return {0: "done", 1: "departs", 2: "refused"}.get(answer.status, "failed")


def _outcome(command: str, given: _Given, answer: Answer) -> Outcome:
    """What a trade comes to."""
    verdict, line, sentence = _verdict(command, answer), _first_line(answer.text), answer.sentence
    if verdict == "done" and command in ("schedule", "emit", "net"):
        line = f"{len(answer.text.splitlines())} lines"
    elif answer.status == 5 and given.trade.flows is None:
        sentence = "the trade has no cash flows"
    return Outcome(given.trade.name, verdict, answer.status, line, sentence, given.stamp)


def _together(command: str, common: Loaded, batch: Sequence[_Given]) -> Iterator[Outcome]:
    """What trades come to whose own calendars are the same, or which have none."""
    found = common.answers(command, [it.item for it in batch], batch[0].own)
    for given, answer in zip(batch, found):
        yield _outcome(command, given, answer)


def _worked(command: str, common: Loaded, batch: Sequence[_Given]) -> List[Outcome]:
    """What trades come to; where that fails for all together, each is tried alone."""
    try:
        groups = [list(group) for _, group in itertools.groupby(batch, key=lambda it: it.own)]
        return [outcome for group in groups for outcome in _together(command, common, group)]
    except Exception as why:
        if len(batch) == 1:
            return [_unworked(batch[0].trade, why)]
        return [outcome for given in batch for outcome in _worked(command, common, [given])]


def _unended(common: Loaded, given: _Given) -> Optional[str]:
    """The first file of a trade that has to have a true end line and has none."""
    if not common.require_end:
        return None
    if common.unended_calendar is not None:
        return f"calendar {common.unended_calendar}"
    for name, held in given.own:
        if not end_of(held):
            return f"calendar {name}"
    fixings = given.item.fixings
    if common.unended_fixings if fixings is None else not end_of(fixings):
        return "fixings"
    return None


def _without_end(given: _Given, file: str) -> Outcome:
    """The outcome of a trade with such a file."""
    why = f"{file}: the last line isn't '# end N' with the number of lines before it"
    return Outcome(given.trade.name, "bad file", None, f"no-end {file}", why, given.stamp)


def failed(trade: Trade, why: str) -> Outcome:
    """The outcome of a trade that couldn't be worked."""
    return Outcome(trade.name, "failed", None, why, "the trade couldn't be worked", stamp(trade))


def _unworked(trade: Trade, why: Exception) -> Outcome:
    """The outcome of a trade that couldn't be worked, for this reason."""
    if isinstance(why, MemoryError):
        return failed(trade, "memory ran out")._replace(status=OutOfMemory.status)
    return failed(trade, str(why) if isinstance(why, _Unreadable) else f"{type(why).__name__}: {why}")


def work(command: str, common: Common, chunk: List[Trade]) -> List[Outcome]:
    """What the trades of a chunk come to, in no order: what a worker does.

    The verdict of one whose files can't be read is `failed`, and so it is of all where the common files can't.
    """
    try:
        held = loaded(common)
    except Exception as why:  # a common file that is gone
        return [_unworked(trade, why) for trade in chunk]
    done: List[Outcome] = []
    batch: List[_Given] = []
    left = MOST_READ
    for trade in chunk:
        try:
            given = _given(trade)
        except Exception as why:  # what is no file or no text
            done.append(_unworked(trade, why))
            continue
        unended = _unended(held, given)
        if unended is not None:
            done.append(_without_end(given, unended))
            continue
        batch.append(given)
        left -= batch[-1].size
        if left <= 0:
            done += _worked(command, held, batch)
            batch, left = [], MOST_READ
    return done + _worked(command, held, batch)


def outcome_of(command: str, trade: Trade, common: Common = Common()) -> Outcome:
    """What one trade comes to."""
    return work(command, common, [trade])[0]


def _chunks(trades: Iterable[Trade], size: int) -> Iterator[List[Trade]]:
    left = iter(trades)
    while chunk := list(itertools.islice(left, size)):
        yield [trade if isinstance(trade, Trade) else Trade(*trade) for trade in chunk]


class _Submitted:
    """The work on an executor that has `submit`: at most `ahead` chunks wait there at once.

    A chunk whose worker dies is tried again, each trade alone; a trade whose worker dies again alone is failed
    after `TRIES`. Where the executor itself breaks, what is left is worked by processes of this machine.
    """

    def __init__(self, executor: Any, command: str, common: Common, ahead: int) -> None:
        self.executor, self.command, self.ahead = executor, command, ahead
        self.common = common
        # A dask client sends what many calls share once to each worker.
        self.sent: Any = executor.scatter([common], broadcast=True)[0] if hasattr(executor, "scatter") else common
        self.options = {"pure": False} if hasattr(executor, "scatter") else {}
        self.done: "queue.Queue[Tuple[int, Any]]" = queue.Queue()
        self.waiting: Dict[int, Tuple[List[Trade], int]] = {}
        self.again: Deque[Tuple[List[Trade], int]] = deque()
        self.numbers = itertools.count()
        self.is_broken = False

    def results(self, chunks: Iterator[List[Trade]]) -> Iterator[List[Outcome]]:
        """The outcomes of each chunk, as they come."""
        self._fill(chunks)
        while self.waiting and not self.is_broken:
            number, future = self.done.get()
            yield from self._ended(*self.waiting.pop(number), future)
            self._fill(chunks)
        if self.is_broken:
            left = [items for items, _ in [*self.waiting.values(), *self.again]]
            own = Processes(partial(work, self.command, self.common), failed)
            yield from own.results(itertools.chain(left, chunks))

    def _fill(self, chunks: Iterator[List[Trade]]) -> None:
        while len(self.waiting) < self.ahead and not self.is_broken:
            if self.again:
                items, tries = self.again.popleft()
            else:
                following = next(chunks, None)
                if following is None:
                    return
                items, tries = following, 0
            self._start(items, tries)

    def _start(self, items: List[Trade], tries: int) -> None:
        number = next(self.numbers)
        self.waiting[number] = (items, tries)
        try:
            future = self.executor.submit(work, self.command, self.sent, items, **self.options)
        except BrokenExecutor:
            self.is_broken = True
            return
        future.add_done_callback(partial(self._tell, number))

    def _tell(self, number: int, future: Any) -> None:
        self.done.put((number, future))

    def _ended(self, items: List[Trade], tries: int, future: Any) -> Iterator[List[Outcome]]:
        try:
            yield future.result()
        except KeyboardInterrupt:
            raise
        except BrokenExecutor:
            self.is_broken = True
            self.again.append((items, tries))
        except BaseException as why:  # a worker that died, or whatever a cluster says of it
            if len(items) > 1:
                self.again.extend(([trade], 0) for trade in items)
            elif tries + 1 < TRIES:
                self.again.append((items, tries + 1))
            else:
                yield [failed(trade, f"{type(why).__name__}: {why}") for trade in items]


def _parts(
    chunks: Iterator[List[Trade]],
    command: str,
    common: Common,
    executor: Any,
    jobs: Optional[int],
    ahead: int,
    timeout: Optional[float],
) -> Iterator[List[Outcome]]:
    """The outcomes of each chunk, by whatever works them."""
    worker = partial(work, command, common)
    if executor is None and jobs == 1 and timeout is None:
        return map(worker, chunks)
    if executor is None:
        return Processes(worker, failed, jobs, timeout).results(chunks)
    if hasattr(executor, "submit"):
        return _Submitted(executor, command, common, ahead).results(chunks)
    found: Iterator[List[Outcome]] = executor.map(worker, chunks)
    return found


def outcomes(
    trades: Iterable[Trade],
    command: str = "audit",
    *,
    common: Optional[Common] = None,
    executor: Any = None,
    jobs: Optional[int] = None,
    chunk: int = 50,
    ahead: int = 64,
    timeout: Optional[float] = None,
) -> Iterator[Outcome]:
    """An outcome a trade, as they are done and in no order.

    `common` has the calendars and the fixings that trades have in common (`common_of`), which go once to each worker.
    `executor` is anything with `submit`, as `concurrent.futures` and `dask.distributed.Client` have it, or
    with `map` alone; without one, `jobs` processes of this machine work (as many as it has processors), and
    `jobs=1` without a timeout works in this process. `timeout` is the most seconds for a trade; it speaks of
    processes of this machine. A chunk of trades is sent at once, and at most `ahead` chunks wait on an executor.
    """
    if command not in COMMANDS:
        raise ValueError(f"a book can be asked one of {', '.join(COMMANDS)}")
    for name, number in (("chunk", chunk), ("ahead", ahead), ("jobs", 1 if jobs is None else jobs)):
        if number < 1:
            raise ValueError(f"{name} is at least 1, and not {number}")
    engine()  # ImportError here, where there is no library, and not in each worker
    parts = _parts(_chunks(trades, chunk), command, common or Common(), executor, jobs, ahead, timeout)
    try:
        for part in parts:
            yield from part
    finally:
        if hasattr(parts, "close"):
            parts.close()


def with_bar(told: Iterator[Outcome], total: Optional[int]) -> Iterator[Outcome]:
    """The outcomes with a bar on standard error, where tqdm is installed."""
    try:
        from tqdm import tqdm
    except ImportError:
        return told
    bar: Iterator[Outcome] = tqdm(told, total=total, unit="trade")
    return bar


def run(
    trades: Iterable[Trade],
    command: str = "audit",
    *,
    common: Optional[Common] = None,
    executor: Any = None,
    jobs: Optional[int] = None,
    chunk: int = 50,
    timeout: Optional[float] = None,
    progress: bool = False,
    total: Optional[int] = None,
    each: Optional[Callable[[Outcome], Any]] = None,
) -> Summary:
    """Asks one command of every trade, and adds up how they end; see `outcomes`. `each` is called with every
    outcome; `progress` shows a bar where tqdm is installed."""
    told = outcomes(trades, command, common=common, executor=executor, jobs=jobs, chunk=chunk, timeout=timeout)
    summary = Summary()
    for outcome in with_bar(told, total) if progress else told:
        summary.add(outcome)
        if each is not None:
            each(outcome)
    return summary


__all__ = [
    "CLEAN",
    "COMMANDS",
    "VERDICTS",
    "Common",
    "Outcome",
    "Summary",
    "Trade",
    "common_of",
    "failed",
    "outcome_of",
    "outcomes",
    "run",
    "stamp",
    "with_bar",
    "work",
]
