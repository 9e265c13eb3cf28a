"""How long a night takes: in one process, in all, and on a dask cluster of this machine.

    python3 measure.py [--trades 100000] [--kinds 1000] [--jobs 1,2,4] [--dask 2] [--kill SECONDS] [--lines 105000]
                       [--own 250] [--chunk 50] [--folder FOLDER]

The book is a folder of trades of 240 monthly periods, two streams: a fixed one, and a floating one with calendars
and fixings. There are `--kinds` different trades, and the folder has links to them. All have one file of fixings
of `--lines` lines in common; with `--own` each trade has a file of that many lines of its own beside it. Every tenth
trade is audited against the flows of another one, and departs. Each figure is of one run; what else the machine did
meanwhile is in its load, which is printed.
"""
from __future__ import annotations

import argparse
import multiprocessing
import os
import random
import resource
import signal
import sys
import tempfile
import threading
import time
from datetime import date, timedelta
from functools import partial
from pathlib import Path
from typing import Any, Callable, List, Optional

sys.path.insert(0, str(Path(__file__).resolve().parent.parent))

import irs
from irs import book
from irs.command import Folder, common_in

#: The days that the calendars and the fixings cover.
FIRST, LAST = date(2000, 1, 1), date(2049, 12, 31)

CENTRES = ("AAAA", "BBBB", "CCCC", "DDDD", "EEEE", "FFFF")

ADJUSTED = '{"businessDayConvention":"%s","businessCenters":{"businessCenter":["%s","%s"]}}'

STREAM = """{"calculationPeriodDates":{"@id":"cpd%(number)d",
"effectiveDate":{"unadjustedDate":"%(start)s","dateAdjustments":{"businessDayConvention":"NONE"}},
"terminationDate":{"unadjustedDate":"%(end)s","dateAdjustments":%(adjusted)s},
"calculationPeriodDatesAdjustments":%(adjusted)s,
"calculationPeriodFrequency":{"periodMultiplier":"1","period":"M","rollConvention":"%(roll)d"}},
"paymentDates":{"calculationPeriodDatesReference":{"@href":"cpd%(number)d"},
"paymentFrequency":{"periodMultiplier":"1","period":"M"},
"payRelativeTo":"CalculationPeriodEndDate","paymentDatesAdjustments":%(adjusted)s},%(resets)s
"calculationPeriodAmount":{"calculation":{"notionalSchedule":{"notionalStepSchedule":
{"initialValue":"%(notional)d","currency":"USD"}},%(rate)s,"dayCountFraction":"ACT/360"}}}"""

RESETS = """"resetDates":{"@id":"resets","calculationPeriodDatesReference":{"@href":"cpd%(number)d"},
"resetRelativeTo":"CalculationPeriodStartDate",
"fixingDates":{"periodMultiplier":"-2","period":"D","dayType":"Business","businessDayConvention":"PRECEDING",
"businessCenters":{"businessCenter":"%(centre)s"},"dateRelativeTo":{"@href":"resets"}},
"resetFrequency":{"periodMultiplier":"1","period":"M"},"resetDatesAdjustments":%(adjusted)s},"""

FLOATING = """"floatingRateCalculation":{"floatingRateIndex":"USD-INDEX-%(index)d",
"indexTenor":{"periodMultiplier":"1","period":"M"},"spreadSchedule":{"initialValue":"0.001"}}"""


def calendar(centre: str) -> bytes:
    """A calendar with some holidays a year."""
    days = [
        date(year, month, 1 + len(centre) % 5) for year in range(FIRST.year, LAST.year + 1) for month in (1, 5, 9, 12)
    ]
    lines = [f"center {centre}", f"cover {FIRST} {LAST}", "weekend SAT SUN", *map(str, days)]
    return ("\n".join(lines) + "\n").encode()


def fixings(lines: int) -> bytes:
    """Daily fixings of several indices."""
    days = (LAST - FIRST).days + 1
    rows = []
    for number in range(lines):
        day, index = FIRST + timedelta(number % days), number // days
        rows.append(f"{day} {0.01 + number % 400 / 10000:.4f} 1M USD-INDEX-{index}\n")
    return "".join(rows).encode()


def document(k: int, indices: int) -> bytes:
    """Trade k."""
    values = {
        "start": f"{2001 + k % 20}-{1 + k % 12:02}-{1 + k % 28:02}",
        "end": f"{2021 + k % 20}-{1 + k % 12:02}-{1 + k % 28:02}",
        "roll": 1 + k % 28,
        "notional": 1_000_000 + 1000 * k,
        "centre": CENTRES[k % 6],
        "adjusted": ADJUSTED % ("MODFOLLOWING", CENTRES[k % 6], CENTRES[(k + 1) % 6]),
    }
    fixed = STREAM % {
        **values,
        "number": 1,
        "resets": "",
        "rate": '"fixedRateSchedule":{"initialValue":"0.0%03d"}' % (k % 1000),
    }
    resets = RESETS % {**values, "number": 2}
    floating = STREAM % {**values, "number": 2, "resets": resets, "rate": FLOATING % {"index": k % indices}}
    return ('{"swap":{"swapStream":[%s,%s]}}' % (fixed, floating)).encode()


def linked(source: Path, to: Path) -> None:
    """Links a file where the file system lets it have one more name; else copies it."""
    try:
        os.link(source, to)
    except OSError:
        to.write_bytes(source.read_bytes())


def make_book(folder: Path, trades: int, kinds: int, lines: int, own: int) -> None:
    """Writes the folder; `own` is the number of lines of each trade's own fixings, or 0 where it has none."""
    (folder / "calendars").mkdir(parents=True)
    for centre in CENTRES:
        (folder / "calendars" / f"{centre}.cal").write_bytes(calendar(centre))
    rates = fixings(lines)
    (folder / "fixings").write_bytes(rates)
    (folder / "kinds").mkdir()
    calendars = [calendar(centre) for centre in CENTRES]
    indices = max(1, lines // ((LAST - FIRST).days + 1))
    for k in range(kinds):
        text, of_index = document(k, indices), lines_of(rates, k % indices)
        (folder / "kinds" / f"{k}.json").write_bytes(text)
        (folder / "kinds" / f"{k}.flows").write_bytes(irs.emit(text, b"".join(of_index), calendars))
        if own:
            (folder / "kinds" / f"{k}.fixings").write_bytes(needed(text, of_index, calendars, own))
    for number in range(trades):
        k, name = number % kinds, f"T{number:07}"
        linked(folder / "kinds" / f"{k}.json", folder / f"{name}.json")
        linked(
            folder / "kinds" / f"{(k + 1) % kinds if number % 10 == 3 else k}.flows",
            folder / f"{name}.flows.json",
        )
        if own:
            linked(folder / "kinds" / f"{k}.fixings", folder / f"{name}.fixings")


def lines_of(rates: bytes, index: int) -> List[bytes]:
    """The lines of one index."""
    name = b" USD-INDEX-%d\n" % index
    return [line for line in rates.splitlines(keepends=True) if line.endswith(name)]


def needed(text: bytes, lines: List[bytes], calendars: List[bytes], count: int) -> bytes:
    """The lines that a trade needs, by its schedule, and the first of the others: `count` in all, in their order."""
    days = {str(reset.fixing).encode() for reset in irs.schedule(text, None, calendars).resets()}
    others = count - sum(line[:10] in days for line in lines)
    chosen = []
    for line in lines:
        if line[:10] in days:
            chosen.append(line)
        elif others > 0:
            chosen.append(line)
            others -= 1
    return b"".join(chosen)


def cpu() -> float:
    """Seconds of processor that this process and its ended children took."""
    own, ended = resource.getrusage(resource.RUSAGE_SELF), resource.getrusage(resource.RUSAGE_CHILDREN)
    return own.ru_utime + own.ru_stime + ended.ru_utime + ended.ru_stime


def timed(what: str, folder: Path, **how: Any) -> None:
    """Runs the book once, and prints how it went."""
    before, began = cpu(), time.monotonic()
    trades, common = Folder(folder), common_in(folder)
    summary = book.run(trades, "audit", common=common, **how)
    seconds = time.monotonic() - began
    ended = ", ".join(f"{count} {verdict}" for verdict, count in sorted(summary.verdicts.items()))
    each = 1000 * (cpu() - before) / summary.trades
    print(f"{what}: {seconds:.1f} s, {summary.trades / seconds:.0f} a second, {each:.2f} ms of processor a trade")
    most = resource.getrusage(resource.RUSAGE_SELF).ru_maxrss / 1024
    print(f"    {ended}; load {os.getloadavg()[0]:.1f}; {most:.0f} MB at most in this process", flush=True)


def children() -> List[int]:
    """The numbers of this process's children."""
    return [child.pid for child in multiprocessing.active_children() if child.pid is not None]


def killer(pids: Callable[[], List[int]], pause: float, stop: threading.Event) -> None:
    """Kills a worker, by its number, each `pause` seconds."""
    while not stop.wait(pause):
        found = pids()
        if found:
            os.kill(random.choice(found), signal.SIGKILL)


def with_killer(pause: Optional[float], pids: Callable[[], List[int]], what: str, folder: Path, **how: Any) -> None:
    """A timed run in which a worker is killed each `pause` seconds, or in none where there is no pause."""
    stop = threading.Event()
    thread = threading.Thread(target=killer, args=(pids, pause, stop), daemon=True)
    if pause:
        thread.start()
        what += f", a worker killed each {pause:g} s"
    try:
        timed(what, folder, **how)
    finally:
        stop.set()


def on_dask(workers: int, folder: Path, pause: Optional[float], **how: Any) -> None:
    """The run on a dask cluster of this machine."""
    try:
        from distributed import Client
    except ImportError:
        print("dask's distributed isn't installed")
        return
    with Client(n_workers=workers, threads_per_worker=1, dashboard_address=None) as client:
        pids = partial(_pids_of, client)
        with_killer(pause, pids, f"{workers} workers of dask", folder, executor=client, **how)


def _pids_of(client: Any) -> List[int]:
    """The numbers of the processes of a cluster's workers."""
    return list(client.run(os.getpid).values())


def main() -> None:
    """Makes the book, and runs it each way."""
    parser = argparse.ArgumentParser(description=__doc__, formatter_class=argparse.RawDescriptionHelpFormatter)
    parser.add_argument("--trades", type=int, default=100_000)
    parser.add_argument("--kinds", type=int, default=1_000)
    parser.add_argument("--lines", type=int, default=105_000)
    parser.add_argument("--own", type=int, default=0)
    parser.add_argument("--chunk", type=int, default=50)
    parser.add_argument("--jobs", default=f"1,{len(os.sched_getaffinity(0))}")
    parser.add_argument("--dask", type=int, default=0)
    parser.add_argument("--kill", type=float)
    parser.add_argument("--folder", type=Path, help="where the book is, or is made")
    asked = parser.parse_args()
    print(irs.engine().replace("\n", ", ") + os.environ.get("IRS_LIBRARY", "the package's library"), flush=True)
    with tempfile.TemporaryDirectory() as room:
        folder = asked.folder or Path(room, "book")
        if not folder.exists():
            make_book(folder, asked.trades, asked.kinds, asked.lines, asked.own)
        how = {"chunk": asked.chunk}
        for jobs in map(int, asked.jobs.split(",")):
            what = "this process" if jobs == 1 else f"{jobs} processes"
            with_killer(asked.kill if jobs > 1 else None, children, what, folder, jobs=jobs, **how)
        if asked.dask:
            on_dask(asked.dask, folder, asked.kill, **how)


if __name__ == "__main__":
    main()
