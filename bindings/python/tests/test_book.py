"""A book from Python: verdicts, calendars, and workers that die or hang."""
import json
import multiprocessing
import os
import pickle
import random
import signal
import threading
import time
import unittest
from concurrent.futures import ProcessPoolExecutor, ThreadPoolExecutor
from pathlib import Path
from tempfile import TemporaryDirectory
from unittest import mock

from books import ENDLESS, POISON, example, monthly

import irs
from irs import book, library, many
from irs.common import packed, tried
from irs.many import Item, answers

AGREES = example("audit_agrees/flows.json")
DEPARTS = example("audit_departs/flows.json")
FIXED = example("fixed_leg/terms.json")
BUSINESS = example("business_days/terms.json")
FRANKFURT = example("business_days/de.cal")


def poisoned(words, common, trades):
    """The library's call, which kills its process on one document and takes for ever on another."""
    documents = [trade.get("document") for trade in trades]
    if POISON in documents:
        os.kill(os.getpid(), signal.SIGKILL)
    while ENDLESS in documents:
        time.sleep(1)
    return library.run_each(words, common, trades)


class OnlyMaps:
    """An executor that has `map` alone."""

    def map(self, work, chunks):
        return map(work, chunks)


class BrokenWorker:
    """An executor whose workers die on a chunk with the poison in it, as a cluster says it."""

    def __init__(self):
        self.threads = ThreadPoolExecutor(2)

    def submit(self, work, command, common, chunk):
        return self.threads.submit(self.work, work, command, common, chunk)

    def work(self, work, command, common, chunk):
        if any(trade.document == POISON for trade in chunk):
            raise OSError("the worker was killed")
        return work(command, common, chunk)


class Books(unittest.TestCase):
    def trades(self, count):
        for number in range(count):
            flows = DEPARTS if number % 10 == 3 else AGREES
            document = BUSINESS if number % 10 == 7 else FIXED
            yield book.Trade(f"T{number}", document, None, flows)

    def poisoned(self, count, *places, what=POISON):
        for number in range(count):
            yield book.Trade(f"T{number}", what if number in places else FIXED, None, AGREES)

    def test_one_process_and_several_agree(self):
        one = book.run(self.trades(50), jobs=1)
        several = book.run(self.trades(50), jobs=2, chunk=7)
        with ProcessPoolExecutor(2) as executor:
            given = book.run(self.trades(50), executor=executor, chunk=7)
        for summary in (one, several, given):
            self.assertEqual(dict(summary.verdicts), {"agrees": 40, "departs": 5, "refused": 5})
            self.assertEqual(dict(summary.kinds["departs"]), {"payment adjustedPaymentDate": 5})
            self.assertEqual(dict(summary.kinds["refused"]), {"K12": 5})
            self.assertFalse(summary.is_clean())

    def test_each_trade_is_told_once(self):
        told = [outcome.name for outcome in book.outcomes(self.trades(40), jobs=2, chunk=3)]
        self.assertEqual(sorted(told), sorted(f"T{number}" for number in range(40)))

    def test_a_trade_that_can_not_be_worked(self):
        bad = [book.Trade("bad", None), book.Trade("good", FIXED, None, AGREES)]
        for summary in (
            book.run(bad, jobs=2, chunk=1),
            book.run(bad, jobs=2),
            book.run(bad, jobs=1),
            book.run(bad, executor=OnlyMaps()),
        ):
            self.assertEqual((summary.verdicts["agrees"], summary.failed), (1, ["bad"]))

    def test_nothing_is_not_clean(self):
        summary = book.run([], jobs=1)
        self.assertEqual((summary.trades, summary.is_clean(), summary.is_clean(["unverified"])), (0, False, False))

    def test_numbers_that_can_not_be(self):
        for wrong in ({"chunk": 0}, {"chunk": -1}, {"jobs": 0}, {"ahead": 0}):
            with self.assertRaises(ValueError):
                list(book.outcomes(self.trades(2), **wrong))
        with self.assertRaises(ValueError):
            list(book.outcomes(self.trades(2), "bulk"))

    def test_a_worker_that_dies_costs_its_own_trade_alone(self):
        with mock.patch.object(many, "run_each", poisoned):
            for place, jobs, chunk in ((0, 2, 50), (0, 4, 50), (150, 2, 7), (299, 4, 1)):
                summary = book.run(self.poisoned(300, place), jobs=jobs, chunk=chunk)
                self.assertEqual(dict(summary.verdicts), {"agrees": 299, "failed": 1}, (place, jobs, chunk))
                self.assertEqual(summary.failed, [f"T{place}"])

    def test_several_that_kill_their_worker(self):
        with mock.patch.object(many, "run_each", poisoned):
            summary = book.run(self.poisoned(200, 0, 1, 77, 199), jobs=3, chunk=20)
        self.assertEqual(dict(summary.verdicts), {"agrees": 196, "failed": 4})

    def test_an_executor_that_breaks(self):
        with mock.patch.object(many, "run_each", poisoned), ProcessPoolExecutor(2) as executor:
            summary = book.run(self.poisoned(300, 20), executor=executor, chunk=10)
        self.assertEqual((dict(summary.verdicts), summary.failed), ({"agrees": 299, "failed": 1}, ["T20"]))

    def test_a_worker_that_dies_on_a_cluster(self):
        summary = book.run(self.poisoned(300, 20), executor=BrokenWorker(), chunk=10)
        self.assertEqual((dict(summary.verdicts), summary.failed), ({"agrees": 299, "failed": 1}, ["T20"]))

    def test_a_trade_that_takes_for_ever(self):
        with mock.patch.object(many, "run_each", poisoned):
            told = {
                it.name: it for it in book.outcomes(self.poisoned(60, 5, what=ENDLESS), jobs=2, chunk=10, timeout=1.0)
            }
        self.assertEqual({name for name, it in told.items() if it.verdict == "failed"}, {"T5"})
        self.assertIn("longer than 1 s", told["T5"].line)
        self.assertEqual(len(told), 60)

    def test_workers_that_are_killed_in_the_middle_change_nothing(self):
        document = monthly()
        flows = irs.emit(document)
        trades = [book.Trade(f"T{number}", document, None, flows if number % 5 else AGREES) for number in range(400)]
        wanted = sorted(outcome[:5] for outcome in book.outcomes(trades, jobs=1))
        stop, killed = threading.Event(), []

        def kill():
            while len(killed) < 5 and not stop.wait(0.05):
                children = multiprocessing.active_children()
                if children:
                    os.kill(random.choice(children).pid, signal.SIGKILL)
                    killed.append(1)

        killer = threading.Thread(target=kill)
        killer.start()
        try:
            told = sorted(outcome[:5] for outcome in book.outcomes(trades, jobs=3, chunk=20))
        finally:
            stop.set()
            killer.join()
        self.assertEqual(told, wanted)
        self.assertTrue(killed)

    def test_no_process_is_left(self):
        told = book.outcomes(self.trades(1000), jobs=2, chunk=5)
        next(told)
        told.close()
        self.assertEqual(multiprocessing.active_children(), [])


class Clusters(unittest.TestCase):
    def test_what_is_sent_for_a_trade_is_small(self):
        folder = Path("/somewhere", "book")
        trades = [book.Trade(f"T{n}", folder / f"T{n}.json", None, folder / f"T{n}.flows.json") for n in range(50)]
        self.assertLess(len(pickle.dumps(trades)) / 50, 200)

    def test_a_cluster_of_this_machine(self):
        try:
            from distributed import Client
        except ImportError:
            self.skipTest("dask's distributed isn't installed")
        with TemporaryDirectory() as room:
            names = {
                "fixed.json": FIXED,
                "agrees": AGREES,
                "departs": DEPARTS,
                "de.cal": FRANKFURT,
                "business.json": BUSINESS,
            }
            for name, content in names.items():
                Path(room, name).write_bytes(content)
            common = book.common_of([Path(room, "de.cal")])
            flows = Path(room, "business.flows")
            flows.write_bytes(irs.emit(BUSINESS, None, [FRANKFURT]))
            trades = [
                book.Trade(f"T{n}", Path(room, "fixed.json"), None, Path(room, "departs" if n % 10 == 3 else "agrees"))
                for n in range(90)
            ]
            trades += [book.Trade(f"B{n}", Path(room, "business.json"), None, flows) for n in range(10)]
            trades.append(book.Trade("gone", Path(room, "gone.json")))
            with Client(n_workers=2, threads_per_worker=1, dashboard_address=None) as client:
                summary = book.run(trades, common=common, executor=client, chunk=7)
        self.assertEqual(dict(summary.verdicts), {"agrees": 91, "departs": 9, "failed": 1})


class Verdicts(unittest.TestCase):
    def outcome(self, command="audit", **trade):
        common = trade.pop("common", book.Common())
        return book.outcome_of(command, book.Trade("T", **trade), common)

    def test_amounts_that_were_not_compared(self):
        document = example("compounded/terms.json")
        flows = irs.emit(document)
        told = self.outcome(document=document, flows=flows)
        self.assertEqual((told.verdict, told.status), ("unverified", 0))
        self.assertEqual(
            told.sentence,
            "the cash flows (flows) agree, but amounts that lack a fixing weren't compared: 1; payments without an "
            "amount: 1 of 1; the first, payment 1 of stream 1, lacks a fixing for USD-TEST-INDEX 3M on 2024-01-15",
        )
        summary = book.Summary([told])
        self.assertEqual((summary.is_clean(), summary.is_clean(["unverified"])), (False, True))
        fixings = example("compounded/fixings")
        told = self.outcome(document=document, flows=irs.emit(document, fixings), fixings=fixings)
        self.assertEqual((told.verdict, told.sentence), ("agrees", ""))

    def test_the_sentence_is_the_engines(self):
        document = example("compounded/terms.json")
        trade = {"document": document, "flows": irs.emit(document), "rates": b"2024-01-15 0.05 3M USD-TEST-INDEX\n"}
        said = irs.run(["audit", "document", "rates", "flows"], trade).sentence
        self.assertTrue(said.endswith("lacks a fixing for USD-TEST-INDEX 3M on 2024-04-15"), said)
        told = self.outcome(document=document, flows=trade["flows"], fixings=trade["rates"])
        self.assertEqual((told.verdict, told.sentence), ("unverified", said))

    def test_a_schedule_with_amounts_that_are_not_known(self):
        document = example("compounded/terms.json")
        for command in ("schedule", "emit"):
            told = self.outcome(command, document=document)
            self.assertEqual(told.verdict, "done")
            self.assertEqual(
                told.sentence,
                "payments without an amount: 1 of 1; the first, payment 1 of stream 1, lacks a fixing for "
                "USD-TEST-INDEX 3M on 2024-01-15",
            )
            told = self.outcome(command, document=document, fixings=example("compounded/fixings"))
            self.assertEqual((told.verdict, told.sentence), ("done", ""))

    def test_a_verdict_each(self):
        rows = (
            (dict(document=FIXED, flows=AGREES), "agrees", 0),
            (dict(document=FIXED, flows=DEPARTS), "departs", 1),
            (dict(document=BUSINESS, flows=AGREES), "refused", 2),
            (dict(document=FIXED, flows=b"{}"), "bad file", 3),
            (dict(document=FIXED), "bad file", 5),
            (dict(document=b" " * 4_194_305, flows=AGREES), "bad file", 8),
            (dict(document=FIXED, flows=AGREES, fixings=b"what"), "bad file", 3),
            (dict(document=Path("there is no such file"), flows=AGREES), "failed", None),
        )
        for trade, verdict, status in rows:
            told = self.outcome(**trade)
            self.assertEqual((told.verdict, told.status), (verdict, status), trade.keys())
            self.assertIn(verdict, str(book.Summary([told])))
        for command in ("check", "schedule", "emit", "net"):
            document = example("net/terms.json")
            told = self.outcome(command, document=document, fixings=example("net/fixings"))
            self.assertEqual(told.verdict, "done", command)

    def test_a_document_that_nests_deep(self):
        told = self.outcome(document=b"[" * 100_000, flows=AGREES)
        self.assertEqual((told.verdict, told.line), ("refused", "refused K1 0 document 0"))


class Centres(unittest.TestCase):
    """The calendars that a trade gets: what the library refuses by K12 with them, it refuses with all."""

    def calendars(self, count=40):
        other = FRANKFURT.replace(b"center DEFR", b"center X%03d")
        return [other.replace(b"%03d", b"%03d" % number) for number in range(count)] + [FRANKFURT]

    def verdict(self, document, calendars):
        common = book.common_of(calendars)
        return book.outcome_of("check", book.Trade("T", document), common).line

    def test_however_a_centre_is_written(self):
        self.assertIn(b'"DEFR"', BUSINESS)
        self.assertEqual(
            self.verdict(BUSINESS, []), "refused K12 1 calculationPeriodDates/terminationDate/dateAdjustments 1"
        )
        spellings = [
            b'"DEFR"',
            b'" DEFR"',
            b'"DEFR\\n"',
            b'"\\u0044EFR"',
            b'{"#text":"DEFR"}',
            b'{"@businessCenterScheme":"x","#text":" DEFR "}',
        ]
        for spelling in spellings:
            document = BUSINESS.replace(b'"DEFR"', spelling)
            self.assertEqual(self.verdict(document, self.calendars()), "ok", spelling)

    def test_more_than_sixteen_are_named(self):
        passed_over = {"businessCenter": [f"X{number:03}" for number in range(40)]}
        document = json.loads(BUSINESS)
        trade = document["dataDocument"]["trade"]
        root = {"dataDocument": {"trade": trade, "passedOver": passed_over}}
        self.assertEqual(self.verdict(json.dumps(root).encode(), self.calendars()), "ok")

    def test_a_calendar_at_fault(self):
        broken = FRANKFURT.replace(b"weekend", b"weekends")
        told = book.outcome_of("check", book.Trade("T", BUSINESS), book.common_of([broken]))
        self.assertEqual((told.verdict, told.line), ("bad file", "bad calendar 1 3 syntax"))
        # It costs no trade that doesn't need it.
        others = [broken.replace(b"DEFR", b"X001"), *self.calendars(20), b"x" * (library.MOST_BYTES + 1)]
        for document in (FIXED, BUSINESS):
            told = book.outcome_of("check", book.Trade("T", document), book.common_of(others))
            self.assertEqual(told.verdict, "done")

    def test_a_calendar_that_is_too_long(self):
        told = book.outcome_of("check", book.Trade("T", BUSINESS), book.common_of([FRANKFURT + b" " * 4_194_304]))
        self.assertEqual((told.verdict, told.line), ("bad file", "too long 2"))

    def test_a_centre_in_two_files(self):
        other = self.calendars(3)
        told = book.outcome_of("check", book.Trade("T", BUSINESS), book.common_of([FRANKFURT, *other]))
        self.assertEqual((told.verdict, told.line), ("bad file", "bad calendar 2 1 repeat"))
        fine = book.outcome_of("check", book.Trade("T", FIXED), book.common_of([FRANKFURT, *other]))
        self.assertEqual(fine.verdict, "done")

    def test_faults_are_found_whatever_the_order(self):
        one, two, three = (FRANKFURT.replace(b"DEFR", centre) for centre in (b"ONE", b"TWO", b"THREE"))
        files = {
            "one": one,
            "one, two": one + two,
            "two": two,
            "two once more": two,
            "three": three,
            "broken": b"what",
        }
        pairs = {("one", "one, two"), ("one, two", "two"), ("one, two", "two once more"), ("two", "two once more")}
        wanted = {frozenset(pair) for pair in pairs} | {frozenset(["broken"])}
        for _ in range(20):
            named = random.sample(sorted(files.items()), len(files))
            found = tried(named)
            self.assertEqual(found.sound, [("three", three)])
            self.assertEqual({frozenset(name for name, _ in fault) for fault in found.faults}, wanted)
            self.assertEqual(len(found.faults), len(wanted))

    def test_more_files_than_the_engine_takes(self):
        calendars = [(str(number), held) for number, held in enumerate(self.calendars(100))]
        files = packed(calendars)
        self.assertEqual(len(files), library.MOST_CALENDARS)
        self.assertEqual(answers("check", [Item(BUSINESS)], files)[0].status, 0)
        self.assertEqual(sorted(name for names, _ in files for name in names.split(" and ")), sorted(dict(calendars)))
        self.assertEqual(packed(calendars[:16]), calendars[:16])
        with self.assertRaises(ValueError):
            packed([(str(number), b" " * 3_000_000) for number in range(17)])

    def test_calendars_of_a_trade_s_own(self):
        own = book.Trade("T", BUSINESS, calendars=[FRANKFURT])
        for common, verdict in (([], "done"), (self.calendars(20)[:-1], "done"), (self.calendars(20), "bad file")):
            told = book.outcome_of("check", own, book.common_of(common))
            self.assertEqual(told.verdict, verdict)
        told = book.work("check", book.Common(), [own, book.Trade("U", BUSINESS), own._replace(name="V")])
        self.assertEqual([it.verdict for it in told], ["done", "refused", "done"])

    def test_its_name_is_said(self):
        with TemporaryDirectory() as room:
            path = Path(room, "Frankfurt.cal")
            path.write_bytes(FRANKFURT.replace(b"weekend", b"weekends"))
            told = book.outcome_of("check", book.Trade("T", BUSINESS), book.common_of([path]))
            self.assertIn("Frankfurt.cal", told.sentence)
            # Two files may have one name.
            named = book.common_of([path, path]).calendars
        self.assertEqual([name for name, _ in named], ["Frankfurt.cal", "Frankfurt.cal again"])


class CommonFixings(unittest.TestCase):
    def test_they_are_those_of_a_trade_alone(self):
        document, own = example("compounded/terms.json"), example("compounded/fixings")
        others = b"".join(
            b"2024-01-%02d 0.01 3M OTHER-%d\n" % (day, number) for number in range(50) for day in range(1, 29)
        )
        for fixings in (own, others + own, own + b"\r\n" + others, b"# a remark\n" + own):
            told = book.outcome_of(
                "audit", book.Trade("T", document, None, irs.emit(document, own)), book.common_of((), fixings)
            )
            self.assertEqual(told.verdict, "agrees")
        told = book.outcome_of(
            "audit", book.Trade("T", document, own, irs.emit(document, own)), book.common_of((), others)
        )
        self.assertEqual(told.verdict, "agrees")

    def test_they_are_read_once_for_a_chunk(self):
        document, own = example("compounded/terms.json"), example("compounded/fixings")
        others = (
            b"%d-%02d-%02d 0.01 3M OTHER-%d\n" % (2000 + n // 336, 1 + n // 28 % 12, 1 + n % 28, k)
            for k in range(420)
            for n in range(250)
        )
        common = book.common_of((), b"".join(others) + own)
        trades = [book.Trade("T", document, None, irs.emit(document, own))] * 100
        # One more is unverified.
        unknown = document.replace(b"USD-TEST", b"USD-OTHER")
        trades.append(book.Trade("U", unknown, None, irs.emit(unknown)))
        self.assertEqual(book.work("audit", common, trades)[-1].verdict, "unverified")

        def least(trades):
            times = []
            for _ in range(5):
                began = time.process_time()
                self.assertEqual(book.work("audit", common, trades)[0].verdict, "agrees")
                times.append(time.process_time() - began)
            return min(times)

        self.assertLess(least(trades), 6 * least(trades[:1]))

    def test_a_fault_in_them_is_told(self):
        document = example("compounded/terms.json")
        told = book.outcome_of("schedule", book.Trade("T", document), book.common_of((), b"2024-01-15 x 3M OTHER\n"))
        self.assertEqual((told.verdict, told.line), ("bad file", "bad fixings 1 syntax"))
        twice = b"2024-01-15 0.01 3M OTHER\n" * 2
        told = book.outcome_of("schedule", book.Trade("T", document), book.common_of((), twice))
        self.assertEqual((told.verdict, told.line), ("bad file", "bad fixings 2 repeat"))

    def test_a_name_that_an_escape_spells(self):
        own = example("compounded/fixings")
        name = own.split()[-1]
        self.assertIn(name, example("compounded/terms.json"))
        escaped = example("compounded/terms.json").replace(name, b"\\u%04x" % name[0] + name[1:])
        told = book.outcome_of("audit", book.Trade("T", escaped, None, irs.emit(escaped, own)), book.common_of((), own))
        self.assertEqual(told.verdict, "agrees")

    def test_they_are_gone(self):
        common = book.common_of((), Path("there is no such file"))
        told = book.work("audit", common, [book.Trade("T", FIXED, None, AGREES)] * 2)
        self.assertEqual([it.verdict for it in told], ["failed"] * 2)


class Batches(unittest.TestCase):
    """How the trades of a chunk go to the library."""

    def test_files_that_are_large(self):
        trades = [book.Trade(f"T{number}", FIXED + b" " * 100_000, None, AGREES) for number in range(50)]
        wanted = [(f"T{number}", "agrees") for number in range(50)]
        for most in (1, 250_000, 1 << 25):
            calls = []

            def counted(words, common, given):
                calls.append(len(given))
                return library.run_each(words, common, given)

            with mock.patch.object(book, "MOST_READ", most), mock.patch.object(many, "run_each", counted):
                told = book.work("audit", book.Common(), trades)
            self.assertEqual([it[:2] for it in told], wanted)
            self.assertEqual(max(calls), {1: 1, 250_000: 3}.get(most, 50))

    def test_one_call_for_trades_that_are_unverified(self):
        document = example("compounded/terms.json")
        trades = [book.Trade(f"T{number}", document, None, irs.emit(document)) for number in range(50)]
        calls = []

        def counted(words, common, given):
            calls.append(words[0])
            return library.run_each(words, common, given)

        with mock.patch.object(many, "run_each", counted):
            told = book.work("audit", book.Common(), trades)
        self.assertEqual({it.verdict for it in told}, {"unverified"})
        self.assertEqual(calls.count("audit"), 1)
        self.assertNotIn("schedule", calls)

    def test_memory_that_runs_out_for_one(self):
        def short(words, common, trades):
            if len(trades) > 1:
                return [library.Answer(7, b"", "") for _ in trades]
            return [it if it.status else library.Answer(7, b"", "") for it in library.run_each(words, common, trades)]

        trades = [book.Trade("A", FIXED, None, DEPARTS), book.Trade("B", FIXED, None, AGREES)]
        trades.append(book.Trade("C", b"[", None, AGREES))
        with mock.patch.object(many, "run_each", short):
            told = book.work("audit", book.Common(), trades)
        self.assertEqual([it.verdict for it in told], ["departs", "failed", "refused"])
        self.assertEqual(told[1][2:5], (7, "memory ran out", "the trade couldn't be worked"))

    def test_a_fault_of_the_program(self):
        def wrong(words, common, trades):
            if any(trade["document"] == POISON for trade in trades):
                raise RuntimeError("it can't be")
            return library.run_each(words, common, trades)

        trades = [book.Trade(name, POISON if name == "B" else FIXED, None, AGREES) for name in "ABC"]
        with mock.patch.object(many, "run_each", wrong):
            told = book.work("audit", book.Common(), trades)
        self.assertEqual([it.verdict for it in told], ["agrees", "failed", "agrees"])
        self.assertEqual(told[1].line, "RuntimeError: it can't be")


if __name__ == "__main__":
    unittest.main()
