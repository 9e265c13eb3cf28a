"""`irs-book` as a control runs it: what it ends with, what it leaves, and hostile folders."""
import csv
import os
import shutil
import signal
import sqlite3
import subprocess
import sys
import tempfile
import time
import unittest
from pathlib import Path

from books import HERE, example, mixed, monthly

import irs

FIXED = example("fixed_leg/terms.json")
AGREES = example("audit_agrees/flows.json")
DEPARTS = example("audit_departs/flows.json")
PACKAGE = HERE.parent

#: So many trades that the proved library works on them for seconds.
LONG = 4000


class Command(unittest.TestCase):
    def setUp(self):
        self.room = Path(tempfile.mkdtemp())
        self.addCleanup(shutil.rmtree, self.room)
        self.folder = self.room / "book"
        self.folder.mkdir()

    def put(self, name, content):
        path = self.folder / name
        path.parent.mkdir(exist_ok=True)
        path.write_bytes(content)
        return path

    def trade(self, name, document=FIXED, flows=AGREES):
        self.put(f"{name}.json", document)
        if flows is not None:
            self.put(f"{name}.flows.json", flows)

    def start(self, *words, program=("-m", "irs.command"), **more):
        environment = {**os.environ, "PYTHONPATH": str(PACKAGE), **more}
        return subprocess.Popen(
            [sys.executable, *program, *words],
            cwd=self.room,
            env=environment,
            stdout=subprocess.PIPE,
            stderr=subprocess.PIPE,
            text=True,
            errors="surrogateescape",
        )

    def run_book(self, *words, **more):
        process = self.start(*(words or ("book",)), **more)
        out, said = process.communicate(timeout=120)
        return process.returncode, out, said

    def rows(self, name="irs-book.csv"):
        with open(self.room / name, newline="", encoding="utf-8") as file:
            return list(csv.DictReader(file))

    def verdicts(self):
        return {row["name"]: row["verdict"] for row in self.rows()}


class Statuses(Command):
    def test_all_agree(self):
        for number in range(5):
            self.trade(f"T{number}")
        status, out, said = self.run_book()
        self.assertEqual((status, said), (0, ""))
        self.assertEqual(self.verdicts(), {f"T{number}": "agrees" for number in range(5)})
        self.assertEqual(
            out.splitlines(),
            [
                "5 trades",
                "agrees              5",
                "unverified          0",
                "departs             0",
                "refused             0",
                "bad file            0",
                "failed              0",
            ],
        )

    def test_one_departs(self):
        self.trade("A")
        self.trade("B", flows=DEPARTS)
        status, out, _ = self.run_book()
        self.assertEqual(status, 1)
        self.assertIn("payment adjustedPaymentDate", out)
        self.assertEqual([row["line"] for row in self.rows()], ["yes 4 0", "no 1 payment 2 adjustedPaymentDate"])

    def test_nothing_to_do(self):
        for words in (("nofolder",), ("book",), ("book", "--names-from", "nothing.csv")):
            status, out, said = self.run_book(*words)
            self.assertEqual((status, out), (2, ""), words)
            self.assertTrue(said.startswith("irs-book: "), said)

    def test_bad_numbers(self):
        self.trade("A")
        for words in (("--chunk", "0"), ("--chunk", "-1"), ("--jobs", "0"), ("--timeout", "0"), ("--command", "bulk")):
            status, out, said = self.run_book("book", *words)
            self.assertEqual((status, out), (2, ""), words)
            self.assertNotIn("Traceback", said)

    def test_what_can_not_be_written(self):
        self.trade("A")
        (self.room / "folder").mkdir()
        for words in (("--csv", "folder"), ("--csv", "nofolder/x.csv"), ("--journal", "folder"), ("--journal", "no/x")):
            status, _, said = self.run_book("book", *words)
            self.assertEqual(status, 2, words)
            self.assertNotIn("Traceback", said)

    def test_no_library(self):
        self.trade("A")
        status, _, said = self.run_book("book", IRS_LIBRARY=str(self.room / "none.so"))
        self.assertEqual(status, 2)
        self.assertIn("none.so", said)

    def test_amounts_that_were_not_compared(self):
        document = example("compounded/terms.json")
        self.trade("A", document, irs.emit(document))
        self.assertEqual(self.run_book()[0], 1)
        (row,) = self.rows()
        self.assertEqual((row["verdict"], row["status"]), ("unverified", "0"))
        self.assertTrue(
            row["sentence"].endswith("lacks a fixing for USD-TEST-INDEX 3M on 2024-01-15"), row["sentence"]
        )
        self.assertEqual(self.run_book("book", "--accept", "unverified")[0], 0)

    def test_another_command(self):
        self.trade("A", flows=None)
        self.assertEqual(self.run_book("book", "--command", "schedule")[0], 0)
        self.assertEqual([(row["verdict"], row["line"]) for row in self.rows()], [("done", "7 lines")])
        self.assertEqual(self.run_book("book")[0], 1)
        self.assertEqual(
            [(row["verdict"], row["sentence"]) for row in self.rows()], [("bad file", "the trade has no cash flows")]
        )

    def test_common_fixings_and_calendars(self):
        document = example("compounded/terms.json")
        self.put("fixings", example("compounded/fixings"))
        self.trade("A", document, irs.emit(document, example("compounded/fixings")))
        calendar = example("business_days/de.cal")
        self.put("calendars/de.cal", calendar)
        self.trade(
            "B", example("business_days/terms.json"), irs.emit(example("business_days/terms.json"), None, [calendar])
        )
        self.assertEqual(self.run_book()[0], 0)
        shutil.rmtree(self.folder / "calendars")
        self.run_book()
        self.assertEqual(self.verdicts(), {"A": "agrees", "B": "refused"})
        self.folder.joinpath("fixings").unlink()
        self.folder.joinpath("fixings").mkdir()
        status, _, said = self.run_book()
        self.assertEqual(status, 2)
        self.assertNotIn("Traceback", said)


class Calendars(Command):
    """The calendar files of a folder: which trades get them, and what one at fault costs."""

    def setUp(self):
        super().setUp()
        business, self.calendar = example("business_days/terms.json"), example("business_days/de.cal")
        flows = irs.emit(business, None, [self.calendar])
        self.trade("Fixed")
        self.trade("Business", business, flows)
        self.trade("Unknown", business.replace(b'"DEFR"', b'"DEFX"'), flows)

    def centre(self, name):
        return self.calendar.replace(b"DEFR", name.encode())

    def check(self, business, unknown):
        status, _, said = self.run_book()
        self.assertEqual(status, 1, said)
        self.assertEqual(self.verdicts(), {"Fixed": "agrees", "Business": business, "Unknown": unknown})
        return said

    def test_more_than_the_engine_takes(self):
        for number in range(40):
            self.put(f"calendars/C{number:03}.cal", self.centre(f"C{number:03}"))
        self.check("refused", "refused")
        self.put("calendars/DEFR.cal", self.calendar)
        self.assertEqual(self.check("agrees", "refused"), "")

    def test_one_at_fault_that_no_trade_needs(self):
        self.put("calendars/A.cal", b"what")
        self.put("calendars/DEFR.cal", self.calendar)
        said = self.check("agrees", "bad file")
        self.assertIn("A.cal", said)
        self.assertEqual(said.count("\n"), 1)
        self.assertIn("A.cal", next(row["sentence"] for row in self.rows() if row["name"] == "Unknown"))

    def test_one_at_fault_that_a_trade_needs(self):
        self.put("calendars/A.cal", self.centre("AAAA"))
        self.put("calendars/DEFR.cal", self.calendar.replace(b"weekend", b"weekends"))
        self.assertIn("DEFR.cal), line 3", self.check("bad file", "bad file"))

    def test_a_centre_in_two_files(self):
        self.put("calendars/DEFR.cal", self.calendar)
        self.put("calendars/again.cal", self.calendar)
        said = self.check("bad file", "bad file")
        self.assertIn("DEFR.cal and again.cal", said)

    def test_files_that_do_not_fit(self):
        for number in range(17):
            self.put(f"calendars/C{number:03}.cal", b"#" * 4_000_000 + b"\n")
        status, out, said = self.run_book()
        self.assertEqual((status, out), (2, ""))
        self.assertIn("don't fit", said)
        self.assertNotIn("Traceback", said)


class EndLines(Command):
    """`--require-end`: calendar files and files of fixings that were cut."""

    def setUp(self):
        super().setUp()
        calendar = example("business_days/de.cal")
        self.put("calendars/de.cal", calendar + b"# end %d\n" % calendar.count(b"\n"))
        self.trade("T1")

    def told(self, *words):
        status, _, _ = self.run_book("book", "--require-end", *words)
        return status, {row["name"]: (row["verdict"], row["line"]) for row in self.rows()}

    def test_all_have_one(self):
        self.assertEqual(self.told()[0], 0)
        self.assertEqual(self.verdicts(), {"T1": "agrees"})

    def test_a_calendar_without_one(self):
        self.put("calendars/cut.cal", b"# cut\n")
        self.assertEqual(self.told(), (1, {"T1": ("bad file", "no-end calendar cut.cal")}))
        self.assertEqual(self.run_book("book", "--csv", "again.csv")[0], 0)

    def test_fixings_without_one(self):
        self.put("fixings", b"2024-01-15 0.05 3M A\n")
        self.trade("T2")
        self.put("T2.fixings", b"# end 0\n")
        self.assertEqual(self.told(), (1, {"T1": ("bad file", "no-end fixings"), "T2": ("agrees", self.agreed())}))

    def test_a_false_one(self):
        self.put("T1.fixings", b"2024-01-15 0.05 3M A\n# end 2\n")
        self.assertEqual(self.told(), (1, {"T1": ("bad file", "no-end fixings")}))

    def agreed(self):
        return next(row["line"] for row in self.rows() if row["verdict"] == "agrees")


class Odd(Command):
    """One odd entry beside five good trades: the five agree, and the odd one is reported."""

    def setUp(self):
        super().setUp()
        for number in range(5):
            self.trade(f"T{number}")

    def check(self, name, verdict, status=1, **more):
        got, out, said = self.run_book("book", **more)
        self.assertEqual(got, status, said)
        self.assertNotIn("Traceback", said)
        rows = self.verdicts()
        self.assertEqual([rows.pop(f"T{number}") for number in range(5)], ["agrees"] * 5)
        self.assertEqual(rows, {name: verdict})
        return out, said

    def test_a_folder(self):
        (self.folder / "X.json").mkdir()
        self.check("X", "failed")

    def test_a_link_that_dangles(self):
        (self.folder / "X.json").symlink_to("gone")
        self.check("X", "failed")

    def test_a_pipe(self):
        os.mkfifo(self.folder / "X.json")
        self.check("X", "failed")

    def test_a_document_that_nests_deep(self):
        self.trade("X", b"[" * 100_000)
        self.check("X", "refused")

    def test_flows_that_are_a_folder(self):
        self.put("X.json", FIXED)
        (self.folder / "X.flows.json").mkdir()
        self.check("X", "failed")

    def test_a_name_that_is_no_text(self):
        path = os.fsencode(self.folder) + b"/X\xff"
        for end, content in ((b".json", FIXED), (b".flows.json", AGREES)):
            with open(path + end, "wb") as file:
                file.write(content)
        self.check("X\\udcff", "agrees", 0)

    def test_a_name_past_the_encoding_of_the_terminal(self):
        self.trade("Zürich", b"[")
        self.check("Zürich", "refused", LC_ALL="C", PYTHONUTF8="0", PYTHONCOERCECLOCALE="0")

    def test_a_calendar_that_is_a_folder(self):
        (self.folder / "calendars" / "a.cal").mkdir(parents=True)
        status, _, said = self.run_book()
        self.assertEqual(status, 0)
        self.assertIn("a.cal can't be read", said)

    def test_flows_without_a_document(self):
        self.put("Y.flows.json", AGREES)
        status, _, said = self.run_book()
        self.assertEqual(status, 0)
        self.assertIn("Y.flows.json has no document", said)

    def test_names_with_controls(self):
        escape, line, bidi = "X\x1b]0;owned\x07", "Y\nok\n5 trades", "Z\u202egnp"
        for name in (escape, line, bidi):
            (self.folder / f"{name}.json").mkdir()
        status, out, said = self.run_book("book", "--verbose")
        self.assertEqual(status, 1)
        for text in (out, said, (self.room / "irs-book.csv").read_text()):
            self.assertFalse([c for c in text if not c.isprintable() and c not in "\r\n"])
        self.assertIn("failed: X\\x1b]0;owned\\x07\n", out)
        self.assertIn("failed: Y\\nok\\n5 trades\n", out)
        self.assertIn("failed: Z\\u202egnp", out)

    def test_names_that_a_spreadsheet_runs(self):
        for name in ("=cmd|' calc'!A0", "@SUM(1+1)", "+1", "-1", "\tx"):
            (self.folder / f"{name}.json").mkdir()
        self.run_book("book")
        names = [row["name"] for row in self.rows()]
        self.assertFalse([name for name in names if name.startswith(("=", "@", "+", "-", "\t", "\r"))])
        self.assertIn("'=cmd|' calc'!A0", names)


class Mixed(Command):
    """A book of trades of all kinds."""

    def setUp(self):
        super().setUp()
        self.folder.rmdir()
        mixed(self.folder, 320)

    def test_one_call_for_many_trades_is_a_call_for_each(self):
        for command in ("audit", "check", "schedule", "emit", "net"):
            alone = ("book", "--command", command, "--csv", "alone.csv")
            self.assertEqual(self.run_book(*alone, program=(str(HERE / "one_by_one.py"),))[0], 1)
            wanted = (self.room / "alone.csv").read_bytes()
            self.assertEqual(wanted.count(b"\n"), 325)
            for chunk in ("50", "400") if command == "audit" else ("33",):
                status, _, said = self.run_book("book", "--command", command, "--chunk", chunk, "--jobs", "2")
                self.assertEqual(status, 1, said)
                self.assertEqual((self.room / "irs-book.csv").read_bytes(), wanted, (command, chunk))

    def test_each_verdict_is_there(self):
        self.assertEqual(self.run_book("book")[0], 1)
        verdicts = {"agrees", "unverified", "departs", "refused", "bad file", "failed"}
        self.assertEqual(set(self.verdicts().values()), verdicts)


class Kept(Command):
    """What a run that doesn't end leaves, and what a resumed one does."""

    def many(self, count):
        document = monthly()
        paths = [self.put("document", document), self.put("agrees", irs.emit(document)), self.put("departs", AGREES)]
        for number in range(count):
            os.link(paths[0], self.folder / f"T{number:04}.json")
            os.link(paths[2 if number % 10 == 3 else 1], self.folder / f"T{number:04}.flows.json")

    def started(self, *words, rows=30):
        """A run that has written some outcomes."""
        process = self.start("book", "--jobs", "2", "--chunk", "5", *words)
        while self.in_journal() < rows:
            self.assertIsNone(process.poll(), process.stderr.read() if process.poll() is not None else "")
            time.sleep(0.05)
        return process

    def in_journal(self):
        try:
            with sqlite3.connect(f"file:{self.room / 'irs-book.csv.journal'}?mode=ro", uri=True, timeout=30) as base:
                return base.execute("select count(*) from outcomes").fetchone()[0]
        except sqlite3.OperationalError:
            return 0

    def children(self, process):
        path = Path(f"/proc/{process.pid}/task/{process.pid}/children")
        return [int(child) for child in path.read_text().split()]

    def undisturbed(self):
        self.run_book("book", "--csv", "other.csv")
        return (self.room / "other.csv").read_bytes()

    def is_gone(self, pid):
        for _ in range(100):
            if not Path(f"/proc/{pid}").exists() or "State:\tZ" in Path(f"/proc/{pid}/status").read_text():
                return True
            time.sleep(0.05)
        return False

    def test_a_signal_ends_the_run_and_its_workers(self):
        self.many(LONG)
        for number in (signal.SIGTERM, signal.SIGINT):
            process = self.started()
            children = self.children(process)
            self.assertEqual(len(children), 2)
            process.send_signal(number)
            out, said = process.communicate(timeout=30)
            self.assertEqual(process.returncode, 2)
            self.assertIn(signal.Signals(number).name, said)
            self.assertIn("agrees", out)
            self.assertTrue(all(self.is_gone(child) for child in children))
            self.assertFalse((self.room / "irs-book.csv").exists())
            (self.room / "irs-book.csv.journal").unlink()

    def test_what_a_killed_run_did_is_resumed(self):
        self.many(LONG)
        process = self.started()
        children = self.children(process)
        process.kill()
        process.communicate()
        self.assertTrue(all(self.is_gone(child) for child in children))
        before = self.in_journal()
        self.assertTrue(0 < before < LONG)
        status, _, said = self.run_book("book", "--resume", "--verbose")
        self.assertEqual(status, 1)
        self.assertIn(f"{LONG} trades, {LONG - before} of them to be worked", said)
        self.assertEqual((self.room / "irs-book.csv").read_bytes(), self.undisturbed())

    def test_workers_that_are_killed_change_nothing(self):
        self.many(LONG)
        process = self.started(rows=1)
        for _ in range(4):
            for child in self.children(process)[:1]:
                os.kill(child, signal.SIGKILL)
            time.sleep(0.3)
        process.communicate(timeout=120)
        self.assertEqual(process.returncode, 1)
        self.assertEqual((self.room / "irs-book.csv").read_bytes(), self.undisturbed())

    def test_what_changed_is_worked_again(self):
        self.trade("A")
        self.trade("B")
        self.assertEqual(self.run_book()[0], 0)
        self.trade("B", flows=DEPARTS)
        (self.folder / "A.json").unlink()
        self.trade("C")
        status, _, said = self.run_book("book", "--resume", "--verbose")
        self.assertEqual(status, 1)
        self.assertIn("2 trades, 2 of them", said)
        self.assertEqual(self.verdicts(), {"B": "departs", "C": "agrees"})

    def test_another_run_is_not_resumed(self):
        self.trade("A")
        self.assertEqual(self.run_book()[0], 0)
        self.assertEqual(self.run_book("book", "--resume")[0], 0)
        status, _, said = self.run_book("book", "--resume", "--command", "check")
        self.assertEqual(status, 2)
        self.assertIn("another command", said)

    def test_a_run_that_can_not_be_done_leaves_yesterday_alone(self):
        (self.room / "irs-book.csv").write_text("yesterday")
        self.assertEqual(self.run_book("book")[0], 2)
        self.assertEqual(self.run_book("nofolder")[0], 2)
        self.assertEqual((self.room / "irs-book.csv").read_text(), "yesterday")

    def test_two_runs_at_once(self):
        self.many(LONG)
        process = self.started()
        process.send_signal(signal.SIGSTOP)
        status, _, said = self.run_book()
        process.send_signal(signal.SIGCONT)
        self.assertEqual(status, 2)
        self.assertIn("another run", said)
        process.communicate(timeout=120)
        self.assertEqual(process.returncode, 1)


class Manifests(Command):
    def test_a_manifest(self):
        self.put("terms/one.json", FIXED)
        self.put("flows/a.json", AGREES)
        self.put("flows/b.json", DEPARTS)
        self.put(
            "m.csv",
            b'name,document,flows,fixings\nT 1,terms/one.json,flows/a.json,\n"=T,2",terms/one.json,flows/b.json\n'
            b"T3,terms/gone.json,,\n",
        )
        status, _, _ = self.run_book("book", "--names-from", "book/m.csv")
        self.assertEqual(status, 1)
        self.assertEqual(self.verdicts(), {"T 1": "agrees", "'=T,2": "departs", "T3": "failed"})

    def test_manifests_that_are_none(self):
        for content in (
            b"",
            b"name,flows\nA,b\n",
            b"name,document,what\nA,b,c\n",
            b"name,document\nA,\n",
            b"name,document\nA,b,c\n",
            b"name,document\nA,b\nA,c\n",
            b"name,document\n",
            b"\xff\xfe\x00",
            b'name,document\n"A',
        ):
            self.put("m.csv", content)
            status, out, said = self.run_book("book", "--names-from", "book/m.csv")
            self.assertEqual((status, out), (2, ""), content)
            self.assertNotIn("Traceback", said)


if __name__ == "__main__":
    unittest.main()
