"""What a person looks at: every cell beside the schedule's text, names that mean harm, and what
is said of faults.

The trades of `Cells` are random; IRS_TRADES says how many there are (40).
"""
import csv
import html.parser
import importlib.util
import io
import json
import os
import random
import re
import resource
import subprocess
import sys
import tempfile
import unittest
from datetime import date
from decimal import Decimal
from pathlib import Path
from unittest import mock

HERE = Path(__file__).resolve().parent
EXAMPLES = HERE.parents[2] / "examples"
sys.path.insert(0, str(HERE.parent))

import irs
import trades
from irs import compare, library, palette, places, plain, tables, words
from irs.replies import ask
from irs.inputs import Inputs, Named
from irs.insert import with_cashflows
from irs.look import look_at
from irs.printed import printed
from irs.refusals import refusal_of

TODAY = date(2026, 11, 29)

#: The address of the page in the tests without a browser.
TOP = "/token/"

HAS = {name: importlib.util.find_spec(name) is not None for name in ("jinja2", "flask", "openpyxl", "matplotlib")}


def needs(name):
    return unittest.skipUnless(HAS[name], f"{name} isn't installed")


def example(name):
    return (EXAMPLES / name).read_bytes()


def named(path):
    return Named(Path(path).name, example(path))


class Page(html.parser.HTMLParser):
    """The tables of a page by their captions, and its tags: a cell is its text and the date below
    it."""

    def __init__(self, text):
        super().__init__(convert_charrefs=True)
        self.tables, self.tags, self.inside, self.small = [], [], None, False
        self.feed(text)

    def handle_starttag(self, tag, attributes):
        self.tags.append((tag, dict(attributes)))
        if tag == "table":
            self.tables.append({"caption": "", "rows": []})
        elif tag == "tr":
            self.tables[-1]["rows"].append([])
        elif tag in ("td", "th"):
            self.tables[-1]["rows"][-1].append(["", ""])
            self.inside = tag
        elif tag == "caption":
            self.inside = tag
        elif tag == "small":
            self.small = True

    def handle_endtag(self, tag):
        if tag in ("td", "th", "caption"):
            self.inside = None
        elif tag == "small":
            self.small = False

    def handle_data(self, data):
        if self.inside == "caption":
            self.tables[-1]["caption"] += data
        elif self.inside is not None:
            self.tables[-1]["rows"][-1][-1][self.small] += data

    def captioned(self, caption):
        found = []
        for table in self.tables:
            if table["caption"] == caption:
                heads = [cell[0] for cell in table["rows"][0]]
                found.append([dict(zip(heads, row)) for row in table["rows"][1:]])
        return found


def rows_of(text):
    """The printed rows by mark, stream and number: the test's own reading of a schedule's text."""
    rows = {}
    for line in text.decode().splitlines()[1:-1]:
        mark, stream, *fields = line.split(" ")
        rows[(mark, stream, "" if mark == "stream" else fields[0])] = fields
    return rows


def periods_of(rows):
    """A list a period: stream, currency, the fields of its line, its reset's, its payment's where
    it is the last."""
    last = {(key[1], fields[4]): fields for key, fields in rows.items() if key[0] == "p"}
    found = []
    for (mark, stream, number), fields in rows.items():
        if mark == "c":
            found.append(
                (
                    stream,
                    rows[("stream", stream, "")][0],
                    fields,
                    rows.get(("r", stream, number)),
                    last.get((stream, number)),
                )
            )
    return found


def shown_number(text):
    """What a page shows for a printed number, undone: a decimal, or nothing for what waits."""
    if text == "waits":
        return None
    plain = text.replace(",", "")
    return Decimal(plain[:-1]) / 100 if plain.endswith("%") else Decimal(plain)


def printed_number(text):
    return None if text == "-" else Decimal(text)


class Cells(unittest.TestCase):
    """CSV, workbook, page, terminal and JSON show what the schedule's text says, cell by cell."""

    def each(self):
        for number in range(int(os.environ.get("IRS_TRADES", "40"))):
            trade = trades.random_trade(number)
            reply = ask("schedule", trade)
            self.assertEqual(reply.status, 0, (number, reply.line))
            yield self.subTest(trade=number), trade, irs.Schedule(reply.text, trade.document.content), rows_of(
                reply.text
            )

    def check_periods(self, read, rows):
        """`read` has a mapping a period of the names of the CSV to texts, empty where a number
        waits."""
        expected = periods_of(rows)
        self.assertEqual(len(read), len(expected))
        for row, (stream, currency, period, reset, payment) in zip(read, expected):
            known = ["" if field == "-" else field for field in period]
            self.assertEqual(
                [
                    row[name]
                    for name in (
                        "stream",
                        "currency",
                        "period",
                        "unadjusted_start",
                        "unadjusted_end",
                        "start",
                        "end",
                        "days",
                        "fraction",
                        "notional",
                        "rate",
                    )
                ],
                [stream, currency, *known],
            )
            self.assertEqual(
                [row[name] for name in ("reset_date", "fixing_date", "observed")],
                ["" if field == "-" else field for field in (reset or ["", "", "", ""])[1:]],
            )
            number, unadjusted, adjusted, _, _, amount = payment or [""] * 6
            self.assertEqual(
                [row[name] for name in ("payment", "unadjusted_payment_date", "payment_date", "amount")],
                [number, unadjusted, adjusted, "" if amount == "-" else amount],
            )

    def check_exchanges(self, read, rows):
        expected = [[key[1], rows[("stream", key[1], "")][0], *fields] for key, fields in rows.items() if key[0] == "x"]
        self.assertEqual([list(row.values()) for row in read], expected)

    def check_flows(self, read, rows, sides):
        """`read` has a mapping a flow, `sides` who pays each stream and who it is seen from."""
        seen_from, payers = sides
        self.assertEqual(len(read), sum(key[0] in "xp" for key in rows))
        self.assertEqual([row["date"] for row in read], sorted(row["date"] for row in read))
        totals, waiting = {}, {}
        for row in read:
            fields = rows[("x" if row["kind"] == "exchange" else "p", row["stream"], row["number"])]
            self.assertEqual([row["unadjusted_date"], row["date"]], fields[1:3])
            self.assertEqual(row["currency"], rows[("stream", row["stream"], "")][0])
            self.assertEqual(row["weekday"], date.fromisoformat(row["date"]).strftime("%a"))
            if row["kind"] == "payment":
                self.assertEqual([row["first_period"], row["last_period"]], fields[3:5])
            amount = printed_number(fields[-1])
            of_viewer = 1 if payers and payers[int(row["stream"]) - 1] != seen_from else -1
            key = (row["currency"], "" if payers else row["stream"])
            if amount is None:
                self.assertEqual(row["amount"], "")
                waiting[key] = waiting.get(key, 0) + 1
            else:
                self.assertEqual(row["amount"].lstrip("-"), fields[-1].lstrip("-"))
                self.assertEqual(Decimal(row["amount"]), of_viewer * amount)
                totals[key] = totals.get(key, 0) + of_viewer * amount
            received = of_viewer * (amount or 1) > 0 if amount != 0 else of_viewer > 0
            self.assertEqual(row["direction"], "receives" if received else "pays")
            self.assertEqual(row["waiting"], str(waiting.get(key, 0)))
            self.assertEqual(row["total"] and Decimal(row["total"]), totals.get(key, ""))

    def sides_of(self, trade):
        """Who the flows are seen from and who pays each stream; two `None` where the terms don't
        say it."""
        streams = json.loads(trade.document.content)["dataDocument"]["trade"]["swap"]["swapStream"]
        if "payerPartyReference" not in streams[0]:
            return None, None
        payers = [stream["payerPartyReference"]["@href"] for stream in streams]
        return payers[0], payers

    def csv_rows(self, schedule, table):
        file = io.StringIO(newline="")
        schedule.to_csv(file, table)
        return list(csv.DictReader(io.StringIO(file.getvalue(), newline="")))

    def test_csv(self):
        for one, trade, schedule, rows in self.each():
            with one:
                self.check_periods(self.csv_rows(schedule, "periods"), rows)
                self.check_exchanges(self.csv_rows(schedule, "exchanges"), rows)
                self.check_flows(self.csv_rows(schedule, "flows"), rows, self.sides_of(trade))

    def sheet_rows(self, sheet, names):
        """The rows of a sheet with each value back as its text; a number keeps the decimals that
        its format shows."""
        for row in sheet.iter_rows(min_row=2):
            texts = []
            for cell in row:
                value = cell.value
                if value is None:
                    text = ""
                elif cell.is_date:
                    text = value.date().isoformat()
                elif isinstance(value, (int, float)):
                    shown = cell.number_format.partition(".")[2].rstrip("%")
                    places = len(shown) + 2 * cell.number_format.endswith("%")
                    text = f"{Decimal(repr(value)):.{places}f}"
                    self.assertEqual(Decimal(text), Decimal(repr(value)))
                else:
                    text = value
                texts.append(text)
            yield dict(zip(names, texts))

    @needs("openpyxl")
    def test_workbook(self):
        import openpyxl

        for one, trade, schedule, rows in self.each():
            with one:
                book = openpyxl.load_workbook(io.BytesIO(schedule.workbook()))
                flows, periods, exchanges = (
                    list(self.sheet_rows(book[table.title], [column.name for column in table.columns]))
                    for table in schedule.tables()
                )
                self.check_flows(flows, rows, self.sides_of(trade))
                self.check_periods(periods, rows)
                self.check_exchanges(exchanges, rows)

    @needs("jinja2")
    def test_page(self):
        from irs.pages import report

        for one, trade, _, rows in self.each():
            with one:
                page = Page(report([look_at(trade, TODAY)]))
                read = [row for table in page.captioned("Periods") for row in table]
                self.check_shown_periods(read, rows)
                exchanges = [row for table in page.captioned("Principal exchanges") for row in table]
                self.assertEqual(
                    [
                        [
                            row["Exchange"][0],
                            *self.dates(row["Date"]),
                            row["Amount"][0].replace(",", ""),
                        ]
                        for row in exchanges
                    ],
                    [fields for key, fields in rows.items() if key[0] == "x"],
                )
                self.check_ledger(page.captioned("Cash flows")[0], rows, self.sides_of(trade))

    def dates(self, cell):
        """The unadjusted and the adjusted date of a cell."""
        adjusted, under = cell
        return (under.rpartition(" ")[2] or adjusted, adjusted)

    def check_shown_periods(self, read, rows):
        expected = periods_of(rows)
        self.assertEqual(len(read), len(expected))
        for row, (_, _, period, reset, payment) in zip(read, expected):
            (
                number,
                start,
                end,
                adjusted_start,
                adjusted_end,
                days,
                fraction,
                notional,
                rate,
            ) = period
            self.assertEqual([row[head][0] for head in ("Period", "Days", "Fraction")], [number, days, fraction])
            self.assertEqual(
                [*self.dates(row["Start"]), *self.dates(row["End"])],
                [start, adjusted_start, end, adjusted_end],
            )
            self.assertEqual(shown_number(row["Notional"][0]), Decimal(notional))
            self.assertEqual(shown_number(row["Rate"][0]), printed_number(rate))
            if reset is not None:
                self.assertEqual(list(self.dates(row["Fixing"])), reset[1:3])
                self.assertEqual(shown_number(row["Observed"][0]), printed_number(reset[3]))
            if payment is None:
                self.assertEqual([row[head][0] for head in ("Payment", "Paid on", "Amount")], ["", "", ""])
            else:
                self.assertEqual([row["Payment"][0], *self.dates(row["Paid on"])], payment[:3])
                self.assertEqual(row["Amount"][0].replace(",", "").replace("waits", "-"), payment[5])

    def check_ledger(self, read, rows, sides):
        seen_from, payers = sides
        self.assertEqual(len(read), sum(key[0] in "xp" for key in rows))
        for row in read:
            kind, number = row["What"][0].split()
            fields = rows[("x" if kind == "exchange" else "p", row["Stream"][0], number)]
            amount = printed_number(fields[-1])
            received = bool(payers) and payers[int(row["Stream"][0]) - 1] != seen_from
            if amount is not None and amount < 0:
                received = not received
            shown, empty = (row["Receives"][0], row["Pays"][0]) if received else (row["Pays"][0], row["Receives"][0])
            self.assertEqual((row["Date"][0], empty), (fields[2], ""))
            self.assertEqual(
                shown.replace(",", "").replace("waits", "-").lstrip("-") or "-",
                fields[-1].lstrip("-") or "-",
            )

    def test_terminal_and_json(self):
        for one, trade, schedule, rows in self.each():
            with one, tempfile.TemporaryDirectory() as room:
                for file in trade.files():
                    Path(room, file.name).write_bytes(file.content)
                words_of = [
                    f"{room}/{trade.document.name}",
                    "--fixings",
                    f"{room}/{trade.fixings.name}",
                    "--calendar",
                    f"{room}/test.cal",
                ]
                as_json = json.loads(shown_by(*words_of, "--json"))
                as_text = shown_by(*words_of)
                read = [{name: text or "" for name, text in row.items()} for row in as_json["periods"]]
                self.check_periods(read, rows)
                read = [{name: text or "" for name, text in row.items()} for row in as_json["flows"]]
                self.check_flows(read, rows, self.sides_of(trade))
                self.check_terminal(as_text, rows)

    def check_terminal(self, text, rows):
        lines = iter(text.splitlines())
        for stream, _, period, reset, payment in periods_of(rows):
            cells = next(
                line.replace("*", "").split() for line in lines if line.split()[:1] == [period[0]] and "/" in line
            )
            self.assertEqual(cells[:5], [period[0], *period[3:7]])
            expected = [*period[7:8], printed_number(period[8])] + (
                [reset[2], printed_number(reset[3])] if reset else []
            )
            expected += [payment[2], printed_number(payment[5])] if payment else []
            self.assertEqual(len(cells) - 5, len(expected))
            for cell, value in zip(cells[5:], expected):
                self.assertEqual(
                    cell if cell.count("-") == 2 else shown_number(cell),
                    value if value is None or str(value).count("-") == 2 else Decimal(value),
                )


def shown_by(*arguments, stdin=None):
    """What irs-show prints, in this process."""
    from irs import show

    held, sys.stdout = sys.stdout, io.StringIO()
    try:
        status = show.main(list(arguments))
        text = sys.stdout.getvalue()
    finally:
        sys.stdout = held
    assert status == 0
    return text


def run_show(*arguments, stdin=b"", module="irs.show", env=None):
    """irs-show, or another command, in a process of its own."""
    return subprocess.run(
        [sys.executable, "-m", module, *map(str, arguments)],
        input=stdin,
        capture_output=True,
        cwd=HERE.parent,
        env={**os.environ, **(env or {})},
    )


class Xml(unittest.TestCase):
    def test_a_trade_in_xml_looks_as_its_carrier(self):
        trade = named("xml_audited/trade.xml")
        inputs = Inputs(trade, named("xml_audited/fixings"), trade, [named("xml_audited/target.cal")])
        look = look_at(inputs, TODAY, "North Bank")
        self.assertEqual(look.verdict_line, "yes 16 1")
        carried = Named("trade.json", irs.carrier(trade.content))
        other = look_at(inputs._replace(document=carried, flows=carried), TODAY, "North Bank")
        for name in ("headline", "view", "streams", "ledger", "waits", "verdict", "comparisons", "net", "wide"):
            self.assertIsNotNone(getattr(look, name), name)
            self.assertEqual(getattr(look, name), getattr(other, name), name)

    def test_a_refusal_marks_the_line_of_its_element(self):
        trade = example("xml_vanilla/terms.xml").replace(b"30E/360", b"31/360")
        refusal = look_at(Inputs(Named("t", trade), None, None, [named("xml_vanilla/target.cal")]), TODAY).refusal
        self.assertEqual((refusal.rule, refusal.file), ("K6", "t.xml"))
        (marked,) = [line for line in refusal.lines if line.marked]
        self.assertEqual(marked.number, trade[: trade.index(b"31/360")].count(b"\n") + 1)
        self.assertIn("31/360", marked.text)


class Show(unittest.TestCase):
    def lines(self, *arguments, **more):
        done = run_show(*arguments, **more)
        self.assertEqual(done.returncode, 0, done.stderr)
        return done.stdout.decode().splitlines()

    def test_the_flows_of_two_currencies(self):
        """The amounts are those of examples/two_currencies; the totals were added on paper."""
        folder = EXAMPLES / "two_currencies"
        lines = self.lines(folder / "terms.json", "--fixings", folder / "fixings")
        head = next(line for line in lines if "Receives" in line)
        self.assertIn(
            "2024-01-15  Mon       1  exchange 1  JPY   150,000,000                  150,000,000",
            lines,
        )
        self.assertIn(
            "2024-07-15  Mon       2  payment 1   USD     27,300.00                  -972,700.00",
            lines,
        )
        self.assertIn(
            "2025-01-15  Wed       2  payment 2   USD     28,111.11                    55,411.11",
            lines,
        )
        self.assertIn("Stream 1: p1 pays p2, JPY, fixed, 30/360", lines)
        other = self.lines(folder / "terms.json", "--fixings", folder / "fixings", "--party", "p2")
        last = other[-3]
        self.assertEqual(
            last.split(),
            ["2025-01-15", "Wed", "2", "payment", "2", "USD", "28,111.11", "-55,411.11"],
        )
        self.assertEqual(last.index("28,111.11") + len("28,111.11"), head.index("Pays") + len("Pays"))

    def test_the_page_shows_what_is_printed(self):
        """Each block of docs/LOOKING.md that begins with `$ irs-show`, run in the folder that the
        page names before it."""
        page = (EXAMPLES.parent / "docs" / "LOOKING.md").read_text()
        found = re.findall(r"In `examples/(\w+)`:\n\n    \$ irs-show (.*)\n((?:(?:    .*)?\n)+)", page)
        self.assertEqual(len(found), 2)
        for folder, words_of, block in found:
            arguments = [
                EXAMPLES / folder / word if word in ("terms.json", "fixings") else word for word in words_of.split()
            ]
            self.assertEqual([line[4:] for line in block.rstrip().split("\n")], self.lines(*arguments))

    def test_from_to_and_next(self):
        folder = EXAMPLES / "amortising"
        lines = self.lines(folder / "terms.json", "--from", "2024-07-15", "--to", "2024-10-15")
        self.assertEqual([line[:10] for line in lines if "payment" in line], ["2024-07-15", "2024-10-15"])
        self.assertIn(
            "2024-10-15 Tue 1 payment 3 USD 6,388.89 -15,868.06",
            [" ".join(line.split()) for line in lines],
        )
        lines = self.lines(folder / "terms.json", "--from", "2024-07-16", "--next")
        self.assertEqual([line[:10] for line in lines if "payment" in line], ["2024-10-15"])
        lines = self.lines(folder / "terms.json", "--from", "2024-07-16", "--next", "2")
        self.assertEqual([line[:10] for line in lines if "payment" in line], ["2024-10-15", "2025-01-15"])

    def test_net(self):
        """The amounts are those of examples/net, whose text has them with the sign of stream 1's
        payer."""
        folder = EXAMPLES / "net"
        words_of = (folder / "terms.json", "--fixings", folder / "fixings", "--net")
        lines = [line.split() for line in self.lines(*words_of)]
        self.assertEqual(lines[-2], ["2024-07-15", "p2", "USD", "7,484.72"])
        self.assertEqual(lines[-1], ["2025-01-15", "p1", "USD", "25,555.56"])
        lines = self.lines(*words_of, "--from", "2024-07-16", "--csv", "-")
        self.assertEqual(lines, ["date,payer,currency,amount,note", "2025-01-15,p1,USD,25555.56,"])
        done = run_show(EXAMPLES / "fixed_leg" / "terms.json", "--net")
        self.assertEqual(done.returncode, 2)
        self.assertIn(b"refused K8 1 payerPartyReference 0", done.stderr)

    def test_standard_input_and_files(self):
        text = example("fixed_leg/terms.json")
        self.assertEqual(self.lines("-", stdin=text), self.lines(EXAMPLES / "fixed_leg" / "terms.json"))
        lines = self.lines("-", "--csv", "-", "--table", "periods", stdin=text)
        self.assertEqual(
            lines[1],
            "1,USD,1,2024-01-15,2024-07-15,2024-01-15,2024-07-15,182,182/360,1000000.0000,"
            "0.050000000,"
            ",,,1,2024-07-15,2024-07-15,25277.78",
        )

    def test_a_folder_of_calendars(self):
        folder = EXAMPLES / "business_days"
        lines = self.lines(folder / "terms.json", "--calendar", folder)
        self.assertTrue(any("1996-12-16*" in line and "3,016,666.67" in line for line in lines))

    def test_what_it_refuses(self):
        for arguments, sentence in (
            (
                (EXAMPLES / "business_days" / "terms.json",),
                "K12: a centre of terminationDate's adjustments is in no calendar file",
            ),
            (
                (EXAMPLES / "nowhere.json",),
                "nowhere.json can't be read: No such file or directory",
            ),
            ((EXAMPLES,), "can't be read: Is a directory"),
            (
                (EXAMPLES / "fixed_leg" / "terms.json", "--party", "Bank\x1b[31m"),
                "no party of the streams is called Bank\\x1b[31m",
            ),
            (
                (EXAMPLES / "fixed_leg" / "terms.json", "--csv", EXAMPLES / "nowhere" / "x.csv"),
                "x.csv can't be written",
            ),
        ):
            done = run_show(*arguments)
            self.assertEqual((done.returncode, done.stdout), (2, b""))
            self.assertIn(sentence, done.stderr.decode())
            self.assertNotIn("Traceback", done.stderr.decode())
        done = run_show("-", stdin=b"<?xml version='1.0'?><FpML>")
        self.assertEqual(
            (done.returncode, done.stderr),
            (
                2,
                b"irs-show: refused K1 0 document 0: K1: the document isn't XML that this program reads "
                b"(reading stopped at line 1, column 28)\n",
            ),
        )
        done = run_show(EXAMPLES / "fixed_leg" / "terms.json", "--from", "15.7.2024")
        self.assertIn(b"15.7.2024 isn't a date as 2024-04-15", done.stderr)

    def test_eight_thousand_periods_in_a_second(self):
        terms = trades.eight_thousand()
        fixings = trades.fixings_of(terms, "2030-01-01", random.Random(1))
        with tempfile.TemporaryDirectory() as room:
            Path(room, "t.json").write_bytes(terms)
            Path(room, "fix").write_bytes(fixings)
            Path(room, "cal").write_bytes(trades.CALENDAR)
            words_of = [f"{room}/t.json", "--fixings", f"{room}/fix", "--calendar", f"{room}/cal"]
            seconds = []
            for _ in range(3):  # the least of three, as other work on the machine makes it longer
                before = resource.getrusage(resource.RUSAGE_CHILDREN)
                lines = self.lines(*words_of)
                after = resource.getrusage(resource.RUSAGE_CHILDREN)
                seconds.append(after.ru_utime + after.ru_stime - before.ru_utime - before.ru_stime)
        self.assertEqual(sum("payment" in line for line in lines), 8000)
        self.assertLess(min(seconds), 1.0)

    def test_a_terminal_that_has_only_ascii(self):
        terms = json.loads(example("fixed_leg/terms.json"))
        stream = terms["swap"]["swapStream"]
        stream["payerPartyReference"], stream["receiverPartyReference"] = {"@href": "Zürich"}, {"@href": "b"}
        lines = self.lines(
            "-",
            stdin=json.dumps(terms, ensure_ascii=False).encode(),
            env={"PYTHONIOENCODING": "ascii", "LC_ALL": "C"},
        )
        self.assertIn("Stream 1: Z\\xfcrich pays b, USD, fixed, ACT/360", lines)


class Names(unittest.TestCase):
    """Names from documents on terminal, page and sheet."""

    BAD = "<script>alert(1)</script>\u202e\u2066\x1b[31m\u200b"

    def trade(self, index=BAD, name="x.json"):
        made = trades.stream(
            1,
            "us",
            "2024-01-15",
            "2025-01-15",
            6,
            "1000",
            "USD",
            "ACT/360",
            index=index.replace("\x1b", ""),
            convention="NONE",
        )
        parties = [
            {"@id": "us", "partyName": self.BAD},
            {"@id": "them", "partyName": "=cmd|' /C calc'!A0"},
        ]
        return Inputs(
            Named(name, trades.document(made, parties=parties)),
            None,
            None,
            [Named("test.cal", trades.CALENDAR)],
        )

    def test_hidden_characters_are_numbers(self):
        self.assertEqual(plain.brief(self.BAD), "<script>alert(1)</script>\\u202e\\u2066\\x1b[31m\\u200b")
        self.assertEqual(plain.brief("a" * 100), "a" * 79 + "\u2026")
        self.assertEqual(plain.cell("=1+1"), "'=1+1")

    @needs("jinja2")
    def test_the_page_escapes_them(self):
        from irs.pages import report

        name = "../../etc/<script>alert(2)</script>\u202e.json"
        text = report([look_at(self.trade(name=name), TODAY)])
        page = Page(text)
        self.assertNotIn("script", [tag for tag, _ in page.tags])
        self.assertFalse([name for _, attributes in page.tags for name in attributes if name.startswith("on")])
        for character in "\u202e\u2066\x1b\u200b":
            self.assertNotIn(character, text)
        self.assertIn("&lt;script&gt;alert(1)&lt;/script&gt;\\u202e", text)

    @needs("jinja2")
    def test_the_policy_allows_the_style_alone(self):
        import base64
        import hashlib
        from irs.pages import report

        text = report([look_at(self.trade(), TODAY)])
        style = text.partition("<style>")[2].partition("</style>")[0]
        total = base64.b64encode(hashlib.sha256(style.encode()).digest()).decode()
        policy = next(
            attributes["content"]
            for tag, attributes in Page(text).tags
            if tag == "meta" and attributes.get("http-equiv") == "Content-Security-Policy"
        )
        self.assertEqual(
            policy,
            f"default-src 'none'; style-src 'sha256-{total}'; base-uri 'none'; form-action 'none'",
        )
        self.assertNotIn("style", [name for _, attributes in Page(text).tags for name in attributes])

    def test_csv_has_no_formula(self):
        schedule = irs.schedule(self.trade().document.content, calendars=[trades.CALENDAR])
        file = io.StringIO()
        schedule.to_csv(file)
        rows = list(csv.DictReader(io.StringIO(file.getvalue())))
        self.assertEqual({row["receiver"] for row in rows}, {"'=cmd|' /C calc'!A0"})

    @needs("openpyxl")
    def test_a_workbook_has_no_formula(self):
        import openpyxl

        schedule = irs.schedule(self.trade().document.content, calendars=[trades.CALENDAR])
        book = openpyxl.load_workbook(io.BytesIO(schedule.workbook()))
        kinds = {cell.data_type for sheet in book for row in sheet.iter_rows() for cell in row}
        self.assertNotIn("f", kinds)

    @needs("jinja2")
    def test_a_report_is_written_where_it_is_asked_for_alone(self):
        with tempfile.TemporaryDirectory() as room:
            trade = self.trade()
            Path(room, "t.json").write_bytes(trade.document.content)
            Path(room, "c.cal").write_bytes(trades.CALENDAR)
            done = run_show(
                f"{room}/t.json",
                "-o",
                f"{room}/r.html",
                "--calendar",
                f"{room}/c.cal",
                module="irs.report",
            )
            self.assertEqual((done.returncode, done.stderr), (0, b""))
            self.assertEqual(sorted(os.listdir(room)), ["c.cal", "r.html", "t.json"])


class Refusals(unittest.TestCase):
    """The lines around a fault: the marked line is the one where the text was changed."""

    def marked(self, command, files):
        refusal = refusal_of(ask(command, files))
        return next(line.text for line in refusal.lines if line.marked), refusal

    def terms(self, old, new, name="fixed_leg/terms.json"):
        content = example(name)
        self.assertEqual(content.count(old), 1)
        return Named("terms.json", content.replace(old, new))

    def test_places_in_the_terms(self):
        for old, new, rule in (
            (
                b'"terminationDate":{"unadjustedDate":"2025-01-15"',
                b'"terminationDate":{"unadjustedDate":"2025-01-35"',
                "K6",
            ),
            (b'"dayCountFraction":"ACT/360"', b'"dayCountFraction":"BUS/252"', "K5"),
            (b'"payRelativeTo":"CalculationPeriodEndDate"', b'"payRelativeTo":["a","b"]', "K7"),
        ):
            line, refusal = self.marked("check", Inputs(self.terms(old, new)))
            self.assertEqual(refusal.rule, rule)
            self.assertIn(new.decode(), line)
            self.assertEqual(
                [line.fault for line in refusal.lines if line.marked],
                [new.decode().rpartition(":")[2]],
            )

    def test_a_step_and_a_centre(self):
        files = Inputs(self.terms(b'"stepDate":"2024-07-15"', b'"stepDate":"2024-07-16"', "amortising/terms.json"))
        line, refusal = self.marked("check", files)
        self.assertEqual((refusal.rule, refusal.position), ("K36", 2))
        self.assertIn("2024-07-16", line)
        line, refusal = self.marked("check", Inputs(named("business_days/terms.json")))
        self.assertIn('"businessCenter":["DEFR"]', line)

    def test_places_in_other_files(self):
        calendar = named("business_days/de.cal")
        line, _ = self.marked("check", Inputs(named("business_days/terms.json"), calendars=[calendar, calendar]))
        self.assertEqual(line, "center DEFR")
        line, _ = self.marked(
            "schedule",
            Inputs(named("compounded/terms.json"), Named("fix", b"# x\n2024-01-15 0.05 3M\n")),
        )
        self.assertEqual(line, "2024-01-15 0.05 3M")
        for old, new in ((b'"25555.56"', b'"x"'), (b'"0.5111111111"', b'"y"')):
            flows = self.terms(old, new, "audit_departs/flows.json")
            line, refusal = self.marked("audit", Inputs(named("fixed_leg/terms.json"), None, flows))
            self.assertIn(new.decode(), line)

    def test_a_document_in_xml(self):
        """The line is the one that the engine's sentence names, by the element or where reading stopped."""
        terms = example("xml_fixed_leg/terms.xml")
        for old, new in (
            (b"<paymentDates>", b"<paymentDates><x/>"),
            (b">15<", b">FRN<"),
            (b"ACT/360", b"ACT/361"),
            (b"<paymentDates>", b"<paymentDates><"),
        ):
            line, _ = self.marked("check", Inputs(Named("t.xml", terms.replace(old, new))))
            self.assertIn(new.decode(), line)

    def test_what_is_no_json(self):
        line, _ = self.marked("check", Inputs(Named("t", b'{"a":1,\n"b":2,\n"c" 3}')))
        self.assertEqual(line, '"c" 3}')
        line, _ = self.marked("check", Inputs(Named("t", b'{"a":1,\n"b":"\xff"}')))
        self.assertEqual(line, '"b":"\ufffd"}')
        deep = refusal_of(ask("check", Inputs(Named("t", b"[" * 100000))))
        self.assertEqual((deep.rule, deep.lines), ("K1", []))

    def test_a_long_line_is_cut(self):
        one = example("fixed_leg/terms.json").replace(b"\n", b"").replace(b"ACT/360", b"ACT/361")
        line, _ = self.marked("check", Inputs(Named("t", one)))
        self.assertIn("ACT/361", line)
        self.assertLess(len(line), 130)

    def test_a_file_keeps_its_own_name(self):
        xml = example("xml_fixed_leg/terms.xml")
        reply = ask("audit", Inputs(Named("terms", xml), None, Named("their.txt", xml)))
        self.assertIn("(their.txt)", reply.sentence)

    def test_too_long_and_too_deep(self):
        refusal = refusal_of(ask("check", Inputs(Named("big.json", b" " * (library.MOST_BYTES + 1)))))
        self.assertEqual(refusal.sentence, "big.json has more than 4,194,304 bytes")

    def test_every_rule_of_the_pages_examples_has_a_place(self):
        """Each refused example of the folder gives a marked line, but for that of an unreadable
        file."""
        for folder in sorted(EXAMPLES.iterdir()):
            words_of = (folder / "command").read_text().split() if (folder / "command").is_file() else []
            status = (folder / "status").read_text().strip() if (folder / "status").is_file() else "0"
            if status in ("2", "3") and words_of[1] in ("schedule", "audit", "net"):
                names = words_of[2:]
                files = [Named(name, (folder / name).read_bytes()) for name in names if name != "-"]
                by_name = {file.name: file for file in files}
                flows = by_name[names[2]] if words_of[1] == "audit" else None
                rest = names[3:] if flows else names[2:]
                asked = Inputs(files[0], by_name.get(names[1]), flows, [by_name[name] for name in rest])
                refusal = refusal_of(ask(words_of[1], asked))
                self.assertEqual(refusal.line + "\n", (folder / "output").read_text())
                self.assertEqual(sum(line.marked for line in refusal.lines), 1, folder.name)


@needs("jinja2")
class Reports(unittest.TestCase):
    def report(self, room, *arguments):
        done = run_show(*arguments, "-o", f"{room}/report.html", "--today", "2026-11-29", module="irs.report")
        return (
            done,
            Page(Path(room, "report.html").read_text()) if Path(room, "report.html").exists() else None,
        )

    def test_an_overnight_rate_in_the_terms(self):
        with tempfile.TemporaryDirectory() as room:
            Path(room, "A.json").write_bytes(example("sofr_shift/terms.json"))
            Path(room, "A.fixings").write_bytes(example("sofr_accrued/daily"))
            Path(room, "calendars").mkdir()
            Path(room, "calendars", "usgs.cal").write_bytes(example("sofr_shift/usgs.cal"))
            done, page = self.report(room, f"{room}/A.json")
            self.assertEqual((done.returncode, done.stderr), (0, b""))
            text = Path(room, "report.html").read_text()
        self.assertEqual([len(table) for table in page.captioned("Periods")], [4])
        for said in (
            "<dt>Daily rates</dt><dd>compounded over the business days of USGS</dd>",
            "<dt>Observation shift</dt><dd>rates and days are those of 2 business days earlier</dd>",
            # the daily rates begin on 15 January and end on 26 November: the first and the last quarter lack some
            "2 amounts not known, as a fixing is missing.",
            "daily rates of USD-SOFR",
        ):
            self.assertIn(said, text)

    def test_what_lies_beside_a_trade_is_used(self):
        with tempfile.TemporaryDirectory() as room:
            for name, source in (
                ("A.json", "compounded/terms.json"),
                ("A.fixings", "compounded/fixings"),
                ("A.flows.json", "emitted/output"),
                ("B.json", "business_days/terms.json"),
                ("C.json", "compounded/terms.json"),
            ):
                Path(room, name).write_bytes(example(source))
            Path(room, "calendars").mkdir()
            Path(room, "calendars", "de.cal").write_bytes(example("business_days/de.cal"))
            Path(room, "D.json").write_bytes(b"<FpML>")
            done, page = self.report(room, *(f"{room}/{name}.json" for name in "ABCD"))
            self.assertEqual((done.returncode, done.stderr), (0, b""))
            text = Path(room, "report.html").read_text()
        links = [attributes["href"] for tag, attributes in page.tags if tag == "a"]
        self.assertEqual(links, ["#trade-1", "#trade-2", "#trade-3", "#trade-4"])
        self.assertEqual([len(table) for table in page.captioned("Periods")], [2, 5, 2])
        for said in (
            "1 stream, 2 periods, 1 payment; every amount is known. Agrees in all 5 rows.",
            "1 amount not known, as a fixing is missing.",
            "The terms break a rule",
            "the document isn&#39;t XML that this program reads",
        ):
            self.assertIn(said, text)

    def test_options_name_other_files(self):
        with tempfile.TemporaryDirectory() as room:
            folder = EXAMPLES / "fixed_leg"
            done, page = self.report(room, folder / "terms.json", "--flows", EXAMPLES / "audit_departs" / "flows.json")
            self.assertEqual(done.returncode, 0, done.stderr)
            marked = [
                attributes
                for tag, attributes in page.tags
                if tag == "td" and "departs" in (attributes.get("class") or "")
            ]
            self.assertEqual(len(marked), 2)

    def test_what_it_refuses(self):
        with tempfile.TemporaryDirectory() as room:
            for arguments, sentence in (
                ((f"{room}/none.json",), b"none.json can't be read"),
                (
                    (EXAMPLES / "net" / "terms.json", "--party", "nobody"),
                    b"no party of the streams is called nobody",
                ),
                (
                    (
                        EXAMPLES / "net" / "terms.json",
                        EXAMPLES / "net" / "terms.json",
                        "--flows",
                        "x",
                    ),
                    b"--flows goes with a single trade",
                ),
            ):
                done, page = self.report(room, *arguments)
                self.assertEqual((done.returncode, page), (2, None))
                self.assertIn(sentence, done.stderr)

    def test_a_document_from_standard_input(self):
        with tempfile.TemporaryDirectory() as room:
            done = run_show(
                "-",
                "-o",
                f"{room}/r.html",
                module="irs.report",
                stdin=example("fixed_leg/terms.json"),
            )
            self.assertEqual((done.returncode, done.stderr), (0, b""))
            self.assertIn("25,277.78", Path(room, "r.html").read_text())


class Sides(unittest.TestCase):
    def test_the_cells_that_break_are_marked_and_no_other(self):
        files = Inputs(named("fixed_leg/terms.json"), None, named("audit_departs/flows.json"))
        look = look_at(files, TODAY)
        marks = [
            (part.stream, part.kind, pair.our_number, pair.their_number, sorted(pair.marked))
            for part in look.comparisons
            for pair in part.pairs
        ]
        self.assertEqual(marks, [(1, "payment", "2", "2", ["adjustedPaymentDate"])])
        self.assertEqual((look.verdict_line, look.verdict.tone), ("no 1 payment 2 adjustedPaymentDate", "bad"))
        self.assertTrue(look.break_counts.startswith("1 break in 4 pairs of rows; "), look.break_counts)

    def test_every_kind_of_break_is_shown_with_both_values(self):
        look = look_at(trades.departing(), TODAY)
        marks = [
            (part.stream, part.kind, pair.our_number, pair.their_number, sorted(pair.marked))
            for part in look.comparisons
            for pair in part.pairs
        ]
        payment = sorted(compare.FIELDS["payment"])
        self.assertEqual(
            marks,
            [
                (1, "exchange", "2", "2", ["principalExchangeAmount"]),
                (1, "payment", "3", "3", ["adjustedPaymentDate"]),
                (1, "payment", "5", "5", ["amount"]),
                (1, "period", "10", "10", ["notionalAmount"]),
                (2, "reset", "5", "5", ["observedRate"]),
                (2, "payment", "7", "-", payment),
                (2, "payment", "-", "20", payment),
                (2, "period", "9", "8", ["calculationPeriodNumberOfDays", "dayCountYearFraction"]),
            ],
        )
        rows = [line.cells()[3:] for line in look.breaks]
        self.assertEqual(rows[0], ["principalExchangeAmount", "2", "2", "3,500,000,000", "3,499,999,999"])
        self.assertIn(["adjustedPaymentDate", "3", "3", "2024-12-16", "2024-12-17"], rows)
        self.assertIn(["missing", "7", "-", "246,838.13", "-"], rows)

    def test_the_tone_says_what_was_not_compared(self):
        terms = named("compounded/terms.json")
        flows = Named("flows.json", irs.emit(terms.content, example("compounded/fixings")))
        self.assertEqual(look_at(Inputs(terms, named("compounded/fixings"), flows), TODAY).verdict.tone, "good")
        open_look = look_at(Inputs(terms, None, flows), TODAY)
        self.assertEqual(open_look.verdict.tone, "waits")
        self.assertEqual(
            open_look.verdict.text,
            "Agrees in what is known: 5 rows. Not compared, as a fixing is missing: 1 amount.",
        )

    def test_rows_that_one_side_lacks(self):
        """The line is the first of the specification's own rows without its first payment."""
        text = (
            b"irs-breaks 1 -\n"
            b"b 1 payment 2024-07-15 1 - missing 25277.78 -\n"
            b"b 1 payment - - 4 undated - -0.50\n"
            b"end 2 2 9 3 0\n"
        )
        ours = json.loads(irs.emit(example("fixed_leg/terms.json")))
        theirs = json.loads(json.dumps(ours))
        theirs["swap"]["swapStream"][0]["cashflows"]["paymentCalculationPeriod"].pop(0)
        (payments,) = compare.side_by_side(ours, theirs, compare.lines_of(text))
        missing, undated = payments.pairs
        self.assertEqual((missing.theirs, len(missing.marked), missing.ours[1]), (None, 5, "2024-07-15"))
        self.assertEqual((undated.ours, undated.theirs, undated.their_number), (None, None, "4"))
        self.assertEqual(compare.counts_of(text), compare.Counts(2, 2, 9, 3, 0))

    def test_a_net_that_is_not_known_shows_no_amount(self):
        look = look_at(Inputs(named("net/terms.json")), TODAY)
        self.assertEqual(
            [[cell.text for cell in row] for row in look.net.rows],
            [
                ["2024-07-15", "p1", "USD", "25,277.78", "and 1 amount not known"],
                ["2025-01-15", "p1", "USD", "25,555.56", ""],
            ],
        )
        made = trades.stream(
            1,
            "us",
            "2024-01-15",
            "2024-07-15",
            6,
            "1000",
            "USD",
            "ACT/360",
            index="X",
            convention="NONE",
        )
        look = look_at(
            Inputs(Named("t", trades.document(made)), calendars=[Named("c", trades.CALENDAR)]),
            TODAY,
        )
        self.assertEqual(
            [[cell.text for cell in row] for row in look.net.rows],
            [["2024-07-15", "", "USD", "", "1 amount not known"]],
        )


class Insert(unittest.TestCase):
    def test_a_document_with_its_own_flows_agrees_with_them(self):
        for make in trades.FIVE:
            trade = make()
            document, fixings, calendars = (
                trade.document.content,
                trade.fixings.content,
                [trades.CALENDAR],
            )
            emitted = irs.emit(document, fixings, calendars)
            once = with_cashflows(document, emitted)
            self.assertIsInstance(irs.audit(once, once, fixings, calendars), irs.Yes)
            self.assertEqual(with_cashflows(once, emitted), once)
            left = once.decode()
            for stream in json.loads(emitted)["swap"]["swapStream"]:
                left = left.replace(f'"cashflows":{json.dumps(stream["cashflows"], separators=(",", ":"))},', "", 1)
            self.assertEqual(left.encode(), document)

    def test_a_document_in_xml_too(self):
        target = [named("xml_vanilla/target.cal")]
        for files in (
            Inputs(named("xml_fixed_leg/terms.xml")),
            Inputs(named("xml_vanilla/terms.xml"), named("xml_vanilla/fixings"), None, target),
            Inputs(named("xml_message/message.xml"), None, None, target),
        ):
            with self.subTest(files.document.name):
                document = files.document.content
                emitted = ask("emit", files).text
                once = with_cashflows(document, emitted)
                self.assertEqual(ask("audit", files._replace(flows=Named("their.xml", once))).status, 0)
                self.assertEqual(with_cashflows(once, emitted), once)
                bare = re.sub(rb"\s*<((?:\w+:)?cashflows)>.*?</\1>", b"", once, flags=re.S)
                self.assertEqual(bare, document)


class Picture(unittest.TestCase):
    """The timeline: every mark in its band, no label on another, 480 periods like 60."""

    def pictures(self):
        for make in (*trades.FIVE, trades.forty_years):
            look = look_at(make(), TODAY)
            yield make.__name__, look.wide
            yield make.__name__, look.narrow

    def test_labels_do_not_touch(self):
        for name, line in self.pictures():
            for band in line.bands:
                labelled = [(tick.x, tick.label) for tick in band.ticks if tick.label]
                self.assertTrue(labelled, name)
                for (one, label), (other, _) in zip(labelled, labelled[1:]):
                    self.assertGreaterEqual(other - one, 8 * len(label) - 3, (name, label))

    def test_every_mark_stands_in_a_band_once(self):
        for make in (*trades.FIVE, trades.forty_years):
            trade = make()
            look = look_at(trade, TODAY)
            streams = printed(ask("schedule", trade).text)
            for line in (look.wide, look.narrow):
                for place, stream in enumerate(streams):
                    lanes = [band.lanes[place] for band in line.bands]
                    self.assertEqual(sum(lane.payments.count("M") for lane in lanes), len(stream.payments))
                    self.assertEqual(sum(lane.resets.count("M") for lane in lanes), len(stream.resets))
                    self.assertEqual(sum(lane.exchanges.count("M") for lane in lanes), len(stream.exchanges))
                    self.assertEqual(sum(lane.boundaries.count("M") for lane in lanes), len(stream.periods) + 1)

    def test_sixty_and_four_hundred_and_eighty(self):
        for make in (trades.vanilla, trades.forty_years):
            look = look_at(make(), TODAY)
            for line, least in ((look.wide, 12), (look.narrow, 7)):
                most = max(band.lanes[1].payments.count("M") for band in line.bands)
                self.assertGreaterEqual((line.width - line.left - 12) / most, least)

    def test_stubs_are_those_that_the_terms_ask_for(self):
        line = look_at(trades.stub(), TODAY).wide
        self.assertEqual([len(lane.stubs) for band in line.bands for lane in band.lanes], [2, 2])
        self.assertFalse(look_at(trades.vanilla(), TODAY).wide.has["stubs"])
        dates = {
            "firstRegularPeriodStartDate": "2024-01-15",
            "lastRegularPeriodEndDate": "2025-01-15",
        }
        made = trades.stream(
            1,
            "us",
            "2024-01-15",
            "2025-01-15",
            6,
            "1000",
            "USD",
            "ACT/360",
            rate="0.01",
            dates=dates,
            convention="NONE",
        )
        self.assertFalse(look_at(Inputs(Named("t", trades.document(made))), TODAY).wide.has["stubs"])


class Words(unittest.TestCase):
    def test_terms(self):
        said = [{term.about: term.says for term in terms} for terms in words.terms_of(trades.stub().document.content)]
        self.assertEqual(said[1]["Rate"], "USD-TERM-SOFR 3M plus 0.15%")
        self.assertEqual(said[0]["Rate"], "fixed, 3.85%")
        self.assertEqual(said[0]["Notional"], "USD 12,500,000")
        self.assertEqual(
            said[1]["Resets"],
            "at period start, following in TEST; " "fixed 2 business days before that day, preceding in TEST",
        )

    def test_steps(self):
        said = [tuple(term) for term in words.terms_of(trades.amortising().document.content)[0]]
        self.assertEqual(said[:2], [("Notional", "GBP 16,000,000"), ("from 2024-06-15", "15,000,000")])
        self.assertEqual(said[7], ("and then", "9 more steps, which the periods show"))

    def test_overnight(self):
        for method, element, days, said in (
            ("Compounding", None, "", [("Daily rates", "compounded over the business days of USGS, GBLO")]),
            (
                "Compounding",
                "lookback",
                "5",
                [
                    ("Daily rates", "compounded over the business days of USGS, GBLO"),
                    ("Lookback", "each day takes the rate of 5 business days earlier"),
                ],
            ),
            (
                "Averaging",
                "observationShift",
                "1",
                [
                    ("Daily rates", "averaged over the business days of USGS, GBLO"),
                    ("Observation shift", "rates and days are those of 1 business day earlier"),
                ],
            ),
            (
                "Compounding",
                "lockout",
                "+02",
                [
                    ("Daily rates", "compounded over the business days of USGS, GBLO"),
                    ("Lockout", "the last 2 business days take the rate of the day before them"),
                ],
            ),
        ):
            parameters = {
                "calculationMethod": method,
                **({element: {"offsetDays": days}} if element else {}),
                "applicableBusinessDays": {"businessCenter": ["USGS", {"#text": " GBLO "}]},
            }
            floating = {"floatingRateIndex": "USD-SOFR", "calculationParameters": parameters}
            calculation = {"floatingRateCalculation": floating}
            terms = words.stream_terms({"calculationPeriodAmount": {"calculation": calculation}})
            place = terms.index(said[0])
            self.assertEqual(terms[place : place + len(said)], said)
            names = {term.about for term in terms} & {"Lookback", "Observation shift", "Lockout"}
            self.assertEqual(len(names), 1 if element else 0)

    def test_rates_keep_their_digits(self):
        for text, shown in (
            ("0.05", "5%"),
            ("0.0525", "5.25%"),
            ("-0.001", "-0.1%"),
            ("1", "100%"),
            ("10", "1000%"),
            ("0", "0%"),
            (".5", "50%"),
            ("0.000000001", "0.0000001%"),
            ("+0.05", "5%"),
            ("x", "x"),
        ):
            self.assertEqual(words.rate(text), shown)

    def test_numbers_keep_their_digits(self):
        self.assertEqual(tables.separated("-1234567.5000", 2), "-1,234,567.50")
        self.assertEqual(tables.separated("10000000000000.0000"), "10,000,000,000,000.0000")
        self.assertEqual(tables.per_cent("-0.001234567"), "-0.1234567%")
        self.assertEqual(tables.per_cent("10.000000000", 4), "1000.0000%")


class Colours(unittest.TestCase):
    """The contrast of WCAG 2.1: 4.5 to 1 for text, 3 to 1 for shapes."""

    def luminance(self, colour):
        parts = [int(colour[place : place + 2], 16) / 255 for place in (1, 3, 5)]
        linear = [part / 12.92 if part <= 0.04045 else ((part + 0.055) / 1.055) ** 2.4 for part in parts]
        return 0.2126 * linear[0] + 0.7152 * linear[1] + 0.0722 * linear[2]

    def contrast(self, one, other):
        dark, light = sorted((self.luminance(one), self.luminance(other)))
        return (light + 0.05) / (dark + 0.05)

    def test_the_formula(self):
        self.assertAlmostEqual(self.contrast("#000000", "#ffffff"), 21.0)
        self.assertAlmostEqual(self.contrast("#767676", "#ffffff"), 4.54, places=2)

    def test_the_palette(self):
        for name, colours in (("light", palette.LIGHT), ("dark", palette.DARK)):
            self.assertEqual(colours.keys(), palette.LIGHT.keys())
            for pairs, least in ((palette.TEXT, 4.5), (palette.SHAPES, 3.0)):
                for ink, back in pairs:
                    self.assertGreaterEqual(self.contrast(colours[ink], colours[back]), least, (name, ink, back))


class Optional(unittest.TestCase):
    """One plain sentence where a package is missing."""

    def without(self, package, code):
        return subprocess.run(
            [sys.executable, "-c", f"import sys\nsys.modules[{package!r}] = None\n{code}"],
            capture_output=True,
            cwd=HERE.parent,
        )

    def main(self, module, *arguments):
        return f"from irs import {module}\nsys.exit({module}.main({list(map(str, arguments))!r}))"

    def test_commands(self):
        terms = EXAMPLES / "fixed_leg" / "terms.json"
        for package, module, arguments, sentence in (
            (
                "openpyxl",
                "show",
                (terms, "--xlsx", "x"),
                "irs-show: a workbook needs openpyxl, which isn't installed " "(Debian: python3-openpyxl)",
            ),
            (
                "jinja2",
                "report",
                (terms, "-o", "x"),
                "irs-report: a page needs Jinja2, which isn't installed (Debian: python3-jinja2)",
            ),
            (
                "flask",
                "desk",
                (),
                "irs-desk: the page needs Flask, which isn't installed (Debian: python3-flask)",
            ),
        ):
            done = self.without(package, self.main(module, *arguments))
            self.assertEqual((done.returncode, done.stdout, done.stderr.decode()), (2, b"", sentence + "\n"))

    def test_python(self):
        terms = str(EXAMPLES / "fixed_leg" / "terms.json")
        made = f"import irs\ns = irs.schedule(open({terms!r}).read())\n"
        done = self.without("matplotlib", made + "s.plot()")
        self.assertIn(
            b"plot() needs matplotlib, which isn't installed (Debian: python3-matplotlib)",
            done.stderr,
        )
        done = self.without("jinja2", made + "assert s._repr_html_() is None")
        self.assertEqual(done.returncode, 0, done.stderr)


@needs("flask")
@needs("jinja2")
class Desk(unittest.TestCase):
    """The page without a browser: what stays in memory, who is answered, what is too large."""

    def setUp(self):
        from irs import desk

        self.client = desk.make_app("token", [Named("test.cal", trades.CALENDAR)]).test_client()

    def get(self, path, host="127.0.0.1:5000"):
        return self.client.get(path, headers={"Host": host})

    def look(self, **fields):
        return self.client.post(
            f"{TOP}look",
            data=fields,
            headers={"Host": "127.0.0.1"},
            content_type="multipart/form-data",
        )

    def test_no_upload_is_written(self):
        """Any temporary file would be made by one of these two; a file of 3 MiB is one that
        Werkzeug writes to disk."""
        content = example("fixed_leg/terms.json") + b" " * (3 << 20)
        with mock.patch("tempfile.TemporaryFile", side_effect=AssertionError), mock.patch(
            "tempfile.SpooledTemporaryFile.rollover", side_effect=AssertionError
        ):
            answer = self.look(document=(io.BytesIO(content), "terms.json"))
        self.assertEqual(answer.status_code, 303)
        self.assertIn("25,277.78", self.get(answer.headers["Location"]).text)

    def test_who_is_answered(self):
        self.assertEqual(self.get(TOP).status_code, 200)
        self.assertEqual(self.get(TOP, "localhost:5000").status_code, 200)
        for path, host in (
            ("/", "127.0.0.1"),
            (TOP[:-2] + "/", "127.0.0.1"),
            (TOP[:-1] + "2/", "127.0.0.1"),
            (TOP, "evil.example"),
            (TOP, "127.0.0.1.evil.example"),
            (f"{TOP}look/x", "127.0.0.1"),
            (f"{TOP}look/x/y", "127.0.0.1"),
        ):
            self.assertEqual(self.get(path, host).status_code, 404, (path, host))

    def test_headers(self):
        for path in (TOP, f"{TOP}look.css", f"{TOP}desk.js", "/nothing"):
            headers = self.get(path).headers
            policy = headers["Content-Security-Policy"]
            self.assertIn("default-src 'none'", policy)
            self.assertIn("script-src 'self'", policy)
            self.assertNotIn("unsafe", policy)
            self.assertEqual((headers["Referrer-Policy"], headers["Cache-Control"]), ("no-referrer", "no-store"))

    def test_the_form_says_what_is_missing(self):
        answer = self.look()
        self.assertEqual(answer.status_code, 400)
        self.assertIn("Choose a document of terms.", answer.text)
        terms = (io.BytesIO(trades.stub().document.content), "t.json")
        answer = self.look(document=terms, needed="1", party="<b>nobody")
        self.assertEqual(answer.status_code, 400)
        self.assertIn("no party of the streams is called &lt;b&gt;nobody", answer.text)

    def test_only_offered_calendars_are_taken(self):
        terms = trades.stub().document.content
        for choice in ("9", "-1", "../test.cal", "0" * 30, "\u00b2"):
            answer = self.look(document=(io.BytesIO(terms), "t.json"), offered=choice)
            self.assertIn("K12", self.get(answer.headers["Location"]).text)
        answer = self.look(document=(io.BytesIO(terms), "t.json"), offered="0")
        self.assertNotIn("K12", self.get(answer.headers["Location"]).text)

    def test_more_calendars_than_a_command_takes(self):
        files = [(io.BytesIO(b"center C%d\n" % number), f"{number}.cal") for number in range(17)]
        answer = self.look(document=(io.BytesIO(b"{}"), "t.json"), calendars=files)
        self.assertEqual(answer.status_code, 400)
        self.assertIn("there are 17 calendar files, and the engine takes 16", answer.text)

    def test_old_looks_are_dropped(self):
        from irs.desk import MOST_LOOKS

        terms = example("fixed_leg/terms.json")
        places = [self.look(document=(io.BytesIO(terms), "t.json")).headers["Location"] for _ in range(MOST_LOOKS + 1)]
        self.assertEqual([self.get(place).status_code for place in places], [404] + [200] * MOST_LOOKS)

    def test_too_large_together(self):
        from irs import desk

        with mock.patch.object(desk, "MOST_REQUEST", 1000):
            client = desk.make_app("token").test_client()
        answer = client.post(
            f"{TOP}look",
            data={"document": (io.BytesIO(b" " * 2000), "t.json")},
            headers={"Host": "127.0.0.1"},
        )
        self.assertEqual(answer.status_code, 413)
        self.assertIn("larger than this page takes", answer.text)

    def test_what_the_command_refuses(self):
        for arguments, sentence in (
            (("--calendars", EXAMPLES / "nowhere"), b"nowhere is no folder"),
            (("--port", "65536"), b"65536 isn't a port from 0 to 65535"),
        ):
            done = run_show(*arguments, module="irs.desk")
            self.assertEqual((done.returncode, done.stdout), (2, b""))
            self.assertIn(sentence, done.stderr)
            self.assertEqual(done.stderr.count(b"\n"), 1)

    def test_the_server_is_for_this_machine_alone(self):
        from irs import desk

        server = desk.make_server(desk.make_app("token"))
        self.addCleanup(server.server_close)
        self.assertEqual(server.socket.getsockname()[0], "127.0.0.1")
        done = run_show("--port", server.server_port, module="irs.desk")
        said = f"irs-desk: port {server.server_port} can't be had: Address already in use\n"
        self.assertEqual((done.returncode, done.stderr.decode()), (2, said))


class Notebook(unittest.TestCase):
    def schedule(self):
        trade = trades.two_currencies()
        return irs.schedule(trade.document.content, trade.fixings.content, [trades.CALENDAR])

    @needs("jinja2")
    def test_html(self):
        page = Page(self.schedule()._repr_html_())
        self.assertEqual([table["caption"] for table in page.tables], ["Cash flows", "Periods", "Exchanges"])

    @needs("matplotlib")
    def test_plot(self):
        schedule = self.schedule()
        figure = schedule.plot(party="Birch Pensions")
        self.assertEqual(
            [axis.get_ylabel() for axis in figure.axes],
            ["JPY, received above 0", "USD, received above 0"],
        )
        drawn = [segment[1][1] for collection in figure.axes[0].collections for segment in collection.get_segments()]
        expected = [float(flow.amount) for flow in schedule.flows("Birch Pensions") if flow.currency == "JPY"]
        self.assertEqual(sorted(drawn), sorted(expected))

    def test_flows(self):
        flows = self.schedule().flows(party="Alder Bank", since=date(2028, 1, 1))
        self.assertEqual(
            [flow.kind for flow in flows if flow.date == date(2028, 6, 15)],
            ["exchange", "payment", "exchange", "payment"],
        )
        self.assertTrue(all(flow.date >= date(2028, 1, 1) for flow in flows))
        with self.assertRaises(ValueError):
            self.schedule().flows(party="nobody")
        with self.assertRaises(ValueError):
            self.schedule().to_csv(io.StringIO(), "all")


class Places(unittest.TestCase):
    def test_members_and_items(self):
        text = ' {"a" : [1, {"b":"}\\"]"}, "x" ] , "a":{"c":null},"d":[]} '
        root = places.root_of(text)
        self.assertEqual([name for name, _ in places.members_of(text, root)], ["a", "a", "d"])
        spot = places.member_of(text, root, "a")
        self.assertEqual(text[spot.start : spot.end], '{"c":null}')
        first = next(places.members_of(text, root))[1]
        self.assertEqual(
            [text[item.start : item.end] for item in places.item_spots(text, first)],
            ["1", '{"b":"}\\"]"}', '"x"'],
        )


if __name__ == "__main__":
    unittest.main()
