"""`irs-fixings`: CSV files in, what a document lacks, what no document needs, and input that it can't use."""
import datetime
import unittest

from commands import TOP, InAFolder, ran

import irs
from irs import fixings
from irs.end_lines import end_of
from irs.fixing_needs import Key

EXAMPLES = TOP / "examples"


def printed(text):
    """The lines of a file of fixings without its remarks."""
    return [line for line in text.splitlines() if not line.startswith("#")]


class FromCsv(InAFolder):
    """What is read and written. The forms are those that the New York Fed, the Bundesbank and FRED send."""

    def test_percent(self):
        self.write(
            "sofr.csv",
            "Effective Date,Rate Type,Rate (%),Volume\n01/16/2025,SOFR,4.29,2361\n01/16/2025,BGCR,4.28,900\n"
            "01/15/2025,SOFR,4.3,2313\n",
        )
        ended = ran(
            fixings.main,
            "sofr.csv",
            "--percent",
            "--index",
            "USD-SOFR",
            "--tenor",
            "1D",
            "--date-column",
            "Effective Date",
            "--rate-column",
            "Rate (%)",
            "--date-form",
            "MM/DD/YYYY",
            "--where",
            "Rate Type=SOFR",
        )
        self.assertEqual(ended.status, 0, ended)
        self.assertEqual(printed(ended.out), ["2025-01-15 0.043 1D USD-SOFR", "2025-01-16 0.0429 1D USD-SOFR"])
        self.assertTrue(end_of(ended.out.encode()), ended.out)
        self.assertIn(f"# from sofr.csv, column Rate (%) in percent, made {datetime.date.today()}", ended.out)

    def test_decimal_comma_and_a_byte_order_mark(self):
        self.write("eur.csv", b"\xef\xbb\xbfDatum;Laufzeit;Satz\r\n15.01.2025;6M;-0,5\r\n15.01.2025;3M;2,6\r\n\r\n")
        ended = ran(
            fixings.main,
            "eur.csv",
            "--percent",
            "--index",
            "EUR-EURIBOR",
            "--tenor-column",
            "Laufzeit",
            "--date-column",
            "Datum",
            "--rate-column",
            "Satz",
            "--date-form",
            "DD.MM.YYYY",
            "--delimiter",
            ";",
            "--decimal-comma",
        )
        self.assertEqual(printed(ended.out), ["2025-01-15 0.026 3M EUR-EURIBOR", "2025-01-15 -0.005 6M EUR-EURIBOR"])

    def test_decimals_and_skipped_rows(self):
        self.write("fred.csv", "date,rate\n2025-01-15,0.0433\n2025-01-20,.\n2025-01-21,0\n")
        ended = ran(fixings.main, "fred.csv", "--decimal", "--index", "USD-EFFR", "--skip", ".")
        self.assertEqual(printed(ended.out), ["2025-01-15 0.0433 - USD-EFFR", "2025-01-21 0 - USD-EFFR"])

    def test_several_files_and_lines_above_the_header(self):
        self.write("may.csv", 'Series,"A, B"\n\ndate,rate\n2025-05-30,2.1\n2025-05-31,2.2\n')
        self.write("june.csv", "Series\nx\ndate,rate\n2025-05-31,2.20\n2025-06-02,2.3\n")
        words = ("may.csv", "june.csv", "--percent", "--index", "A", "--header-line", "3")
        ended = ran(fixings.main, *words)
        self.assertEqual(printed(ended.out), ["2025-05-30 0.021 - A", "2025-05-31 0.022 - A", "2025-06-02 0.023 - A"])
        self.assertIn("# from may.csv, june.csv, column rate", ended.out)
        self.write("june.csv", "Series\nx\ndate,rate\n2025-05-31,2.25\n")
        self.assert_refused(
            ran(fixings.main, *words),
            "june.csv line 4: 2025-05-31 of A - has two values, 0.022 and 0.0225",
            ["june.csv", "may.csv"],
        )

    def test_days_and_months_that_may_be_the_wrong_way_round(self):
        # 1, 2 and 3 April 2025 were Tuesday to Thursday; 4 January was a Saturday
        self.write("rates.csv", "date,rate\n1/4/2025,2.1\n2/4/2025,2.1\n3/4/2025,2.1\n")
        words = ("rates.csv", "--percent", "--index", "A", "--date-form")
        self.assertEqual(ran(fixings.main, *words, "DD/MM/YYYY").err, "")
        ended = ran(fixings.main, *words, "MM/DD/YYYY")
        note = "irs-fixings: 1 of 3 dates are Saturdays or Sundays: is MM/DD/YYYY right?\n"
        self.assertEqual((ended.status, ended.err), (0, note))

    def test_equal_rows_count_once(self):
        self.write("twice.csv", "date,rate\n2025-01-15,5.30\n2025-01-15,5.3\n")
        ended = ran(fixings.main, "twice.csv", "--percent", "--index", "A")
        self.assertEqual(printed(ended.out), ["2025-01-15 0.053 - A"])

    def test_above_100_percent(self):
        self.write("high.csv", "date,rate\n2025-01-15,118.5\n2025-01-16,-100\n")
        ended = ran(fixings.main, "high.csv", "--percent", "--index", "A", "--yes-above-100-percent")
        self.assertEqual(printed(ended.out), ["2025-01-15 1.185 - A", "2025-01-16 -1 - A"])

    def test_what_is_written_is_what_the_engine_observes(self):
        self.write("rates.csv", "date,rate\n2024-01-15,5\n2024-04-15,6.000000100\n")
        ended = ran(
            fixings.main, "rates.csv", "--percent", "--index", "USD-TEST-INDEX", "--tenor", "3M", "-o", "fixings"
        )
        self.assertEqual(ended.status, 0, ended)
        terms = (EXAMPLES / "compounded" / "terms.json").read_bytes()
        resets = irs.schedule(terms, (self.folder / "fixings").read_bytes()).resets()
        self.assertEqual([str(reset.observed) for reset in resets], ["0.050000000", "0.060000001"])


class BadInput(InAFolder):
    """One sentence, status 2, and no file."""

    WORDS = ("rates.csv", "--decimal", "--index", "A")

    def refused(self, content, says, *words):
        self.write("rates.csv", content)
        self.assert_refused(ran(fixings.main, *(words or self.WORDS), "-o", "made"), says, ["rates.csv"])

    def test_rows(self):
        for content, says in (
            ("date,rate\n2025-01-15,n/a\n", "line 2: 'n/a' isn't a number"),
            ("date,rate\n2025-01-15,\n", "line 2: '' isn't a number"),
            ("date,rate\n2025-01-15,5e-2\n", "isn't a number"),
            ("date,rate\n2025-01-15,NaN\n", "isn't a number"),
            ("date,rate\n2025-01-15,\u0665\n", "isn't a number"),
            ("date,rate\n2025-01-15,0.0.5\n", "isn't a number"),
            ("date,rate\n2025-01-15,5.31\n", "5.31 is above 100 percent: is it in percent?"),
            ("date,rate\n2025-01-15,-1.01\n", "above 100 percent"),
            ("date,rate\n2025-01-15,0.0123456789\n", "more than 9 decimals"),
            ("date,rate\n2025-01-15,0.05" + "0" * 40 + "1\n", "more than 28 digits"),
            ("date,rate\n15.01.2025,0.05\n", "'15.01.2025' isn't a date in the form YYYY-MM-DD"),
            ("date,rate\n2025-02-29,0.05\n", "isn't a date"),
            (
                "date,rate\n2025-01-15,0.05\n2025-01-16,0.05\n2025-01-15,0.051\n",
                "line 4: 2025-01-15 of A - has two values",
            ),
            ("date,rate\n", "has no fixing"),
            ("", "has no line"),
            ("\n\n", "has no line"),
            ("date,rate\n2025-01-15,0.05,\n", "has 3 fields, the header 2"),
            ("date,value\n2025-01-15,0.05\n", "has no column 'rate'; it has date, value"),
            ("date,rate,rate\n2025-01-15,0.05,0.05\n", "names the column 'rate' twice"),
            (b"date,rate\n2025-01-15,0.05\xff\n", "isn't UTF-8 text: byte 26"),
            ("date,rate\n2025-01-15,0.05\n".encode("utf-16"), "isn't UTF-8"),
            ('date,rate\n2025-01-15,"0.05\n', "isn't CSV"),
        ):
            with self.subTest(says):
                self.refused(content, says)

    def test_a_file_name_that_can_not_be_printed(self):
        name = "rates\n2025-01-15 9 - A\udcff.csv"
        self.write(name, "date,rate\n2025-01-15,0.05\n")
        ended = ran(fixings.main, name, "--decimal", "--index", "A")
        self.assertEqual(printed(ended.out), ["2025-01-15 0.05 - A"])
        self.assert_refused(
            ran(fixings.main, name, "--decimal", "--index", "\udcff", "-o", "made"), "isn't UTF-8", [name]
        )

    def test_a_file_that_is_too_long_for_the_engine(self):
        day = datetime.date(1901, 1, 1)
        days = (day + datetime.timedelta(number) for number in range(30_000))
        self.write("rates.csv", "date,rate\n" + "".join(f"{each},0.05\n" for each in days))
        self.refused(
            (self.folder / "rates.csv").read_text(), "4,194,304 bytes", "rates.csv", "--decimal", "--index", "A" * 128
        )

    def test_too_many_calendars(self):
        self.refused(
            "date,rate\n",
            "the engine takes 16",
            "--missing",
            str(EXAMPLES / "compounded" / "terms.json"),
            "--calendars",
            *["rates.csv"] * 17,
        )

    def test_dates_that_can_be_read_in_two_ways(self):
        words = (*self.WORDS, "--date-form", "YYYYMMDD")
        self.refused("date,rate\n2025115,0.05\n", "isn't a date in the form YYYYMMDD", *words)
        self.refused("date,rate\n\u0662025-01-15,0.05\n", "isn't a date")
        self.refused("date,rate\n15/01/25,0.05\n", "isn't a date", *self.WORDS, "--date-form", "DD/MM/YYYY")

    def test_words(self):
        row = "date,rate\n2025-01-15,0.05\n"
        self.refused(row, "say whether the rates are in percent", "rates.csv", "--index", "A")
        self.refused(row, "not allowed with", "rates.csv", "--index", "A", "--percent", "--decimal")
        self.refused(row, "say which index", "rates.csv", "--percent")
        self.refused(
            row, "the engine refuses the fixings", "rates.csv", "--percent", "--index", "A", "--tenor", "6 months"
        )
        self.refused(row, "the engine refuses the fixings", "rates.csv", "--percent", "--index", "A\tB")
        self.refused(row, "isn't COLUMN=TEXT", *self.WORDS, "--where", "rate")
        self.refused(row, "has no column 'type'", *self.WORDS, "--where", "type=SOFR")
        self.refused(row, "invalid choice", *self.WORDS, "--date-form", "D/M/Y")
        self.refused(row, "can't be read", "none.csv", "--percent", "--index", "A")
        self.refused(row, "give one of CSV files", "--percent", "--index", "A")
        self.refused(row, "give one of CSV files", *self.WORDS, "--unused", "rates.csv")
        self.refused(row, "needs --documents", "--unused", "rates.csv")
        self.refused(
            row,
            "the engine refuses",
            "--unused",
            "rates.csv",
            "--documents",
            str(EXAMPLES / "fixed_leg" / "terms.json"),
        )


class AgainstDocuments(InAFolder):
    """What a document needs is what the engine asks for."""

    def terms(self, name):
        return str(EXAMPLES / name / "terms.json")

    def test_resets_that_lack_a_rate(self):
        missing = ["2024-01-15 3M USD-TEST-INDEX", "2024-04-15 3M USD-TEST-INDEX"]
        ended = ran(fixings.main, "--missing", self.terms("compounded"))
        self.assertEqual((ended.status, ended.out.splitlines()), (1, missing))
        ended = ran(fixings.main, "--missing", self.terms("compounded"), "--until", "2024-04-14")
        self.assertEqual((ended.status, ended.out.splitlines()), (1, missing[:1]))
        self.write("fixings", "2024-01-15 0.05 3M USD-TEST-INDEX\n2024-04-15 0.05 6M USD-TEST-INDEX\n")
        ended = ran(fixings.main, "--missing", self.terms("compounded"), "--fixings", "fixings")
        self.assertEqual((ended.status, ended.out.splitlines()), (1, missing[1:]))
        ended = ran(
            fixings.main, "--missing", self.terms("compounded"), "--fixings", str(EXAMPLES / "compounded" / "fixings")
        )
        self.assertEqual(ended, (0, "", ""))

    def test_an_index_with_blanks_of_unicode(self):
        """The engine compares an index by its bytes: what Unicode takes for a blank is a part of it."""
        for index in ("\xa0USD-TEST\xa0", "USD\u2028TEST", "USD-TEST\x85", "USD\u3000TEST\u3000"):
            for name in ("compounded", "overnight"):
                text = (EXAMPLES / name / "terms.json").read_text()
                self.write(f"{name}.json", text.replace("USD-TEST-INDEX", index))
            text = (EXAMPLES / "compounded" / "fixings").read_text().replace("USD-TEST-INDEX", index)
            self.write("fixings", text)
            words = ("--missing", "compounded.json", "--fixings", "fixings")
            self.assertEqual(ran(fixings.main, *words), (0, "", ""), index)
            daily = (EXAMPLES / "overnight" / "daily").read_text().replace("USD-TEST-INDEX", index)
            rates = irs.overnight(
                1,
                (self.folder / "overnight.json").read_bytes(),
                daily,
                [(EXAMPLES / "overnight" / "test.cal").read_bytes()],
            )
            self.assertEqual([rate.index for rate in rates], [index])

    def test_a_stub_takes_its_own_index(self):
        # the stub of this document has no tenor, its regular period 3M
        ended = ran(fixings.main, "--missing", self.terms("interpolate"))
        self.assertEqual(ended.out.splitlines(), ["2024-01-15 - USD-TEST-INDEX", "2024-02-29 3M USD-TEST-INDEX"])

    def test_daily_rates(self):
        calendar = str(EXAMPLES / "overnight" / "test.cal")
        words = ("--missing", self.terms("overnight"), "--overnight", "1", "--calendars", calendar)
        days = ["2024-03-28 1D USD-TEST-INDEX", "2024-04-02 1D USD-TEST-INDEX"]
        self.assertEqual(ran(fixings.main, *words).out.splitlines(), days)
        self.assertEqual(ran(fixings.main, *words, "--until", "2024-04-01").out.splitlines(), days[:1])
        self.write("daily", "2024-03-28 0.036 1D USD-TEST-INDEX\n")
        self.assertEqual(ran(fixings.main, *words, "--fixings", "daily").out.splitlines(), days[1:])
        self.assertEqual(ran(fixings.main, *words, "--fixings", str(EXAMPLES / "overnight" / "daily")), (0, "", ""))

    def test_daily_rates_of_the_terms(self):
        calendar = str(EXAMPLES / "sofr_shift" / "usgs.cal")
        words = ("--missing", self.terms("sofr_shift"), "--calendars", calendar, "--until", "2025-01-22")
        days = [f"2025-01-{day} 1D USD-SOFR" for day in (13, 14, 15, 16, 17, 21, 22)]
        ended = ran(fixings.main, *words)
        self.assertEqual((ended.status, ended.out.splitlines()), (1, days))
        self.assertEqual(ran(fixings.main, *words, "--overnight", "1"), ended)
        daily = str(EXAMPLES / "sofr" / "daily")
        self.assertEqual(ran(fixings.main, *words, "--fixings", daily).out.splitlines(), days[:2])
        ended = ran(
            fixings.main,
            "--unused",
            str(EXAMPLES / "sofr_shift" / "daily"),
            "--documents",
            self.terms("sofr_shift"),
            "--calendars",
            calendar,
        )
        # the last two days of the year are observed by no period, as each is shifted by two
        self.assertEqual(ended.out.splitlines(), ["2026-01-13 1D USD-SOFR", "2026-01-14 1D USD-SOFR"])

    def test_lines_that_no_document_needs(self):
        self.write(
            "fixings",
            "2024-01-15 0.05 3M USD-TEST-INDEX\n# a remark\n2024-01-15\t0.05  6M USD-TEST-INDEX\n"
            "2024-04-15 0.05 3M usd-test-index\n2024-04-15 0.05 3M USD-TEST-INDEX \n"
            "2024-04-16 0.05 3M USD-TEST-INDEX\n",
        )
        ended = ran(
            fixings.main, "--unused", "fixings", "--documents", self.terms("compounded"), self.terms("fixed_leg")
        )
        self.assertEqual(
            (ended.status, ended.out.splitlines()),
            (1, ["2024-01-15 6M USD-TEST-INDEX", "2024-04-15 3M usd-test-index", "2024-04-16 3M USD-TEST-INDEX"]),
        )
        ended = ran(
            fixings.main, "--unused", str(EXAMPLES / "compounded" / "fixings"), "--documents", self.terms("compounded")
        )
        self.assertEqual(ended, (0, "", ""))
        ended = ran(
            fixings.main,
            "--unused",
            str(EXAMPLES / "overnight" / "daily"),
            "--documents",
            self.terms("overnight"),
            "--calendars",
            str(EXAMPLES / "overnight" / "test.cal"),
        )
        self.assertEqual(ended, (0, "", ""))

    def test_documents_that_can_not_be_used(self):
        self.assert_refused(
            ran(fixings.main, "--missing", self.terms("business_days"), "-o", "made"), "in no calendar file", []
        )
        self.assert_refused(
            ran(fixings.main, "--missing", self.terms("compounded"), "--overnight", "1", "-o", "made"),
            "ACT/360 or ACT/365.FIXED",
            [],
        )
        self.assert_refused(
            ran(fixings.main, "--missing", self.terms("compounded"), "--overnight", "2", "-o", "made"),
            "isn't there",
            [],
        )
        self.assert_refused(ran(fixings.main, "--missing", "none.json", "-o", "made"), "can't be read", [])
        self.assert_refused(
            ran(fixings.main, "--missing", self.terms("compounded"), "--until", "soon", "-o", "made"),
            "isn't a date",
            [],
        )

    def test_every_form_of_a_leaf(self):
        terms = (EXAMPLES / "compounded" / "terms.json").read_text()
        for tenor in (
            '{"periodMultiplier":3,"period":{"#text":" M ","@x":1}}',
            '[{"periodMultiplier":["003"],"period":"M"}]',
        ):
            self.write(
                "terms.json",
                terms.replace('"indexTenor":{"periodMultiplier":"3","period":"M"}', f'"indexTenor":{tenor}'),
            )
            self.assertEqual(
                ran(fixings.main, "--missing", "terms.json").out.splitlines(),
                ["2024-01-15 3M USD-TEST-INDEX", "2024-04-15 3M USD-TEST-INDEX"],
            )

    def test_every_line_that_is_missing_is_one_that_the_engine_then_takes(self):
        # for each example: with the missing lines added, no reset is without a rate; with any one left out, one is
        for folder in ("compounded", "interpolate", "two_currencies", "spread_exclusive"):
            terms = (EXAMPLES / folder / "terms.json").read_bytes()
            lines = ran(fixings.main, "--missing", self.terms(folder)).out.splitlines()
            self.assertTrue(lines, folder)
            filled = [" 0.01 ".join(line.split(" ", 1)) for line in lines]
            self.assertTrue(
                all(reset.observed is not None for reset in irs.schedule(terms, "\n".join(filled)).resets())
            )
            for number in range(len(filled)):
                fewer = "\n".join(filled[:number] + filled[number + 1 :])
                self.assertTrue(any(reset.observed is None for reset in irs.schedule(terms, fewer).resets()), folder)

    def test_keys_are_in_order_of_date(self):
        day = datetime.date(2024, 1, 15)
        self.assertLess(Key(day, "6M", "Z"), Key(day + datetime.timedelta(1), "3M", "A"))


if __name__ == "__main__":
    unittest.main()
