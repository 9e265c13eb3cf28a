"""The package over the shipped examples: rows, arguments and errors."""
import datetime
import json
import pickle
import sys
import unittest
from decimal import Decimal
from fractions import Fraction
from pathlib import Path
from xml.parsers import expat

HERE = Path(__file__).resolve().parent
EXAMPLES = HERE.parent.parent.parent / "examples"
sys.path.insert(0, str(HERE.parent))

import irs
import irs.errors
from irs import rows


def example(name):
    return (EXAMPLES / name).read_bytes()


def starts(document):
    """The line of each start tag, by expat, and where the tag ends."""
    found = []
    reader = expat.ParserCreate()

    def start(name, attributes):
        front = document[: reader.CurrentByteIndex]
        assert reader.CurrentLineNumber == front.count(b"\n") + 1
        found.append((reader.CurrentLineNumber, document.index(b">", len(front)) + 1))

    reader.StartElementHandler = start
    reader.Parse(document, True)
    return [(line, end) for line, end in found if document[end - 2 : end] != b"/>"]


class Xml(unittest.TestCase):
    TERMS, FIXINGS = example("xml_vanilla/terms.xml"), example("xml_vanilla/fixings")
    CALENDARS = [example("xml_vanilla/target.cal")]

    def test_a_document_in_xml(self):
        for terms in (self.TERMS, self.TERMS.decode(), b"\xef\xbb\xbf" + self.TERMS, self.TERMS.split(b"?>\n", 1)[1]):
            self.assertEqual(irs.schedule(terms, self.FIXINGS, self.CALENDARS).text, example("xml_vanilla/output"))
        path = EXAMPLES / "xml_vanilla/terms.xml"
        self.assertEqual(irs.schedule(path, self.FIXINGS, self.CALENDARS).text, example("xml_vanilla/output"))
        irs.check(self.TERMS, self.CALENDARS)

    def test_white_space_in_front(self):
        # An XML declaration is at the very front, and white space before another tag is XML.
        body = self.TERMS.split(b"?>\n", 1)[1]
        irs.check(b" \r\n\t" + body, self.CALENDARS)
        with self.assertRaises(irs.Refused) as caught:
            irs.check(b" " + self.TERMS, self.CALENDARS)
        self.assertEqual(
            str(caught.exception.sentence),
            "K1: the document isn't XML that this program reads (reading stopped at line 1, column 7)",
        )

    def test_cash_flows_in_xml(self):
        trade = example("xml_audited/trade.xml")
        self.assertEqual(irs.audit(trade, trade, self.FIXINGS, self.CALENDARS), irs.Yes(16, 1))
        emitted = irs.emit(trade, self.FIXINGS, self.CALENDARS)
        self.assertEqual(irs.audit(trade, emitted, self.FIXINGS, self.CALENDARS), irs.Yes(16, 1))
        with self.assertRaises(irs.BadFile):
            irs.audit(trade, trade[:-9], self.FIXINGS, self.CALENDARS)

    def test_the_parties_of_xml(self):
        made = irs.schedule(self.TERMS, self.FIXINGS, self.CALENDARS)
        self.assertEqual({flow.direction for flow in made.flows(party="North Bank")}, {"pays", "receives"})
        first = irs.net(self.TERMS, self.FIXINGS, self.CALENDARS)[0]
        self.assertEqual((str(first.date), first.amount), ("2024-09-16", Decimal("-200159.72")))

    def test_the_carrier(self):
        self.assertEqual(irs.carrier(example("carrier/terms.xml")), example("carrier/output"))
        self.assertEqual(irs.carrier("<swap/>"), b'{"swap":""}\n')
        with self.assertRaises(irs.BadWords):
            irs.carrier(b"{}")
        with self.assertRaises(irs.Refused):
            irs.carrier(b"<swap>")

    def test_names_say_the_form_to_the_library(self):
        terms = {"t.xml": self.TERMS, "t": self.TERMS, "c": self.CALENDARS[0]}
        self.assertEqual(irs.run(["check", "t.xml", "c"], terms).text, b"ok\n")
        self.assertEqual(irs.run(["check", "t", "c"], terms).text, b"refused K1 0 document 0\n")
        self.assertEqual(irs.run(["carrier", "t"], terms).text, b"bad words\n")


class Rows(unittest.TestCase):
    def test_a_fixed_stream(self):
        schedule = irs.schedule(example("fixed_leg/terms.json"))
        self.assertEqual(schedule.text, example("fixed_leg/output"))
        self.assertEqual(
            [payment.amount for payment in schedule.payments()], [Decimal("25277.78"), Decimal("25555.56")]
        )
        first = schedule.periods(1)[0]
        self.assertEqual(first.fraction, Fraction(182, 360))
        self.assertEqual(first.start, datetime.date(2024, 1, 15))
        self.assertEqual(first.rate, Decimal("0.05"))
        self.assertEqual(schedule.streams, [irs.Stream(1, "USD", "ACT/360", False)])

    def test_a_calendar(self):
        schedule = irs.schedule(example("business_days/terms.json"), calendars=[example("business_days/de.cal")])
        self.assertEqual(schedule.text, example("business_days/output"))

    def test_fixings_that_are_there_and_that_are_not(self):
        known = irs.schedule(example("compounded/terms.json"), fixings=example("compounded/fixings"))
        self.assertEqual(known.payments()[0].amount, Decimal("32762.50"))
        unknown = irs.schedule(example("compounded/terms.json"))
        self.assertIsNone(unknown.payments()[0].amount)
        self.assertEqual([reset.observed for reset in unknown.resets()], [None, None])

    def test_an_audit(self):
        self.assertEqual(irs.audit(example("fixed_leg/terms.json"), example("audit_agrees/flows.json")), irs.Yes(4, 0))
        self.assertEqual(
            irs.audit(example("fixed_leg/terms.json"), example("audit_departs/flows.json")),
            irs.No(1, "payment", 2, "adjustedPaymentDate"),
        )

    def test_breaks(self):
        """The answers are those that the command's text was specified with, for changes of the emitted flows."""
        terms = example("fixed_leg/terms.json")
        flows = json.loads(irs.emit(terms))
        payments = flows["swap"]["swapStream"][0]["cashflows"]["paymentCalculationPeriod"]
        self.assertEqual(irs.breaks(terms, flows), irs.Breaks([], 4, 24, 0, 0))
        payments[1]["adjustedPaymentDate"] = "2025-01-16"
        day = datetime.date(2025, 1, 15)
        self.assertEqual(
            irs.breaks(terms, flows).rows,
            [irs.Break(1, "payment", day, 2, 2, "adjustedPaymentDate", day, datetime.date(2025, 1, 16))],
        )
        payments[1]["adjustedPaymentDate"] = "2025-01-15"
        del payments[0]
        day = datetime.date(2024, 7, 15)
        lacks = irs.Break(1, "payment", day, 1, None, "missing", Decimal("25277.78"), None)
        self.assertEqual(irs.breaks(terms, flows).rows, [lacks])
        self.assertEqual(irs.breaks(terms, flows, since="2024-12-01").rows, [])
        with self.assertRaises(irs.BadWords):
            irs.breaks(terms, flows, since="2024-13-01")

    def test_values_of_breaks(self):
        line = "b 1 period 2024-01-15 1 1 dayCountYearFraction 182/360 0.505555555556"
        self.assertEqual(rows.break_of(line)[-2:], (Fraction(182, 360), Decimal("0.505555555556")))
        line = "b 1 period 2024-01-15 1 1 calculationPeriodNumberOfDays 182 181"
        self.assertEqual(rows.break_of(line)[-2:], (182, 181))
        of_a_stream = (2, "stream", None, None, None, "extra", None, None)
        self.assertEqual(rows.break_of("b 2 stream - - - extra - -"), of_a_stream)

    def test_what_is_emitted_is_audited(self):
        emitted = irs.emit(example("compounded/terms.json"), example("compounded/fixings"))
        self.assertEqual(emitted, example("emitted/output"))
        self.assertEqual(
            irs.audit(example("compounded/terms.json"), emitted, fixings=example("compounded/fixings")), irs.Yes(5, 0)
        )

    def test_emit_xml(self):
        terms, fixings = example("compounded/terms.json"), example("compounded/fixings")
        emitted = irs.emit_xml(terms, fixings)
        self.assertEqual(emitted, example("emitted_xml/output"))
        self.assertEqual(irs.audit(terms, emitted, fixings), irs.Yes(5, 0))

    def test_what_has_accrued(self):
        day = datetime.date(2024, 4, 15)
        self.assertEqual(
            irs.accrue(day, example("fixed_leg/terms.json")),
            [irs.Accrued(1, 1, 91, Fraction(91, 360), Decimal("12638.89"))],
        )
        self.assertEqual(
            irs.accrue("2025-01-15", example("fixed_leg/terms.json")), [irs.Accrued(1, None, None, None, None)]
        )

    def test_overnight_rates_in_the_terms(self):
        calendars = [example("sofr/usgs.cal")]
        schedule = irs.schedule(example("sofr/terms.json"), example("sofr/daily"), calendars)
        self.assertEqual(schedule.text, example("sofr/output"))
        self.assertEqual([reset.observed for reset in schedule.resets()][0], Decimal("0.043249224"))
        files = (example("sofr_accrued/terms.json"), example("sofr_accrued/daily"), calendars)
        self.assertEqual(
            irs.accrue("2025-11-28", *files), [irs.Accrued(1, 4, 44, Fraction(44, 360), Decimal("469722.00"))]
        )
        self.assertIsNone(irs.accrue("2025-12-01", *files)[0].amount)
        with self.assertRaises(irs.Refused) as caught:
            irs.overnight(1, example("sofr/terms.json"), example("sofr/daily"), calendars)
        self.assertEqual(caught.exception.rule, "K40")

    def test_the_days_behind_a_rate(self):
        files = (example("observations/fixings"), [example("observations/usgs.cal")])
        found = irs.observations(1, example("observations/terms.json"), *files)
        self.assertEqual(found[0], irs.PeriodFactor(1, "Compounding", Decimal("1.002075689365601355")))
        # the rate of the Thursday before Easter is that of four days
        self.assertEqual([row.days for row in found[1:]], [1, 1, 1, 4, 1, 1, 1, 1, 3])
        with self.assertRaises(irs.Refused) as caught:
            irs.observations(1, example("fixed_leg/terms.json"))
        self.assertEqual(caught.exception.rule, "K49")

    def test_rows_of_observations(self):
        factor = irs.PeriodFactor(1, "Compounding", Decimal("1.002075689365601355"))
        self.assertEqual(rows.observed_of("c 1 Compounding 1.002075689365601355"), factor)
        self.assertEqual(rows.observed_of("c 2 stub -"), irs.PeriodFactor(2, "stub", None))
        self.assertEqual(
            rows.observed_of("o 1 2024-03-28 4 2024-03-27 0.053400000"),
            irs.Observation(1, datetime.date(2024, 3, 28), 4, datetime.date(2024, 3, 27), Decimal("0.053400000")),
        )
        self.assertIsNone(rows.observed_of("o 1 2024-04-05 3 2024-04-05 -").rate)

    def test_the_further_commands(self):
        day = datetime.date(2024, 7, 15)
        net = irs.net(example("net/terms.json"), example("net/fixings"))
        self.assertEqual(net[0], irs.Net(day, "USD", Decimal("-7484.72"), 0))
        daily = example("overnight/daily")
        rates = irs.overnight(1, example("overnight/terms.json"), daily, [example("overnight/test.cal")])
        self.assertEqual(
            rates, [irs.Derived(datetime.date(2024, 3, 28), Decimal("0.042006000"), "3M", "USD-TEST-INDEX")]
        )
        mean = irs.average(1, "plain", "1W", example("average_plain/terms.json"), example("average_plain/fixings"))
        self.assertEqual(mean[0].rate, Decimal("0.063333333"))
        lacking = irs.average(1, "plain", "1W", example("average_plain/terms.json"))
        self.assertEqual(lacking, [irs.Missing(1, datetime.date(2024, 1, 15))])
        stub = irs.interpolate(
            1, "initial", "1M", "2M", example("interpolate/terms.json"), example("interpolate/fixings")
        )
        self.assertEqual((stub.rate, stub.tenor), (Decimal("0.051400000"), None))


class Errors(unittest.TestCase):
    def test_a_broken_rule(self):
        with self.assertRaises(irs.Refused) as caught:
            irs.schedule(example("business_days/terms.json"))
        refused = caught.exception
        self.assertEqual((refused.rule, refused.stream, refused.index), ("K12", 1, 1))
        self.assertEqual(refused.path, "calculationPeriodDates/terminationDate/dateAdjustments")
        self.assertTrue(refused.sentence)
        self.assertEqual(pickle.loads(pickle.dumps(refused)).rule, "K12")

    def test_a_bad_calendar(self):
        with self.assertRaises(irs.BadFile) as caught:
            irs.check(
                example("business_days/terms.json"), [example("business_days/de.cal"), example("business_days/de.cal")]
            )
        self.assertEqual(
            (caught.exception.kind, caught.exception.file, caught.exception.row, caught.exception.fault),
            ("calendar", 2, 1, "repeat"),
        )

    def test_bad_flows(self):
        with self.assertRaises(irs.BadFile) as caught:
            irs.audit(example("fixed_leg/terms.json"), "{}")
        self.assertEqual(
            (caught.exception.kind, caught.exception.fault, caught.exception.path), ("flows", "missing", "swap")
        )

    def test_a_day_that_is_none(self):
        with self.assertRaises(irs.BadWords):
            irs.accrue("2024-02-30", example("fixed_leg/terms.json"))

    def test_a_file_that_is_too_long(self):
        with self.assertRaises(irs.TooLong):
            irs.check(b" " * 4_194_305)


class Arguments(unittest.TestCase):
    """What a call takes: bytes, texts, paths and mappings, and TypeError for the rest."""

    def test_a_path_is_read(self):
        schedule = irs.schedule(
            EXAMPLES / "business_days" / "terms.json", calendars=[EXAMPLES / "business_days" / "de.cal"]
        )
        self.assertEqual(schedule.text, example("business_days/output"))

    def test_a_name_in_the_place_of_a_file_is_no_document(self):
        for call in (irs.schedule, irs.check):
            with self.assertRaisesRegex(TypeError, "pathlib.Path"):
                call(str(EXAMPLES / "fixed_leg" / "terms.json"))
        with self.assertRaisesRegex(TypeError, "pathlib.Path"):
            irs.schedule(example("compounded/terms.json"), fixings=str(EXAMPLES / "compounded" / "fixings"))

    def test_numbers_are_no_documents(self):
        for wrong in (3, True, None, 10**10, ["{}"], 1.5):
            with self.assertRaises(TypeError):
                irs.check(wrong)
        for wrong in (0, False):
            with self.assertRaises(TypeError):
                irs.schedule(example("fixed_leg/terms.json"), fixings=wrong)
        with self.assertRaises(TypeError):
            irs.run(["check", "D"], {"D": 3})

    def test_one_calendar_is_no_list_of_calendars(self):
        calendar = example("business_days/de.cal")
        for wrong in (calendar, calendar.decode(), bytearray(calendar), EXAMPLES / "business_days" / "de.cal"):
            with self.assertRaisesRegex(TypeError, "list"):
                irs.check(example("business_days/terms.json"), wrong)

    def test_days_with_a_time(self):
        day = datetime.datetime(2024, 4, 15, 17, 30)
        self.assertEqual(irs.accrue(day, example("fixed_leg/terms.json"))[0].days, 91)
        with self.assertRaises(TypeError):
            irs.accrue(20240415, example("fixed_leg/terms.json"))

    def test_a_mapping_with_decimals_and_days(self):
        document = json.loads(example("fixed_leg/terms.json"))
        text = json.dumps(document)
        self.assertIn('"2024-01-15"', text)

        def typed(value):
            if isinstance(value, dict):
                return {name: typed(member) for name, member in value.items()}
            if isinstance(value, list):
                return [typed(member) for member in value]
            if value == "2024-01-15":
                return datetime.date(2024, 1, 15)
            return Decimal("0.05") if value == "0.05" else value

        self.assertEqual(irs.schedule(typed(document)).text, example("fixed_leg/output"))
        with self.assertRaises(TypeError):
            irs.check({"swap": object()})


class Schedules(unittest.TestCase):
    def test_rows_are_read_when_they_are_asked_for(self):
        schedule = irs.schedule(example("fixed_leg/terms.json"))
        self.assertNotIn("rows", vars(schedule))
        self.assertEqual(len(schedule), 5)
        self.assertEqual(repr(schedule), "<irs.Schedule of 5 rows; 1 USD fixed>")
        self.assertNotIn("rows", vars(schedule))
        self.assertEqual((schedule[0], schedule[-1]), (schedule.rows[0], schedule.rows[4]))
        self.assertEqual(schedule[1:2], schedule.rows[1:2])

    def test_a_frame(self):
        try:
            import pandas
        except ImportError:
            self.skipTest("pandas isn't installed")
        schedule = irs.schedule(example("net/terms.json"), example("net/fixings"))
        frame = schedule.frame()
        self.assertEqual(str(frame["adjusted"].dtype), "datetime64[ns]")
        self.assertEqual(set(frame["currency"]), {"USD"})
        self.assertIsInstance(frame["amount"][0], Decimal)
        floats = schedule.frame(numbers="float", party=frame["payer"][0])
        self.assertEqual(str(floats["amount"].dtype), "float64")
        self.assertEqual(floats["amount"][0], float(frame["amount"][0]))
        self.assertEqual(list(floats["direction"]), ["pays", "pays", "receives"])
        self.assertNotEqual(frame["payer"][0], frame["receiver"][0])
        with self.assertRaises(ValueError):
            schedule.frame(party="nobody")
        self.assertIsInstance(schedule.frame(irs.Period), pandas.DataFrame)
        with self.assertRaises(ValueError):
            schedule.frame(irs.Net)
        with self.assertRaises(ValueError):
            schedule.frame(numbers="int")

    def test_a_frame_of_a_day_past_what_pandas_holds(self):
        try:
            import pandas  # noqa: F401
        except ImportError:
            self.skipTest("pandas isn't installed")
        document = (
            example("fixed_leg/terms.json").replace(b"2024-01-15", b"2284-01-15").replace(b"2025-01-15", b"2285-01-15")
        )
        frame = irs.schedule(document).frame()
        self.assertEqual(frame["adjusted"][1], datetime.date(2285, 1, 15))

    def test_a_negative_amount_is_received_by_the_payer(self):
        try:
            import pandas  # noqa: F401
        except ImportError:
            self.skipTest("pandas isn't installed")
        from irs.calls import Schedule

        schedule = Schedule(example("two_currencies/output"), example("two_currencies_net/terms.json"))
        frame = schedule.frame(irs.Exchange)
        frame = schedule.frame(irs.Exchange, party=frame["payer"][0])
        self.assertEqual(list(frame["direction"][:2]), ["receives", "pays"])


class EveryStatus(unittest.TestCase):
    def test_an_error_each(self):
        for status, line in (
            (2, "refused K1 0 document 0"),
            (3, "bad fixings 1 syntax"),
            (4, "bad words"),
            (5, "no file 1"),
            (7, ""),
            (8, "too long 1"),
            (9, ""),
        ):
            error = irs.errors.error_of(status, line, "why")
            self.assertIsInstance(error, irs.Error)
            self.assertEqual(error.status, status)
            self.assertEqual(type(pickle.loads(pickle.dumps(error))), type(error))
        self.assertIsInstance(irs.errors.error_of(7, "", ""), MemoryError)
        self.assertEqual(irs.errors.error_of(42, "what", "").status, 42)

    def test_a_name_with_controls(self):
        named = irs.run(["check", "\x1b[2J\nok\u202e"])
        self.assertEqual((named.status, named.text), (5, b"no file 1\n"))
        self.assertEqual(named.sentence, r"couldn't be read: \x1b[2J\x0aok\u202e")

    def test_wrong_words(self):
        for words, said in (
            (["schedule", "D"], "schedule needs FIX: a file or -"),
            (["shcedule", "D", "-"], "no command shcedule: did you mean schedule?"),
            (["help"], "irs --help explains the commands"),
        ):
            self.assertEqual(irs.library.run(words, {"D": b""}), (4, b"bad words\n", said))

    def test_a_sentence_with_a_long_name(self):
        name = "x" * 100_000
        self.assertEqual(irs.run(["check", name]).sentence, f"couldn't be read: {name}")


class Notes(unittest.TestCase):
    """What the sentence adds: the missing fixing, and where a document breaks a rule."""

    FLOATING = example("compounded/terms.json")
    MISSING = (
        "payments without an amount: 1 of 1; the first, payment 1 of stream 1, lacks a fixing for "
        "USD-TEST-INDEX 3M on 2024-01-15"
    )

    def said(self, words, document, **files):
        name = "d.xml" if document.lstrip()[:1] == b"<" else "d"
        return irs.run([name if word == "d" else word for word in words], {name: document, **files})

    def test_each_command_says_which_fixing_is_missing(self):
        flows = irs.emit(self.FLOATING)
        for words, said in (
            (["schedule", "d", "-"], ""),
            (["emit", "d", "-"], ""),
            (["emit-xml", "d", "-"], ""),
            (["accrue", "2024-02-15", "d", "-"], ""),
            (["breaks", "-", "d", "-", "w"], ""),
            (
                ["audit", "d", "-", "w"],
                "the cash flows (w) agree, but amounts that lack a fixing weren't compared: 1; ",
            ),
        ):
            told = self.said(words, self.FLOATING, w=flows)
            self.assertEqual((told.status, told.sentence), (0, said + self.MISSING), words)
        net = example("net/terms.json")
        told = irs.run(["net", "d", "-"], {"d": net})
        self.assertRegex(told.sentence, "^payments without an amount: 1 of 3; the first, payment 1 of stream 2, lacks ")

    def test_a_departure_says_it_too(self):
        flows = irs.emit(self.FLOATING).replace(b"2024-07-15", b"2024-07-16")
        for words in (["audit", "d", "-", "w"], ["breaks", "-", "d", "-", "w"]):
            told = self.said(words, self.FLOATING, w=flows)
            self.assertEqual(told.status, 1)
            self.assertTrue(told.sentence.startswith("the cash flows (w) depart from the schedule"), told.sentence)
            self.assertTrue(told.sentence.endswith("; " + self.MISSING), told.sentence)

    def test_commands_that_say_nothing_of_it(self):
        for words in (["check", "d"], ["average", "1", "plain", "1W", "d", "-"]):
            told = self.said(words, self.FLOATING)
            self.assertEqual((told.status, told.sentence), (0, ""), words)

    def test_nothing_where_each_amount_is_known(self):
        told = self.said(["schedule", "d", "f"], self.FLOATING, f=example("compounded/fixings"))
        self.assertEqual((told.status, told.sentence), (0, ""))

    def test_a_misspelt_index_is_the_one_that_was_looked_for(self):
        fixings = example("compounded/fixings").replace(b"USD-TEST-INDEX", b"USD-TEST INDEX")
        told = self.said(["schedule", "d", "f"], self.FLOATING, f=fixings)
        self.assertEqual((told.status, told.sentence), (0, self.MISSING))

    def test_the_first_period_without_a_rate(self):
        first, second = example("compounded/fixings").splitlines(keepends=True)
        for fixings, day in ((first, "2024-04-15"), (second, "2024-01-15")):
            told = self.said(["schedule", "d", "f"], self.FLOATING, f=fixings)
            self.assertEqual(told.sentence, self.MISSING.replace("2024-01-15", day))

    def test_an_index_without_a_tenor(self):
        tenor = b'"indexTenor":{"periodMultiplier":"3","period":"M"},\n'
        self.assertIn(tenor, self.FLOATING)
        told = self.said(["schedule", "d", "-"], self.FLOATING.replace(tenor, b""))
        self.assertEqual(told.sentence, self.MISSING.replace(" 3M", ""))

    def test_names_from_a_document_are_visible_ascii(self):
        index = "USD\\u\u202e\u00e9\\ ~".encode().replace(b"\\", b"\\\\")
        told = self.said(["schedule", "d", "-"], self.FLOATING.replace(b"USD-TEST-INDEX", index))
        self.assertIn(r"a fixing for USD\x5cu\xe2\x80\xae\xc3\xa9\x5c ~ 3M on ", told.sentence)
        for name, shown in (
            ("a\nb\u202e", r"the member is a\x0ab\xe2\x80\xae"),
            ("", "the name of the member is empty"),
            ("x" * 128, "the member is " + "x" * 128),
            ("x" * 129, "the member is " + "x" * 128 + "..."),
            ("\x7f" * 200, "the member is " + r"\x7f" * 128 + "..."),
        ):
            document = json.loads(example("fixed_leg/terms.json"))
            document["swap"]["swapStream"]["paymentDates"][name] = "1"
            told = self.said(["check", "d"], json.dumps(document).encode())
            self.assertEqual((told.status, told.text), (2, b"refused K4 1 paymentDates 0\n"))
            self.assertTrue(told.sentence.endswith("; " + shown), told.sentence)

    def test_the_member_and_the_line(self):
        terms = example("xml_fixed_leg/terms.xml")
        for old, new, said in (
            (b"<paymentDates>", b"<paymentDates>\n<x/>", "K4: .. (stream 1); the member is x; see line 13"),
            (b"<paymentDates>", b"\n\n<paymentDates><x/>", "K4: .. (stream 1); the member is x; see line 15"),
            (b"<swapStream>", b"<swapStream><formula/>", "K5: .. (stream 1); the member is formula; see line 2"),
            (b">15<", b">FRN<", "K5: calculationPeriodFrequency's rollConvention .. (stream 1); see line 10"),
            (
                b"2025-01-15",
                b"2023-02-29",
                "K6: .. (stream 1); the text is 2023-02-29; "
                "it has to be a date YYYY-MM-DD from 1901-01-01 to 2299-12-31; see line 6",
            ),
            # What isn't there: the line of the element that should have it.
            (b"<currency>USD</currency>", b"", "K2: .. (stream 1); see line 20"),
            (b"ACT/360", b"x</dayCountFraction><dayCountFraction>y", "K7: .. (stream 1); see line 24"),
            (b"2025-01-15", b"2025-01-20", "K31: .. (stream 1); see line 6"),
            # A comment and a section that look like the element come before it.
            (b"<paymentDates>", b"<!-- <paymentDates>\n --><paymentDates><x/>", "K4: ..; see line 14"),
        ):
            self.assertEqual(terms.count(old), 1, old)
            told = self.said(["schedule", "d", "-"], terms.replace(old, new))
            front, back = said.split("..")
            self.assertEqual(told.status, 2)
            self.assertTrue(told.sentence.startswith(front) and told.sentence.endswith(back), (told.sentence, said))
        self.assertNotIn("line", self.said(["net", "d", "-"], example("fixed_leg/terms.json")).sentence)

    def test_the_line_of_a_later_stream(self):
        terms = example("xml_vanilla/terms.xml")
        place = terms.rindex(b"<paymentDates>")
        told = self.said(["check", "d"], terms[:place] + b"<paymentDates><x/>" + terms[place + 14 :])
        line = terms[:place].count(b"\n") + 1
        self.assertTrue(told.sentence.endswith(f"(stream 2); the member is x; see line {line}"), told.sentence)

    def test_a_prefix_is_no_part_of_the_name(self):
        message = example("xml_message/message.xml")
        place = message.index(b"<fpml:paymentDates>")
        told = self.said(["check", "d"], message[:place] + b"<fpml:paymentDates><fpml:x/>" + message[place + 19 :])
        line = message[:place].count(b"\n") + 1
        self.assertTrue(told.sentence.endswith(f"(stream 1); the member is x; see line {line}"), told.sentence)

    def test_each_element_beside_expat(self):
        """An unknown member in each element of two documents in turn: its name, and the line of expat's reader."""
        for folder, member in (
            ("xml_vanilla/terms.xml", b"<zz/>"),
            ("xml_message/message.xml", b"<fpml:zz/>"),
            ("xml_audited/trade.xml", b"<zz><paymentDates/></zz>"),
        ):
            document = example(folder)
            found = 0
            for line, end in starts(document):
                told = self.said(["check", "d"], document[:end] + member + document[end:])
                if told.text.startswith(b"refused K4"):
                    found += 1
                    self.assertTrue(told.sentence.endswith(f"; the member is zz; see line {line}"), told.sentence)
            self.assertGreater(found, 30, folder)


class Version(unittest.TestCase):
    def test_the_package_and_the_library(self):
        stated = (EXAMPLES.parent / "VERSION").read_text().strip()
        self.assertEqual(irs.__version__, stated)
        if irs.engine():
            self.assertEqual(irs.engine(), (EXAMPLES / "version" / "output").read_text())


if __name__ == "__main__":
    unittest.main()
