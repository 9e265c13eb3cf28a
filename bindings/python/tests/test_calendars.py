"""`irs-calendar`: each day of a generated calendar against its source, and input that it can't use."""
import datetime
import json
import os
import unittest
import unittest.mock

from commands import TOP, InAFolder, ran

import irs
from irs import calendars
from irs.calendar_sources import spans_of
from irs.centres import CENTRES
from irs.end_lines import end_of
from irs.probes import frequency_of, plain_stream

try:
    import QuantLib as ql
except ImportError:
    ql = None
try:
    import holidays
except ImportError:
    holidays = None

#: A calendar defined by rules is tried over these years, and a list over every year that it has.
RULES = ((2000, 2060),)

#: The spans of QuantLib's lists, as its source has them.
LISTS = {
    "CNBE": ((2005, 2023),),
    "HKHK": ((2004, 2020),),
    "IDJA": ((2005, 2014),),
    "ILTA": ((2013, 2044),),
    "INMU": ((2005, 2014), (2019, 2020)),
    "KRSE": ((2004, 2032),),
    "SARI": ((2002, 2022),),
    "SGSI": ((2004, 2010), (2012, 2014)),
    "THBA": ((2000, 2001), (2005, 2018)),
    "TRIS": ((2004, 2034),),
    "TWTA": ((2002, 2019),),
    "USGS": ((2002, 2060),),
}


def of_quantlib():
    """QuantLib's calendars by centre, named here once more, so that a wrong name in the table is found."""
    return {
        "AUSY": ql.Australia(),
        "BRSP": ql.Brazil(ql.Brazil.Settlement),
        "CATO": ql.Canada(ql.Canada.Settlement),
        "CHZU": ql.Switzerland(),
        "CNBE": ql.China(ql.China.IB),
        "CZPR": ql.CzechRepublic(),
        "DEFR": ql.Germany(ql.Germany.Settlement),
        "DKCO": ql.Denmark(),
        "EUTA": ql.TARGET(),
        "GBLO": ql.UnitedKingdom(ql.UnitedKingdom.Settlement),
        "HKHK": ql.HongKong(),
        "HUBU": ql.Hungary(),
        "IDJA": ql.Indonesia(),
        "ILTA": ql.Israel(),
        "INMU": ql.India(),
        "ISRE": ql.Iceland(),
        "ITMI": ql.Italy(ql.Italy.Settlement),
        "JPTO": ql.Japan(),
        "KRSE": ql.SouthKorea(ql.SouthKorea.Settlement),
        "MXMC": ql.Mexico(),
        "NOOS": ql.Norway(),
        "NZWE": ql.NewZealand(),
        "PLWA": ql.Poland(),
        "ROBU": ql.Romania(),
        "SARI": ql.SaudiArabia(),
        "SEST": ql.Sweden(),
        "SGSI": ql.Singapore(),
        "SKBR": ql.Slovakia(),
        "THBA": ql.Thailand(),
        "TRIS": ql.Turkey(),
        "TWTA": ql.Taiwan(),
        "USGS": ql.UnitedStates(ql.UnitedStates.GovernmentBond),
        "USNY": ql.UnitedStates(ql.UnitedStates.FederalReserve),
        "ZAJO": ql.SouthAfrica(),
    }


def daily_stream(centre, first, last):
    """A stream of daily periods whose payments, adjusted by FOLLOWING, ask for each day from the first to the last."""
    none = {"businessDayConvention": "NONE"}
    daily = {"periodMultiplier": "1", "period": "D"}
    before = first - datetime.timedelta(1)
    return {
        "calculationPeriodDates": {
            "effectiveDate": {"unadjustedDate": str(before), "dateAdjustments": none},
            "terminationDate": {"unadjustedDate": str(last), "dateAdjustments": none},
            "calculationPeriodDatesAdjustments": none,
            "calculationPeriodFrequency": {**daily, "rollConvention": "NONE"},
        },
        "paymentDates": {
            "paymentFrequency": daily,
            "payRelativeTo": "CalculationPeriodEndDate",
            "paymentDatesAdjustments": {
                "businessDayConvention": "FOLLOWING",
                "businessCenters": {"businessCenter": centre},
            },
        },
        "calculationPeriodAmount": {
            "calculation": {
                "notionalSchedule": {"notionalStepSchedule": {"initialValue": "1", "currency": "USD"}},
                "fixedRateSchedule": {"initialValue": "0"},
                "dayCountFraction": "1/1",
            }
        },
    }


def following(centre, text, first, last):
    """The engine's FOLLOWING of each day from the first to the last, which is a business day: at most 64,000 days."""
    streams = []
    while first <= last:
        end = min(last, first + datetime.timedelta(7_999))
        streams.append(daily_stream(centre, first, end))
        first = end + datetime.timedelta(1)
    printed = irs.schedule({"swap": {"swapStream": streams}}, calendars=[text]).text.decode()
    pairs = (line.split(" ")[3:5] for line in printed.split("\n") if line.startswith("p "))
    return {datetime.date.fromisoformat(day): datetime.date.fromisoformat(adjusted) for day, adjusted in pairs}


class AgainstTheirSources(InAFolder):
    """Each day of the cover, adjusted by FOLLOWING with the engine, is what the source itself says."""

    def check(self, centre, source, spans, is_good, good_after):
        count = 0
        for start, end in spans:
            ended = ran(
                calendars.main, centre, "--from", str(start), "--to", str(end), "--source", source, "-o", "made.cal"
            )
            self.assertEqual(ended.status, 0, ended)
            text = (self.folder / "made.cal").read_text()
            self.assertIn(f"\ncover {start}-01-01 {end}-12-31\n", text)
            last = datetime.date(end, 12, 31)
            while not is_good(last):
                last -= datetime.timedelta(1)
            told = following(centre, text, datetime.date(start, 1, 1), last)
            self.assertEqual(len(told), (last - datetime.date(start, 1, 1)).days + 1)
            for day, adjusted in told.items():
                if adjusted != good_after(day):
                    self.fail(f"{centre} {day}: {adjusted} by the engine, {good_after(day)} by {source}")
            count += len(told)
        return count

    @unittest.skipUnless(ql, "QuantLib isn't installed")
    def test_quantlib(self):
        offset = datetime.date(1901, 1, 1).toordinal() - 367
        days = 0
        for centre, calendar in of_quantlib().items():

            def is_good(day):
                return calendar.isBusinessDay(ql.Date(day.toordinal() - offset))

            def good_after(day):
                moved = calendar.adjust(ql.Date(day.toordinal() - offset), ql.Following)
                return datetime.date.fromordinal(moved.serialNumber() + offset)

            with self.subTest(centre):
                days += self.check(centre, "quantlib", LISTS.get(centre, RULES), is_good, good_after)
        self.assertGreaterEqual(len(of_quantlib()), 30)
        self.assertGreater(days, 500_000)

    @unittest.skipUnless(holidays, "holidays isn't installed")
    def test_holidays(self):
        for centre, country in {
            "ATVI": holidays.AT(prov="9"),
            "BEBR": holidays.BE(),
            "EUTA": holidays.ECB(),
            "FIHE": holidays.FI(),
            "FRPA": holidays.France(),
            "GRAT": holidays.GR(),
            "IEDU": holidays.IE(),
            "LULU": holidays.LU(),
            "NLAM": holidays.NL(),
            "PTLI": holidays.PT(),
        }.items():

            def is_good(day):
                return day.weekday() < 5 and day not in country

            def good_after(day):
                while not is_good(day):
                    day += datetime.timedelta(1)
                return day

            with self.subTest(centre):
                self.check(centre, "holidays", ((2000, 2040),), is_good, good_after)


@unittest.skipUnless(ql, "QuantLib isn't installed")
class Guards(InAFolder):
    """What a careless generator lacks."""

    def test_the_years_of_the_lists_are_those_of_the_table(self):
        for centre, spans in LISTS.items():
            if centre != "USGS":
                self.assertEqual(CENTRES[centre].sources["quantlib"].years, spans, centre)

    def test_the_years_are_those_of_the_page(self):
        page = (TOP / "docs" / "DESK_FILES.md").read_text()
        self.assertIn(f"has the {len(CENTRES)} centres", page)
        for centre, spans in LISTS.items():
            if centre != "USGS":
                years = ", ".join(f"{first} to {last}" for first, last in spans)
                self.assertIn(f"| {centre} | {years} |", page)

    def test_argentina_is_left_out_for_a_reason(self):
        self.assertTrue(ql.Argentina().isBusinessDay(ql.Date(25, 12, 2025)))
        self.assertNotIn("ARBA", CENTRES)

    def test_behind_a_list_quantlib_has_next_to_no_days_off(self):
        # the reason for the spans: the first year after each has at most half of the weekdays off of the last in it
        def weekdays_off(calendar, year):
            days = calendar.holidayList(ql.Date(1, 1, year), ql.Date(31, 12, year), False)
            return len([day for day in days if day.weekday() not in (1, 7)])

        for centre in ("CNBE", "HKHK", "IDJA", "INMU", "TRIS", "TWTA"):
            last = LISTS[centre][-1][1]
            calendar = of_quantlib()[centre]
            self.assertLessEqual(2 * weekdays_off(calendar, last + 1), weekdays_off(calendar, last), centre)

    def test_a_year_outside_the_source(self):
        for centre, year in (
            ("CNBE", 2024),
            ("HKHK", 2021),
            ("TWTA", 2020),
            ("SGSI", 2011),
            ("SGSI", 2015),
            ("INMU", 2015),
            ("INMU", 2021),
            ("KRSE", 2033),
            ("TRIS", 2035),
            ("ILTA", 2045),
            ("ILTA", 2012),
            ("SARI", 2023),
            ("THBA", 2002),
            ("THBA", 2019),
            ("USNY", 2200),
        ):
            ended = ran(calendars.main, centre, "--from", str(year), "--to", str(year), "-o", "made.cal")
            self.assert_refused(ended, f"no source knows {centre} from {year} to {year}", [])

    def test_shortened(self):
        ended = ran(calendars.main, "HKHK", "--from", "2018", "--to", "2030", "--shorten")
        self.assertEqual(ended.status, 0)
        self.assertIn("\ncover 2018-01-01 2020-12-31\n", ended.out)
        ended = ran(calendars.main, "HKHK", "--from", "2021", "--to", "2030", "--shorten", "-o", "made.cal")
        self.assert_refused(ended, "no source knows HKHK", [])

    def test_working_weekend_days(self):
        # Sunday 29 January 2023 was worked in China, Sunday 22 January wasn't
        text = ran(calendars.main, "CNBE", "--from", "2023", "--to", "2023").out
        self.assertIn("\nweekend\n", text)
        self.assertIn("\n2023-01-22\n", text)
        self.assertNotIn("2023-01-29", text)

    def test_a_weekend_that_changed(self):
        # Saudi Arabia went from Thursday and Friday to Friday and Saturday on 29 June 2013
        text = ran(calendars.main, "SARI", "--from", "2012", "--to", "2014").out
        self.assertIn("\nweekend\n", text)
        self.assertIn("\n2013-06-20\n", text)
        self.assertNotIn("2014-06-19", text)
        self.assertIn("\nweekend FRI SAT\n", ran(calendars.main, "SARI", "--from", "2015", "--to", "2016").out)

    def test_remarks(self):
        text = ran(calendars.main, "USNY", "--from", "2020", "--to", "2020").out
        self.assertIn(f"QuantLib {ql.__version__}, UnitedStates FederalReserve, made {datetime.date.today()}", text)
        self.assertIn("Settlement", text)
        self.assertNotIn("2020-07-03", text)
        for centre, word in (("FRPA", "Ascension"), ("NZWE", "Matariki"), ("BRSP", "20 November")):
            text = ran(calendars.main, centre, "--from", "2024", "--to", "2024", "--source", "quantlib").out
            self.assertRegex(text, f"# known doubt: .*{word}")


@unittest.skipUnless(ql, "QuantLib isn't installed")
class Published(InAFolder):
    """The weekdays off of 2025 as they were published: by the Federal Reserve, SIFMA, the ECB, the British
    government, the Bank of Japan, and SIX."""

    DAYS = {
        "USNY": "01-01 01-20 02-17 05-26 06-19 07-04 09-01 10-13 11-11 11-27 12-25",
        "USGS": "01-01 01-20 02-17 04-18 05-26 06-19 07-04 09-01 10-13 11-11 11-27 12-25",
        "EUTA": "01-01 04-18 04-21 05-01 12-25 12-26",
        "GBLO": "01-01 04-18 04-21 05-05 05-26 08-25 12-25 12-26",
        "JPTO": "01-01 01-02 01-03 01-13 02-11 02-24 03-20 04-29 05-05 05-06 07-21 08-11 09-15 09-23 10-13 11-03"
        " 11-24 12-31",
        "CHZU": "01-01 01-02 04-18 04-21 05-01 05-29 06-09 08-01 12-25 12-26",
    }

    def test_2025(self):
        for centre, days in self.DAYS.items():
            text = ran(calendars.main, centre, "--from", "2025", "--to", "2025").out
            off = [line[5:] for line in text.splitlines() if line.startswith("2025-")]
            weekdays = [day for day in off if datetime.date.fromisoformat(f"2025-{day}").weekday() < 5]
            self.assertEqual(weekdays, days.split(), centre)


class Files(InAFolder):
    """Calendars out of ICS and CSV files, and between files."""

    ICS = (
        "BEGIN:VCALENDAR\r\nVERSION:2.0\r\nBEGIN:VEVENT\r\nDTSTART;VALUE=DATE:20240101\r\nSUMMARY:New Year\r\n"
        "END:VEVENT\r\nBEGIN:VEVENT\r\nDTSTART;VALUE=DATE:20241225\r\nDTEND;VALUE=DATE:20241227\r\nEND:VEVENT\r\n"
        "END:VCALENDAR\r\n"
    )

    def setUp(self):
        super().setUp()
        self.write(
            "days.csv",
            "day,name\n2024-01-01,New Year\n2024-03-29,Good Friday\n2025-01-01,New Year\n2025-04-18,Good Friday\n",
        )

    def test_csv(self):
        ended = ran(calendars.main, "DESK", "--from", "2024", "--to", "2025", "--source", "csv:days.csv")
        self.assertEqual(ended.status, 0, ended)
        self.assertIn(
            "center DESK\ncover 2024-01-01 2025-12-31\nweekend SAT SUN\n"
            "2024-01-01\n2024-03-29\n2025-01-01\n2025-04-18\n# end ",
            ended.out,
        )
        self.assertTrue(end_of(ended.out.encode()), ended.out)

    def test_the_last_year_of_a_list_is_cut_where_it_is_thin(self):
        day = datetime.date
        full = [day(year, month, 5) for year in (2023, 2024) for month in range(1, 11)]
        self.assertEqual(spans_of(frozenset(full + [day(2025, 1, 1)])), ((2023, 2024),))
        self.assertEqual(
            spans_of(frozenset(full + [day(2026, month, 5) for month in range(1, 11)])), ((2023, 2024), (2026, 2026))
        )

    def test_ics(self):
        try:
            import icalendar  # noqa: F401
        except ImportError:
            raise unittest.SkipTest("icalendar isn't installed")
        self.write("days.ics", self.ICS)
        ended = ran(
            calendars.main,
            "DESK",
            "--from",
            "2024",
            "--to",
            "2024",
            "--source",
            "ics:days.ics",
            "--weekend",
            "FRI SAT",
        )
        self.assertTrue(ended.out.endswith("weekend FRI SAT\n2024-01-01\n2024-12-25\n2024-12-26\n# end 8\n"), ended)
        self.write("days.ics", self.ICS.replace("DTEND;VALUE=DATE:20241227", "DURATION:P2D"))
        self.assertEqual(
            ran(
                calendars.main,
                "DESK",
                "--from",
                "2024",
                "--to",
                "2024",
                "--source",
                "ics:days.ics",
                "--weekend",
                "FRI SAT",
            ),
            ended,
        )
        for text, says in (
            (self.ICS.replace("SUMMARY:New Year", "RRULE:FREQ=YEARLY"), "repeats"),
            (self.ICS.replace(";VALUE=DATE:20240101", ":20240101T090000Z"), "of whole days"),
            (self.ICS.replace("DTEND;VALUE=DATE:20241227", "DTEND;VALUE=DATE:2024122"), "of whole days"),
            (self.ICS.replace("DTSTART;VALUE=DATE:20241225", "DTSTART;VALUE=DATE20241225"), "isn't an ICS file"),
            (self.ICS.replace("DTEND;VALUE=DATE:20241227", "DURATION:PT36H"), "of whole days"),
            ("BEGIN:VCALENDAR\r\nEND:VCALENDAR\r\n", "has no event"),
            ("day,name\n", "isn't an ICS file"),
        ):
            self.write("days.ics", text)
            ended = ran(
                calendars.main, "DESK", "--from", "2024", "--to", "2024", "--source", "ics:days.ics", "-o", "made.cal"
            )
            self.assert_refused(ended, says, ["days.csv", "days.ics"])

    def test_differences(self):
        head = "center A\ncover 2024-01-01 2024-12-31\nweekend SAT SUN\n"
        self.write("one.cal", head + "2024-01-01\n2024-05-01\n")
        self.write("other.cal", head.replace("2024-12-31", "2024-06-30") + "2024-01-01\n2024-05-02\n")
        ended = ran(calendars.main, "--diff", "one.cal", "other.cal")
        self.assertEqual(
            ended,
            (
                1,
                "# A from 2024-01-01 to 2024-06-30: 2 days differ\n"
                "A 2024-05-01 WED is off in one.cal alone\nA 2024-05-02 THU is off in other.cal alone\n",
                "",
            ),
        )
        self.assertEqual(ran(calendars.main, "--diff", "one.cal", "one.cal").status, 0)
        self.write("other.cal", head.replace("center A", "center B"))
        self.assert_refused(
            ran(calendars.main, "--diff", "one.cal", "other.cal"),
            "no centre in common",
            ["days.csv", "one.cal", "other.cal"],
        )

    @unittest.skipUnless(ql, "QuantLib isn't installed")
    def test_a_file_against_a_source_in_the_years_of_the_file(self):
        self.write(
            "vendor.cal",
            "center EUTA\ncover 2024-01-01 2024-12-31\nweekend SAT SUN\n2024-01-01\n2024-03-29\n2024-04-01\n"
            "2024-05-01\n2024-12-24\n2024-12-25\n2024-12-26\n",
        )
        ended = ran(calendars.main, "--diff", "vendor.cal", "quantlib:EUTA")
        self.assertEqual(
            ended.out,
            "# EUTA from 2024-01-01 to 2024-12-31: 1 days differ\n" "EUTA 2024-12-24 TUE is off in vendor.cal alone\n",
        )

    @unittest.skipUnless(ql and holidays, "QuantLib or holidays isn't installed")
    def test_sources_that_agree_and_that_do_not(self):
        page = (TOP / "docs" / "DESK_FILES.md").read_text()
        for centre in ("AUSY", "EUTA", "FIHE", "FRPA"):
            words = (f"quantlib:{centre}", f"holidays:{centre}")
            text = ran(calendars.main, "--diff", *words, "--from", "2000", "--to", "2040").out
            self.assertIn(f"| {centre} | {text.count(words[0])} | {text.count(words[1])} |", page)
        for centre in ("CHZU", "ITMI", "PLWA", "SEST"):
            ended = ran(
                calendars.main, "--diff", f"quantlib:{centre}", f"holidays:{centre}", "--from", "2000", "--to", "2040"
            )
            self.assertEqual((ended.status, ended.out.count("\n")), (0, 1), ended.out)
        ended = ran(calendars.main, "--diff", "quantlib:EUTA", "holidays:EUTA", "--from", "2000", "--to", "2040")
        self.assertEqual(ended.out.splitlines()[1:], ["EUTA 2001-12-31 MON is off in quantlib:EUTA alone"])
        ended = ran(calendars.main, "--diff", "quantlib:FIHE", "holidays:FIHE", "--from", "2020", "--to", "2021")
        self.assertEqual(
            ended.out.splitlines()[1:],
            ["FIHE 2021-06-18 FRI is off in quantlib:FIHE alone", "FIHE 2021-06-25 FRI is off in holidays:FIHE alone"],
        )

    def test_corrections(self):
        words = ["DESK", "--from", "2024", "--to", "2025", "--source", "csv:days.csv"]
        ended = ran(calendars.main, *words, "--off", "2024-05-01", "--on", "2024-03-29")
        self.assertIn(
            "# corrected by the desk: 2024-05-01 is off\n# corrected by the desk: 2024-03-29 is a business day\n",
            ended.out,
        )
        self.assertIn("2024-01-01\n2024-05-01\n2025-01-01\n2025-04-18\n# end ", ended.out)
        self.assertTrue(end_of(ended.out.encode()), ended.out)
        for correction, says in (
            (("--off", "2024-01-01"), "off in the source"),
            (("--on", "2024-01-02"), "on in the source"),
            (("--off", "2026-01-01"), "outside the years"),
            (("--off", "2024-02-30"), "isn't a date"),
        ):
            self.assert_refused(ran(calendars.main, *words, *correction, "-o", "made.cal"), says, ["days.csv"])


def terms(end, centre="EUTA"):
    """A document from 15 January 2024 whose payment is two business days after its end."""
    document = plain_stream("2024-01-15", end, frequency_of("1T"), "NONE")
    document["swap"]["swapStream"]["paymentDates"].update(
        paymentDaysOffset={"periodMultiplier": "2", "period": "D", "dayType": "Business"},
        paymentDatesAdjustments={
            "businessDayConvention": "FOLLOWING",
            "businessCenters": {"businessCenter": [{"@businessCenterScheme": "x", "#text": f" {centre} "}]},
        },
    )
    return json.dumps(document)


class Needed(InAFolder):
    """The calendars of a document's centres."""

    @unittest.skipUnless(ql or holidays, "neither QuantLib nor holidays is installed")
    def test_whole_years_and_one_more_where_a_payment_is_later(self):
        self.write("terms.json", terms("2024-06-28"))
        self.assertIn("center EUTA\ncover 2024-01-01 2024-12-31\n", ran(calendars.main, "--needed", "terms.json").out)
        self.write("terms.json", terms("2024-12-30"))
        self.assertIn("center EUTA\ncover 2023-01-01 2025-12-31\n", ran(calendars.main, "--needed", "terms.json").out)

    @unittest.skipUnless(ql or holidays, "neither QuantLib nor holidays is installed")
    def test_documents_that_can_not_be_used(self):
        for text, says in (
            ("[" * 100_000, "isn't JSON"),
            ("{}", "is missing"),
            (b"\xff", "isn't JSON"),
            (terms("2024-02-30"), "out of range"),
            (terms("2024-01-15"), "out of order"),
            (terms("2024-06-28", "XXXX"), "no centre of the table"),
        ):
            self.write("terms.json", text)
            ended = ran(calendars.main, "--needed", "terms.json", "-o", "made.cal")
            self.assert_refused(ended, says, ["terms.json"])
        ended = ran(calendars.main, "--needed", "none.json", "-o", "made.cal")
        self.assert_refused(ended, "can't be read", ["terms.json"])


class BadInput(InAFolder):
    """One sentence, status 2, and no file."""

    def refused(self, says, *words):
        self.assert_refused(ran(calendars.main, *words, "-o", "made.cal"), says, self.files())

    def test_words(self):
        years = ("--from", "2024", "--to", "2025")
        self.refused("'XXXX' is no centre", "XXXX", *years)
        self.refused("no centre is named", *years)
        self.refused("--from YEAR and --to YEAR", "EUTA")
        self.refused("invalid int value", "EUTA", "--from", "MMXXIV", "--to", "2025")
        self.refused("in order", "EUTA", "--from", "2025", "--to", "2024")
        self.refused("in order", "EUTA", "--from", "1900", "--to", "2024")
        self.refused("in order", "EUTA", "--from", "2024", "--to", "2300")
        self.refused("asked for twice", "EUTA", "EUTA", *years)
        self.refused("is no source", "EUTA", *years, "--source", "vendor")
        self.refused("isn't used for", "USNY", *years, "--source", "holidays")
        self.refused("isn't a list of weekdays", "EUTA", *years, "--weekend", "SAT SOL")
        self.refused("leave out CODE", "EUTA", "--needed", "terms.json")
        self.refused("unrecognized arguments", "EUTA", *years, "--years", "3")

    def test_csv_files(self):
        for content, says in (
            (b"day\n2024-01-01\nNew Year\n", "line 3: 'New Year' isn't a date"),
            (b"day\n01/02/2024\n", "isn't a date in the form YYYY-MM-DD"),
            (b"day\n2024-02-30\n", "isn't a date"),
            (b"day\n\xff\xfe\n", "isn't UTF-8"),
            (b"", "has no line"),
            (b"day\n", "has no day"),
            (b"day,name\n2024-01-01\n", "has 1 fields"),
            (b"day,day\n", "twice"),
            (b'day\n"2024-01-01\n', "isn't CSV"),
            (b"day\n2024\x0001-01\n", "line 2"),
        ):
            self.write("days.csv", content)
            self.refused(says, "DESK", "--from", "2024", "--to", "2024", "--source", "csv:days.csv")
        self.write("days.csv", "day\n2024-01-01\n")
        self.refused(
            "has no column 'date'",
            "DESK",
            "--from",
            "2024",
            "--to",
            "2024",
            "--source",
            "csv:days.csv",
            "--column",
            "date",
        )
        self.refused("column day knows 2024", "DESK", "--from", "2024", "--to", "2025", "--source", "csv:days.csv")
        self.refused("can't be read", "DESK", "--from", "2024", "--to", "2024", "--source", "csv:none.csv")
        self.refused("the engine refuses", "A" * 33, "--from", "2024", "--to", "2024", "--source", "csv:days.csv")
        self.refused("the engine refuses", "TWO WORDS", "--from", "2024", "--to", "2024", "--source", "csv:days.csv")

    def test_calendars_of_the_project(self):
        self.write("bad.cal", "center A\n")
        self.refused("the engine refuses", "--diff", "bad.cal", "bad.cal")
        self.refused("the engine refuses", "--diff", "quantlib:USNY", "bad.cal")
        self.refused("need --from and --to", "--diff", "quantlib:USNY", "holidays:USNY")

    def test_delimiters(self):
        self.write("days.csv", "day\tname\n2024-01-01\tNew Year\n")
        words = ("DESK", "--from", "2024", "--to", "2024", "--source", "csv:days.csv", "--delimiter")
        self.assertEqual(ran(calendars.main, *words, "tab").status, 0)
        for text in (";;", "", '"', "1", "\n"):
            self.refused("can't separate fields", *words, text)

    def test_a_write_that_fails_leaves_what_was_there(self):
        self.write("days.csv", "day\n2024-01-01\n")
        self.write("made.cal", "as it was")
        words = ("DESK", "--from", "2024", "--to", "2024", "--source", "csv:days.csv", "-o", "made.cal")
        for call in ("os.replace", "os.fdopen", "os.chmod"):
            with unittest.mock.patch(call, side_effect=OSError(28, "No space left on device")):
                self.assert_refused(ran(calendars.main, *words), "No space left on device", ["days.csv", "made.cal"])
            self.assertEqual((self.folder / "made.cal").read_text(), "as it was")

    def test_a_link_keeps_its_place_and_a_pipe_is_no_file(self):
        self.write("days.csv", "day\n2024-01-01\n")
        words = ["DESK", "--from", "2024", "--to", "2024", "--source", "csv:days.csv", "-o"]
        self.write("real.cal", "")
        (self.folder / "link.cal").symlink_to("real.cal")
        self.assertEqual(ran(calendars.main, *words, "link.cal").status, 0)
        self.assertTrue((self.folder / "link.cal").is_symlink())
        self.assertIn("center DESK", (self.folder / "real.cal").read_text())
        os.mkfifo("pipe")
        self.assert_refused(ran(calendars.main, *words, "pipe"), "isn't a file", self.files())

    def test_a_file_that_can_not_be_written(self):
        self.write("days.csv", "day\n2024-01-01\n")
        words = ["DESK", "--from", "2024", "--to", "2024", "--source", "csv:days.csv", "-o"]
        self.assert_refused(ran(calendars.main, *words, "no/made.cal"), "can't be written", ["days.csv"])
        (self.folder / "made.cal").mkdir()
        self.assert_refused(ran(calendars.main, *words, "made.cal"), "can't be written", ["days.csv", "made.cal"])


if __name__ == "__main__":
    unittest.main()
