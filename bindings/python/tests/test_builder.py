"""`irs.swap` and `irs-new`: the conventions against QuantLib's, what is written out, and words that can't be used."""
import datetime
import json
import unittest
from decimal import Decimal

from commands import TOP, InAFolder, ran

import irs
from irs import new
from irs.builder import Overnight, rate_text, swap
from irs.documents import child_of, streams_of, texts_of
from irs.conventions import CONVENTIONS
from irs.probes import end_of

try:
    import QuantLib as ql
except ImportError:
    ql = None

#: Each centre with no day off but Saturdays and Sundays, to 2100.
WEEKENDS = "".join(
    f"center {centre}\ncover 2000-01-01 2100-12-31\nweekend SAT SUN\n"
    for centre in ("USNY", "USGS", "EUTA", "GBLO", "JPTO", "CHZU")
)


def sample_rates():
    """A year of daily rates, of the sample."""
    rows = [line.split(",") for line in (TOP / "sample" / "usd-overnight.csv").read_text().splitlines()[1:]]
    return {datetime.datetime.strptime(day, "%m/%d/%Y").date(): Decimal(rate) / 100 for day, _, rate in rows}


def iso(date):
    return datetime.date.fromisoformat(date.ISO())


@unittest.skipUnless(ql, "QuantLib isn't installed")
class AgainstQuantLib(InAFolder):
    """The table against QuantLib's own indexes, and whole schedules against QuantLib's."""

    def indexes(self):
        return {"usd-sofr": ql.Sofr(), "eur-euribor": ql.Euribor6M(), "eur-estr": ql.Estr(), "gbp-sonia": ql.Sonia()}

    def test_indexes(self):
        counts = {"ACT/360": ql.Actual360(), "ACT/365.FIXED": ql.Actual365Fixed()}
        for kind, index in self.indexes().items():
            row = CONVENTIONS[kind]
            self.assertEqual(counts[row.floating_day_count].name(), index.dayCounter().name(), kind)
            self.assertEqual(row.currency, index.currency().code(), kind)
            self.assertEqual(-row.fixing_days, index.fixingDays(), kind)
        self.assertEqual(self.indexes()["eur-euribor"].businessDayConvention(), ql.ModifiedFollowing)

    def test_schedules(self):
        government = ql.UnitedStates(ql.UnitedStates.GovernmentBond)
        both = ql.JointCalendar(ql.UnitedStates(ql.UnitedStates.FederalReserve), government)
        kinds = {
            "usd-sofr": both,
            "eur-estr": ql.TARGET(),
            "eur-euribor": ql.TARGET(),
            "jpy-tona": ql.Japan(),
            "gbp-sonia": ql.UnitedKingdom(ql.UnitedKingdom.Settlement),
            "chf-saron": ql.Switzerland(),
        }
        counts = {
            "ACT/360": ql.Actual360(),
            "ACT/365.FIXED": ql.Actual365Fixed(),
            "30/360": ql.Thirty360(ql.Thirty360.BondBasis),
        }
        rows = 0
        for kind, calendar in kinds.items():
            for start in ("2025-01-15", "2024-05-31", "2026-03-02"):
                document = swap(kind, start=start, tenor="7Y", fixed_rate="0.0285", notional="25000000")
                self.write("terms.json", json.dumps(document))
                from irs import calendars

                text = ran(calendars.main, "--needed", "terms.json").out
                schedule = irs.schedule(document, calendars=[text])
                row = CONVENTIONS[kind]
                for stream, frequency in ((1, row.fixed_frequency), (2, row.floating_frequency)):
                    rows += self.same_dates(schedule, stream, frequency, row, calendar, start)
                for period, payment in zip(schedule.periods(1), schedule.payments(1)):
                    ends = [
                        ql.Date(day.day, day.month, day.year) for day in (period.adjusted_start, period.adjusted_end)
                    ]
                    amount = 25_000_000 * 0.0285 * counts[row.fixed_day_count].yearFraction(*ends)
                    self.assertLessEqual(abs(float(payment.amount) - amount), 0.51 if row.currency == "JPY" else 0.0051)
        self.assertGreater(rows, 250)

    def same_dates(self, schedule, stream, frequency, row, calendar, start):
        begin = ql.DateParser.parseISO(start)
        finish = begin + ql.Period("7Y")
        month_end = start.endswith("-31")
        dates = list(
            ql.Schedule(
                begin,
                finish,
                ql.Period(frequency),
                calendar,
                ql.ModifiedFollowing,
                ql.ModifiedFollowing,
                ql.DateGeneration.Forward,
                month_end,
            )
        )
        ends = [calendar.adjust(day, ql.ModifiedFollowing) for day in dates[1:]]
        self.assertEqual([period.adjusted_end for period in schedule.periods(stream)], [iso(day) for day in ends])
        paid = [calendar.advance(day, row.payment_days, ql.Days) for day in ends]
        self.assertEqual([payment.adjusted for payment in schedule.payments(stream)], [iso(day) for day in paid])
        if stream == 2 and row.index_tenor is not None:
            starts = [calendar.adjust(begin, ql.ModifiedFollowing), *ends[:-1]]
            fixed = [calendar.advance(day, row.fixing_days, ql.Days) for day in starts]
            self.assertEqual([reset.fixing for reset in schedule.resets(2)], [iso(day) for day in fixed])
        return len(ends)

    def test_an_overnight_swap_pays_what_quantlib_compounds(self):
        # a year of the sample's daily rates, on the sample's calendars
        index = ql.Sofr(ql.YieldTermStructureHandle(ql.FlatForward(0, ql.TARGET(), 0.04, ql.Actual360())))
        rates = sample_rates()
        ql.Settings.instance().evaluationDate = ql.Date(20, 1, 2026)
        index.addFixings(
            [ql.Date(day.day, day.month, day.year) for day in rates], [float(rate) for rate in rates.values()], True
        )
        begin, finish = ql.Date(15, 1, 2025), ql.Date(15, 1, 2026)
        coupon = ql.OvernightIndexedCoupon(finish, 10_000_000, begin, finish, index)
        document = swap("usd-sofr", start="2025-01-15", tenor="1Y")
        plain = swap("usd-sofr", start="2025-01-15", tenor="1Y", daily_rates_in_terms=False)
        cals = [(TOP / "sample" / name).read_bytes() for name in ("USNY.cal", "USGS.cal")]
        lines = "\n".join(f"{day} {rate:f} 1D USD-SOFR" for day, rate in rates.items())
        compounded = irs.overnight(2, plain, lines, cals)[0]
        self.assertLess(abs(float(compounded.rate) - coupon.rate()), 1e-9)
        schedule = irs.schedule(document, lines, cals)
        self.assertLess(abs(float(schedule.resets(2)[0].observed) - coupon.rate()), 1e-9)
        payment = schedule.payments(2)[0]
        self.assertLess(abs(float(payment.amount) - 10_000_000 * round(coupon.rate(), 7) * 365 / 360), 0.006)


class Documents(InAFolder):
    """What is written, and that the engine takes it."""

    def test_each_kind_is_a_document_that_the_engine_takes(self):
        for kind in CONVENTIONS:
            for tenor in ("1M", "6M", "1Y", "2Y", "30Y"):
                irs.check(swap(kind, tenor=tenor), [WEEKENDS])

    def test_each_default_is_written_out(self):
        for kind, row in CONVENTIONS.items():
            fixed, floating = streams_of(swap(kind, tenor="5Y"))
            for stream in (fixed, floating):
                self.assertEqual(set(texts_of(stream, "businessCenter")), set(row.centres))
                self.assertEqual(
                    child_of(
                        stream, "calculationPeriodDates", "calculationPeriodDatesAdjustments", "businessDayConvention"
                    ),
                    row.business_day_convention,
                )
                self.assertEqual(list(texts_of(stream, "currency")), [row.currency])
                self.assertEqual(child_of(stream, "paymentDates", "payRelativeTo"), "CalculationPeriodEndDate")
                self.assertEqual(child_of(stream, "principalExchanges", "initialExchange"), "false")
            self.assertEqual(
                child_of(fixed, "calculationPeriodAmount", "calculation", "dayCountFraction"), row.fixed_day_count
            )
            calculation = child_of(floating, "calculationPeriodAmount", "calculation")
            self.assertEqual(child_of(calculation, "dayCountFraction"), row.floating_day_count)
            self.assertEqual(child_of(calculation, "compoundingMethod"), "None")
            rate = child_of(calculation, "floatingRateCalculation")
            self.assertEqual(child_of(rate, "floatingRateIndex"), row.index)
            self.assertEqual(child_of(rate, "finalRateRounding"), {"roundingDirection": "Nearest", "precision": "7"})
            self.assertEqual(child_of(rate, "spreadSchedule", "initialValue"), "0")

    def test_an_overnight_rate_outside_the_terms_is_a_plain_stream_known_at_the_end(self):
        floating = streams_of(swap("usd-sofr", tenor="2Y", daily_rates_in_terms=False))[1]
        resets = child_of(floating, "resetDates")
        self.assertEqual(resets["resetFrequency"], {"periodMultiplier": "1", "period": "Y"})
        self.assertEqual(resets["resetRelativeTo"], "CalculationPeriodEndDate")
        self.assertNotIn("calculationParameters", json.dumps(floating))

    def test_an_overnight_rate_in_the_terms(self):
        document = swap("gbp-sonia", tenor="2Y", overnight=Overnight(lookback=5))
        floating = streams_of(document)[1]
        self.assertEqual(child_of(floating, "resetDates", "resetFrequency"), {"periodMultiplier": "1", "period": "D"})
        self.assertEqual(
            child_of(
                floating, "calculationPeriodAmount", "calculation", "floatingRateCalculation", "calculationParameters"
            ),
            {
                "calculationMethod": "Compounding",
                "lookback": {"offsetDays": "5"},
                "applicableBusinessDays": {"businessCenter": ["GBLO"]},
            },
        )
        with self.assertRaisesRegex(ValueError, "stated in the terms"):
            swap("gbp-sonia", tenor="2Y", overnight=Overnight(lookback=5), daily_rates_in_terms=False)

    def test_the_engine_takes_every_way_to_observe_daily_rates(self):
        ways = (
            (),
            ("--method", "Averaging"),
            ("--lookback", "5"),
            ("--lockout", "2"),
            ("--observation-shift", "2"),
            ("--daily-rates-in-terms",),
        )
        for kind in ("usd-sofr", "eur-estr", "gbp-sonia", "jpy-tona", "chf-saron"):
            for way in ways:
                ended = ran(new.main, "--like", f"{kind}-2y", *way)
                self.assertEqual(ended.status, 0, ended.err)
                self.assertIn("calculationParameters", ended.out)
        ended = ran(new.main, "--like", "usd-sofr-2y", "--no-daily-rates-in-terms")
        self.assertEqual((ended.status, "calculationParameters" in ended.out), (0, False))

    def test_what_does_not_go_with_daily_rates_is_refused(self):
        for words, said in (
            (("--lookback", "5", "--lockout", "2"), "two members that don't go together"),
            (("--lookback", "31"), "none of its values"),
            (("--floating-day-count", "30/360"), "doesn't go with calculationParameters"),
            (("--lookback", "5", "--no-daily-rates-in-terms"), "has to be stated in the terms"),
        ):
            self.assert_refused(ran(new.main, "--like", "usd-sofr-2y", *words, "-o", "made.json"), said, [])

    def test_a_year_of_daily_rates_by_either_form_of_the_terms(self):
        # the sample's year: `schedule` on the daily rates, and `overnight` first, give one rate
        lines = "".join(f"{day} {rate:f} 1D USD-SOFR\n" for day, rate in sample_rates().items())
        cals = [(TOP / "sample" / name).read_bytes() for name in ("USNY.cal", "USGS.cal")]
        direct = irs.schedule(swap("usd-sofr", start="2025-01-15", tenor="1Y"), lines, cals)
        plain = swap("usd-sofr", start="2025-01-15", tenor="1Y", daily_rates_in_terms=False)
        files = {"d": json.dumps(plain), "f": lines, "c": cals[0], "e": cals[1]}
        chained = irs.schedule(plain, irs.run(["overnight", "2", "d", "f", "c", "e"], files).text, cals)
        self.assertEqual(direct.periods(2)[0].rate, Decimal("0.040848300"))
        self.assertEqual(direct, chained)

    def test_words_of_the_market(self):
        document = swap(
            "eur-euribor",
            start=datetime.date(2025, 2, 10),
            end=datetime.date(2030, 3, 15),
            stub="ShortInitial",
            notional=40_000_000,
            fixed_rate=Decimal("0.0245"),
            spread="-0.001",
            pay="floating",
            parties=("US", "THEM"),
            index_tenor="3M",
            floating_frequency="3M",
            floating_payment_frequency="3M",
            centres=["EUTA", "GBLO"],
            payment_days=1,
            fixing_days=-1,
            fixed_day_count="30E/360",
        )
        irs.check(document, [WEEKENDS])
        schedule = irs.schedule(document, calendars=[WEEKENDS])
        self.assertEqual([stream.day_count for stream in schedule.streams], ["30E/360", "ACT/360"])
        first = schedule.periods(2)[0]
        self.assertEqual((first.start, first.end), (datetime.date(2025, 2, 10), datetime.date(2025, 3, 15)))
        self.assertEqual(child_of(streams_of(document)[0], "payerPartyReference", "@href"), "THEM")
        compounded = swap(
            "usd-sofr",
            tenor="2Y",
            index="USD-X",
            index_tenor="3M",
            floating_frequency="3M",
            floating_payment_frequency="6M",
            compounding="Flat",
            centres=["USNY"],
        )
        irs.check(compounded, [WEEKENDS])
        self.assertEqual(len(irs.schedule(compounded, calendars=[WEEKENDS]).payments(2)), 4)

    def test_the_roll_is_that_of_the_day_from_which_periods_are_counted(self):
        def roll(**words):
            document = swap("usd-sofr", **words)
            irs.check(document, [WEEKENDS])
            return next(texts_of(document, "rollConvention"))

        self.assertEqual(roll(start="2025-01-31", tenor="2Y"), "EOM")
        self.assertEqual(roll(start="2025-02-28", tenor="2Y"), "28")
        self.assertEqual(roll(start="2025-02-28", tenor="2Y", roll="EOM"), "EOM")
        self.assertEqual(roll(start="2025-02-10", end="2027-03-15", stub="LongInitial"), "15")
        self.assertEqual(roll(start="2025-02-10", end="2027-03-15", stub="ShortFinal"), "10")
        self.assertEqual(roll(start="2025-02-10", end="2027-03-31", first_regular="2025-03-31"), "EOM")
        weekly = {"start": "2025-01-15", "end": "2025-02-12", "fixed_frequency": "1W", "floating_frequency": "1W"}
        self.assertEqual((roll(**weekly), roll(**weekly, roll="WED")), ("NONE", "WED"))

    def test_a_currency_alone(self):
        self.assertEqual(list(texts_of(swap(currency="JPY", tenor="1Y"), "floatingRateIndex")), ["JPY-TONA"])
        self.assertEqual(list(texts_of(swap(currency="EUR", tenor="1Y"), "floatingRateIndex")), ["EUR-EURIBOR"])

    def test_the_engine_counts_the_tenor(self):
        for start, tenor, end in (
            ("2024-02-29", "1Y", "2025-02-28"),
            ("2024-02-29", "4Y", "2028-02-29"),
            ("2025-01-31", "1M", "2025-02-28"),
            ("2025-01-30", "1M", "2025-02-28"),
            ("2025-01-15", "5Y", "2030-01-15"),
            ("2024-12-30", "2W", "2025-01-13"),
            ("2025-02-28", "6M", "2025-08-28"),
            ("2025-01-15", "10D", "2025-01-25"),
            ("2025-01-15", "1D", "2025-01-16"),
            ("2025-12-31", "999W", "2045-02-22"),
            ("2025-01-01", "999D", "2027-09-27"),
            ("1901-01-01", "1M", "1901-02-01"),
            ("2025-01-15", "274Y", "2299-01-15"),
            ("2298-11-30", "1Y", "2299-11-30"),
        ):
            self.assertEqual(end_of(start, tenor)[0], end, (start, tenor))

    def test_words_that_can_not_be_used(self):
        for kind, words, says in (
            ("usd-libor", {"tenor": "5Y"}, "no kind of swap"),
            (None, {"tenor": "5Y"}, "no kind of swap"),
            ("usd-sofr", {}, "an end or a tenor"),
            ("usd-sofr", {"tenor": "5Y", "end": "2030-01-15"}, "an end or a tenor"),
            ("usd-sofr", {"tenor": "5 years"}, "no length of time"),
            ("usd-sofr", {"tenor": "0Y"}, "no length of time"),
            ("usd-sofr", {"tenor": "5Y", "start": "2025-02-30"}, "no day 5Y after '2025-02-30'"),
            ("usd-sofr", {"tenor": "5Y", "fixed_rate": "3.85"}, "3.85 times 100 percent"),
            ("usd-sofr", {"tenor": "5Y", "spread": "ten"}, "no number"),
            ("usd-sofr", {"tenor": "5Y", "pay": "both"}, "pays 'fixed' or 'floating'"),
            ("usd-sofr", {"tenor": "5Y", "parties": ("A",)}, "two parties"),
        ):
            with self.assertRaisesRegex(ValueError, says):
                swap(kind, **words)
        for words in ({"fixed_rate": 0.05}, {"notional": 1e6}, {"centres": "USNY"}, {"notional": True}):
            with self.assertRaises(TypeError):
                swap("usd-sofr", tenor="5Y", **words)
        for start, tenor in (
            ("2025-01-15", "275Y"),
            ("2299-12-31", "1D"),
            ("1900-12-31", "1Y"),
            ("", "1Y"),
            ("2299-06-15", "7M"),
        ):
            with self.assertRaisesRegex(ValueError, "no day"):
                end_of(start, tenor)
        self.assertEqual(rate_text(Decimal("5E-7"), "x"), "0.0000005")


class Command(InAFolder):
    """`irs-new`."""

    def test_standard_output_and_a_file(self):
        ended = ran(new.main, "--like", "usd-sofr-5y")
        note = "irs-new: of an example, as not given: start, notional, fixed rate, parties\n"
        self.assertEqual((ended.status, ended.err), (0, note))
        self.assertEqual(json.loads(ended.out), swap("usd-sofr", tenor="5Y"))
        self.assertEqual(ran(new.main, "--like", "USD-SOFR-5Y", "-o", "terms.json"), (0, "", note))
        self.assertEqual((self.folder / "terms.json").read_text(), ended.out)
        given = ("--start", "2025-03-03", "--notional", "1000000", "--fixed-rate", "0.04", "--parties", "A", "B")
        self.assertEqual(ran(new.main, "--like", "usd-sofr-5y", *given).err, "")

    def test_options(self):
        ended = ran(
            new.main,
            "--like",
            "eur-euribor",
            "--start",
            "2025-03-19",
            "--end",
            "2030-06-19",
            "--roll",
            "IMM",
            "--fixed-rate",
            "0.0245",
            "--notional",
            "50000000",
            "--stub",
            "ShortInitial",
            "--fixing-days",
            "-2",
            "--centres",
            "EUTA",
            "GBLO",
            "--parties",
            "A",
            "B",
        )
        self.assertEqual(ended.status, 0, ended)
        self.assertEqual(
            json.loads(ended.out),
            swap(
                "eur-euribor",
                start="2025-03-19",
                end="2030-06-19",
                roll="IMM",
                fixed_rate="0.0245",
                notional="50000000",
                stub="ShortInitial",
                fixing_days=-2,
                centres=["EUTA", "GBLO"],
                parties=["A", "B"],
            ),
        )

    def test_list(self):
        lines = ran(new.main, "--list").out.splitlines()
        self.assertEqual([line.split()[0] for line in lines[1:]], list(CONVENTIONS))

    def test_the_table_is_that_of_the_page(self):
        page = (TOP / "docs" / "DESK_FILES.md").read_text()
        for kind, row in CONVENTIONS.items():
            line = next(line for line in page.splitlines() if line.startswith(f"| `{kind}` |"))
            rate = f"{row.index} {row.index_tenor}" if row.index_tenor else f"{row.index}, overnight"
            days = f"{row.payment_days} day" + ("" if row.payment_days == 1 else "s")
            self.assertTrue(
                line.startswith(
                    f"| `{kind}` | {rate} | {row.fixed_frequency} {row.fixed_day_count} |"
                    f" {row.floating_frequency} {row.floating_day_count} | {days} |"
                ),
                line,
            )
            self.assertIn(" ".join(row.centres), line)

    def test_words_that_can_not_be_used(self):
        like = ("--like", "usd-sofr-5y")
        for words, says in (
            ((), "say what it is like"),
            (("--like", "usd-libor-5y"), "no kind of swap"),
            (("--like", "5y"), "no kind and tenor"),
            (("--like", "usd-sofr-5"), "no length of time"),
            ((*like, "--start", "tomorrow"), "no day 5Y after"),
            ((*like, "--fixed-rate", "4.05"), "write 5.31 percent as 0.0531"),
            ((*like, "--notional", "ten"), "none of its values"),
            ((*like, "--convention", "FRN"), "doesn't read"),
            ((*like, "--roll", "20"), "isn't a roll day"),
            ((*like, "--fixed-frequency", "7M"), "isn't on the grid"),
            ((*like, "--payment-days", "two"), "invalid int"),
            ((*like, "--compounding", "Simple"), "none of its values"),
            ((*like, "--start", "2299-01-15"), "no day 5Y after"),
            ((*like, "--centres", "TWO WORDS"), "out of range"),
        ):
            self.assert_refused(ran(new.main, *words, "-o", "made.json"), says, [])


if __name__ == "__main__":
    unittest.main()
