"""Trades for the tests of what a person looks at: five kinds, long ones, and any number of random
ones.

Names, rates and dates are invented. The calendar has weekends alone.
"""
from __future__ import annotations

import json
import os
import random
import sys
from datetime import date, timedelta
from typing import Any, Dict, List, Optional, Tuple

sys.path.insert(0, os.path.join(os.path.dirname(os.path.abspath(__file__)), ".."))
import irs
from irs.inputs import Inputs, Named

CALENDAR = b"center TEST\ncover 1995-01-01 2090-12-31\nweekend SAT SUN\n"

PARTIES = [
    {"@id": "us", "partyName": "Alder Bank"},
    {"@id": "them", "partyName": "Birch Pensions"},
]

Json = Dict[str, Any]


def adjusted(convention: str) -> Json:
    if convention == "NONE":
        return {"businessDayConvention": "NONE"}
    return {"businessDayConvention": convention, "businessCenters": {"businessCenter": "TEST"}}


def every(count: int, period: str) -> Json:
    return {"periodMultiplier": str(count), "period": period}


def stream(
    number: int,
    payer: str,
    start: str,
    end: str,
    months: int,
    notional: str,
    currency: str,
    day_count: str,
    *,
    rate: Optional[str] = None,
    index: Optional[str] = None,
    spread: Optional[str] = None,
    roll: str = "15",
    convention: str = "MODFOLLOWING",
    pay_months: Optional[int] = None,
    dates: Optional[Json] = None,
    steps: Optional[List[Tuple[str, str]]] = None,
    exchanges: bool = False,
    compounding: Optional[str] = None,
    pay_lag: int = 0,
    first_payment: Optional[str] = None,
) -> Json:
    """A stream of terms: fixed with a `rate`, floating with an `index`."""
    receiver = "them" if payer == "us" else "us"
    once = months == 0
    frequency = {**every(1, "T"), "rollConvention": "NONE"} if once else {**every(months, "M"), "rollConvention": roll}
    pay = every(1, "T") if once else every(pay_months or months, "M")
    notionals: Json = {"initialValue": notional, "currency": currency}
    if steps:
        notionals["step"] = [{"stepDate": day, "stepValue": value} for day, value in steps]
    calculation: Json = {
        "notionalSchedule": {"notionalStepSchedule": notionals},
        "dayCountFraction": day_count,
    }
    if rate is not None:
        calculation["fixedRateSchedule"] = {"initialValue": rate}
    else:
        calculation["floatingRateCalculation"] = {
            "floatingRateIndex": index,
            "indexTenor": every(1, "D") if once else every(months, "M"),
            **({"spreadSchedule": {"initialValue": spread}} if spread else {}),
        }
    if compounding:
        calculation["compoundingMethod"] = compounding
    made: Json = {
        "payerPartyReference": {"@href": payer},
        "receiverPartyReference": {"@href": receiver},
        "calculationPeriodDates": {
            "@id": f"periods{number}",
            "effectiveDate": {"unadjustedDate": start, "dateAdjustments": adjusted("NONE")},
            "terminationDate": {"unadjustedDate": end, "dateAdjustments": adjusted(convention)},
            "calculationPeriodDatesAdjustments": adjusted(convention),
            **(dates or {}),
            "calculationPeriodFrequency": frequency,
        },
        "paymentDates": {
            "paymentFrequency": pay,
            **({"firstPaymentDate": first_payment} if first_payment else {}),
            "payRelativeTo": "CalculationPeriodEndDate",
            **({"paymentDaysOffset": {**every(pay_lag, "D"), "dayType": "Business"}} if pay_lag else {}),
            "paymentDatesAdjustments": adjusted(convention if not pay_lag else "FOLLOWING"),
        },
        "calculationPeriodAmount": {"calculation": calculation},
    }
    if index is not None:
        made["resetDates"] = {
            "@id": f"resets{number}",
            "calculationPeriodDatesReference": {"@href": f"periods{number}"},
            "resetRelativeTo": "CalculationPeriodStartDate",
            "fixingDates": {
                **every(0 if once else -2, "D"),
                "dayType": "Business",
                **adjusted("PRECEDING"),
            },
            "resetFrequency": every(1, "T") if once else every(months, "M"),
            "resetDatesAdjustments": adjusted("FOLLOWING"),
        }
    if exchanges:
        made["principalExchanges"] = {
            "initialExchange": "true",
            "finalExchange": "true",
            "intermediateExchange": "false",
        }
    return made


def document(*streams: Json, parties: Any = PARTIES) -> bytes:
    """A document of streams, laid out over lines."""
    return json.dumps(
        {"dataDocument": {"trade": {"swap": {"swapStream": list(streams)}}, "party": parties}},
        indent=1,
    ).encode()


def fixings_of(terms: bytes, until: str, rates: random.Random) -> bytes:
    """Invented fixings for every reset of a document up to a day: the engine says which are needed."""
    lines = set()
    streams = json.loads(terms)["dataDocument"]["trade"]["swap"]["swapStream"]
    for reset in irs.schedule(terms, calendars=[CALENDAR]).resets():
        floating = streams[reset.stream - 1]["calculationPeriodAmount"]["calculation"]["floatingRateCalculation"]
        tenor = f"{floating['indexTenor']['periodMultiplier']}{floating['indexTenor']['period']}"
        lines.add((reset.fixing.isoformat(), tenor, floating["floatingRateIndex"]))
    return "".join(
        f"{day} {rates.randint(-500000, 6000000) / 100000000:.8f} {tenor} {index}\n"
        for day, tenor, index in sorted(lines)
        if day <= until
    ).encode()


def _inputs(name: str, terms: bytes, until: str = "2026-11-27", seed: int = 1) -> Inputs:
    fixings = fixings_of(terms, until, random.Random(seed))
    return Inputs(
        Named(f"{name}.json", terms),
        Named(f"{name}.fixings", fixings),
        None,
        [Named("test.cal", CALENDAR)],
    )


def vanilla() -> Inputs:
    """Sixty quarterly periods against fifteen yearly ones."""
    return _inputs(
        "vanilla",
        document(
            stream(1, "us", "2021-03-15", "2036-03-15", 12, "25000000", "EUR", "30/360", rate="0.0125"),
            stream(
                2,
                "them",
                "2021-03-15",
                "2036-03-15",
                3,
                "25000000",
                "EUR",
                "ACT/360",
                index="EUR-EURIBOR",
            ),
        ),
    )


def stub() -> Inputs:
    """A short first and a long last period, with a spread."""
    dates = {"firstRegularPeriodStartDate": "2024-06-15", "lastRegularPeriodEndDate": "2028-12-15"}
    return _inputs(
        "stub",
        document(
            stream(
                1,
                "us",
                "2024-04-22",
                "2029-04-10",
                6,
                "12500000",
                "USD",
                "30/360",
                rate="0.0385",
                dates=dates,
            ),
            stream(
                2,
                "them",
                "2024-04-22",
                "2029-04-10",
                3,
                "12500000",
                "USD",
                "ACT/360",
                index="USD-TERM-SOFR",
                spread="0.0015",
                dates=dates,
            ),
        ),
    )


def amortising() -> Inputs:
    """A notional that falls with every quarter."""
    days = [f"{year}-{month:02d}-15" for year in range(2024, 2028) for month in (3, 6, 9, 12)][1:]
    steps = [(day, str(16000000 - 1000000 * place)) for place, day in enumerate(days, 1)]
    return _inputs(
        "amortising",
        document(
            stream(
                1,
                "us",
                "2024-03-15",
                "2028-03-15",
                3,
                "16000000",
                "GBP",
                "ACT/365.FIXED",
                rate="0.0415",
                steps=steps,
            ),
            stream(
                2,
                "them",
                "2024-03-15",
                "2028-03-15",
                3,
                "16000000",
                "GBP",
                "ACT/365.FIXED",
                index="GBP-TERM-SONIA",
                steps=steps,
            ),
        ),
    )


def two_currencies() -> Inputs:
    """Yen against dollars, with both principals exchanged."""
    return _inputs(
        "two-currencies",
        document(
            stream(
                1,
                "us",
                "2023-06-15",
                "2028-06-15",
                6,
                "3500000000",
                "JPY",
                "ACT/365.FIXED",
                rate="0.0075",
                exchanges=True,
            ),
            stream(
                2,
                "them",
                "2023-06-15",
                "2028-06-15",
                3,
                "25000000",
                "USD",
                "ACT/360",
                index="USD-TERM-SOFR",
                spread="0.0025",
                exchanges=True,
            ),
        ),
    )


def overnight() -> Inputs:
    """A yearly overnight swap; the rates of its periods are compounded by the engine from daily
    ones."""
    floating = stream(
        2,
        "them",
        "2025-03-17",
        "2026-09-17",
        0,
        "100000000",
        "USD",
        "ACT/360",
        index="USD-SOFR",
        roll="17",
    )
    terms = document(
        stream(
            1,
            "us",
            "2025-03-17",
            "2026-09-17",
            0,
            "100000000",
            "USD",
            "ACT/360",
            rate="0.0402",
            pay_lag=2,
        ),
        floating,
    )
    rates = random.Random(5)
    days = (date(2025, 3, 10) + timedelta(place) for place in range(570))
    daily = "".join(f"{day} {rates.randint(380, 440) / 10000:.4f} 1D USD-SOFR\n" for day in days if day.weekday() < 5)
    answer = irs.run(
        ["overnight", "2", "terms", "daily", "cal"],
        {"terms": terms, "daily": daily.encode(), "cal": CALENDAR},
    )
    assert answer.status == 0, answer.text
    return Inputs(
        Named("overnight.json", terms),
        Named("overnight.fixings", answer.text),
        None,
        [Named("test.cal", CALENDAR)],
    )


def forty_years() -> Inputs:
    """Four hundred and eighty monthly periods on either side."""
    return _inputs(
        "forty-years",
        document(
            stream(1, "us", "2015-01-15", "2055-01-15", 1, "10000000", "EUR", "30E/360", rate="0.0175"),
            stream(
                2,
                "them",
                "2015-01-15",
                "2055-01-15",
                1,
                "10000000",
                "EUR",
                "ACT/360",
                index="EUR-EURIBOR",
            ),
        ),
    )


FIVE = (vanilla, stub, amortising, two_currencies, overnight)


def departing() -> Inputs:
    """The trade in two currencies beside cash flows that depart in each kind of row, with a payment missing and one
    more than there is."""
    made = two_currencies()
    assert made.fixings is not None
    theirs = json.loads(irs.emit(made.document.content, made.fixings.content, [CALENDAR]))
    yen, dollars = (flows["cashflows"] for flows in theirs["swap"]["swapStream"])
    yen["principalExchange"][1]["principalExchangeAmount"] = "3499999999"
    paid = yen["paymentCalculationPeriod"]
    paid[2]["adjustedPaymentDate"] = "2024-12-17"
    paid[4]["forecastPaymentAmount"]["amount"] = "13160958"
    paid[9]["calculationPeriod"][0]["notionalAmount"] = "3000000000"
    floating = dollars["paymentCalculationPeriod"]
    floating[4]["calculationPeriod"][0]["floatingRateDefinition"]["rateObservation"]["observedRate"] = "0.051"
    floating[8]["calculationPeriod"][0]["calculationPeriodNumberOfDays"] = "92"
    floating[8]["calculationPeriod"][0]["dayCountYearFraction"] = "0.2555555556"
    later = json.loads(json.dumps(floating[-1]).replace("2028", "2029"))
    del floating[6]
    floating.append(later)
    return made._replace(flows=Named("birch.flows.json", json.dumps(theirs).encode()))


def eight_thousand() -> bytes:
    """Eight thousand daily periods on a floating stream."""
    end = date(2000, 1, 1) + timedelta(8000)
    made = stream(
        1,
        "us",
        "2000-01-01",
        end.isoformat(),
        1,
        "1000000",
        "USD",
        "ACT/360",
        index="USD-TEST",
        convention="NONE",
    )
    made["calculationPeriodDates"]["calculationPeriodFrequency"] = {
        **every(1, "D"),
        "rollConvention": "NONE",
    }
    made["paymentDates"]["paymentFrequency"] = made["resetDates"]["resetFrequency"] = every(1, "D")
    made["resetDates"]["fixingDates"] = {**every(0, "D"), "businessDayConvention": "NONE"}
    made["resetDates"]["resetDatesAdjustments"] = adjusted("NONE")
    return document(made)


def random_trade(number: int) -> Inputs:
    """The random trade of that number: one to three streams, any currency's decimals, some
    fixings missing."""
    rates = random.Random(number)
    start = date(1996 + rates.randrange(40), 1 + rates.randrange(12), 1 + rates.randrange(28))
    streams = []
    for place in range(1, 1 + rates.choice((1, 2, 2, 2, 3))):
        months = rates.choice((1, 3, 3, 6, 12))
        count = rates.randint(1, 30)
        total = start.year * 12 + start.month - 1 + months * count
        end = date(total // 12, total % 12 + 1, start.day)
        floating = rates.random() < 0.6
        several = floating and months in (1, 3) and count % 2 == 0 and rates.random() < 0.4
        streams.append(
            stream(
                place,
                rates.choice(("us", "them")),
                start.isoformat(),
                end.isoformat(),
                months,
                rates.choice(("1", "999", "1000000", "12345678.1234", "0.5", "1000000000", "10000000000000")),
                rates.choice(("USD", "EUR", "JPY", "BHD")),
                rates.choice(("ACT/360", "30/360", "ACT/365.FIXED", "30E/360", "ACT/ACT.ISDA")),
                rate=None if floating else f"{rates.randint(-10000000, 90000000) / 10 ** 9:.9f}",
                index="A-TEST-INDEX" if floating else None,
                spread="0.001234567" if floating and rates.random() < 0.5 else None,
                roll=str(start.day),
                convention=rates.choice(("NONE", "MODFOLLOWING", "FOLLOWING", "PRECEDING")),
                pay_months=months * 2 if several else None,
                exchanges=rates.random() < 0.4,
                compounding=rates.choice(("Straight", "Flat")) if several else None,
                pay_lag=rates.choice((0, 0, 2)),
            )
        )
    until = (start + timedelta(rates.randint(0, 4000))).isoformat()
    parties = PARTIES if rates.random() < 0.8 else []
    if rates.random() < 0.2:
        for made in streams:
            del made["payerPartyReference"]
    return _inputs(f"random-{number}", document(*streams, parties=parties), until, number)
