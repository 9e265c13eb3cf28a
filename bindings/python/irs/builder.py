"""`irs.swap(..)`: the terms of a swap from the market's words, as an ordinary document.

    >>> document = irs.swap("usd-sofr", start="2025-01-15", tenor="5Y", notional="100000000", fixed_rate="0.0385")
    >>> irs.check(document, calendars)

The result is a mapping of FpML's elements (docs/FORMATS.md), the fixed stream first, with every default of the
table in `conventions` written out. Nothing of this is proved: the engine checks the document as it checks any
other. No date is worked out here; where a tenor is given, the engine counts it.
"""
from __future__ import annotations

import datetime
from dataclasses import dataclass, replace
from decimal import Decimal
from typing import Any, Dict, Optional, Sequence, Tuple, Union

from .conventions import (
    BY_CURRENCY,
    CONVENTIONS,
    EXAMPLE_NOTIONAL,
    EXAMPLE_NOTIONAL_ELSE,
    EXAMPLE_PARTIES,
    EXAMPLE_RATE,
    EXAMPLE_START,
    Convention,
)
from .probes import end_of, frequency_of, roll_of

Day = Union[datetime.date, str]
Number = Union[Decimal, int, str]
Elements = Dict[str, Any]

#: Whether an overnight rate is stated in the terms (`calculationParameters`, with resets of 1D): then `schedule`
#: works out the rates of periods from a file of daily rates. Where it isn't, the stream is a plain floating one,
#: and `overnight` makes its file of fixings from the daily rates.
DAILY_RATES_IN_TERMS = True


@dataclass(frozen=True)
class Overnight:
    """How an overnight rate is observed: `method` is Compounding or Averaging, and at most one of the others is
    a number of business days from 1 to 30. All but plain compounding has to be stated in the terms."""

    method: str = "Compounding"
    observation_shift: Optional[int] = None
    lookback: Optional[int] = None
    lockout: Optional[int] = None

    @property
    def plain(self) -> bool:
        """Whether it is compounding without shift, lookback and lockout."""
        return self == Overnight()


@dataclass(frozen=True)
class Shape:
    """The dates that both streams share: start, end, roll, and the stubs where there are any."""

    start: str
    end: str
    roll: Optional[str]
    stub: Optional[str]
    first_regular: Optional[str]
    last_regular: Optional[str]


def number_text(value: Number, what: str) -> str:
    """A number as a decimal without an exponent. `TypeError` for a float, which isn't the decimal that was
    written."""
    if isinstance(value, (bool, float)):
        raise TypeError(f"{what} is {value!r}: write it as a text or a Decimal, as '0.0385'")
    return f"{value:f}" if isinstance(value, Decimal) else str(value)


def rate_text(value: Number, what: str) -> str:
    """A rate as a decimal; `ValueError` where it is above 1 in size, and so in percent."""
    text = number_text(value, what)
    try:
        size = abs(Decimal(text))
    except ArithmeticError as why:
        raise ValueError(f"{what} is '{text}', and no number") from why
    if size > 1:
        raise ValueError(f"{what} is {text}, which is {text} times 100 percent: write 5.31 percent as 0.0531")
    return text


def _adjustments(convention: str, centres: Sequence[str]) -> Elements:
    if convention == "NONE":
        return {"businessDayConvention": "NONE"}
    return {"businessDayConvention": convention, "businessCenters": {"businessCenter": list(centres)}}


def _offset(days: int) -> Elements:
    return {"periodMultiplier": str(days), "period": "D", "dayType": "Business"}


def _is_shorter(shape: Shape, frequency: str) -> bool:
    """Whether the term is shorter than one period of this frequency, by the engine's count."""
    return end_of(shape.start, frequency)[0] > shape.end


def _anchor(shape: Shape) -> str:
    """The day from which the engine counts the roll days: the first regular date, the end where an initial stub is
    asked for, else the start."""
    if shape.first_regular is not None:
        return shape.first_regular
    return shape.end if shape.stub in ("ShortInitial", "LongInitial") else shape.start


def _period_frequency(frequency: str, shape: Shape) -> Elements:
    """The frequency of the calculation periods: one period (1T) where the term is shorter than one. The roll is
    the anchor's day of the month where none is given, and NONE in days and weeks."""
    if frequency == "1T" or _is_shorter(shape, frequency):
        return {**frequency_of("1T"), "rollConvention": "NONE"}
    members = frequency_of(frequency)
    usual = roll_of(_anchor(shape)) if members["period"] in "MY" else "NONE"
    return {**members, "rollConvention": shape.roll if shape.roll is not None else usual}


def _period_dates(name: str, terms: Convention, shape: Shape, frequency: Elements) -> Elements:
    adjustments = _adjustments(terms.business_day_convention, terms.centres)
    dates: Elements = {
        "@id": name,
        "effectiveDate": {"unadjustedDate": shape.start, "dateAdjustments": _adjustments("NONE", ())},
        "terminationDate": {"unadjustedDate": shape.end, "dateAdjustments": adjustments},
        "calculationPeriodDatesAdjustments": adjustments,
    }
    given = {
        "firstRegularPeriodStartDate": shape.first_regular,
        "lastRegularPeriodEndDate": shape.last_regular,
        "stubPeriodType": shape.stub,
    }
    dates.update({element: text for element, text in given.items() if text is not None})
    dates["calculationPeriodFrequency"] = frequency
    return dates


def _payment_dates(name: str, terms: Convention, frequency: str, periods: Elements) -> Elements:
    own = {member: periods[member] for member in ("periodMultiplier", "period")}
    if own["period"] != "T":
        own = frequency_of(frequency)
    return {
        "calculationPeriodDatesReference": {"@href": name},
        "paymentFrequency": own,
        "payRelativeTo": "CalculationPeriodEndDate",
        **({"paymentDaysOffset": _offset(terms.payment_days)} if terms.payment_days else {}),
        "paymentDatesAdjustments": _adjustments(terms.business_day_convention, terms.centres),
    }


def _notional(value: str, currency: str) -> Elements:
    return {"notionalStepSchedule": {"initialValue": value, "currency": currency}}


def _stream(
    payer: str, receiver: str, dates: Elements, payments: Elements, resets: Elements, calculation: Elements
) -> Elements:
    return {
        "payerPartyReference": {"@href": payer},
        "receiverPartyReference": {"@href": receiver},
        "calculationPeriodDates": dates,
        "paymentDates": payments,
        **({"resetDates": resets} if resets else {}),
        "calculationPeriodAmount": {"calculation": calculation},
        "principalExchanges": {"initialExchange": "false", "finalExchange": "false", "intermediateExchange": "false"},
    }


def _overnight_elements(
    terms: Convention, overnight: Overnight, in_terms: bool, periods: Elements
) -> Tuple[Elements, Elements]:
    """The resets and the rate's own members of a stream with an overnight rate."""
    resets: Elements = {
        "resetRelativeTo": "CalculationPeriodEndDate",
        "resetFrequency": periods,
        "resetDatesAdjustments": _adjustments(terms.business_day_convention, terms.fixing_centres),
    }
    if not in_terms:
        if not overnight.plain:
            raise ValueError(
                "an overnight rate other than plain compounding has to be stated in the terms:"
                " daily_rates_in_terms=True"
            )
        return resets, {}
    shifts = {
        "observationShift": overnight.observation_shift,
        "lookback": overnight.lookback,
        "lockout": overnight.lockout,
    }
    parameters: Elements = {"calculationMethod": overnight.method}
    parameters.update({name: {"offsetDays": str(days)} for name, days in shifts.items() if days is not None})
    parameters["applicableBusinessDays"] = {"businessCenter": list(terms.fixing_centres)}
    return {**resets, "resetFrequency": frequency_of("1D")}, {"calculationParameters": parameters}


def _term_elements(terms: Convention, periods: Elements, resets_name: str) -> Tuple[Elements, Elements]:
    """The resets and the rate's own members of a stream with a rate of a tenor."""
    assert terms.index_tenor is not None
    fixing: Elements = {"periodMultiplier": str(terms.fixing_days), "period": "D"}
    if terms.fixing_days:
        fixing = _offset(terms.fixing_days)
    fixing.update(
        businessDayConvention="NONE",
        businessCenters={"businessCenter": list(terms.fixing_centres)},
        dateRelativeTo={"@href": resets_name},
    )
    resets: Elements = {
        "resetRelativeTo": "CalculationPeriodStartDate",
        "fixingDates": fixing,
        "resetFrequency": periods,
        "resetDatesAdjustments": _adjustments(terms.business_day_convention, terms.fixing_centres),
    }
    return resets, {}


def _floating(terms: Convention, spread: str, own: Elements) -> Elements:
    return {
        "floatingRateIndex": terms.index,
        **({"indexTenor": frequency_of(terms.index_tenor)} if terms.index_tenor is not None else {}),
        "spreadSchedule": {"initialValue": spread},
        "finalRateRounding": {"roundingDirection": "Nearest", "precision": str(terms.rounding)},
        "negativeInterestRateTreatment": "NegativeInterestRateMethod",
        **own,
    }


def convention_of(kind: Optional[str], currency: Optional[str]) -> Convention:
    """The row of the table for a kind of swap, or else for a currency; `ValueError` where there is none."""
    name = kind if kind is not None else BY_CURRENCY.get(currency or "", "")
    if name not in CONVENTIONS:
        raise ValueError(f"there is no kind of swap '{kind or currency}': {', '.join(CONVENTIONS)}")
    return CONVENTIONS[name]


def swap(
    kind: Optional[str] = None,
    *,
    currency: Optional[str] = None,
    start: Day = EXAMPLE_START,
    end: Optional[Day] = None,
    tenor: Optional[str] = None,
    notional: Optional[Number] = None,
    fixed_rate: Number = EXAMPLE_RATE,
    spread: Number = "0",
    pay: str = "fixed",
    parties: Sequence[str] = EXAMPLE_PARTIES,
    index: Optional[str] = None,
    index_tenor: Optional[str] = None,
    fixed_frequency: Optional[str] = None,
    fixed_day_count: Optional[str] = None,
    floating_frequency: Optional[str] = None,
    floating_day_count: Optional[str] = None,
    floating_payment_frequency: Optional[str] = None,
    compounding: str = "None",
    roll: Optional[str] = None,
    stub: Optional[str] = None,
    first_regular: Optional[Day] = None,
    last_regular: Optional[Day] = None,
    convention: Optional[str] = None,
    centres: Optional[Sequence[str]] = None,
    fixing_centres: Optional[Sequence[str]] = None,
    payment_days: Optional[int] = None,
    fixing_days: Optional[int] = None,
    rounding: Optional[int] = None,
    overnight: Overnight = Overnight(),
    daily_rates_in_terms: bool = DAILY_RATES_IN_TERMS,
) -> Dict[str, Any]:
    """The document of a swap of a fixed stream against a floating one, for the engine to check.

    `kind` is a row of the table, as ``usd-sofr``; without it `currency` chooses one. Any other word that is given
    takes the place of the row's. The term is `start` and one
    of `end` and `tenor`, as ``5Y``, which the engine counts. Rates are decimals (0.05 is 5%), as text, `Decimal`
    or whole number. `pay` is ``fixed`` or ``floating``: what the first of `parties` pays. Frequencies are a number and
    D, W, M, Y or ``1T``; a frequency longer than the term becomes one period. `stub` is FpML's `stubPeriodType`, and
    `first_regular` and `last_regular` its regular dates. `roll`, `convention` and `compounding` are FpML's own words.
    `overnight` says how daily rates are observed; with `daily_rates_in_terms` false the terms don't state it.

    `ValueError` where a word is none of these, or a rate is above 1 in size; `TypeError` for a float.
    """
    row = convention_of(kind, currency)
    given = {
        "currency": currency,
        "index": index,
        "index_tenor": index_tenor,
        "fixed_frequency": fixed_frequency,
        "fixed_day_count": fixed_day_count,
        "floating_frequency": floating_frequency,
        "floating_day_count": floating_day_count,
        "business_day_convention": convention,
        "centres": _tuple(centres),
        "fixing_centres": _tuple(fixing_centres),
        "payment_days": payment_days,
        "fixing_days": fixing_days,
        "rounding": rounding,
    }
    terms = replace(row, **{name: value for name, value in given.items() if value is not None})
    shape = _shape(start, end, tenor, roll, stub, first_regular, last_regular)
    amount = number_text(
        notional if notional is not None else EXAMPLE_NOTIONAL.get(terms.currency, EXAMPLE_NOTIONAL_ELSE),
        "the notional",
    )
    payer, receiver = _sides(pay, parties)
    fixed = _fixed_stream(terms, shape, amount, rate_text(fixed_rate, "the fixed rate"), payer, receiver)
    floating = _floating_stream(
        terms,
        shape,
        amount,
        rate_text(spread, "the spread"),
        receiver,
        payer,
        floating_payment_frequency,
        compounding,
        overnight,
        daily_rates_in_terms,
    )
    return {"swap": {"swapStream": [fixed, floating]}}


def _tuple(names: Optional[Sequence[str]]) -> Optional[Tuple[str, ...]]:
    if isinstance(names, str):
        raise TypeError(f"centres are a list, and not the text '{names}'")
    return None if names is None else tuple(names)


def _sides(pay: str, parties: Sequence[str]) -> Tuple[str, str]:
    if pay not in ("fixed", "floating"):
        raise ValueError(f"the first party pays 'fixed' or 'floating', and not '{pay}'")
    if isinstance(parties, str) or len(parties) != 2:
        raise ValueError(f"a swap has two parties, and not {parties!r}")
    first, second = parties
    return (first, second) if pay == "fixed" else (second, first)


def _shape(
    start: Day,
    end: Optional[Day],
    tenor: Optional[str],
    roll: Optional[str],
    stub: Optional[str],
    first_regular: Optional[Day],
    last_regular: Optional[Day],
) -> Shape:
    if (end is None) == (tenor is None):
        raise ValueError("a swap has an end or a tenor, and not both")
    last = str(end) if tenor is None else end_of(str(start), tenor)[0]
    regular = (None if day is None else str(day) for day in (first_regular, last_regular))
    return Shape(str(start), last, roll, stub, *regular)


def _fixed_stream(terms: Convention, shape: Shape, notional: str, rate: str, payer: str, receiver: str) -> Elements:
    periods = _period_frequency(terms.fixed_frequency, shape)
    calculation: Elements = {
        "notionalSchedule": _notional(notional, terms.currency),
        "fixedRateSchedule": {"initialValue": rate},
        "dayCountFraction": terms.fixed_day_count,
    }
    return _stream(
        payer,
        receiver,
        _period_dates("fixedPeriods", terms, shape, periods),
        _payment_dates("fixedPeriods", terms, terms.fixed_frequency, periods),
        {},
        calculation,
    )


def _floating_stream(
    terms: Convention,
    shape: Shape,
    notional: str,
    spread: str,
    payer: str,
    receiver: str,
    payment_frequency: Optional[str],
    compounding: str,
    overnight: Overnight,
    in_terms: bool,
) -> Elements:
    periods = _period_frequency(terms.floating_frequency, shape)
    length = {member: periods[member] for member in ("periodMultiplier", "period")}
    resets, own = (
        _overnight_elements(terms, overnight, in_terms, length)
        if terms.overnight
        else _term_elements(terms, length, "resets")
    )
    resets = {"@id": "resets", "calculationPeriodDatesReference": {"@href": "floatingPeriods"}, **resets}
    calculation: Elements = {
        "notionalSchedule": _notional(notional, terms.currency),
        "floatingRateCalculation": _floating(terms, spread, own),
        "dayCountFraction": terms.floating_day_count,
        "compoundingMethod": compounding,
    }
    return _stream(
        payer,
        receiver,
        _period_dates("floatingPeriods", terms, shape, periods),
        _payment_dates("floatingPeriods", terms, payment_frequency or terms.floating_frequency, periods),
        resets,
        calculation,
    )
