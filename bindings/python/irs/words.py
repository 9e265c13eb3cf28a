"""The terms of a stream in words, from the document's own texts.

Each line names what FpML's element says; nothing is worked out. A rate is read in per cent by
moving its point. The document was read by the engine before, so what is absent here is absent
there.
"""
from __future__ import annotations

import re
from typing import Any, Callable, List, NamedTuple, Optional

from .documents import Document, child_of, items_of, leaf_text, streams_of, text_at, value_of
from .plain import brief
from .tables import per_cent, separated

#: How many steps of a schedule of values are written out.
MOST_STEPS = 6

_UNITS = {"D": "day", "W": "week", "M": "month", "Y": "year"}

_CONVENTIONS = {
    "FOLLOWING": "following",
    "MODFOLLOWING": "modified following",
    "PRECEDING": "preceding",
    "MODPRECEDING": "modified preceding",
    "NEAREST": "nearest",
}

#: What each `calculationMethod` does with daily rates.
_METHODS = {"Compounding": "compounded", "Averaging": "averaged"}

#: An element of `calculationParameters`, what it is called, and what its business days do.
_DAILY_OFFSETS = (
    ("observationShift", "Observation shift", "rates and days are those of {} earlier"),
    ("lookback", "Lookback", "each day takes the rate of {} earlier"),
    ("lockout", "Lockout", "the last {} take the rate of the day before them"),
)

Read = Callable[[Optional[str]], str]

_DECIMAL = re.compile(r"[+-]?(\d+\.?\d*|\.\d+)")


class Term(NamedTuple):
    """A term of a stream: what it is about, and what the document says."""

    about: str
    says: str


def rate(text: Optional[str]) -> str:
    """A rate of the document in per cent, with its own digits.

    >>> rate("0.0525")
    '5.25%'
    """
    if text is None or not _DECIMAL.fullmatch(text):
        return brief(text or "")
    sign = "-" if text.startswith("-") else ""
    whole, _, part = text.lstrip("+-").partition(".")
    moved = per_cent(f"{whole or '0'}.{part.ljust(2, '0')}", max(len(part) - 2, 0))
    return sign + moved


def amount(text: Optional[str]) -> str:
    """A notional of the document with thousands separators."""
    return brief(text or "") if text is None or not _DECIMAL.fullmatch(text) else separated(text.lstrip("+"))


def _every(frequency: Any) -> str:
    count, period = text_at(frequency, "periodMultiplier"), text_at(frequency, "period")
    if period == "T":
        return "once over the whole term"
    unit = _UNITS.get(period or "", "")
    return f"every {unit}" if count == "1" else f"every {brief(count or '')} {unit}s"


def tenor(element: Any) -> str:
    """A tenor as ``3M``, and empty where there is none."""
    count, period = text_at(element, "periodMultiplier"), text_at(element, "period")
    return "" if count is None or period is None else brief(f"{count}{period}")


def _centres(adjustments: Any) -> str:
    named = [leaf_text(item) for item in items_of(child_of(adjustments, "businessCenters"), "businessCenter")]
    if named:
        return ", ".join(brief(name or "") for name in named)
    reference = child_of(adjustments, "businessCentersReference")
    href = reference.get("@href") if isinstance(reference, dict) else None
    return f"the centres called {brief(str(href))}" if href is not None else ""


def _adjusted(adjustments: Any) -> str:
    convention = text_at(adjustments, "businessDayConvention")
    if convention in (None, "NONE"):
        return "not adjusted"
    centres = _centres(adjustments)
    name = _CONVENTIONS.get(convention or "", brief(convention or ""))
    return f"{name} in {centres}" if centres else name


def _offset(offset: Any, preposition: str, what: str) -> str:
    count = text_at(offset, "periodMultiplier")
    if count is None or count.lstrip("+-").strip("0") == "":
        return f"{preposition} {what}"
    days = count.lstrip("+-").lstrip("0")
    kind = (text_at(offset, "dayType") or "").lower()
    side = "before" if count.startswith("-") else "after"
    return f"{brief(days)} {kind} day{'' if days == '1' else 's'} {side} {what}"


def _relative(text: Optional[str]) -> str:
    return "start" if text == "CalculationPeriodStartDate" else "end"


def _steps(about: str, schedule: Any, read: Read) -> List[Term]:
    steps = items_of(schedule, "step")
    terms = [
        Term(f"{about} {brief(text_at(step, 'stepDate') or '')}", read(text_at(step, "stepValue")))
        for step in steps[:MOST_STEPS]
    ]
    more = len(steps) - MOST_STEPS
    return [*terms, Term("and then", f"{more} more steps, which the periods show")] if more > 0 else terms


def index_of(rate_element: Any) -> str:
    """The index of a `floatingRate` or a `floatingRateCalculation`, with its tenor."""
    name = brief(text_at(rate_element, "floatingRateIndex") or "", 160)
    return f"{name} {tenor(child_of(rate_element, 'indexTenor'))}".strip()


def _factor(text: Optional[str]) -> str:
    return brief(text or "")


def _business_days(count: str) -> str:
    days = count.lstrip("+0")
    return f"{brief(days)} business day{'' if days == '1' else 's'}"


def _overnight_terms(parameters: Any) -> List[Term]:
    """The terms of FpML's `calculationParameters`: how daily rates make the rate of a period."""
    method = text_at(parameters, "calculationMethod")
    if method is None:
        return []
    days = [
        Term(about, says.format(_business_days(text_at(parameters, element, "offsetDays") or "")))
        for element, about, says in _DAILY_OFFSETS
        if child_of(parameters, element) is not None
    ]
    named = items_of(child_of(parameters, "applicableBusinessDays"), "businessCenter")
    centres = ", ".join(brief(leaf_text(centre) or "") for centre in named)
    return [Term("Daily rates", f"{_METHODS.get(method, brief(method))} over the business days of {centres}"), *days]


def _floating_terms(floating: Any) -> List[Term]:
    multiplier, spread = child_of(floating, "floatingRateMultiplierSchedule"), child_of(floating, "spreadSchedule")
    times = "" if multiplier is None else f" times {_factor(text_at(multiplier, 'initialValue'))}"
    plus = "" if spread is None else f" plus {rate(text_at(spread, 'initialValue'))}"
    return [
        Term("Rate", index_of(floating) + times + plus),
        *_steps("times, from", multiplier, _factor),
        *_steps("plus, from", spread, rate),
        *_overnight_terms(child_of(floating, "calculationParameters")),
    ]


def _rate_terms(calculation: Any) -> List[Term]:
    fixed, floating = child_of(calculation, "fixedRateSchedule"), child_of(calculation, "floatingRateCalculation")
    if fixed is not None:
        return [
            Term("Rate", f"fixed, {rate(text_at(fixed, 'initialValue'))}"),
            *_steps("from", fixed, rate),
        ]
    terms = _floating_terms(floating)
    if text_at(floating, "initialRate") is not None:
        terms.append(Term("First rate", rate(text_at(floating, "initialRate"))))
    rounding = child_of(floating, "finalRateRounding")
    if rounding is not None:
        terms.append(
            Term(
                "Rounding",
                f"{brief(text_at(rounding, 'roundingDirection') or '')}, "
                f"{brief(text_at(rounding, 'precision') or '')} decimals of the rate",
            )
        )
    if text_at(floating, "negativeInterestRateTreatment") == "ZeroInterestRateMethod":
        terms.append(Term("Negative rates", "count as zero"))
    return terms


def _stub(stub: Any) -> str:
    if text_at(stub, "stubRate") is not None:
        return rate(text_at(stub, "stubRate"))
    return index_of(child_of(stub, "floatingRate"))


def _stub_terms(stream: Any, dates: Any) -> List[Term]:
    terms = []
    for element, about in (
        ("firstRegularPeriodStartDate", "First regular day"),
        ("lastRegularPeriodEndDate", "Last regular day"),
        ("stubPeriodType", "Stub"),
    ):
        if text_at(dates, element) is not None:
            terms.append(Term(about, brief(text_at(dates, element) or "")))
    for element, about in (
        ("initialStub", "Rate of the first stub"),
        ("finalStub", "Rate of the last stub"),
    ):
        stub = child_of(stream, "stubCalculationPeriodAmount", element)
        if stub is not None:
            terms.append(Term(about, _stub(stub)))
    return terms


def _date(element: Any) -> str:
    day = brief(text_at(element, "unadjustedDate") or "")
    return f"{day}, {_adjusted(child_of(element, 'dateAdjustments'))}"


def _period_terms(dates: Any) -> List[Term]:
    frequency = child_of(dates, "calculationPeriodFrequency")
    terms = [Term("Starts", _date(child_of(dates, "effectiveDate")))]
    if child_of(dates, "firstPeriodStartDate") is not None:
        terms.append(Term("First period starts", _date(child_of(dates, "firstPeriodStartDate"))))
    roll = brief(text_at(frequency, "rollConvention") or "")
    adjusted = _adjusted(child_of(dates, "calculationPeriodDatesAdjustments"))
    return terms + [
        Term("Ends", _date(child_of(dates, "terminationDate"))),
        Term("Periods", f"{_every(frequency)}, roll {roll}; {adjusted}"),
    ]


def _payment_terms(payments: Any) -> List[Term]:
    when = _offset(
        child_of(payments, "paymentDaysOffset"),
        "at",
        f"period {_relative(text_at(payments, 'payRelativeTo'))}",
    )
    adjusted = _adjusted(child_of(payments, "paymentDatesAdjustments"))
    terms = [Term("Payments", f"{_every(child_of(payments, 'paymentFrequency'))}, {when}; {adjusted}")]
    for element, about in (
        ("firstPaymentDate", "First payment"),
        ("lastRegularPaymentDate", "Last regular payment"),
    ):
        if text_at(payments, element) is not None:
            terms.append(Term(about, brief(text_at(payments, element) or "")))
    return terms


def _reset_terms(resets: Any) -> List[Term]:
    if resets is None:
        return []
    relative = text_at(resets, "resetRelativeTo") or "CalculationPeriodStartDate"
    fixing = child_of(resets, "fixingDates")
    when = _offset(fixing, "on", "that day") + (f", {_adjusted(fixing)}" if fixing is not None else "")
    adjusted = _adjusted(child_of(resets, "resetDatesAdjustments"))
    return [Term("Resets", f"at period {_relative(relative)}, {adjusted}; fixed {when}")]


def _exchange_terms(stream: Any) -> List[Term]:
    exchanges = child_of(stream, "principalExchanges")
    said = [
        word
        for element, word in (
            ("initialExchange", "at the start"),
            ("intermediateExchange", "where the notional changes"),
            ("finalExchange", "at the end"),
        )
        if text_at(exchanges, element) in ("true", "1")
    ]
    return [Term("Principal exchanged", ", ".join(said))] if said else []


def _amount_terms(calculation: Any) -> List[Term]:
    notional = child_of(calculation, "notionalSchedule", "notionalStepSchedule")
    currency = brief(text_at(notional, "currency") or "")
    terms = [
        Term("Notional", f"{currency} {amount(text_at(notional, 'initialValue'))}"),
        *_steps("from", notional, amount),
        *_rate_terms(calculation),
        Term("Day count", brief(text_at(calculation, "dayCountFraction") or "")),
    ]
    method = text_at(calculation, "compoundingMethod")
    return terms if method in (None, "None") else [*terms, Term("Compounding", brief(method or ""))]


def stream_terms(stream: Any) -> List[Term]:
    """The terms of a stream in words, in the order in which people ask for them."""
    dates = child_of(stream, "calculationPeriodDates")
    return [
        *_amount_terms(child_of(stream, "calculationPeriodAmount", "calculation")),
        *_period_terms(dates),
        *_stub_terms(stream, dates),
        *_payment_terms(child_of(stream, "paymentDates")),
        *_reset_terms(child_of(stream, "resetDates")),
        *_exchange_terms(stream),
    ]


def terms_of(document: Document) -> List[List[Term]]:
    """The terms of each stream of a document, in order."""
    return [stream_terms(stream) for stream in streams_of(value_of(document))]
