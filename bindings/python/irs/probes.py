"""Questions to the engine about files and dates, by documents of one small stream.

Nothing here computes a date: the engine says whether a text is a calendar or a file of fixings, and on which
day a number of months or years after a day ends.
"""
from __future__ import annotations

import re
from typing import Any, Dict, Iterable, Mapping, Tuple

from .calls import check, schedule
from .errors import BadFile, Refused
from .tools import BadInput

_NONE = {"businessDayConvention": "NONE"}

#: The last day that the engine has.
LAST_DAY = "2299-12-31"

#: How a tenor is written: a number from 1 to 999 without leading zeros, and D, W, M or Y.
TENOR = re.compile(r"([1-9][0-9]{0,2})([DWMY])")


def frequency_of(tenor: str) -> Dict[str, str]:
    """The members of a frequency, of a text such as ``6M`` or ``1T``; `ValueError` where it is none."""
    match = TENOR.fullmatch(tenor)
    if match is None and tenor != "1T":
        raise ValueError(f"'{tenor}' is no length of time such as 6M or 5Y")
    number, unit = match.groups() if match else ("1", "T")
    return {"periodMultiplier": number, "period": unit}


def plain_stream(start: str, end: str, frequency: Mapping[str, str], roll: str, **more: Any) -> Dict[str, Any]:
    """The document of one fixed stream without business days; `more` are further members of
    `calculationPeriodDates`."""
    return {
        "swap": {
            "swapStream": {
                "calculationPeriodDates": {
                    "effectiveDate": {"unadjustedDate": start, "dateAdjustments": _NONE},
                    "terminationDate": {"unadjustedDate": end, "dateAdjustments": _NONE},
                    "calculationPeriodDatesAdjustments": _NONE,
                    "calculationPeriodFrequency": {**frequency, "rollConvention": roll},
                    **more,
                },
                "paymentDates": {"paymentFrequency": dict(frequency), "payRelativeTo": "CalculationPeriodEndDate"},
                "calculationPeriodAmount": {
                    "calculation": {
                        "notionalSchedule": {"notionalStepSchedule": {"initialValue": "1", "currency": "USD"}},
                        "fixedRateSchedule": {"initialValue": "0"},
                        "dayCountFraction": "1/1",
                    }
                },
            }
        }
    }


#: A document that keeps every rule, to ask about a calendar or a file of fixings alone.
SOUND = plain_stream("2024-01-01", "2025-01-01", frequency_of("1T"), "NONE")


def check_calendars(texts: Iterable[str]) -> None:
    """Asks the engine to read calendar files; `BadInput` with its sentence where it refuses one."""
    try:
        check(SOUND, list(texts))
    except BadFile as why:
        raise BadInput(f"the engine refuses the calendar: {why.sentence}") from why


def check_fixings(text: str) -> None:
    """Asks the engine to read a file of fixings; `BadInput` with its sentence where it refuses it."""
    try:
        schedule(SOUND, text)
    except BadFile as why:
        raise BadInput(f"the engine refuses the fixings: {why.sentence}") from why


def roll_of(start: str) -> str:
    """The roll day of a term that starts on a day: the day of its month, and EOM for the 31st."""
    day = start[8:10].lstrip("0")
    return "EOM" if day == "31" else day


def _horizon(start: str, unit: str) -> str:
    """A day so far after the start that any tenor of the unit fits in between, and at most 8,000 periods do."""
    year = start[:4]
    if unit in "DW" and year.isdecimal() and int(year) < 2279:
        return f"{int(year) + 20}-12-31"
    return LAST_DAY


def end_of(start: str, tenor: str) -> Tuple[str, str]:
    """The day that is a tenor after the start, by the engine's periods, and the roll that counts it.

    `ValueError` where the start is no day or the end isn't inside the engine's range.
    """
    frequency = frequency_of(tenor)
    unit = frequency["period"]
    roll = roll_of(start) if unit in "MY" else "NONE"
    horizon = _horizon(start, unit)
    document = plain_stream(start, horizon, frequency, roll, stubPeriodType="ShortFinal")
    try:
        end = schedule(document).periods()[0].end.isoformat()
    except Refused as why:
        raise ValueError(f"there is no day {tenor} after '{start}': {why.sentence}") from why
    if end == horizon:
        raise ValueError(f"there is no day {tenor} after '{start}' before {horizon}")
    return end, roll
