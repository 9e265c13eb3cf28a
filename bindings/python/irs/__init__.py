"""Schedules of interest rate swaps and the audit of cash flows, by a library whose answers are proved.

    >>> import irs
    >>> schedule = irs.schedule(pathlib.Path("B.json"))
    >>> schedule.payments()[0].amount
    Decimal('25277.78')

What a document, a calendar and a file of fixings are is in docs/FORMATS.md, the rules are in
docs/RULES.md; that the answers are the only ones is proved of the library's call (docs/PROOFS.md), and
only tested of what this package makes of its text.
"""
from .book import Outcome, Summary
from .builder import Overnight, swap
from .calls import (
    Schedule,
    accrue,
    audit,
    average,
    breaks,
    carrier,
    check,
    emit,
    emit_xml,
    interpolate,
    net,
    observations,
    overnight,
    schedule,
)
from .errors import BadFile, BadWords, Error, NoFile, NotText, OutOfMemory, Refused, TooLong
from .ladder import CashFlow
from .library import Answer, engine, run, run_each
from .rows import (
    Accrued,
    Break,
    Breaks,
    Derived,
    Exchange,
    Missing,
    Net,
    No,
    Observation,
    Payment,
    Period,
    PeriodFactor,
    Reset,
    Row,
    Stream,
    Verdict,
    Yes,
)

#: The version of the package; VERSION at the top of the repository is where it is stated.
__version__ = "1.0.0"

__all__ = [
    "Accrued",
    "Answer",
    "BadFile",
    "BadWords",
    "Break",
    "Breaks",
    "CashFlow",
    "Derived",
    "Error",
    "Exchange",
    "Missing",
    "Net",
    "No",
    "NoFile",
    "NotText",
    "Observation",
    "OutOfMemory",
    "Outcome",
    "Overnight",
    "Payment",
    "Period",
    "PeriodFactor",
    "Refused",
    "Reset",
    "Row",
    "Schedule",
    "Stream",
    "Summary",
    "TooLong",
    "Verdict",
    "Yes",
    "accrue",
    "audit",
    "average",
    "breaks",
    "carrier",
    "check",
    "emit",
    "emit_xml",
    "engine",
    "interpolate",
    "net",
    "observations",
    "overnight",
    "run",
    "run_each",
    "schedule",
    "swap",
]
