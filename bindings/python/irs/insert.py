"""A document with its cash flows inserted: each stream gets the `cashflows` that the engine emits.

Every other byte of the document stays as it is, in JSON and in XML.
"""
from __future__ import annotations

import json
from typing import Any, List, Tuple
from xml.sax.saxutils import escape

from .documents import child_of, is_xml, items_of, streams_of, value_of
from .fpml import insert
from .places import member_of, stream_spot

#: What `emit` prints within `cashflows`, in the order of FpML's schema. No name is in two elements.
ORDER = (
    "cashflowsMatchParameters",
    "principalExchange",
    "unadjustedPrincipalExchangeDate",
    "adjustedPrincipalExchangeDate",
    "principalExchangeAmount",
    "paymentCalculationPeriod",
    "unadjustedPaymentDate",
    "adjustedPaymentDate",
    "calculationPeriod",
    "unadjustedStartDate",
    "unadjustedEndDate",
    "adjustedStartDate",
    "adjustedEndDate",
    "calculationPeriodNumberOfDays",
    "notionalAmount",
    "floatingRateDefinition",
    "calculatedRate",
    "rateObservation",
    "resetDate",
    "adjustedFixingDate",
    "observedRate",
    "fixedRate",
    "dayCountYearFraction",
    "forecastPaymentAmount",
    "currency",
    "amount",
)


def _xml(name: str, value: Any) -> str:
    """An element of XML for a member of what `emit` prints."""
    if not isinstance(value, dict):
        return f"<{name}>{escape(value)}</{name}>"
    inside = "".join(_xml(part, item) for part in sorted(value, key=ORDER.index) for item in items_of(value, part))
    return f"<{name}>{inside}</{name}>"


def with_cashflows(document: bytes, emitted: bytes) -> bytes:
    """The document with the cash flows of `emitted` in its streams, in place of those that it has.

    `document` is one that the engine makes a schedule of, and `emitted` what `emit` prints of it.
    """
    if is_xml(document):
        flows = [child_of(stream, "cashflows") for stream in streams_of(value_of(emitted))]
        return insert(document, "".join(_xml("cashflows", it) for it in flows))
    return _with_members(document, emitted)


def _with_members(document: bytes, emitted: bytes) -> bytes:
    """The same of a document in JSON."""
    text = document.decode()
    changes: List[Tuple[int, int, str]] = []
    for number, stream in enumerate(streams_of(value_of(emitted)), 1):
        flows = json.dumps(child_of(stream, "cashflows"), separators=(",", ":"))
        spot = stream_spot(text, number)
        assert spot is not None  # the engine found the stream
        old = member_of(text, spot, "cashflows")
        inside = text.index("{", spot.start) + 1
        changes.append((inside, inside, f'"cashflows":{flows},') if old is None else (old.start, old.end, flows))
    for start, end, new in sorted(changes, reverse=True):
        text = text[:start] + new + text[end:]
    return text.encode()
