"""The cash flows of all streams in date order, seen from one party, with running totals by
currency.

Every amount is one that the engine prints; the view of a party turns its sign at most. The
running totals are sums of these amounts, exact, and for display alone.
"""
from __future__ import annotations

import datetime
from collections import defaultdict
from decimal import Context, Decimal
from typing import Dict, Iterable, Iterator, List, NamedTuple, Optional, Tuple

from .parties import Parties
from .printed import StreamText, known

#: Room for exact sums: an amount has at most 18 digits, and a swap far fewer than 10 to the 20 of
#: them.
_SUMS = Context(prec=60)

PAYS, RECEIVES = "pays", "receives"


class CashFlow(NamedTuple):
    """A payment or a principal exchange, seen from a party.

    `date` is the adjusted date. `payer` pays the amount and `receiver` gets it, by the names to
    be shown; both are `None` where the document doesn't name the sides. `direction` is
    ``receives`` or ``pays``: what the party does, or the stream's payer where there is no party.
    `amount` is positive where it is received and `None` while it waits for a fixing. `total` is
    the sum of the amounts so far in the currency (and in the stream, where there is no party),
    `None` while none of them is known, and `waiting` says how many of them aren't.
    """

    date: datetime.date
    stream: int
    kind: str
    number: int
    first_period: Optional[int]
    last_period: Optional[int]
    unadjusted: datetime.date
    payer: Optional[str]
    receiver: Optional[str]
    direction: str
    currency: str
    amount: Optional[Decimal]
    total: Optional[Decimal]
    waiting: int


def viewer(parties: Parties, party: Optional[str]) -> Optional[str]:
    """The id of the party that the flows are seen from: the named one, else the payer of stream 1
    where all streams are between the same two parties, else `None`. Raises `UnknownParty` for an
    unknown name.
    """
    if party is not None:
        return parties.find(party)
    first = parties.side(1)
    return first.payer if first is not None and parties.two() else None


def view_sentence(parties: Parties, seen_from: Optional[str]) -> str:
    """One sentence that says from which side the flows are seen."""
    if seen_from is None:
        return "The terms don't name two parties, so each stream is seen from its payer, " "and totals are by stream."
    left = [str(number) for number, sides in enumerate(parties.sides, 1) if sides is None or seen_from not in sides]
    aside = f" Not in it, as this party has no part there: stream {', '.join(left)}." if left else ""
    return f"Seen from {parties.name(seen_from)}.{aside}"


def _flipped(amount: Optional[Decimal]) -> Optional[Decimal]:
    return amount if not amount else amount.copy_negate()


def _flow(
    stream: StreamText,
    parties: Parties,
    seen_from: Optional[str],
    kind: str,
    number: str,
    periods: Tuple[Optional[int], Optional[int]],
    dates: Tuple[str, str],
    amount: str,
) -> CashFlow:
    text = known(amount)
    of_payer = None if text is None else Decimal(text)
    sides = parties.side(stream.stream)
    names = (None, None) if sides is None else (parties.name(sides.payer), parties.name(sides.receiver))
    turned = of_payer is not None and of_payer < 0
    received = sides is not None and seen_from == sides.receiver
    seen = of_payer if received else _flipped(of_payer)
    return CashFlow(
        date=datetime.date.fromisoformat(dates[1]),
        stream=stream.stream,
        kind=kind,
        number=int(number),
        first_period=periods[0],
        last_period=periods[1],
        unadjusted=datetime.date.fromisoformat(dates[0]),
        payer=names[1] if turned else names[0],
        receiver=names[0] if turned else names[1],
        direction=RECEIVES if received != turned else PAYS,
        currency=stream.currency,
        amount=seen,
        total=None,
        waiting=0,
    )


def _of_stream(stream: StreamText, parties: Parties, seen_from: Optional[str]) -> Iterator[CashFlow]:
    sides = parties.side(stream.stream)
    if seen_from is not None and (sides is None or seen_from not in sides):
        return
    for row in stream.exchanges:
        yield _flow(
            stream,
            parties,
            seen_from,
            "exchange",
            row.number,
            (None, None),
            (row.unadjusted, row.adjusted),
            row.amount,
        )
    for payment in stream.payments:
        yield _flow(
            stream,
            parties,
            seen_from,
            "payment",
            payment.number,
            (int(payment.first_period), int(payment.last_period)),
            (payment.unadjusted, payment.adjusted),
            payment.amount,
        )


def _summed(flows: Iterable[CashFlow], by_stream: bool) -> Iterator[CashFlow]:
    totals: Dict[Tuple[str, int], Optional[Decimal]] = defaultdict(lambda: None)
    waiting: Dict[Tuple[str, int], int] = defaultdict(int)
    for flow in flows:
        key = (flow.currency, flow.stream if by_stream else 0)
        so_far = totals[key]
        if flow.amount is None:
            waiting[key] += 1
        else:
            totals[key] = flow.amount if so_far is None else _SUMS.add(so_far, flow.amount)
        yield flow._replace(total=totals[key], waiting=waiting[key])


def cash_flows(streams: List[StreamText], parties: Parties, party: Optional[str] = None) -> List[CashFlow]:
    """The cash flows of the streams in date order.

    `party` is the party that they are seen from, by id, name or `partyId`; see `viewer` where it
    is `None`. Raises `UnknownParty` for an unknown party.
    """
    seen_from = viewer(parties, party)
    flows = [flow for stream in streams for flow in _of_stream(stream, parties, seen_from)]
    flows.sort(key=lambda flow: (flow.date, flow.stream, flow.kind != "exchange", flow.number))
    return list(_summed(flows, seen_from is None))
