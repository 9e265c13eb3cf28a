"""The market conventions that `irs.swap` and `irs-new` start from: one row a kind of swap.

Nothing here is proved. A row is our reading of what is usual between dealers; each value is written out in the
document that is made, so read the document before you sign it. Index names are those of the 2021 ISDA
Definitions. Rates are rounded to 7 decimals (2006 ISDA Definitions, section 8.1(a)).
"""
from __future__ import annotations

from dataclasses import dataclass
from typing import Dict, Mapping, Optional, Tuple


@dataclass(frozen=True)
class Convention:
    """A kind of swap: a fixed stream against a floating one.

    Lengths are a number and D, W, M or Y. `index_tenor` is `None` for an overnight rate, which is compounded from
    daily rates over the period and known at its end. `payment_days` are business days from the end of a period to
    its payment, `fixing_days` business days from the start of a period to its fixing. `centres` adjust periods and
    payments, `fixing_centres` fixings; those of an overnight rate are the days on which it is published.
    """

    currency: str
    index: str
    index_tenor: Optional[str]
    fixed_frequency: str
    fixed_day_count: str
    floating_frequency: str
    floating_day_count: str
    payment_days: int
    fixing_days: int
    centres: Tuple[str, ...]
    fixing_centres: Tuple[str, ...]
    business_day_convention: str = "MODFOLLOWING"
    rounding: int = 7

    @property
    def overnight(self) -> bool:
        """Whether the index is an overnight rate."""
        return self.index_tenor is None


#: The table: the currency is the first part of the index; `1D` is an overnight rate; `pay` and `fix` are days.
TABLE = """\
kind         index        tenor  fixed             floating          pay  fix  centres    fixings
usd-sofr     USD-SOFR     1D     1Y ACT/360        1Y ACT/360        2    0    USNY,USGS  USGS
eur-euribor  EUR-EURIBOR  6M     1Y 30/360         6M ACT/360        0    -2   EUTA       EUTA
eur-estr     EUR-EuroSTR  1D     1Y ACT/360        1Y ACT/360        1    0    EUTA       EUTA
gbp-sonia    GBP-SONIA    1D     1Y ACT/365.FIXED  1Y ACT/365.FIXED  0    0    GBLO       GBLO
jpy-tona     JPY-TONA     1D     1Y ACT/365.FIXED  1Y ACT/365.FIXED  2    0    JPTO       JPTO
chf-saron    CHF-SARON    1D     1Y ACT/360        1Y ACT/360        2    0    CHZU       CHZU
"""


def _row(line: str) -> Tuple[str, Convention]:
    (kind, index, tenor, fixed, fixed_count, floating, floating_count, pay, fix, centres, fixings) = line.split()
    return kind, Convention(
        currency=index[:3],
        index=index,
        index_tenor=None if tenor == "1D" else tenor,
        fixed_frequency=fixed,
        fixed_day_count=fixed_count,
        floating_frequency=floating,
        floating_day_count=floating_count,
        payment_days=int(pay),
        fixing_days=int(fix),
        centres=tuple(centres.split(",")),
        fixing_centres=tuple(fixings.split(",")),
    )


#: The rows of the table by kind.
CONVENTIONS: Dict[str, Convention] = dict(_row(line) for line in TABLE.splitlines()[1:])

#: The kind of swap that a currency alone means.
BY_CURRENCY: Mapping[str, str] = {
    "USD": "usd-sofr",
    "EUR": "eur-euribor",
    "GBP": "gbp-sonia",
    "JPY": "jpy-tona",
    "CHF": "chf-saron",
}

#: What a new document has where nothing is said: an example's economics, and no market's.
EXAMPLE_START = "2025-01-15"
EXAMPLE_NOTIONAL: Mapping[str, str] = {"JPY": "1000000000"}
EXAMPLE_NOTIONAL_ELSE = "10000000"
EXAMPLE_RATE = "0.03"
EXAMPLE_PARTIES = ("PARTY-A", "PARTY-B")
