"""Business centres by their FpML codes, and what QuantLib and `holidays` know of each.

Nothing here is proved. Where QuantLib has a list of years (lunar and decreed holidays), the years were read
in the source of QuantLib 1.29: outside them only the fixed days remain, without a warning. A calendar
that is defined by rules has no such end; it is taken from 2000, since which the sources were compared, to the last
year of QuantLib's dates. The doubts are what is known to be wrong or missing. They go into each file.
"""
from __future__ import annotations

from dataclasses import dataclass
from typing import Dict, Mapping, Tuple

#: The first and the last year of an unbroken span.
Span = Tuple[int, int]

#: The years of a calendar by rules in QuantLib, whose dates end with 2199.
TO_2199: Tuple[Span, ...] = ((2000, 2199),)

#: The years of a calendar by rules in `holidays`.
TO_2099: Tuple[Span, ...] = ((2000, 2099),)

#: The versions that the years and the doubts below speak of.
VERSIONS: Mapping[str, str] = {"quantlib": "1.29", "holidays": "0.10.1"}

_PUBLIC = "these are public holidays; days on which only banks close aren't in them"
_EXCHANGE = "these are the days of the stock exchange; those of the banks may differ"


@dataclass(frozen=True)
class Known:
    """What a source has of a centre.

    `calendar` is the source's own name for it, and `option` its market or subdivision. `years` are the spans
    that the source knows, `doubts` what is known to be wrong or missing in them.
    """

    calendar: str
    option: str = ""
    years: Tuple[Span, ...] = TO_2199
    doubts: Tuple[str, ...] = ()


@dataclass(frozen=True)
class Centre:
    """A business centre, and the sources in the order in which they are tried."""

    name: str
    sources: Mapping[str, Known]


def _q(
    name: str, calendar: str, option: str = "", years: Tuple[Span, ...] = TO_2199, doubts: Tuple[str, ...] = ()
) -> Centre:
    return Centre(name, {"quantlib": Known(calendar, option, years, doubts)})


def _h(name: str, calendar: str, option: str = "", doubts: Tuple[str, ...] = (_PUBLIC,)) -> Centre:
    return Centre(name, {"holidays": Known(calendar, option, TO_2099, doubts)})


def _both(first: Centre, then: Centre) -> Centre:
    return Centre(first.name, {**first.sources, **then.sources})


#: The centres, by FpML code.
CENTRES: Dict[str, Centre] = {
    "ATVI": _h("Vienna", "AT", "9"),
    "AUSY": _both(_q("Sydney", "Australia"), _h("Sydney", "AU", "NSW", ("22 September 2022 isn't in it", _PUBLIC))),
    "BEBR": _h("Brussels", "BE"),
    "BRSP": _q(
        "Sao Paulo", "Brazil", "Settlement", doubts=("20 November, a holiday by law from 2024 on, isn't in it",)
    ),
    "CATO": _q("Toronto", "Canada", "Settlement"),
    "CHZU": _both(_q("Zurich", "Switzerland"), _h("Zurich", "CH", "ZH")),
    "CNBE": _q("Beijing", "China", "IB", ((2005, 2023),), ("these are the days of the inter-bank market",)),
    "CZPR": _q("Prague", "CzechRepublic", doubts=(_EXCHANGE,)),
    "DEFR": _q("Frankfurt", "Germany", "Settlement", doubts=("31 October 2017 isn't in it",)),
    "DKCO": _q(
        "Copenhagen",
        "Denmark",
        doubts=(
            "General Prayer Day is off in every year; from 2024 on it is a business day",
            "24 and 31 December and the day after Ascension, when banks close, aren't in it",
        ),
    ),
    "EUTA": _both(_q("TARGET", "TARGET"), _h("TARGET", "ECB", doubts=("31 December 2001 isn't in it",))),
    "FIHE": _both(
        _h("Helsinki", "FI"),
        _q(
            "Helsinki",
            "Finland",
            doubts=("Midsummer Eve is a week too early where it is 25 June, as in 2021 and 2027",),
        ),
    ),
    "FRPA": _both(
        _h("Paris", "FRA"),
        _q(
            "Paris",
            "France",
            "Settlement",
            doubts=("Ascension and Whit Monday are 10 and 21 May in every year, which is wrong",),
        ),
    ),
    "GBLO": _q("London", "UnitedKingdom", "Settlement"),
    "GRAT": _h("Athens", "GR"),
    "HKHK": _q("Hong Kong", "HongKong", "HKEx", ((2004, 2020),), (_EXCHANGE,)),
    "HUBU": _q(
        "Budapest",
        "Hungary",
        doubts=("24 December and days moved by decree aren't in it, nor Saturdays worked for them",),
    ),
    "IDJA": _q("Jakarta", "Indonesia", "JSX", ((2005, 2014),), (_EXCHANGE,)),
    "IEDU": _h(
        "Dublin", "IE", doubts=("Saint Brigid's Day, from 2023 on, isn't in it", "Good Friday isn't in it", _PUBLIC)
    ),
    "ILTA": _q(
        "Tel Aviv",
        "Israel",
        "Settlement",
        ((2013, 2044),),
        ("the weekend is Friday and Saturday throughout", _EXCHANGE),
    ),
    "INMU": _q("Mumbai", "India", "NSE", ((2005, 2014), (2019, 2020)), (_EXCHANGE,)),
    "ISRE": _q("Reykjavik", "Iceland", "ICEX", doubts=("24 and 31 December, half days, aren't in it", _EXCHANGE)),
    "ITMI": _both(_q("Milan", "Italy", "Settlement"), _h("Milan", "IT")),
    "JPTO": _q("Tokyo", "Japan", years=((2000, 2099),), doubts=("the equinoxes are computed, and not as announced",)),
    "KRSE": _q(
        "Seoul",
        "SouthKorea",
        "Settlement",
        ((2004, 2032),),
        ("most substitute holidays (since 2014, more since 2021) and election days after 2020 aren't in it",),
    ),
    "LULU": _h("Luxembourg", "LU"),
    "MXMC": _q("Mexico City", "Mexico", "BMV", doubts=(_EXCHANGE,)),
    "NLAM": _h("Amsterdam", "NL"),
    "NOOS": _q("Oslo", "Norway"),
    "NZWE": _q(
        "Wellington", "NewZealand", doubts=("Matariki, from 24 June 2022 on, and 26 September 2022 aren't in it",)
    ),
    "PLWA": _both(
        _q("Warsaw", "Poland", doubts=("24 December, a holiday from 2025 on, isn't in it",)),
        _h("Warsaw", "PL", doubts=("24 December, a holiday from 2025 on, isn't in it", _PUBLIC)),
    ),
    "PTLI": _h("Lisbon", "PT"),
    "ROBU": _q(
        "Bucharest",
        "Romania",
        doubts=("Orthodox Good Friday, from 2018 on, and 6 and 7 January, from 2024 on, aren't in it",),
    ),
    "SARI": _q(
        "Riyadh",
        "SaudiArabia",
        "Tadawul",
        ((2002, 2022),),
        (
            "both Eids are taken from a day before to four days after in each year, which is cautious",
            "Founding Day, 22 February 2022, isn't in it",
            _EXCHANGE,
        ),
    ),
    "SEST": _both(_q("Stockholm", "Sweden"), _h("Stockholm", "SE", "no Sundays")),
    "SGSI": _q("Singapore", "Singapore", "SGX", ((2004, 2010), (2012, 2014)), (_EXCHANGE,)),
    "SKBR": _q(
        "Bratislava",
        "Slovakia",
        "BSSE",
        doubts=("what the law changed since 2024 isn't in it (1 September, 17 November)", _EXCHANGE),
    ),
    "THBA": _q("Bangkok", "Thailand", years=((2000, 2001), (2005, 2018)), doubts=(_EXCHANGE,)),
    "TRIS": _q(
        "Istanbul",
        "Turkey",
        years=((2004, 2034),),
        doubts=("the days of both feasts are computed in advance; half days before them aren't in it",),
    ),
    "TWTA": _q(
        "Taipei", "Taiwan", "TSEC", ((2002, 2019),), ("Saturdays worked for other days aren't in it", _EXCHANGE)
    ),
    "USGS": _q(
        "US government securities",
        "UnitedStates",
        "GovernmentBond",
        ((2002, 2199),),
        ("Good Friday is off in every year but 2015; in 2010, 2012, 2021 and 2023 it was a half day",),
    ),
    "USNY": _q(
        "New York",
        "UnitedStates",
        "FederalReserve",
        doubts=(
            "these are the Federal Reserve's holidays, and not those of QuantLib's calendar Settlement,"
            " which moves Saturday holidays to Friday",
        ),
    ),
    "ZAJO": _q(
        "Johannesburg",
        "SouthAfrica",
        doubts=("election days but those of 2004, 2009 and 2016 aren't in it, nor days declared once",),
    ),
}
