"""Documents of terms with one to three changes each, for comparing the JSON Schema with the program (tools/schema)."""
from __future__ import annotations

import copy
import json
import random
from pathlib import Path
from typing import Any, Iterator, List, Tuple

#: Texts near the edges of each kind of leaf.
TEXTS = (
    *"0 1 -1 +1 -0 007 60 61 -60 -61 999 1000 0000000001 000000001 9 10 31 30 10.000000001 9.999999999".split(),
    *"9.9999999990 9.9999999991 .5 5. . - + 1e2 0x1 10000000000000 10000000000000.0 10000000000000.0001".split(),
    *"9999999999999.9999 1.00001 1.00000 -0.0 -0.1 2024-02-29 2023-02-29 2100-02-29 2000-02-29 2024-02-29Z".split(),
    *"2024-02-29z 1900-12-31 1901-01-01 2299-12-31 2300-01-01 2024-04-31 2024-13-01 2024-00-01 2024-1-01".split(),
    *"2024-01-00 2024-01-15T00:00 NONE FOLLOWING following FRN NotApplicable EOM IMM MON SFE D W M Y T d".split(),
    *"Business ExchangeBusiness ACT/360 ACT/365.FIXED ACT/ACT.ICMA ACT/365 30/360 1/1 USD usd US USDX".split(),
    *"Straight None Up Nearest ShortInitial CalculationPeriodEndDate ResetDate true false TRUE EUTA".split(),
    *("", " ", "1 2", " 2024-01-15\n", "A B", " A B ", "A\tB", "A\u007fB", "\u00e9", "\u0661"),
    *("A" * 32, "A" * 33, "A" * 128, "A" * 129),
)

#: Values of every JSON type. Whole numbers with a fraction of zero aren't here: a schema takes them (its `$comment`).
VALUES: Tuple[Any, ...] = (
    *(None, True, False, 0, 1, -1, 7, 30, 31, 60, 61, -60, 999, 1000, 10, 11, 10**13, 10**13 + 1),
    *(2**63, 2**64 - 1, 2**64, -(2**63), -(2**63) - 1, 1.5, 0.05, -0.5, [], {}, [[]], [None], [{}], "text"),
    *({"#text": "1"}, {"#text": 1}, {"#text": None}, {"#text": []}, {"#text": ["1"]}, {"#text": "1", "@id": 5}),
    *({"#text": "1", "x": None}, {"#text": "1", "x": "y"}, {"@href": "x"}, {"@href": None}, {"@href": ["x"]}),
    *({"@id": "x"}, {"x": []}),
)

#: Names that are members somewhere, or nowhere.
NAMES = (
    "",
    *"@id @href @other #text unknown cashflows productType additionalPayment formula settlementProvision".split(),
    *"stubPeriodType initialRate businessCenters businessCentersReference fixedRateSchedule stubAmount".split(),
    *"floatingRateCalculation stubRate weeklyRollConvention swap trade step compoundingMethod".split(),
    *"calculationParameters".split(),
)

#: A way from the root: names and positions.
Place = Tuple[Any, ...]


def places_of(value: Any, here: Place = ()) -> Iterator[Place]:
    """Every place of a JSON value, the root first."""
    yield here
    pairs: List[Tuple[Any, Any]] = []
    if isinstance(value, dict):
        pairs = list(value.items())
    elif isinstance(value, list):
        pairs = list(enumerate(value))
    for name, below in pairs:
        yield from places_of(below, (*here, name))


def _at(value: Any, place: Place) -> Any:
    for part in place:
        value = value[part]
    return value


def changed(document: Any, chance: random.Random) -> Any:
    """The document with one change."""
    place = chance.choice(list(places_of(document)))
    old = _at(document, place)
    way = chance.randrange(10)
    if way == 0 and isinstance(old, dict):
        return _put(document, (*place, chance.choice(NAMES)), chance.choice(VALUES + TEXTS))
    if way == 1 and place:
        return _taken(document, place)
    if way == 2:
        return _put(document, place, [copy.deepcopy(old) for _ in range(chance.choice((1, 1, 2, 9, 17)))])
    if way == 3 and isinstance(old, (str, int)):
        return _put(document, place, {"#text": old, "@id": chance.choice(("x", 5, None))})
    if way == 4 and isinstance(old, str):
        return _put(
            document,
            place,
            chance.choice((f" {old}\n", f"{old}.", f"{old}0", f"0{old}", f"-{old}", old.lower(), old + "Z")),
        )
    if way == 5:
        return _put(document, place, chance.choice(VALUES))
    return _put(document, place, chance.choice(TEXTS)) if isinstance(old, str) else changed(document, chance)


def _put(document: Any, place: Place, value: Any) -> Any:
    if not place:
        return value
    _at(document, place[:-1])[place[-1]] = value
    return document


def _taken(document: Any, place: Place) -> Any:
    del _at(document, place[:-1])[place[-1]]
    return document


def cases(documents: List[Path], count: int, seed: str) -> Iterator[str]:
    """The documents as they are, and then this many with changes, as JSON texts. The same seed gives the same."""
    chance = random.Random(seed)
    whole = [json.loads(path.read_bytes()) for path in documents]
    for value in whole:
        yield json.dumps(value)
    for _ in range(count):
        value = copy.deepcopy(chance.choice(whole))
        for _ in range(chance.choice((1, 1, 1, 2, 3))):
            value = changed(value, chance)
        yield json.dumps(value)
