"""The JSON Schema of the carrier, made from the table of elements that the gate prints (tools/schema).

The table is the head of crates/irs_element_rows/stdout: a line an element, with its path, its kind and its count.
A document breaks one of the rules K2 to K7 exactly where the schema refuses it, but for what NOTE says.
"""
from __future__ import annotations

import json
import re
from dataclasses import dataclass, field
from itertools import combinations
from typing import Any, Dict, List, Sequence, Tuple

Schema = Dict[str, Any]

#: What the schema can't say.
NOTE = (
    "A JSON Schema takes 1.0 for a whole number, which the program refuses (K3): write numbers as texts. It counts"
    " characters, and the program bytes, of an index with letters outside ASCII. It knows nothing of the rules"
    " from K8 on."
)

#: White space that is dropped at both ends of a leaf.
BLANK = "[ \\t\\r\\n]*"

#: At most nine digits, after a sign.
NINE = "(?![0-9]{10})"

_FEB_29 = "(19(0[48]|[2468][048]|[13579][26])|20([02468][048]|[13579][26])|2[12](0[48]|[2468][048]|[13579][26]))-02-29"
_YEAR = "(190[1-9]|19[1-9][0-9]|2[0-2][0-9]{2})"
_DAY = (
    f"({_YEAR}-((0[13578]|1[02])-(0[1-9]|[12][0-9]|3[01])|(0[469]|11)-(0[1-9]|[12][0-9]|30)"
    f"|02-(0[1-9]|1[0-9]|2[0-8]))|{_FEB_29})"
)


def _one_of(*words: str) -> str:
    return "(" + "|".join(re.escape(word).replace("\\-", "-") for word in words) + ")"


#: The text of each kind of leaf, as a regular expression.
TEXTS: Dict[str, str] = {
    "D": f"{_DAY}Z?",
    "N": r"(\+?(0*[0-9]{1,13}(\.[0-9]{0,4}0*)?|0*10{13}(\.0*)?|0*\.[0-9]{1,4}0*)|-(0+(\.0*)?|0*\.0+))",
    "X": r"[+-]?(0*[0-9](\.[0-9]{0,9}0*)?|0*10(\.0*)?|\.[0-9]{1,9}0*)",
    "B": _one_of("true", "false", "1", "0"),
    "I multiplier": rf"\+?{NINE}0*[1-9][0-9]{{0,2}}",
    "I offset": rf"[+-]?{NINE}0*([0-5]?[0-9]|60)",
    "I observation days": rf"\+?{NINE}0*([1-9]|[12][0-9]|30)",
    "I precision": rf"(\+?{NINE}0*[0-9]|-{NINE}0+)",
    "T centre": "[!-~]{1,32}",
    "T currency": "[A-Z]{3}",
    "T index": r"[^\u0000-\u0020\u007f]([^\u0000-\u001f\u007f]{0,126}[^\u0000-\u0020\u007f])?",
    "C convention": _one_of("FOLLOWING", "MODFOLLOWING", "PRECEDING", "MODPRECEDING", "NEAREST", "NONE"),
    "C period": "[DWMYT]",
    "C tenor period": "[DWMY]",
    "C offset period": "D",
    "C day type": _one_of("Business", "Calendar"),
    "C roll": "(EOM|IMM|NONE|MON|TUE|WED|THU|FRI|SAT|SUN|[1-9]|[12][0-9]|30)",
    "C stub type": _one_of("ShortInitial", "LongInitial", "ShortFinal", "LongFinal"),
    "C payment relative": _one_of("CalculationPeriodStartDate", "CalculationPeriodEndDate"),
    "C reset relative": _one_of("CalculationPeriodStartDate", "CalculationPeriodEndDate"),
    "C day count": _one_of("1/1", "ACT/ACT.ISDA", "ACT/365.FIXED", "ACT/360", "30/360", "30E/360", "30E/360.ISDA"),
    "C compounding": _one_of("None", "Straight", "Flat", "SpreadExclusive"),
    "C calculation method": _one_of("Compounding", "Averaging"),
    "C treatment": _one_of("NegativeInterestRateMethod", "ZeroInterestRateMethod"),
    "C direction": _one_of("Up", "Down", "Nearest"),
}

#: The JSON whole numbers whose digits are such a text, from the least to the greatest.
WHOLE: Dict[str, Tuple[int, int]] = {
    "N": (0, 10**13),
    "X": (-10, 10),
    "B": (0, 1),
    "I multiplier": (1, 999),
    "I offset": (-60, 60),
    "I observation days": (1, 30),
    "I precision": (0, 9),
    "C roll": (1, 30),
    "T centre": (-(2**63), 2**64 - 1),
    "T index": (-(2**63), 2**64 - 1),
}

#: The kinds that take `true` and `false` of JSON.
TRUTH = ("B", "T centre", "T index")


@dataclass
class Element:
    """An element of the table: its kind, how often it may be there, and the elements in it."""

    kind: str = "O"
    least: int = 0
    most: int = 1
    below: Dict[str, "Element"] = field(default_factory=dict)
    exactly_one: Tuple[str, ...] = ()
    at_most_one: Tuple[str, ...] = ()


def _words_after(text: str, mark: str) -> Tuple[str, ...]:
    return tuple(text.split(mark, 1)[1].split()) if mark in text else ()


def _element(kind: str, count: str) -> Element:
    least, _, most = count.partition("..")
    return Element(
        kind.split(",")[0],
        int(least),
        int(most or least),
        {},
        _words_after(kind, "exactly one of"),
        _words_after(kind, "at most one of"),
    )


def sections_of(printed: str) -> Dict[str, List[Tuple[str, str, str]]]:
    """The tables at the head of what the gate prints: path, kind and count by the name of the table."""
    sections: Dict[str, List[Tuple[str, str, str]]] = {}
    rows: List[Tuple[str, str, str]] = []
    for line in printed.splitlines():
        if line.startswith("# "):
            if not line.startswith("# the elements of"):
                return sections
            rows = sections.setdefault(line[len("# the elements of ") :], [])
        else:
            path, kind, count = (part.strip() for part in line.split("|"))
            rows.append((path, kind, count))
    return sections


def tree_of(rows: Sequence[Tuple[str, str, str]], least: int, most: int) -> Element:
    """The elements of a table as a tree, its root there as often as said."""
    root = Element("O", least, most)
    for path, kind, count in rows:
        at = root
        *up, name = path.split("/")
        for part in up:
            at = at.below[part]
        at.below[name] = _element(kind, count)
    return root


class Writer:
    """Writes schemas, and keeps each shape once, under a name, in `$defs`."""

    def __init__(self) -> None:
        nothing: List[Schema] = [{"type": "null"}, {"type": "array", "maxItems": 0}]
        self.defs: Dict[str, Schema] = {
            "absent": {"anyOf": nothing},
            "attribute": {"anyOf": [{"type": "string"}, *nothing]},
        }
        self._names: Dict[str, str] = {}

    def named(self, name: str, schema: Schema) -> Schema:
        """A reference to a schema, kept under a name; a number follows where another shape has that name."""
        key = json.dumps(schema, sort_keys=True)
        if key not in self._names:
            number = 1
            while name in self.defs:
                number += 1
                name = f"{name.rstrip('0123456789')}{number}"
            self._names[key] = name
            self.defs[name] = schema
        return {"$ref": f"#/$defs/{self._names[key]}"}

    def leaf(self, kind: str) -> Schema:
        """A leaf: a text, a whole number, a truth value, or an object with `#text`."""
        if kind not in TEXTS:
            raise SystemExit(f"tools/carrier_schema.py: TEXTS has no text for the kind '{kind}' of the table")
        plain: List[Schema] = [{"type": "string", "pattern": f"^{BLANK}({TEXTS[kind]}){BLANK}$"}]
        if kind in WHOLE:
            plain.append({"type": "integer", "minimum": WHOLE[kind][0], "maximum": WHOLE[kind][1]})
        if kind in TRUTH:
            plain.append({"type": "boolean"})
        with_attributes = {
            "type": "object",
            "required": ["#text"],
            "properties": {"#text": {"anyOf": plain}},
            "patternProperties": {"^@": True},
            "additionalProperties": {"$ref": "#/$defs/absent"},
        }
        return self.named(kind.replace(" ", "_"), {"anyOf": [*plain, with_attributes]})

    def there(self, name: str) -> Schema:
        """The member is there, and neither null nor an empty array."""
        return {"required": [name], "properties": {name: {"not": {"$ref": "#/$defs/absent"}}}}

    def item(self, name: str, element: Element) -> Schema:
        """One element, without its count."""
        if element.kind == "R":
            return self.named(
                "reference",
                {
                    "type": "object",
                    "required": ["@href"],
                    "properties": {"@id": {"$ref": "#/$defs/attribute"}, "@href": {"type": "string"}},
                    "patternProperties": {"^@(?!id$|href$)": True},
                    "additionalProperties": {"$ref": "#/$defs/absent"},
                },
            )
        if element.kind != "O":
            return self.leaf(element.kind)
        attribute = {"$ref": "#/$defs/attribute"}
        properties: Dict[str, Any] = {"@id": attribute, "@href": attribute}
        for part, below in element.below.items():
            if below.kind == "passed over":
                properties[part] = True
            elif below.kind != "out of profile":
                properties[part] = self.counted(part, below)
        schema: Schema = {
            "type": "object",
            "properties": properties,
            "patternProperties": {"^@(?!id$|href$)": True},
            "additionalProperties": {"$ref": "#/$defs/absent"},
        }
        required = [part for part, below in element.below.items() if below.least > 0]
        if required:
            schema["required"] = required
        if element.exactly_one:
            schema["oneOf"] = [self.there(part) for part in element.exactly_one]
        if element.at_most_one:
            pairs = [{"allOf": [self.there(part) for part in pair]} for pair in combinations(element.at_most_one, 2)]
            schema["not"] = pairs[0] if len(pairs) == 1 else {"anyOf": pairs}
        return self.named(name, schema)

    def counted(self, name: str, element: Element) -> Schema:
        """An element as a member: itself, or an array of as many as there may be, or absent where it may lack."""
        own = self.item(name, element)
        forms: List[Schema] = [own, {"type": "array", "items": own, "minItems": 1, "maxItems": element.most}]
        if element.least == 0:
            forms.append({"$ref": "#/$defs/absent"})
        return {"anyOf": forms}


def _holder(writer: Writer, name: str, part: str, member: Schema) -> Schema:
    own = writer.named(name, {"type": "object", "required": [part], "properties": {part: member}})
    return {"anyOf": [own, {"type": "array", "items": own, "minItems": 1, "maxItems": 1}]}


def schema_of(printed: str) -> Schema:
    """The JSON Schema of a document of terms, from what the gate prints."""
    sections = sections_of(printed)
    swap = tree_of(sections["a swap"], 1, 1)
    stream = tree_of(sections["a stream"], 1, 8)
    swap.below["swapStream"] = stream
    writer = Writer()
    below = writer.counted("swap", swap)
    trade = _holder(writer, "trade", "swap", below)
    roots = {"swap": below, "trade": trade, "dataDocument": _holder(writer, "dataDocument", "trade", trade)}
    return {
        "$schema": "https://json-schema.org/draft/2020-12/schema",
        "title": "Terms of an interest rate swap as irs reads them: FpML 5 elements as JSON",
        "$comment": NOTE,
        "type": "object",
        "properties": {name: {"anyOf": [schema, {"$ref": "#/$defs/absent"}]} for name, schema in roots.items()},
        "oneOf": [writer.there(name) for name in roots],
        "$defs": writer.defs,
    }


def text_of(printed: str) -> str:
    """The file of the schema."""
    return json.dumps(schema_of(printed), indent=1) + "\n"
