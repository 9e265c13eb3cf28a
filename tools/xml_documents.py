"""Documents in XML for tools/xml_beside: small ones that go to the ends of the grammar, and changes of documents."""
from __future__ import annotations

import json
import random
from pathlib import Path
from typing import Any, Dict, Iterator, List, Optional, Sequence, Set, Tuple
from xml.sax.saxutils import escape, quoteattr

from beside import changed

FPML = "http://www.fpml.org/FpML-5/"
XML = "http://www.w3.org/XML/1998/namespace"
XMLNS = "http://www.w3.org/2000/xmlns/"


def _of(texts: str) -> List[str]:
    """Texts with `|` between them."""
    return texts.split("|")


#: Names, and texts that are none.
NAMES = _of("swap|trade|dataDocument|swapStream|step|a|b|c|id|x-1|_|A.b|é|中|a·")
ODD_NAMES = _of("\U00010400|\u2c00|\u02ff|a\u203f|\u0370|xml|xmlns|XML|xmla")
BAD_NAMES = _of("1a|-a|a:b:c|:a|a:|a::b|×|\u037e|a\u2030|·a|| a|a\ufffe|p:1")

SPACES = [FPML + "confirmation", FPML + "confirmation", FPML + "recordkeeping", FPML, "urn:x", "urn:y"]
ODD_SPACES = ["", FPML[:-1], FPML + "confirmation ", FPML.upper(), XML, XMLNS, "&#104;" + FPML[1:] + "x", "ü"]
PREFIXES = _of("f|g|é|xsi")
ODD_PREFIXES = _of("xml|xmlns|XML|h")

TEXTS = _of("1|0.05|2024-01-15|abc| |\n|\t|\r\n|\r| x |é|中|𝄞|>|\"|'|]|]]|\x7f|\x85")
ODD_TEXTS = _of("\ufeff|\ufffd|\u2028|\ue000|\U0010ffff|\u0300|&#13;&#10;|]&#93;>")
BAD_TEXTS = _of("]]>|\ufffe|\uffff|\0|\x01|\x0b|\x0c|\x1f|<|</|< a/>|<a|<!|<?|\ud800")

REFERENCES = _of("&lt;|&gt;|&amp;|&apos;|&quot;|&#65;|&#x41;|&#x4a;|&#9;|&#10;|&#13;|&#32;")
ODD_REFERENCES = _of("&#00000065;|&#x0000004A;|&#xE9;|&#x10FFFF;|&#xFFFD;|&#xD7FF;|&#xE000;|&#x85;|&#x7f;")
BAD_REFERENCES = _of(
    "&|&#;|&#x;|&#0;|&#1;|&#x1F;|&#xD800;|&#xDFFF;|&#xFFFE;|&#xFFFF;|&#x110000;|&#99999999999999999999;|&#4294967361;|"
    "&nbsp;|&LT;|&lt|& lt;|&#x4G;|&#6 5;|&#X41;|&;|&a:b;|&#x100000041;|&#-65;|&#+65;"
)

ASIDES = _of("<!-- x -->|<!---->|<!-- - > -->|<!--<a>&b;-->|<?a?>|<?a b?>|<?a  ?b? ?>|<?xml-x y?>|<!--\r\n-->")
ODD_ASIDES = _of("<?é ü?>|<?a\n?>|<?xmlx?>|<!--\ufffd-->|<?a <b>&c;?>|<?_?>")
BAD_ASIDES = _of(
    '<!-- -- -->|<!--->|<!-- --->|<!-->|<?XML y?>|<?xml version="1.0"?>|<?a:b c?>|<? a?>|<??>|<?a|<?a?b?|<?1?>|<?xMl?>|'
    "<!--\x01-->|<?a\ufffe?>|<!-- |<!DOCTYPE swap>|<!ELEMENT a ANY>|<!ENTITY a 'b'>|<?a/?>"
)
CDATA = _of(
    "<![CDATA[x]]>|<![CDATA[]]>|<![CDATA[<a>&amp;]]>|<![CDATA[]]]]>|<![CDATA[ ]]>|<![CDATA[\r\n]]>|<![CDATA[]>]]>"
)
BAD_CDATA = _of(
    "<![CDATA[|<![cdata[x]]>|<![CDATA[\x02]]>|<! [CDATA[x]]>|<![CDATA [x]]>|<![CDATA[x]] >|<![CDATA[\uffff]]>"
)

TYPES = _of(
    '<!DOCTYPE swap>|<!DOCTYPE swap SYSTEM "x">|<!DOCTYPE swap [<!ENTITY a "b">]>|<!doctype swap>|<!DOCTYPE|'
    '<!DOCTYPE >|<!DOCTYPE swap PUBLIC "x" "y" [<!ATTLIST swap id CDATA "x">]>'
)

DECLARATIONS = _of(
    "<?xml version=\"1.0\"?>|<?xml version='1.0' encoding='UTF-8'?>|<?xml version=\"1.0\" standalone='yes'?>|"
    "<?xml version='1.0' encoding='utf-8' standalone='no'?>\n|"
    "<?xml  version = '1.0'\tencoding\r\n=\n'Utf-8'  standalone='yes' ?>"
)
BAD_DECLARATIONS = _of(
    "<?xml version='1.1'?>|<?xml version='1.00'?>|<?xml version='2.0'?>|<?xml?>|<?xml encoding='UTF-8'?>|<?xml ?>|"
    "<?xml version='1.0' encoding='ISO-8859-1'?>|<?xml version='1.0' encoding='UTF-16'?>|<?xml version=1.0?>|"
    "<?xml version='1.0' encoding=''?>|<?xml version='1.0' encoding='UTF8'?>|<?xml version='1.0' a='b'?>|"
    "<?xml version='1.0' standalone='maybe'?>|<?xml version='1.0' standalone='YES'?>|<?xml version='1.0\"?>|"
    "<?xml version='1.0'encoding='UTF-8'?>|<?xml standalone='yes' version='1.0'?>| <?xml version='1.0'?>|"
    "<?xml version='1.0' standalone='yes' encoding='UTF-8'?>|<?XML version='1.0'?>|<?xml version='1.0' ?|"
    "<?xml version='1.0'>|<?xml version='1.0' encoding='UTF-8'standalone='yes'?>|<?xml version='&#49;.0'?>|"
    "<?xml version='1.0' encoding='UTF-8 '?>|<?xml version=' 1.0'?>|<?xml\u00a0version='1.0'?>|\n<?xml version='1.0'?>|"
    "<?xml version='1.0' encoding='us-ascii'?>|<?xml version='1.0' version='1.0'?>|<?xml version='1.0'??>"
)

#: What a change inserts, besides.
TOKENS = _of(
    "/|=|<a>|</a>|<a/>|</swap>|<swap>|<a></a >|<a></ a>|</a|/>|/ >| a='1'| a='1'a='2'| xmlns=''|:|"
    f"xmlns:|<q:a/>|!|?|-|--| xmlns:q='urn:q'| xmlns='{FPML}x'| xmlns:q=''| xml:lang='de'| xmlns:xml='urn:x'|"
    f" xmlns:xml='{XML}'| xmlns:q='{XML}'|"
    f" xmlns='{XMLNS}'| xmlns:xmlns='urn:x'| a=1| a| a=| a='<'| a='\"'| a='&#60;'| a='\t\n'| a = 'x'| a='x|\x80"
)
TOKENS += [*TEXTS, *ODD_TEXTS, *BAD_TEXTS, *REFERENCES, *ODD_REFERENCES, *BAD_REFERENCES]
TOKENS += [*ASIDES, *ODD_ASIDES, *BAD_ASIDES, *CDATA, *BAD_CDATA, *BAD_DECLARATIONS]


class Maker:
    """Makes small documents at random: most are as they should be, and some have one thing at the edge, or past it."""

    def __init__(self, chance: random.Random) -> None:
        self.chance = chance
        self.odd = self.bad = 0.0

    def pick(self, usual: Sequence[str], odd: Sequence[str], bad: Sequence[str]) -> str:
        """One of the usual texts, or now and then one of the others."""
        drawn = self.chance.random()
        if drawn < self.bad and bad:
            return self.chance.choice(bad)
        return self.chance.choice(odd if drawn < self.bad + self.odd and odd else usual)

    def document(self) -> bytes:
        """A document."""
        self.odd = self.chance.choice([0.0, 0.02, 0.1])
        self.bad = self.chance.choice([0.0, 0.0, 0.01, 0.05])
        front = "\ufeff" if self.chance.random() < 0.1 else ""
        if self.chance.random() < 0.4:
            front += self.pick(DECLARATIONS, [], BAD_DECLARATIONS)
        if self.chance.random() < 0.01:
            front += self.chance.choice(TYPES)
        space = self.pick([*SPACES[:4], ""], SPACES[4:], ODD_SPACES)
        prefix = self.chance.choice(["", "", self.pick(PREFIXES, [], ODD_PREFIXES)]) if space else ""
        declared = self.declaration(prefix, space) if space else ""
        root = self.element(
            self.chance.randrange(1, 5), {prefix: space}, prefix, self.pick(NAMES[:4], NAMES, BAD_NAMES), declared
        )
        if self.chance.random() < 0.02:
            root = self.deep(prefix, declared)
        text = front + self.asides() + root + self.asides()
        return text.encode("utf-8", "surrogatepass")

    def asides(self) -> str:
        """What may be outside of the root."""
        return "".join(
            self.pick(
                [" ", "\n", "\r\n", "\t", *ASIDES],
                ODD_ASIDES,
                [*BAD_ASIDES, "x", "&#32;", "<a/>", "<![CDATA[ ]]>", "\ufeff"],
            )
            for _ in range(self.chance.choice([0, 0, 1, 2]))
        )

    def deep(self, prefix: str, declared: str) -> str:
        """Elements in each other, about as deep as may be."""
        tag = f"{prefix}:a" if prefix else "a"
        depth = self.chance.randrange(60, 67)
        inside = self.chance.choice(["", "x", "<b xmlns=''/>" * 2, f"<{tag}/>"])
        return f"<{tag}{declared}>" + f"<{tag}>" * (depth - 1) + inside + f"</{tag}>" * depth

    def declaration(self, prefix: str, space: str) -> str:
        """A declaration of a namespace."""
        mark = self.chance.choice("'\"")
        return f" {f'xmlns:{prefix}' if prefix else 'xmlns'}={mark}{space}{mark}"

    def quoted(self, text: str) -> str:
        """A text as the value of an attribute."""
        mark = "'" if '"' in text else '"'
        return mark + text + mark

    def attributes(self, scope: Dict[str, str]) -> Tuple[str, Dict[str, str]]:
        """Attributes and declarations of a tag, and what is in scope in it."""
        scope, told = dict(scope), ""
        names: Set[str] = set()
        many = self.chance.random() < 0.006
        for number in range(self.chance.randrange(60, 67) if many else self.chance.choice([0, 0, 0, 0, 1, 1, 2, 3])):
            name, value = self.attribute(scope, number if many else None, names)
            if name in names and self.chance.random() > self.bad:
                continue
            names.add(name)
            white = self.pick([" ", " ", "\n", "\t "], [], ["", "\u00a0"])
            equals = self.pick(["=", "=", " = ", "=\n"], [], ["", "==", ":"])
            told += white + name + equals + self.quoted(value)
        return told, scope

    def attribute(self, scope: Dict[str, str], number: Optional[int], names: Set[str]) -> Tuple[str, str]:
        """An attribute or a declaration, which comes into scope: its name and its value."""
        if self.chance.random() < 0.15:
            prefix = self.pick(["", *PREFIXES], [], ODD_PREFIXES) if number is None else f"p{number}"
            space = self.pick(SPACES if prefix else ["", *SPACES], ODD_SPACES, [])
            name = f"xmlns:{prefix}" if prefix else "xmlns"
            if name not in names:
                scope[prefix] = space
            return name, space
        name = self.pick(NAMES, ODD_NAMES, BAD_NAMES) if number is None else f"a{number}"
        prefixes = [it for it in scope if it] + ["xml"]
        if self.chance.random() < 0.2:
            name = f"{self.chance.choice(prefixes)}:{name}"
        usual = [it for it in [*TEXTS, *REFERENCES] if it not in ("'", '"')]
        odd, bad = [*ODD_REFERENCES, *ODD_TEXTS], [*BAD_REFERENCES, *BAD_TEXTS]
        return name, "".join(self.pick(usual, odd, bad) for _ in range(self.chance.choice([0, 1, 1, 2])))

    def element(self, depth: int, scope: Dict[str, str], prefix: str, name: str, declared: str = "") -> str:
        """An element with what is in it."""
        attributes, scope = self.attributes(scope)
        tag = (f"{prefix}:" if prefix else "") + name
        front = f"<{tag}{declared}{attributes}" + self.chance.choice(["", "", "", " ", "\n"])
        inside = self.inside(depth, scope, prefix)
        if not inside and self.chance.random() < 0.7:
            return front + "/>"
        end = self.pick([tag], [], [name, f"x:{name}", tag + "x", " " + tag, tag.swapcase()])
        return f"{front}>{inside}</{end}{self.chance.choice(['', '', '', ' ', chr(10)])}>"

    def inside(self, depth: int, scope: Dict[str, str], prefix: str) -> str:
        """What is in an element: other elements with white space between them, or text."""
        if depth == 0 or self.chance.random() < 0.4:
            texts = [*TEXTS, *REFERENCES, *CDATA, *ASIDES]
            odd, bad = [*ODD_REFERENCES, *ODD_TEXTS, *ODD_ASIDES], [
                *BAD_REFERENCES,
                *BAD_TEXTS,
                *BAD_CDATA,
                *BAD_ASIDES,
            ]
            return "".join(self.pick(texts, odd, bad) for _ in range(self.chance.choice([0, 1, 1, 2, 3])))
        parts = []
        for _ in range(self.chance.choice([0, 1, 1, 2, 2, 3, 5])):
            own = prefix if self.chance.random() < 0.85 else self.chance.choice(list(scope))
            if self.chance.random() < self.bad:
                own = self.chance.choice([*PREFIXES, *ODD_PREFIXES])
            parts.append(self.element(depth - 1, scope, own, self.pick(NAMES, ODD_NAMES, BAD_NAMES)))
            parts.append(
                self.pick(["", "", " ", "\n", "&#13;", *ASIDES], [*CDATA, *ODD_ASIDES], ["x", "&#160;", *BAD_TEXTS])
            )
        return "".join(parts)


def xml_of(name: str, value: Any) -> str:
    """A value of the carrier as an element, or elements; `null` is none."""
    if value is None:
        return ""
    if isinstance(value, list):
        return "".join(xml_of(name, it) for it in value)
    if not isinstance(value, dict):
        text = json.dumps(value) if isinstance(value, (bool, int, float)) else str(value)
        return f"<{name}>{escape(text)}</{name}>\n"
    told = "".join(f" {it[1:]}={quoteattr(str(own))}" for it, own in value.items() if it.startswith("@"))
    inside = "".join(
        escape(str(own)) if it == "#text" else xml_of(it, own) for it, own in value.items() if not it.startswith("@")
    )
    return f"<{name}{told}>{inside}</{name}>\n"


def of_examples(folder: Path) -> Iterator[bytes]:
    """The documents of the examples: those in XML as they are, and those in JSON as XML."""
    for path in sorted(folder.glob("*/*.xml")):
        yield path.read_bytes()
    for path in sorted(folder.glob("*/*.json")):
        root = json.loads(path.read_text())
        if isinstance(root, dict) and len(root) == 1:
            text = xml_of(*next(iter(root.items())))
            yield text.replace(">", f' xmlns="{FPML}confirmation">', 1).encode()


def documents(folder: Path, count: int, start: int) -> Iterator[bytes]:
    """That many documents: small ones, the same changed, and those of the examples changed."""
    chance = random.Random(start)
    maker, seeds = Maker(chance), list(dict.fromkeys(of_examples(folder)))
    tokens = [it.encode("utf-8", "surrogatepass") for it in TOKENS]
    yield from seeds[:count]
    for number in range(count - len(seeds)):
        if number % 4 == 3:
            yield changed(chance.choice(seeds), chance, tokens)
        else:
            made = maker.document()
            yield made if number % 4 else changed(made, chance, tokens)
