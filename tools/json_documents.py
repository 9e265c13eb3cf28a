"""Documents in JSON for tools/json_beside: those of the examples, changed so that they go to the grammar's ends."""
from __future__ import annotations

import random
import re
from pathlib import Path
from typing import Callable, Iterator, List, Sequence, Tuple

from beside import changed


def _of(texts: str) -> List[bytes]:
    """Texts with `|` between them; a lone surrogate is three bytes, which aren't UTF-8."""
    return [it.encode("utf-8", "surrogatepass") for it in texts.split("|")]


#: What is between the quotes of a string, and what can't be.
PIECES = _of(r"a|USD-X|3M| |/|'|é|中|𝄞|\"|\\|\/|\b|\f|\n|\r|\t|\u0041|\u00e9|\u00E9|\u4e2d|\ud834\udd1e|\uD834\uDD1E")
PIECES += _of(r"\u0000|\u001f|\u0020|\u007f|\u0080|\ud7ff|\ue000|\uffff|\udbff\udfff|\ud800\udc00|\u0040|\u005c|\u0022")
PIECES += _of("\x7f|\x85|\u2028|\ufeff|\ufffe|\uffff|\U0010ffff|\u0300")
BAD_PIECES = _of(r"\ud834|\udd1e|\udd1e\ud834|\ud834\ud834\udd1e|\ud834x|\ud834\n|\ud834\u0041|\ud834\\udd1e|\uDFFF")
BAD_PIECES += _of(r'\u|\u12|\u00g0|\u 041|\u+041|\u-041|\u0x41|\u٠٠٤١|\U0041|\x41|\a|\0|\'|\é|\|"|"x"|",')
BAD_PIECES += _of("\0|\x01|\x08|\t|\n|\r|\x1f|\\\n|\ud834|\udd1e|\ud834\udd1e")
BAD_PIECES += [b"\xff", b"\x80", b"\xc3", b"\xc0\x80", b"\xc1\xbf", b"\xe0\x80\x80", b"\xe2\x80", b"\xf0\x80\x80\x80"]
BAD_PIECES += [b"\xf0\x9d\x84", b"\xf4\x90\x80\x80", b"\xf8\x88\x80\x80\x80", b"\xfe\xff", b"\xc3\xc3\xa9"]

NUMBERS = _of("0|1|-1|7|30|1000000|-0|0.5|-0.0|1e3|1E+2|25e-1|9007199254740993|0.1e1|0e0|-0e-0|1e-400|5e-324|2e-324")
NUMBERS += _of("9223372036854775807|9223372036854775808|18446744073709551615|18446744073709551616|1e308|1E0308")
NUMBERS += _of("-9223372036854775807|-9223372036854775808|-9223372036854775809|0e99999999999999999999|1e-99999999999")
NUMBERS += _of("1.7976931348623157e308|1.7976931348623158079e308|-1.7976931348623158079e308")
NUMBERS += [b"1" * 309, b"1" + b"0" * 308, b"9" * 400 + b"e-300", b"0." + b"0" * 400 + b"1e400", b"0." + b"7" * 5_000]
BAD_NUMBERS = _of("01|-01|00|1.|.5|+1|-|--1|1e|1e+|1.e3|-.5|1.5.5|1e1.5|0x10|1_000|1f|1 000|- 1|١|１|inf|nan|-NaN|+1e3")

WORDS = _of('true|false|null|[]|{}|""|[null]|{"":0}|{"a":1,"a":2}')
WORDS += _of('{"#text":"x"}|{"#text":1,"@a":2}|{"#text":1,"#text":"b"}|{"#text":null}|["x"]|[1]')
BAD_WORDS = _of("True|FALSE|nul|nulll|none|undefined|'a'||a|[1,]|[,1]|[,]|[1 2]|[1}|[|]|{|}|{,}|{1:2}|{a:1}|{null:1}")
BAD_WORDS += _of('{"a"}|{"a":}|{"a":1,}|{"a" 1}|{"a":1 "b":2}|{"a"::1}|{"a":1:2}|{:1}|{"a":1]|{"a":1;"b":2}|[1;2]|(1)')
BAD_WORDS += _of("{'a':1}|/**/1|1//x|1#x|\ufeff1|1\ufeff|\\u0031|#1|`a`|“a”|@|,|:|1,2|<a/>")

#: What Python's json reads of itself, and the program doesn't.
PAST = _of("NaN|Infinity|-Infinity|1e309|-1e309|1.7976931348623158080e308|-1.797693134862315808e308|1e9999999999999")
PAST += [b"9" * 309, b"1" + b"0" * 309, b"-" + b"7" * 4_000, b"1" * 300 + b"e10", b"0." + b"0" * 9 + b"1e319"]
PAST += _of(r'"\ud834"|"\udd1e"|"\udd1e\ud834"|"\ud834\ud834\udd1e"|"a\uD834x"|"\ud834\n"|{"\uDFFF":1}|["\udc00"]')

WHITE = _of(" |\n|\t|\r|\r\n| \t\r\n ")
BAD_WHITE = _of("\0|\x0b|\x0c|\x1f|\x7f|\x85|\xa0|\u2028|\u3000|\ufeff|/**/|//\n|\\n|;|,|:")

BAD_MARKS = _of('[|]|{|}|,|:||,,|::|;|=|[]|{}|"')

BAD_ENDS = [*BAD_WHITE, *_of("\ufeff\ufeff|{}|[]|null|0|x|}|]|{|[|\"|,|\x1a|)]}'\n|\ufffe|\ud834")]
BAD_ENDS += [b"\xff\xfe", b"\xfe\xff", b"\xef\xbb"]

#: Encodings that aren't UTF-8 without a byte order mark.
ENCODINGS = ("utf-8-sig", "utf-16", "utf-16-be", "utf-32")

#: What a change of bytes inserts.
TOKENS = _of('[|]|{|}|,|:|"|\\|""|[]|{}|[[|]]|{"a":|":"|","|"a":1,|\\"')
TOKENS += [*PIECES, *BAD_PIECES, *NUMBERS, *BAD_NUMBERS, *WORDS, *BAD_WORDS, *PAST, *WHITE, *BAD_WHITE]

#: A token of a document; the name of a member; the value of an index, which a sentence shows.
TOKEN = re.compile(rb'"(?:[^"\\]|\\.)*"|[\[\]{}:,]|\s+')
NAME = re.compile(rb'"([^"\\]*)"\s*:')
INDEX = re.compile(rb'(?<="floatingRateIndex":)\s*"[^"\\]*"')

#: Names of members that are passed over, or that are attributes.
PASSED = _of(r'"assetClass"|"productType"|"\u0061ssetClass"|"@a"|"\u0040id"|"@id"|"cashflows"')


class Maker:
    """Changes documents at random: many stay documents, and the others have one thing past the edge, or several."""

    def __init__(self, chance: random.Random) -> None:
        self.chance = chance
        self.bad = 0.0

    def pick(self, usual: Sequence[bytes], bad: Sequence[bytes]) -> bytes:
        """One of the usual texts, or now and then one of the bad ones."""
        return self.chance.choice(bad if self.chance.random() < self.bad else usual)

    def string(self) -> bytes:
        """A string; now and then a long one."""
        count = self.chance.choice([0, 1, 1, 2, 3, 5, 60])
        return b'"' + b"".join(self.pick(PIECES, BAD_PIECES) for _ in range(count)) + b'"'

    def white(self) -> bytes:
        """White space, or none."""
        return self.pick([b"", b"", *WHITE], BAD_WHITE)

    def value(self, levels: int = 3) -> bytes:
        """A value that nests to that many levels, or about as deep as may be."""
        if self.chance.random() < self.bad:
            return self.chance.choice(PAST)
        kind = self.chance.randrange(12)
        if kind < 4:
            return self.string()
        if kind < 7:
            return self.pick(NUMBERS, BAD_NUMBERS)
        if kind < 9 or levels == 0:
            return self.pick(WORDS, BAD_WORDS)
        if kind == 9:
            return self.deep()
        values = [self.white() + self.value(levels - 1) + self.white() for _ in range(self.chance.randrange(4))]
        if kind == 10:
            return b"[" + self.pick([b","], [b",,", b"", b";"]).join(values) + b"]"
        return b"{" + b",".join(self.string() + self.white() + b":" + it for it in values) + b"}"

    def deep(self) -> bytes:
        """Arrays or objects in each other: about as many as may be, or far more."""
        level = self.chance.randrange(118, 131) if self.chance.random() < 0.95 else self.chance.choice([1_500, 50_000])
        front, back, each = self.chance.choice([(b"[", b"]", 1), (b'{"a":', b"}", 1), (b'[0,{"":', b"},0]", 2)])
        level //= each
        return front * level + self.value(0) + back * (level - int(self.chance.random() < self.bad))

    def with_bytes(self, document: bytes) -> bytes:
        """Some bytes are left out, added, doubled, in another place or others."""
        return changed(document, self.chance, TOKENS)

    def with_token(self, document: bytes) -> bytes:
        """Another token in the place of one, or white space around it."""
        token = self.chance.choice(list(TOKEN.finditer(document)))
        if token[0].isspace():
            new = self.white() or b" "
        elif token[0].startswith(b'"'):
            new = self.string() if self.chance.random() < 0.5 else self.value()
        else:
            new = self.pick([self.white() + token[0] + self.white()], BAD_MARKS)
        return document[: token.start()] + new + document[token.end() :]

    def with_member(self, document: bytes) -> bytes:
        """One more member: one that is passed over, one that isn't known, or one of a name that is there already."""
        names = list(NAME.finditer(document))
        number = next((at for at, name in enumerate(names) if name[1] == b"swapStream"), 0)
        if self.chance.random() < 0.4:
            number = self.chance.randrange(len(names))
        there = [b'"' + it[1] + b'"' for it in names[max(0, number - 1) : number + 1]]
        name = self.chance.choice([self.chance.choice(PASSED), self.chance.choice(there), self.string()])
        new = name + self.white() + b":" + self.white() + self.value() + self.white() + b","
        return document[: names[number].start()] + new + document[names[number].start() :]

    def with_index(self, document: bytes) -> bytes:
        """Another value of an index; where there is none, another token."""
        found = list(INDEX.finditer(document))
        if not found:
            return self.with_token(document)
        index = self.chance.choice(found)
        value = self.string() if self.chance.random() < 0.5 else self.value()
        return document[: index.start()] + self.white() + value + self.white() + document[index.end() :]

    def with_ends(self, document: bytes) -> bytes:
        """Something in front or at the end; or the document is cut, in another encoding, or a value alone."""
        kind = self.chance.randrange(20)
        if kind == 0:
            return document[: self.chance.randrange(len(document))]
        if kind == 1:
            return document.decode(errors="replace").encode(self.chance.choice(ENCODINGS))
        middle = self.value() if kind < 5 else document
        return self.pick([b"", *WHITE], BAD_ENDS) + middle + self.pick([b"", *WHITE], BAD_ENDS)

    def document(self, document: bytes) -> bytes:
        """A document with a change, or two."""
        ways: List[Callable[[bytes], bytes]] = [self.with_bytes, self.with_token, self.with_index, self.with_ends]
        ways += [self.with_member, self.with_member]
        self.bad = self.chance.choice([0.0, 0.0, 0.05, 0.5])
        for _ in range(self.chance.choice([1, 1, 1, 2])):
            # The first change may have left no token, or no name.
            if TOKEN.search(document) and NAME.search(document):
                document = self.chance.choice(ways)(document)
        return document


def is_read(file: Path) -> bool:
    """Whether the command of an example reads that file of it as a document."""
    status = file.parent / "status"
    # Status 4 or 5: it ends before it reads one.
    ends = status.is_file() and status.read_text().strip() in ("4", "5")
    return file.name in (file.parent / "command").read_text().split() and not ends


def documents(folder: Path, count: int, start: int) -> Iterator[Tuple[Path, bytes]]:
    """That many documents, those of the examples as they are and then changed, each with the file it is made of."""
    maker = Maker(random.Random(start))
    files = [(it, it.read_bytes()) for it in sorted(folder.glob("*/*.json")) if is_read(it)]
    yield from files[:count]
    for _ in range(count - len(files)):
        file, document = maker.chance.choice(files)
        yield file, maker.document(document)
