"""FpML in XML: one trade each, cash flows inserted, elements taken out; every other byte stays.

Hostile input ends in a `Fault`. The documents are written for these tests.
"""
import json
import random
import time
import unittest

from commands import TOP

import irs
from irs import fpml

NAMESPACE = "http://www.fpml.org/FpML-5/confirmation"

HEAD = f"""\ufeff<?xml version="1.0" encoding="utf-8"?>\r
<!-- <trade/> is no trade here, and neither is Zürich 𝄞 -->
<f:requestConfirmation xmlns:f="{NAMESPACE}" xmlns="urn:own" fpmlVersion="5-10">
  <f:header><f:messageId note="a > b">Zürich</f:messageId></f:header>
  <trade>of another namespace</trade>
""".encode()
TRADES = [
    "<f:trade><f:swap><f:swapStream id='ä'>\n<f:a/></f:swapStream></f:swap></f:trade>".encode(),
    b"<f:trade  id = '2' />",
    b'<f:trade xmlns:g="urn:g"><![CDATA[</f:trade>]]></f:trade\n>',
]
TAIL = b"""
  <f:party id="north"><f:partyName>North &amp; Sons</f:partyName></f:party>
</f:requestConfirmation>
<?after the root?>
"""

STREAM = """      <swapStream>
        <calculationPeriodAmount note=">"/>
        <principalExchanges/>
        <!-- last --><settlementProvision/>
      </swapStream>"""
SWAP = f"""<dataDocument xmlns="{NAMESPACE}">
  <trade>
    <swap>
{STREAM}
{STREAM}
    </swap>
  </trade>
</dataDocument>
"""
FLOWS = "<cashflows><a b='1'>x</a></cashflows>\n<cashflows/>\n"


def element(name, value):
    """A value of the carrier as an element, or as several."""
    if isinstance(value, list):
        return "".join(element(name, it) for it in value)
    if not isinstance(value, dict):
        return f"<{name}>{value}</{name}>"
    attributes = "".join(f' {it[1:]}="{value[it]}"' for it in value if it.startswith("@"))
    return f"<{name}{attributes}>{''.join(element(it, value[it]) for it in value if it[0] != '@')}</{name}>"


def takes_xml():
    """Whether the library reads XML."""
    return irs.run(["carrier", "document.xml"], {"document.xml": b"<swap/>"}).status == 0


class InFpml(unittest.TestCase):
    def refused(self, call, why, line=None):
        """`call` raises a `Fault` that says why, at that line."""
        with self.assertRaises(fpml.Fault) as caught:
            call()
        self.assertIn(why, str(caught.exception))
        if line is not None:
            self.assertEqual(caught.exception.line, line)


class Trades(InFpml):
    def test_a_message_of_three(self):
        message = HEAD + b"\n".join(TRADES) + TAIL
        want = [
            HEAD + TRADES[0] + b"\n\n" + TAIL,
            HEAD + b"\n" + TRADES[1] + b"\n" + TAIL,
            HEAD + b"\n\n" + TRADES[2] + TAIL,
        ]
        self.assertEqual(fpml.trades(message), want)
        for document in want:
            self.assertEqual(fpml.trades(document), [document])

    def test_one_trade_is_the_document(self):
        for document in (
            SWAP.encode(),
            b"<trade><swap/></trade>",
            b"<swap/>",
            b"<dataDocument><trade/></dataDocument>",
        ):
            self.assertEqual(fpml.trades(document), [document])

    def test_a_text_and_a_path(self):
        self.assertEqual(fpml.trades(SWAP), [SWAP.encode()])
        path = TOP / "docs" / "crates.svg"
        self.refused(lambda: fpml.trades(path), "the namespace is http://www.w3.org/2000/svg")

    def test_only_those_of_the_root(self):
        self.refused(lambda: fpml.trades(b"<a><b><trade/></b></a>"), "a has no trade", 1)
        self.refused(lambda: fpml.trades(b'<a>\n<x:trade xmlns:x="urn:x"/></a>'), "a has no trade", 1)
        self.refused(lambda: fpml.trades(f'<a xmlns="{NAMESPACE}"><trade xmlns=""/></a>'), "a has no trade")

    def test_many(self):
        trades = [b"<trade><a>%d</a></trade>" % n for n in range(5_000)]
        begun = time.monotonic()
        found = fpml.trades(b"<m>" + b"".join(trades) + b"</m>")
        self.assertLess(time.monotonic() - begun, 5)
        self.assertEqual(found, [b"<m>" + trade + b"</m>" for trade in trades])


class Insert(InFpml):
    def test_before_what_follows_in_the_schema(self):
        made = fpml.insert(SWAP, FLOWS).decode()
        first = STREAM.replace(
            "<principalExchanges/>", "<principalExchanges/>\n        <cashflows><a b='1'>x</a></cashflows>"
        )
        second = STREAM.replace("<principalExchanges/>", "<principalExchanges/>\n        <cashflows/>")
        self.assertEqual(made, SWAP.replace(f"{STREAM}\n{STREAM}", f"{first}\n{second}"))

    def test_in_place_of_those_that_are_there(self):
        once = fpml.insert(SWAP, FLOWS)
        self.assertEqual(fpml.insert(once, FLOWS), once)
        again = fpml.insert(once, "<cashflows/><cashflows>2</cashflows>")
        self.assertEqual(again, fpml.insert(SWAP, b"<cashflows/><cashflows>2</cashflows>"))

    def test_with_the_prefix_of_the_stream(self):
        document = f'<f:swap xmlns:f="{NAMESPACE}"><f:swapStream><f:a/></f:swapStream></f:swap>'
        flows = "<cashflows ><a/><b  c='d'>&lt;e/></b></cashflows >"
        want = "<f:cashflows ><f:a/><f:b  c='d'>&lt;e/></f:b></f:cashflows >"
        self.assertEqual(fpml.insert(document, flows).decode(), document.replace("<f:a/>", f"<f:a/>{want}"))

    def test_a_prefix_of_the_stream_alone(self):
        document = f'<swap xmlns="{NAMESPACE}"><g:swapStream xmlns:g="{NAMESPACE}"><a/></g:swapStream></swap>'
        self.assertIn(b"<a/><g:cashflows/></g:swapStream>", fpml.insert(document, "<cashflows/>"))

    def test_a_long_name_and_no_white_space(self):
        document = b"<swap><swapStream\n\tid='>'><a>1</a></swapStream></swap>"
        self.assertEqual(fpml.insert(document, "<cashflows/>"), document.replace(b"</a>", b"</a><cashflows/>"))

    def test_what_it_refuses(self):
        self.refused(lambda: fpml.insert(SWAP, "<cashflows/>"), "there are 1 cashflows for 2 streams")
        self.refused(lambda: fpml.insert(SWAP, ""), "there are 0 cashflows for 2 streams")
        self.refused(lambda: fpml.insert("<m>\n<trade/>\n<trade/></m>", ""), "2 trades", 3)
        self.refused(lambda: fpml.insert("<m><trade><swaption/></trade></m>", ""), "no swap", 1)
        self.refused(lambda: fpml.insert("<trade><swap/><swap/></trade>", ""), "several swaps", 1)
        self.refused(lambda: fpml.insert("<swap>\n<swapStream/></swap>", "<cashflows/>"), "no terms", 2)
        two = "<swap><swapStream><cashflows/><a/><cashflows/></swapStream></swap>"
        self.refused(lambda: fpml.insert(two, "<cashflows/>"), "several cashflows", 1)

    def test_flows_that_are_something_else(self):
        document = "<swap><swapStream><a/></swapStream></swap>"
        for flows, why in (
            ("<cashflows>", "isn't XML: mismatched tag"),
            ("</cashflowsOfStreams><cashflowsOfStreams>", "junk after document element"),
            ("<cashflows/></swapStream><swapStream>", "mismatched tag"),
            ("<cashflows/>x", "something else"),
            ("<cashflows/><!-- c -->", "something else"),
            ("\ufeff<cashflows/>", "something else"),
            ("<flows/>", "something else"),
            ('<cashflows xmlns="urn:x"/>', "in a namespace"),
            ('<cashflows><x:a xmlns:x="urn:x"/></cashflows>', "in a namespace"),
            ("<x:cashflows/>", "unbound prefix"),
            ("<!DOCTYPE a><cashflows/>", "isn't XML"),
            ('<?xml version="1.0"?><cashflows/>', "isn't XML"),
            ("<cashflows>&a;</cashflows>", "undefined entity"),
            (b"<cashflows>\xff</cashflows>", "isn't UTF-8"),
        ):
            self.refused(lambda: fpml.insert(document, flows), why)
            self.refused(lambda: fpml.insert(document, flows), "the cash flows")


class Without(InFpml):
    def test_elements_and_their_lines(self):
        document = SWAP.replace(
            "    </swap>",
            "      <additionalPayment id='ü'><a/>\r\n</additionalPayment>\r\n<earlyTerminationProvision/></swap>",
            1,
        ).encode()
        told = fpml.without(document, ["earlyTerminationProvision", "additionalPayment", "cancelableProvision"])
        self.assertEqual(told.left_out, [("additionalPayment", 14), ("earlyTerminationProvision", 16)])
        self.assertEqual(told.document, SWAP.replace("    </swap>", "      \r\n</swap>", 1).encode())

    def test_nothing_to_take(self):
        self.assertEqual(fpml.without(HEAD + TAIL, ["trade", "trad"]), (HEAD + TAIL, []))

    def test_one_in_another(self):
        told = fpml.without("<a><b><b/>\n<c/></b><d><c>1</c></d><b/></a>", {"b", "c"})
        self.assertEqual((told.document, told.left_out), (b"<a><d></d></a>", [("b", 1), ("c", 2), ("b", 2)]))

    def test_what_it_refuses(self):
        self.refused(lambda: fpml.without("\n<a/>", ["a"]), "the root", 2)
        for names in ("additionalPayment", b"additionalPayment"):
            with self.assertRaises(TypeError):
                fpml.without(SWAP, names)


class Hostile(InFpml):
    def test_document_types(self):
        bomb = "".join(f'<!ENTITY {b} "{f"&{a};" * 10}">' for a, b in zip("abcdefghi", "bcdefghij"))
        for document in (
            f'<?xml version="1.0"?>\n<!DOCTYPE swap [<!ENTITY a "aaaaaaaaaa">{bomb}]><swap>&j;</swap>',
            '\n<!DOCTYPE swap SYSTEM "file:///etc/passwd"><swap/>',
            '\n<!DOCTYPE swap [<!ATTLIST swap id CDATA "x">]><swap/>',
            "\n<!DOCTYPE swap><swap/>",
        ):
            begun = time.monotonic()
            self.refused(lambda: fpml.trades(document.lstrip() if "?xml" in document else document), "document type", 2)
            self.assertLess(time.monotonic() - begun, 1)

    def test_encodings(self):
        for encoding in ("utf-16", "utf-16-le", "utf-16-be", "utf-32"):
            self.refused(lambda: fpml.trades("<swap/>".encode(encoding)), "UTF-8")
        self.refused(lambda: fpml.trades(b'<?xml version="1.0" encoding="iso-8859-1"?><swap/>'), "iso-8859-1", 1)
        self.refused(lambda: fpml.trades(b"<swap>\n\xe4</swap>"), "UTF-8", 2)
        self.refused(lambda: fpml.trades(b"<swap>\n\0</swap>"), "byte 0", 2)
        self.refused(lambda: fpml.trades(b"<swap>\xed\xa0\x80</swap>"), "UTF-8", 1)

    def test_other_namespaces(self):
        for space in ("urn:x", "http://www.fpml.org/2010/FpML-4-9", "http://www.fpml.org/FpML-5"):
            self.refused(lambda: fpml.trades(f'<swap xmlns="{space}"/>'), space, 1)

    def test_what_is_no_xml(self):
        for document in (
            b"",
            b" ",
            b"{}",
            b"<swap>",
            b"<swap/><swap/>",
            b"<swap a='1' a='2'/>",
            b"<p:swap/>",
            b"<swap>&nbsp;</swap>",
        ):
            self.refused(lambda: fpml.trades(document), "isn't XML")
        with self.assertRaises(TypeError):
            fpml.trades(3)

    def test_every_cut(self):
        document = (HEAD + b"\n".join(TRADES) + TAIL).rstrip()
        end = document.index(b"</f:requestConfirmation>") + len(b"</f:requestConfirmation>")
        for length in range(end):
            with self.assertRaises(fpml.Fault):
                fpml.trades(document[:length])

    def test_deep_and_wide(self):
        deep = 200_000
        document = b"<swap>" + b"<a>" * deep + b"</a>" * deep + b"<b/>" * deep + b"</swap>"
        begun = time.monotonic()
        self.assertEqual(fpml.trades(document), [document])
        told = fpml.without(document, ["b"])
        self.assertEqual((len(told.left_out), told.document), (deep, document.replace(b"<b/>", b"")))
        self.assertLess(time.monotonic() - begun, 20)

    def test_changed_bytes(self):
        # What is taken can be taken apart again, and nothing but a Fault is raised.
        chance, message, taken = random.Random(5), HEAD + b"\n".join(TRADES) + TAIL, 0
        for _ in range(3_000):
            changed = bytearray(message)
            for _ in range(chance.randrange(1, 4)):
                at = chance.randrange(len(changed))
                changed[at : at + chance.randrange(3)] = chance.choice(
                    [b"<", b">", b"/", b"&", b'"', b" ", b"f:", b"\xff", b""]
                )
            try:
                parts = fpml.trades(bytes(changed))
            except fpml.Fault:
                continue
            taken += 1
            for part in parts:
                self.assertEqual(fpml.trades(part), [part])
        self.assertGreater(taken, 100)


@unittest.skipUnless(takes_xml(), "the library doesn't read XML")
class WithTheEngine(unittest.TestCase):
    """What the engine reads of a document that was changed."""

    def value(self, document):
        """The JSON value of a document."""
        return json.loads(irs.run(["carrier", "document.xml"], {"document.xml": document}).text)

    def test_each_trade(self):
        found = [self.value(it)["dataDocument"]["trade"] for it in fpml.trades(HEAD + b"".join(TRADES[:2]) + TAIL)]
        self.assertEqual(found, [{"swap": {"swapStream": {"@id": "ä", "a": ""}}}, {"@id": "2"}])

    def test_cash_flows(self):
        streams = self.value(fpml.insert(SWAP, FLOWS))["dataDocument"]["trade"]["swap"]["swapStream"]
        self.assertEqual([it["cashflows"] for it in streams], [{"a": {"@b": "1", "#text": "x"}}, ""])
        self.assertEqual(list(streams[0]), sorted(streams[0]))

    def test_what_is_emitted_is_audited_in_its_place(self):
        for example, rates in (("fixed_leg", "-"), ("two_streams", "fixings"), ("two_currencies", "fixings")):
            folder = TOP / "examples" / example
            [(root, terms)] = json.loads((folder / "terms.json").read_bytes()).items()
            files = {"terms.xml": element(root, terms)}
            if rates != "-":
                files[rates] = (folder / rates).read_bytes()
            emitted = json.loads(irs.run(["emit", "terms.xml", rates], files).text)["swap"]["swapStream"]
            streams = emitted if isinstance(emitted, list) else [emitted]
            files["with.xml"] = fpml.insert(
                files["terms.xml"], "\n".join(element("cashflows", it["cashflows"]) for it in streams)
            )
            for document in ("terms.xml", "with.xml"):
                answer = irs.run(["audit", document, rates, "with.xml"], files)
                self.assertEqual((answer.status, answer.text[:4]), (0, b"yes "), example)
            moved = files["with.xml"].replace(b"<adjustedPaymentDate>2024-07-15", b"<adjustedPaymentDate>2024-07-16")
            self.assertNotEqual(moved, files["with.xml"])
            answer = irs.run(["audit", "terms.xml", rates, "moved.xml"], {**files, "moved.xml": moved})
            self.assertEqual(answer.status, 1, example)

    def test_what_is_taken_out(self):
        document = SWAP.replace("</swap>", "<additionalPayment/></swap>").encode()
        self.assertEqual(self.value(fpml.without(document, ["additionalPayment"]).document), self.value(SWAP.encode()))


if __name__ == "__main__":
    unittest.main()
