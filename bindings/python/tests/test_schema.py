"""The JSON Schema of the carrier: that the table makes it, and that it says what the engine says."""
import json
import subprocess
import sys
import unittest

from commands import TOP

import irs
from irs.builder import swap
from irs.conventions import CONVENTIONS
from irs.schema import carrier_schema

sys.path.insert(0, str(TOP / "tools"))
from schema_cases import cases  # noqa: E402

try:
    import jsonschema
except ImportError:
    jsonschema = None

DATA = TOP / "crates" / "irs_element_rows" / "data"


class Made(unittest.TestCase):
    def test_the_table_makes_it(self):
        done = subprocess.run(
            [sys.executable, str(TOP / "tools" / "schema"), "--check"], stdout=subprocess.PIPE, text=True
        )
        self.assertEqual((done.returncode, done.stdout), (0, "carrier.schema.json: as the table makes it\n"))


@unittest.skipUnless(jsonschema, "jsonschema isn't installed")
class AgainstTheEngine(unittest.TestCase):
    def setUp(self):
        self.validator = jsonschema.Draft202012Validator(carrier_schema())

    def refused_by_the_engine(self, text):
        words = irs.run(["check", "document"], {"document": text}).text.decode().split()
        return words[0] == "refused" and 2 <= int(words[1][1:]) <= 7

    def test_it_is_a_schema(self):
        jsonschema.Draft202012Validator.check_schema(carrier_schema())

    def test_changed_documents(self):
        documents = [DATA / f"{name}.json" for name in ("fixed", "floating", "three", "A", "C", "first_period")]
        refused = taken = 0
        for text in cases(documents, 700, "tests"):
            want = self.refused_by_the_engine(text)
            self.assertEqual(not self.validator.is_valid(json.loads(text)), want, text)
            refused, taken = refused + want, taken + (not want)
        self.assertGreater(min(refused, taken), 70)

    def test_changes_of_the_page_of_rules(self):
        # each breaks the rule that docs/RULES.md says
        sound = json.loads((TOP / "examples" / "fixed_leg" / "terms.json").read_bytes())
        self.assertTrue(self.validator.is_valid(sound))
        stream = sound["swap"]["swapStream"]
        changes = {
            "K2": lambda: stream["paymentDates"].pop("payRelativeTo"),
            "K3": lambda: stream["calculationPeriodAmount"]["calculation"]["fixedRateSchedule"].update(
                initialValue=0.05
            ),
            "K4": lambda: stream["paymentDates"].update(paymentDate="2024-07-15"),
            "K5": lambda: stream.update(settlementProvision={}),
            "K6": lambda: stream["calculationPeriodDates"]["effectiveDate"].update(unadjustedDate="2023-02-29"),
            "K7": lambda: stream["calculationPeriodAmount"]["calculation"].update(
                floatingRateCalculation={"floatingRateIndex": "A"}
            ),
        }
        for rule, change in changes.items():
            sound = json.loads((TOP / "examples" / "fixed_leg" / "terms.json").read_bytes())
            stream = sound["swap"]["swapStream"]
            change()
            self.assertFalse(self.validator.is_valid(sound), rule)
            with self.assertRaises(irs.Refused) as caught:
                irs.check(sound)
            self.assertEqual(caught.exception.rule, rule)

    def test_what_the_builder_makes(self):
        for kind in CONVENTIONS:
            self.assertTrue(self.validator.is_valid(swap(kind, tenor="5Y")), kind)


if __name__ == "__main__":
    unittest.main()
