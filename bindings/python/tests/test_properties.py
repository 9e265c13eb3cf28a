"""Properties of the readers of rows, where hypothesis is installed: what a text says comes back."""
import os
import sys
import unittest

sys.path.insert(0, os.path.join(os.path.dirname(os.path.abspath(__file__)), ".."))

try:
    from hypothesis import given, strategies as st
except ImportError:
    raise unittest.SkipTest("hypothesis isn't installed")

from irs import plain, rows

days = st.dates()
numbers = st.integers(min_value=1, max_value=8000)
amounts = st.none() | st.decimals(
    allow_nan=False, allow_infinity=False, places=2, min_value=-(10**14), max_value=10**14
)


def shown(value):
    return "-" if value is None else f"{value:f}"


class Shown(unittest.TestCase):
    @given(st.text(), st.text())
    def test_names_that_differ_are_shown_differently(self, one, other):
        for text in (one, other):
            self.assertTrue(plain.shown(text).isprintable())
            self.assertFalse(plain.cell(plain.shown(text)).startswith(("=", "+", "-", "@", "\t", "\r")))
            self.assertEqual(plain.visible(plain.visible(text)), plain.visible(text))
        self.assertEqual(plain.shown(one) == plain.shown(other), one == other)

    @given(st.binary())
    def test_a_name_of_any_bytes_is_text(self, name):
        plain.shown(os.fsdecode(name)).encode("utf-8")


class Readers(unittest.TestCase):
    @given(numbers, numbers, days, days, amounts)
    def test_a_payment(self, stream, number, unadjusted, adjusted, amount):
        line = f"p {stream} {number} {unadjusted} {adjusted} {number} {number} {shown(amount)}"
        self.assertEqual(rows.row_of(line), rows.Payment(stream, number, unadjusted, adjusted, number, number, amount))

    @given(numbers, days, amounts)
    def test_a_net(self, unknown, day, amount):
        if amount is not None:
            self.assertEqual(
                rows.row_of(f"n {day} USD {shown(amount)} {unknown}"), rows.Net(day, "USD", amount, unknown)
            )

    @given(numbers, numbers, numbers, amounts)
    def test_what_has_accrued(self, stream, period, passed, amount):
        line = f"a {stream} {period} {passed} {passed}/360 {shown(amount)}"
        told = rows.accrued_of(line)
        self.assertEqual((told.stream, told.days, told.fraction * 360, told.amount), (stream, passed, passed, amount))


if __name__ == "__main__":
    unittest.main()
