"""What every console script does alike: its help, its complaint about a bad word, and its status after a fault."""
import contextlib
import importlib
import io
import re
import unittest
from unittest import mock

from commands import TOP, ran

PROJECT = (TOP / "bindings/python/pyproject.toml").read_text()

#: The name of each console script, and the module that has its `main`.
SCRIPTS = dict(re.findall(r'^(irs-\w+) = "([\w.]+):main"$', PROJECT, re.M))


class Scripts(unittest.TestCase):
    def test_there_are_seven(self):
        self.assertEqual(len(SCRIPTS), 7)

    def test_the_help(self):
        for name, place in SCRIPTS.items():
            out = io.StringIO()
            with contextlib.redirect_stdout(out), self.assertRaises(SystemExit) as caught:
                importlib.import_module(place).main(["--help"])
            self.assertEqual(caught.exception.code, 0, name)
            self.assertIn(f"usage: {name} ", out.getvalue())

    def test_a_word_that_is_none(self):
        for name, place in SCRIPTS.items():
            ended = ran(importlib.import_module(place).main, "--no-such-option\x1b[31m", "x")
            self.assertEqual((ended.status, ended.out), (2, ""), name)
            self.assertTrue(ended.err.startswith(f"{name}: "), ended.err)
            self.assertEqual(ended.err.count("\n"), 1, ended.err)
            self.assertNotIn("\x1b", ended.err)

    def test_a_fault_of_the_package_is_no_answer(self):
        # 1 is an answer of some commands, and Python's own status for an exception that nothing catches.
        for name, place in SCRIPTS.items():
            with mock.patch("argparse.ArgumentParser.parse_args", side_effect=AssertionError("a fault")):
                ended = ran(importlib.import_module(place).main)
            self.assertEqual(ended.status, 2, name)
            self.assertIn("a fault", ended.err)


if __name__ == "__main__":
    unittest.main()
