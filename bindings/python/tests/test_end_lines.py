"""The end lines of calendar files and files of fixings, as the package reads and writes them."""
import doctest
import unittest

from irs import end_lines
from irs.common import packed


class EndLines(unittest.TestCase):
    def test_which_lines_are_end_lines(self):
        cases = [
            (b"", None),
            (b"a\n", None),
            (b"# end 0", True),
            (b"# end 0\n", True),
            (b"a\n# end 1\n", True),
            (b"a\r\n\r\n# end 2\r\n", True),
            (b"a\n# end 2\n", False),
            (b"a\n# end 99999999999999999999\n", False),
            (b"a\n# end 01\n", None),
            (b"a\n# end x\n", None),
            (b"a\n# end 1 \n", None),
            (b"a\n# end 1\r", None),
            (b"a\n# end 1\nb\n", None),
            (b"a\n# end 1\n\n", None),
        ]
        for content, end in cases:
            self.assertIs(end_lines.end_of(content), end, content)

    def test_a_text_with_its_end_line(self):
        for text in ("", "a\n", "a\nb\n"):
            self.assertIs(end_lines.end_of(end_lines.with_end(text).encode()), True)

    def test_joined_files_keep_no_end_line(self):
        files = [(str(number), end_lines.with_end(f"# {number}\n").encode()) for number in range(40)]
        for _, content in packed(files):
            self.assertIsNone(end_lines.end_of(content))

    def test_a_false_end_line_stays_a_fault_among_others(self):
        self.assertIn(b"\n # ", end_lines.inside(b"a\n# end 7\n"))
        self.assertEqual(end_lines.inside(b"a\n# end 1\n"), b"a\n# end 1\n#")
        self.assertEqual(end_lines.inside(b"a\n"), b"a\n")

    def test_examples(self):
        self.assertEqual(doctest.testmod(end_lines).failed, 0)


if __name__ == "__main__":
    unittest.main()
