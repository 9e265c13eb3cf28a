"""The page 'A first trade': its nine commands, word for word, from an empty folder."""
import os
import re
import shlex
import stat
import subprocess
import sys
import unittest
from pathlib import Path

from commands import TOP, InAFolder

import irs

try:
    import QuantLib as ql
except ImportError:
    ql = None

PAGE = TOP / "docs" / "FIRST_TRADE.md"

#: The engine as a program, where no program is built: the same call on the same words and files.
PROGRAM = """#!{python}
import sys
from pathlib import Path
import irs
words = sys.argv[1:]
answer = irs.run(words, {{word: Path(word).read_bytes() for word in words[1:] if Path(word).is_file()}})
sys.stdout.buffer.write(answer.text)
sys.exit(answer.status)
"""


def commands_of(page):
    """The indented lines of a page that begin with one of the commands."""
    return [line[4:] for line in page.split("\n") if re.match(r"    irs(-new|-calendar|-fixings)? ", line)]


def printed_of(page):
    """The indented blocks of a page that are no commands, each as its lines."""
    blocks = [[line[4:] for line in block.split("\n")] for block in page.split("\n\n") if block.startswith("    ")]
    return [block for block in blocks if not block[0].startswith("irs")]


class FirstTrade(InAFolder):
    def setUp(self):
        super().setUp()
        self.page = PAGE.read_text()
        (self.folder / "sample").symlink_to(TOP / "sample")
        (self.folder / "first").mkdir()
        (self.folder / "bin").mkdir()
        for name, module in (("irs-new", "new"), ("irs-calendar", "calendars"), ("irs-fixings", "fixings")):
            self.script(name, f"#!{sys.executable}\nimport sys\nfrom irs.{module} import main\nsys.exit(main())\n")
        program = os.environ.get("IRS_COMMAND")
        if program:
            (self.folder / "bin" / "irs").symlink_to(Path(program).resolve())
        else:
            self.script("irs", PROGRAM.format(python=sys.executable))

    def script(self, name, text):
        path = self.folder / "bin" / name
        path.write_text(text)
        path.chmod(path.stat().st_mode | stat.S_IXUSR)

    def run_all(self, commands):
        env = {
            **os.environ,
            "PATH": f"{self.folder / 'bin'}:{os.environ['PATH']}",
            "PYTHONPATH": str(Path(irs.__file__).parents[1]),
        }
        ended = []
        for command in commands:
            done = subprocess.run(
                ["bash", "-c", command], cwd=self.folder / "first", env=env, capture_output=True, text=True
            )
            self.assertIn(done.returncode, (0, 1), f"{command}\n{done.stderr}")
            ended.append(done)
        return ended

    def check(self, commands):
        ended = self.run_all(commands)
        outs = [done.stdout for done in ended] + [(self.folder / "first" / "usd.daily").read_text()]
        for block in printed_of(self.page):
            lines = "\n".join(line for line in block if line != "..")
            self.assertTrue(any(lines in out for out in outs), lines)
        self.assertEqual([done.returncode for done in ended], [0] * 8 + [1])
        self.assertEqual(ended[7].stdout, "yes 40 7\n")
        self.assertIn("`yes 40 7`", self.page)
        self.assertEqual(ended[8].stdout, "no 1 payment 1 adjustedPaymentDate\n")

    def test_the_page_has_nine_commands_and_edits_nothing(self):
        commands = commands_of(self.page)
        self.assertEqual(len(commands), 9)
        self.assertEqual(
            {shlex.split(command)[0] for command in commands}, {"irs", "irs-new", "irs-calendar", "irs-fixings"}
        )
        self.assertFalse([block for block in printed_of(self.page) if re.match(r"(cat|sed|echo|cp|vi)\b", block[0])])

    @unittest.skipUnless(ql, "QuantLib isn't installed")
    def test_the_commands(self):
        self.check(commands_of(self.page))

    def test_the_commands_with_the_calendars_of_the_sample(self):
        commands = commands_of(self.page)
        instead = "cat ../sample/*.cal > desk.cal"
        self.assertIn(instead, self.page)
        commands[2] = instead
        self.check(commands)

    def test_the_list_of_missing_daily_rates(self):
        self.test_the_commands_with_the_calendars_of_the_sample()
        command = re.search(r"`(irs-fixings --missing [^`]*)`", self.page).group(1)
        missing = self.run_all([command])[0].stdout.splitlines()
        # the business days of US government securities from 15 January to 28 February 2026
        self.assertEqual(len(missing), 30)
        self.assertEqual((missing[0], missing[-1]), ("2026-01-15 1D USD-SOFR", "2026-02-27 1D USD-SOFR"))
        self.assertFalse([line for line in missing if line[:10] in ("2026-01-19", "2026-02-16")])


class Sample(InAFolder):
    """The sample's own promises."""

    @unittest.skipUnless(ql and ql.__version__ == "1.29", "QuantLib 1.29 isn't installed")
    def test_the_calendars_are_what_irs_calendar_makes(self):
        from commands import ran
        from irs import calendars

        for code in ("EUTA", "USGS", "USNY"):
            made = ran(calendars.main, code, "--from", "2024", "--to", "2033").out
            stored = (TOP / "sample" / f"{code}.cal").read_text()
            # The stored ones have no end line, so that they can be joined to one file.
            lines = made.splitlines()
            self.assertEqual(lines.pop(), f"# end {len(lines)}")
            self.assertEqual(
                [line for line in lines if " made " not in line],
                [line for line in stored.splitlines() if " made " not in line],
            )

    def test_the_overnight_rates_are_of_each_business_day_of_a_year(self):
        import datetime
        from irs.calendar_files import read_calendars

        off = read_calendars(TOP / "sample" / "USGS.cal")[0].off
        lines = (TOP / "sample" / "usd-overnight.csv").read_text().splitlines()[1:]
        days = [datetime.datetime.strptime(line.split(",")[0], "%m/%d/%Y").date() for line in lines]
        year = [datetime.date(2025, 1, 15) + datetime.timedelta(number) for number in range(365)]
        self.assertEqual(days, [day for day in year if day not in off])


if __name__ == "__main__":
    unittest.main()
