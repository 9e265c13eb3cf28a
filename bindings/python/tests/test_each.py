"""One command over many trades: each answer is the one that the trade has alone."""
from __future__ import annotations

import subprocess
import sys
import unittest
from concurrent.futures import ThreadPoolExecutor
from pathlib import Path
from typing import Dict, List, Tuple
from unittest import mock

from books import EXAMPLES, HERE, by_one_call_each, example

from irs import OutOfMemory, library
from irs.library import Answer
from irs.many import MOST_TRADES, Item, answers


def examples() -> List[Tuple[List[str], Dict[str, bytes]]]:
    """The words and the files of each example over files."""
    found = []
    for folder in sorted(EXAMPLES.iterdir()):
        if not (folder / "command").is_file():
            continue
        words = (folder / "command").read_text().split()[1:]
        files = {word: (folder / word).read_bytes() for word in words[1:] if (folder / word).is_file()}
        if files:
            found.append((words, files))
    return found


def audited() -> Tuple[List[str], Dict[str, bytes]]:
    """The words and the files of an audit."""
    return next(it for it in examples() if it[0][0] == "audit")


class Each(unittest.TestCase):
    def same(self, words: List[str], common: Dict[str, bytes], trades: List[Dict[str, bytes]]) -> None:
        self.assertEqual(library.run_each(words, common, trades), by_one_call_each(words, common, trades))

    def test_examples(self) -> None:
        for words, files in examples():
            own = {name: held for name, held in files.items() if name.endswith((".json", ".xml"))}
            common = {name: held for name, held in files.items() if name not in own}
            first = {name: held for name, held in own.items() if name == next(iter(own))}
            with self.subTest(words=words):
                # the files of each trade, the document alone, nothing, no text, and the same once more
                broken = {name: b"[" for name in own}
                self.same(words, common, [own, first, {}, broken, own])
                # files that are common though each trade could have them, and none in common
                self.same(words, files, [{}, own])
                self.same(words, {}, [files, own, files])

    def test_faults_of_common_files(self) -> None:
        words, files = audited()
        document = {words[1]: files[words[1]], words[3]: files[words[3]]}
        trades = [document, {}, {**document, words[1]: b"["}, {**document, words[3]: b"x" * (library.MOST_BYTES + 1)}]
        calendar = [*words[:2], "F", words[3], "C"]
        for fixings in (b"", b"no fixing\n", b"2024-01-01 0.1 1M A\n" * 2, b"x" * (library.MOST_BYTES + 1)):
            for section in (b"", b"center A\n", b"none\n"):
                with self.subTest(fixings=fixings[:20], section=section):
                    self.same(calendar, {"F": fixings, "C": section}, trades)
                    self.same(calendar, {"F": fixings}, trades)
                    self.same(calendar, {"C": section}, trades)

    def test_words(self) -> None:
        for words in (
            [],
            ["check"],
            ["check", "D"],
            ["bulk", "2"],
            ["bulk", "0"],
            ["carrier", "D.xml"],
            ["accrue", "x", "D", "-"],
        ):
            with self.subTest(words=words):
                self.same(words, {}, [{"D": b"[", "D.xml": b"<swap/>"}, {}])
        self.assertEqual(library.run_each(["check", b"\xff"], {}, [{}, {}]), [(9, b"", "")] * 2)
        self.assertEqual(library.run_each(["check", "D"], {}, []), [])

    def test_a_name_that_is_in_both(self) -> None:
        (told,) = library.run_each(["check", "D"], {"D": b"["}, [{"D": example("fixed_leg/terms.json")}])
        self.assertEqual(told.text, b"refused K1 0 document 0\n")


class Room(unittest.TestCase):
    """What didn't fit is run again, and nothing else is."""

    def setUp(self) -> None:
        self.calls: List[int] = []

    def ran(self, room: int, words: List[str], trades: List[Dict[str, bytes]]) -> List[Answer]:
        self.calls.clear()
        engine = library._library()

        class Counting:
            """The library, which counts the trades of each call."""

            @staticmethod
            def irs_run_each(*given: object) -> None:
                self.calls.append(given[5])  # type: ignore[arg-type]
                engine.irs_run_each(*given)

        with mock.patch.dict(library.ROOM_OF_EACH, {words[0]: room}):
            with mock.patch.object(library, "_library", lambda: Counting):
                return library.run_each(words, {}, trades)

    def test_room_that_is_too_small(self) -> None:
        words = ["emit", "D", "-"]
        short, long = ({"D": example(f"{name}/terms.json")} for name in ("fixed_leg", "two_streams"))
        trades = [short, long, {"D": b"["}, {}, long, short] * 10
        wanted = by_one_call_each(words, {}, trades)
        texts = sum(len(it.text) + len(it.sentence) for it in wanted)
        for room, calls in ((texts, 1), ((texts - 1) // len(trades), 2), (300, 2), (1, 2), (0, 2)):
            self.assertEqual(self.ran(room, words, trades), wanted, room)
            self.assertEqual((len(self.calls), self.calls[0]), (calls, len(trades)), room)
        # What had room in the first call isn't run again.
        self.ran((texts - 1) // len(trades), words, trades)
        self.assertLess(self.calls[1], 3)

    def test_the_sentence_alone_has_no_room(self) -> None:
        told = self.ran(len("no file 1\n"), ["check", "D"], [{}])
        self.assertEqual((told, self.calls), ([(5, b"no file 1\n", "couldn't be read: D")], [1, 1]))

    def test_files_live_as_long_as_the_call(self) -> None:
        # Each text becomes bytes for the call, which nothing here keeps.
        document = example("fixed_leg/terms.json").decode()
        trades = [{"D": document + " " * number} for number in range(200)]
        self.assertEqual(set(library.run_each(["check", "D"], {}, trades)), {(0, b"ok\n", "")})
        views = [{"D": memoryview(document.encode())}, {"D": bytearray(document.encode())}]
        self.assertEqual(set(library.run_each(["check", "D"], {}, views)), {(0, b"ok\n", "")})  # type: ignore[arg-type]

    def test_threads(self) -> None:
        words, files = audited()
        trades = [files, {words[1]: b"["}, {}] * 20
        wanted = by_one_call_each(words, {}, trades)
        with ThreadPoolExecutor(8) as threads:
            for found in threads.map(lambda _: library.run_each(words, {}, trades), range(40)):
                self.assertEqual(found, wanted)

    def test_what_is_no_file(self) -> None:
        for wrong in (None, 3, Path("D")):
            with self.assertRaises(TypeError):
                library.run_each(["check", "D"], {}, [{"D": wrong}])  # type: ignore[dict-item]


class Items(unittest.TestCase):
    def test_each_is_as_alone(self) -> None:
        words, files = audited()
        document, flows = files[words[1]], files[words[3]]
        kinds = [
            Item(document, flows),
            Item(document),
            Item(b"<swap/>", flows),
            Item(document, flows, b"bad"),
            Item(b"[", flows),
            Item(document, b"<swap/>"),
            Item(document, flows, b""),
        ]
        for command in ("audit", "schedule", "check", "emit", "net"):
            for calendars, fixings in (([], None), ([("A", b"")], b""), ([("A", b"what"), ("B", b"")], b"2024")):
                alone = [answers(command, [item], calendars, fixings)[0] for item in kinds]
                told = answers(command, kinds * 40, calendars, fixings)
                self.assertEqual(told, alone * 40, (command, calendars))
        self.assertEqual([it.status for it in answers("audit", kinds, [], b"")], [0, 5, 2, 3, 2, 3, 0])
        self.assertEqual(answers("audit", []), [])

    def test_more_than_one_call_takes(self) -> None:
        words, files = audited()
        good, bad = Item(files[words[1]], files[words[3]]), Item(b"[", files[words[3]])
        items = [bad if number % 7 == 3 else good for number in range(2 * MOST_TRADES + 5)]
        self.assertEqual([it.status for it in answers("audit", items)], [2 if it is bad else 0 for it in items])


#: Runs out of memory on one document of two: a child does it, whose memory is limited.
WITH_LITTLE_MEMORY = """
import os, resource, sys
from pathlib import Path
sys.path.insert(0, sys.argv[1])
from irs import OutOfMemory, library
from irs.many import Item, answers
huge = b'{"swap":[' + b",".join([b'{"a":[]}'] * 450000) + b"]}"
library.run(["check", "D"], {"D": b"["})
pages = Path(os.sep, "proc", "self", "statm").read_text().split()[0]
used = int(pages) * resource.getpagesize()
resource.setrlimit(resource.RLIMIT_AS, (used + (48 << 20),) * 2)
print([it.status for it in library.run_each(["check", "D"], {}, [{"D": b"["}, {"D": huge}, {"D": b"["}])])
try:
    answers("check", [Item(b"["), Item(huge)])
except OutOfMemory as why:
    print(why)
"""


class Memory(unittest.TestCase):
    def test_memory_that_runs_out(self) -> None:
        self.assertTrue(issubclass(OutOfMemory, MemoryError))
        words = [sys.executable, "-c", WITH_LITTLE_MEMORY, str(HERE.parent)]
        ended = subprocess.run(words, stdout=subprocess.PIPE, stderr=subprocess.PIPE, text=True, check=False)
        self.assertEqual((ended.stdout.splitlines(), ended.stderr), (["[2, 7, 2]", "memory ran out"], ""))


if __name__ == "__main__":
    unittest.main()
