"""A folder of calendars, as irs-show, irs-report and irs-desk take it: the engine says which files are at fault and
which ones a document needs, and a person sees what is left out."""
import io
import json
import os
import tempfile
import unittest
from pathlib import Path

from test_looks import EXAMPLES, TODAY, TOP, Page, example, needs, run_show

from irs.inputs import Calendars, Inputs, Named, calendars_at
from irs.look import look_at
from irs.replies import ask
from irs.tools import BadInput

BUSINESS = Named("terms.json", example("business_days/terms.json"))
FIXED = Named("fixed.json", example("fixed_leg/terms.json"))
FRANKFURT = example("business_days/de.cal")

#: The same centre with another holiday, which moves a payment of 16 December 1996.
OTHER = FRANKFURT.replace(b"weekend SAT SUN\n", b"weekend SAT SUN\n1996-12-16\n", 1)

BROKEN = FRANKFURT.replace(b"weekend", b"weekends")

#: What the page asks of a request.
HOST = {"Host": "127.0.0.1"}

REPEAT = "this centre is there already"
SYNTAX = "line 3: this line isn't allowed here"


def of_centre(code):
    return FRANKFURT.replace(b"DEFR", code.encode())


def document_of(*lists):
    """The terms of business_days with these centres for the termination date, and those for the periods."""
    terms = json.loads(BUSINESS.content)
    dates = terms["dataDocument"]["trade"]["swap"]["swapStream"]["calculationPeriodDates"]
    for adjustments, centres in zip(
        (dates["terminationDate"]["dateAdjustments"], dates["calculationPeriodDatesAdjustments"]), lists
    ):
        adjustments.pop("businessCentersReference", None)
        adjustments.setdefault("businessCenters", {})["businessCenter"] = centres
    return Named("terms.json", json.dumps(terms).encode())


class Room(unittest.TestCase):
    """A folder with calendars, and a trade beside it."""

    def setUp(self):
        room = tempfile.TemporaryDirectory()
        self.addCleanup(room.cleanup)
        self.room = Path(room.name)
        self.folder = self.room / "calendars"
        self.folder.mkdir()
        self.write("calendars/weekends.cal", FRANKFURT.replace(b"DEFR", b"XXXX"))

    def write(self, name, content):
        path = self.room / name
        path.write_bytes(content)
        return path

    def show(self, document, *more):
        path = self.write("terms.json", document.content)
        done = run_show(path, "--calendar", self.folder, *more)
        self.assertNotIn(b"Traceback", done.stderr)
        return done

    def is_shown(self, done, *notes):
        self.assertEqual(done.returncode, 0, done.stderr)
        said = done.stderr.decode().splitlines()
        self.assertEqual(len(said), len(notes), said)
        for line, note in zip(said, notes):
            self.assertTrue(line.startswith("irs-show: left out: "), line)
            self.assertIn(note, line)


class Shown(Room):
    def test_two_files_with_one_centre(self):
        """The first of them was taken, and nothing was said."""
        self.write("calendars/a.cal", FRANKFURT)
        self.write("calendars/b.cal", OTHER)
        done = self.show(BUSINESS)
        self.assertEqual((done.returncode, done.stdout), (2, b""))
        left_out, refusal = done.stderr.decode().splitlines()
        self.assertIn("irs-show: left out: a.cal and b.cal: ", left_out)
        self.assertIn(REPEAT, left_out)
        self.assertIn("irs-show: bad calendar 2 1 repeat: ", refusal)
        # It costs no document that doesn't need it.
        self.is_shown(self.show(FIXED), "a.cal and b.cal: ")
        (self.folder / "a.cal").unlink()
        self.assertIn(b"1996-12-17*", self.show(BUSINESS).stdout)

    def test_a_file_at_fault(self):
        """A file was taken for its line `center`, whatever else it had."""
        self.write("calendars/a.cal", BROKEN)
        done = self.show(BUSINESS)
        self.assertEqual((done.returncode, done.stdout), (2, b""))
        self.assertIn("irs-show: bad calendar 1 3 syntax: ", done.stderr.decode().splitlines()[1])
        self.write("calendars/b.cal", FRANKFURT)
        done = self.show(BUSINESS)
        self.assertIn(b"1996-12-16*", done.stdout)
        self.is_shown(done, f"a.cal: calendar file 1 (calendar a.cal), {SYNTAX}")
        self.is_shown(self.show(FIXED), "a.cal: ")

    def test_more_centres_than_a_command_takes_files(self):
        """The calendars of centres that the engine passes over took the places of those that it needs."""
        centres = [f"A{number:03}" for number in range(40)]
        for centre in centres:
            self.write(f"calendars/{centre}.cal", of_centre(centre))
        self.write("calendars/de.cal", FRANKFURT)
        root = json.loads(BUSINESS.content)["dataDocument"]
        root["passedOver"] = {"businessCenter": centres}
        done = self.show(Named("terms.json", json.dumps({"dataDocument": root}).encode()))
        self.is_shown(done)
        self.assertIn(b"1996-12-16*", done.stdout)

    def test_twenty_files_that_are_needed(self):
        """At most sixteen were taken; more are joined."""
        centres = [f"A{number:03}" for number in range(20)]
        for centre in centres:
            self.write(f"calendars/{centre}.cal", of_centre(centre))
        document = document_of(centres[:10], centres[10:])
        done = self.show(document)
        self.is_shown(done)
        self.assertIn(b"1996-12-16*", done.stdout)
        files = calendars_at([self.folder]).needed_by(document)
        self.assertEqual([file.name for file in files], [f"{centre}.cal" for centre in centres])

    def test_what_cannot_be_read(self):
        """It ended the command, and a pipe held it for ever."""
        self.write("calendars/de.cal", FRANKFURT)
        (self.folder / "folder.cal").mkdir()
        (self.folder / "link.cal").symlink_to("nowhere")
        os.mkfifo(self.folder / "pipe.cal")
        done = self.show(BUSINESS)
        self.assertIn(b"1996-12-16*", done.stdout)
        self.is_shown(
            done,
            "folder.cal: it can't be read: ",
            "link.cal: it can't be read: No such file or directory",
            "pipe.cal: it can't be read: is no regular file",
        )

    def test_a_named_file_beside_the_folder(self):
        self.write("calendars/de.cal", FRANKFURT)
        other = self.write("ours.cal", OTHER)
        done = self.show(BUSINESS, "--calendar", other)
        self.assertIn("bad calendar 2 1 repeat", done.stderr.decode().splitlines()[1])
        self.is_shown(self.show(FIXED, "--calendar", other), "ours.cal and de.cal: ")
        # A fault of a named file is the answer, whatever the document needs.
        done = self.show(FIXED, "--calendar", self.write("broken.cal", BROKEN))
        self.assertEqual(done.returncode, 2)
        self.assertIn("irs-show: bad calendar 1 3 syntax: ", done.stderr.decode())

    def test_hostile_names(self):
        self.write("calendars/\x1b[31m\u202e.cal", BROKEN)
        (self.folder / os.fsdecode(b"\xff.cal")).write_bytes(BROKEN)
        done = self.show(FIXED)
        self.is_shown(done, "\\x1b[31m\\u202e.cal: ", "\\udcff.cal: ")
        for character in (b"\x1b", "\u202e".encode()):
            self.assertNotIn(character, done.stderr)


class Chosen(unittest.TestCase):
    """Which files a document gets."""

    def names(self, document, *files):
        return [file.name for file in Calendars(*files).needed_by(document)]

    def test_those_that_the_document_needs(self):
        files = [Named(f"{number:02}.cal", of_centre(f"A{number:03}")) for number in range(30)]
        for centres in ([], ["A000"], ["A029"], ["A003", "A004", "A017"], ["A029", "A000"]):
            wanted = sorted(f"{int(centre[1:]):02}.cal" for centre in centres)
            document = document_of(centres, centres) if centres else FIXED
            self.assertEqual(self.names(document, [], files), wanted)
            # A named one is given whether it is needed or not.
            own = Named("own.cal", of_centre("OWN"))
            self.assertEqual(self.names(document, [own], files), ["own.cal", *wanted])

    def test_a_centre_that_is_nowhere(self):
        files = [Named("a.cal", of_centre("A")), Named("b.cal", of_centre("B")), Named("c.cal", of_centre("C"))]
        for nowhere, wanted in (("first", []), ("middle", ["a.cal"]), ("last", ["a.cal", "b.cal"])):
            centres = {"first": ["X", "A", "B"], "middle": ["A", "X", "B"], "last": ["A", "B", "X"]}[nowhere]
            document = document_of(centres, ["C"])
            self.assertEqual(self.names(document, [], files), wanted, nowhere)
            answers = [ask("schedule", Inputs(document, None, None, given)) for given in (files, files[: len(wanted)])]
            self.assertEqual(answers[0].text, answers[1].text)
            self.assertTrue(answers[0].text.startswith(b"refused K12 "), answers[0].text)

    def test_the_examples_have_the_same_answers(self):
        strange = [Named(f"strange {number}.cal", of_centre(f"A{number:03}")) for number in range(5)]
        count = 0
        for folder in sorted({path.parent for path in EXAMPLES.glob("*/*.cal")}):
            files = [Named(path.name, path.read_bytes()) for path in sorted(folder.glob("*.cal"))]
            for path in (*folder.glob("terms.json"), *folder.glob("terms.xml")):
                document = Named(path.name, path.read_bytes())
                chosen = Calendars([], [*files, *strange]).needed_by(document)
                self.assertLessEqual(set(chosen), set(files))
                for command in ("check", "schedule", "emit", "net"):
                    ours, all_of_them = (ask(command, Inputs(document, None, None, it)) for it in (chosen, files))
                    self.assertEqual((ours.status, ours.text), (all_of_them.status, all_of_them.text), folder.name)
                count += 1
        self.assertGreater(count, 5)

    def test_names_that_are_the_same(self):
        files = [Named("x.cal", of_centre("A")), Named("x.cal", FRANKFURT), Named("x.cal", BROKEN)]
        calendars = Calendars(files[:1], files[1:])
        self.assertEqual(calendars.needed_by(BUSINESS), files[:2])
        self.assertEqual(calendars.left_out, files[2:])
        self.assertEqual(len(calendars.notes), 1)
        self.assertIn("left out: x.cal (3): ", calendars.notes[0])

    def test_files_that_do_not_fit(self):
        remark = b"#" * 3_000_000 + b"\n"
        files = [Named(f"{number}.cal", remark + of_centre(f"A{number:03}")) for number in range(17)]
        with self.assertRaisesRegex(BadInput, "17 calendar files don't fit"):
            Calendars([], files)

    def test_a_look_keeps_the_notes(self):
        calendars = Calendars([], [Named("a.cal", BROKEN), Named("b.cal", FRANKFURT)])
        look = look_at(Inputs(BUSINESS, None, None, calendars.needed_by(BUSINESS), calendars.notes), TODAY)
        self.assertIsNone(look.refusal)
        self.assertEqual([(file.what, file.name) for file in look.files][1:], [("calendar", "b.cal")])
        self.assertEqual(list(look.notes), calendars.notes)


@needs("jinja2")
class Reported(Room):
    def test_two_files_with_one_centre(self):
        self.write("calendars/a.cal", FRANKFURT)
        self.write("calendars/b.cal", OTHER)
        trades = [self.write("A.json", BUSINESS.content), self.write("B.json", FIXED.content)]
        done = run_show(*trades, "-o", self.room / "r.html", module="irs.report")
        self.assertEqual(done.returncode, 0, done.stderr)
        # Both trades have the folder in common, so there is one line.
        self.assertEqual(done.stderr.count(b"\n"), 1)
        self.assertIn(b"irs-report: left out: a.cal and b.cal: ", done.stderr)
        text = (self.room / "r.html").read_text()
        self.assertEqual(text.count("left out: a.cal and b.cal: "), 2)
        self.assertIn("bad calendar 2 1 repeat", text)
        self.assertEqual(len(Page(text).captioned("Periods")), 1)


@needs("flask")
@needs("jinja2")
class Served(unittest.TestCase):
    """The page of irs-desk, without a browser."""

    def client(self, *offered, unread=()):
        from irs import desk

        with self.assertLogs("irs.desk", "WARNING") as logged:
            desk.LOG.warning("one line at least")
            client = desk.make_app("token", offered, unread).test_client()
        self.logged = logged.output[1:]
        return client

    def look(self, client, document, uploads=(), **fields):
        fields["document"] = (io.BytesIO(document.content), document.name)
        fields["calendars"] = [(io.BytesIO(file.content), file.name) for file in uploads]
        answer = client.post(f"{TOP}look", data=fields, content_type="multipart/form-data", headers=HOST)
        self.assertEqual(answer.status_code, 303)
        return client.get(answer.headers["Location"], headers=HOST).text

    def form(self, client):
        return client.get(TOP, headers=HOST).text

    def test_two_files_with_one_centre(self):
        client = self.client(Named("a.cal", FRANKFURT), Named("b.cal", OTHER), Named("x.cal", of_centre("XXXX")))
        note = "left out: a.cal and b.cal: "
        self.assertIn(note, self.form(client))
        self.assertEqual(len(self.logged), 1)
        self.assertIn(note, self.logged[0])
        page = self.look(client, BUSINESS, needed="1")
        for said in (note, "bad calendar 2 1 repeat", "The lines around it in b.cal"):
            self.assertIn(said, page)
        page = self.look(client, FIXED, needed="1")
        self.assertIn("25,277.78", page)
        self.assertIn(note, page)
        # A person who ticks one of the two, and it alone, chooses it.
        for place, day in (("0", "1996-12-16"), ("1", "1996-12-17")):
            page = self.look(client, BUSINESS, offered=place)
            self.assertNotIn("left out", page)
            self.assertIn(day, page)

    def test_an_upload_with_a_centre_of_the_folder(self):
        client = self.client(Named("de.cal", FRANKFURT))
        self.assertEqual(self.logged, [])
        ours = Named("ours.cal", OTHER)
        self.assertIn("bad calendar 2 1 repeat", self.look(client, BUSINESS, [ours], needed="1"))
        self.assertIn("left out: ours.cal and de.cal: ", self.look(client, FIXED, [ours], needed="1"))
        self.assertIn("1996-12-17", self.look(client, BUSINESS, [ours]))

    def test_a_file_at_fault(self):
        client = self.client(Named("<b>.cal", BROKEN), Named("de.cal", FRANKFURT), unread=["left out: pipe.cal: why"])
        form = self.form(client)
        for said in ("left out: &lt;b&gt;.cal: ", "left out: pipe.cal: why", '<span class="faint">left out</span>'):
            self.assertIn(said, form)
        page = self.look(client, BUSINESS, needed="1")
        for said in ("3,016,666.67", "left out: &lt;b&gt;.cal: ", "left out: pipe.cal: why"):
            self.assertIn(said, page)
        self.assertNotIn("<b>", form + page)
        # A ticked one is given to the engine, which says its fault.
        self.assertIn("bad calendar 1 3 syntax", self.look(client, BUSINESS, needed="1", offered="0"))


if __name__ == "__main__":
    unittest.main()
