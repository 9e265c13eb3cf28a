"""The page irs-desk and the report in a real browser: Debian's chromium, driven by Selenium.

bindings/desk_tests runs it. IRS_PICTURES names a folder for pictures of report and page, at 1,280
and 400 pixels, light and dark.
"""
import base64
import io
import os
import shutil
import subprocess
import sys
import tempfile
import time
import unittest
from pathlib import Path

from selenium import webdriver
from selenium.webdriver.common.action_chains import ActionChains
from selenium.webdriver.chrome.options import Options
from selenium.webdriver.chrome.service import Service
from selenium.webdriver.common.by import By
from selenium.webdriver.common.keys import Keys
from selenium.webdriver.support.ui import WebDriverWait

HERE = Path(__file__).resolve().parent
EXAMPLES = HERE.parents[2] / "examples"
sys.path.insert(0, str(HERE.parent))

import irs
import trades

PICTURES = os.environ.get("IRS_PICTURES") or None

#: Drops a file on a drop zone as a person does.
DROP = """
const [zone, name, text] = arguments, given = new DataTransfer();
given.items.add(new File([text], name));
for (const kind of ["dragenter", "dragover", "drop"])
  zone.dispatchEvent(new DragEvent(kind, {bubbles: true, cancelable: true, dataTransfer: given}));
"""

#: The elements that stick out of the page, and texts that are cut at their box; what scrolls by
#: itself may.
OUTSIDE = """
const wide = document.documentElement.clientWidth, found = [];
if (document.documentElement.scrollWidth > wide) found.push("page " +
document.documentElement.scrollWidth); for (const element of document.querySelectorAll("body *")) {
  if (element.closest(".scroll, .lines, svg, details:not([open]), .skip")) continue;
  const box = element.getBoundingClientRect();
  if (box.width && (box.right > wide + 1 || box.left < -1)) found.push(element.tagName + " " +
  element.textContent.slice(0, 40));
}
for (const picture of document.querySelectorAll("svg.timeline")) {
  const frame = picture.getBoundingClientRect();
  if (!frame.width) continue;
  const texts = [...picture.querySelectorAll("text")].map((text) => text.getBoundingClientRect());
  texts.forEach((box, place) => {
    if (box.left < frame.left - 1 || box.right > frame.right + 1 || box.top < frame.top - 1)
    found.push("label out of the picture"); for (const other of texts.slice(place + 1))
      if (box.left < other.right && other.left < box.right && box.top < other.bottom && other.top
      < box.bottom)
        found.push("labels on each other");
  });
}
return found;
"""

#: The texts whose contrast to their background is below 4.5 to 1 (WCAG 2.1 AA), as the browser
#: draws them.
FAINT = """
const parts = (colour) => colour.match(/[\\d.]+/g).map(Number);
const luminance = (colour) => {
  const [r, g, b] = parts(colour).map((part) => part / 255)
    .map((part) => part <= 0.04045 ? part / 12.92 : ((part + 0.055) / 1.055) ** 2.4);
  return 0.2126 * r + 0.7152 * g + 0.0722 * b;
};
const back = (element) => {
  for (let at = element; at; at = at.parentElement) {
    const colour = getComputedStyle(at).backgroundColor;
    if (!(parts(colour).length === 4 && parts(colour)[3] === 0)) return colour;
  }
  return "rgb(255, 255, 255)";
};
const found = [];
for (const element of document.querySelectorAll("body *")) {
  const texts = [...element.childNodes].filter((node) => node.nodeType === 3);
  const own = texts.some((node) => node.textContent.trim());
  if (!own || !element.getClientRects().length) continue;
  const style = getComputedStyle(element);
  const ink = element.namespaceURI.endsWith("svg") ? style.fill : style.color;
  const [dark, light] = [luminance(ink), luminance(back(element))].sort((a, b) => a - b);
  const ratio = (light + 0.05) / (dark + 0.05);
  const text = element.textContent.trim().slice(0, 30);
  if (ratio < 4.5) found.push(element.tagName + " " + text + " " + ratio.toFixed(2));
}
return found;
"""


def browser(folder):
    options = Options()
    options.binary_location = shutil.which("chromium")
    for word in (
        "--headless=new",
        "--no-sandbox",
        "--disable-gpu",
        "--disable-dev-shm-usage",
        "--hide-scrollbars",
        f"--user-data-dir={folder}/profile",
    ):
        options.add_argument(word)
    options.add_experimental_option("prefs", {"download.default_directory": f"{folder}/downloads"})
    options.set_capability("goog:loggingPrefs", {"browser": "ALL"})
    return webdriver.Chrome(service=Service(shutil.which("chromedriver")), options=options)


class Browser(unittest.TestCase):
    """A browser, and irs-desk in a process of its own."""

    @classmethod
    def setUpClass(cls):
        cls.room = tempfile.TemporaryDirectory()
        cls.folder = Path(cls.room.name)
        (cls.folder / "downloads").mkdir()
        (cls.folder / "calendars").mkdir()
        (cls.folder / "scratch").mkdir()
        (cls.folder / "calendars" / "test.cal").write_bytes(trades.CALENDAR)
        (cls.folder / "calendars" / "de.cal").write_bytes((EXAMPLES / "business_days" / "de.cal").read_bytes())
        cls.desk = subprocess.Popen(
            [sys.executable, "-m", "irs.desk", "--calendars", str(cls.folder / "calendars")],
            stdout=subprocess.PIPE,
            stderr=subprocess.PIPE,
            cwd=HERE.parent,
            text=True,
            env={**os.environ, "TMPDIR": str(cls.folder / "scratch")},
        )
        cls.address = cls.desk.stdout.readline().strip()
        cls.driver = browser(cls.room.name)

    @classmethod
    def tearDownClass(cls):
        cls.driver.quit()
        cls.desk.terminate()
        _, said = cls.desk.communicate(timeout=10)
        cls.room.cleanup()
        assert said == "", said

    def setUp(self):
        self.driver.get_log("browser")
        self.sized(1280, False)
        self.driver.get(self.address)

    def tearDown(self):
        """Nothing that a test loads breaks the page's policy or a script, and nothing is written
        to disk."""
        self.assertEqual(
            [entry["message"] for entry in self.driver.get_log("browser") if "favicon" not in entry["message"]],
            [],
        )
        self.assertEqual(os.listdir(self.folder / "scratch"), [])

    def sized(self, width, dark):
        self.driver.execute_cdp_cmd(
            "Emulation.setDeviceMetricsOverride",
            {"width": width, "height": 900, "deviceScaleFactor": 1, "mobile": False},
        )
        value = "dark" if dark else "light"
        self.driver.execute_cdp_cmd(
            "Emulation.setEmulatedMedia",
            {"features": [{"name": "prefers-color-scheme", "value": value}]},
        )

    def drop(self, field, name, content):
        zone = self.driver.find_element(By.ID, field).find_element(By.XPATH, "..")
        self.driver.execute_script(DROP, zone, name, content.decode() if isinstance(content, bytes) else content)

    def choose(self, field, name, content):
        """Gives a file to a field; `name` may hold only what a file's name may."""
        path = self.folder / name
        path.write_bytes(content)
        self.driver.find_element(By.ID, field).send_keys(str(path))

    def look(self):
        before = self.driver.current_url
        self.driver.find_element(By.CSS_SELECTOR, "button[type=submit]").click()
        WebDriverWait(self.driver, 30).until(lambda driver: driver.current_url != before)

    def text(self):
        return self.driver.find_element(By.TAG_NAME, "main").text

    def drop_trade(self, trade):
        self.drop("document", trade.document.name, trade.document.content)
        self.drop("fixings", "fixings", trade.fixings.content)

    def download(self, label):
        folder = self.folder / "downloads"
        for path in folder.iterdir():
            path.unlink()
        self.driver.find_element(By.LINK_TEXT, label).click()
        for _ in range(100):
            found = [
                path for path in folder.iterdir() if path.suffix != ".crdownload" and not path.name.startswith(".")
            ]
            if found and found[0].stat().st_size:
                return found[0]
            time.sleep(0.1)
        self.fail(f"no download of {label}")


class Desk(Browser):
    def test_drop_and_see(self):
        trade = trades.vanilla()
        self.drop_trade(trade)
        self.look()
        said = self.text()
        schedule = irs.schedule(trade.document.content, trade.fixings.content, [trades.CALENDAR])
        self.assertIn("2 streams, 75 periods, 75 payments", said)
        self.assertIn("Alder Bank pays Birch Pensions, EUR, fixed, 30/360", said)
        first = schedule.payments(2)[0]
        self.assertIn(f"{first.adjusted} Tue 2 payment 1 EUR {first.amount:,}", said)

    def test_the_other_side_and_the_marked_cell(self):
        self.drop("document", "terms.json", (EXAMPLES / "fixed_leg" / "terms.json").read_bytes())
        self.drop("flows", "flows.json", (EXAMPLES / "audit_departs" / "flows.json").read_bytes())
        self.look()
        self.assertIn("no 1 payment 2 adjustedPaymentDate", self.text())
        marked = self.driver.find_elements(By.CSS_SELECTOR, "td.departs")
        self.assertEqual([cell.text for cell in marked], ["2025-01-15", "2025-01-16"])

    def test_downloads(self):
        trade = trades.two_currencies()
        self.drop_trade(trade)
        self.look()
        schedule = irs.schedule(trade.document.content, trade.fixings.content, [trades.CALENDAR])
        for label, table in (
            ("Cash flows, CSV", "flows"),
            ("Periods, CSV", "periods"),
            ("Exchanges, CSV", "exchanges"),
        ):
            file = io.StringIO(newline="")
            schedule.to_csv(file, table)
            self.assertEqual(self.download(label).read_bytes().decode(), file.getvalue())
        self.assertEqual(self.download("Workbook").read_bytes()[:2], b"PK")
        document = self.download("Document with its cash flows").read_bytes()
        self.assertIsInstance(irs.audit(document, document, trade.fixings.content, [trades.CALENDAR]), irs.Yes)
        report = self.download("Report")
        self.driver.get(report.as_uri())
        self.assertIn("Alder Bank pays Birch Pensions, JPY, fixed, ACT/365.FIXED", self.text())

    def test_a_refused_document(self):
        terms = (EXAMPLES / "business_days" / "terms.json").read_bytes()
        self.drop("document", "terms.json", terms.replace(b'"DEFR"', b'"DEFRX"'))
        self.look()
        self.assertIn("K12: a centre of terminationDate's adjustments is in no calendar file", self.text())
        self.assertIn("DEFRX", self.driver.find_element(By.CSS_SELECTOR, "li.fault").text)
        self.assertEqual(len(self.driver.find_elements(By.LINK_TEXT, "Workbook")), 0)

    def test_calendars_of_the_folder(self):
        self.drop("document", "terms.json", (EXAMPLES / "business_days" / "terms.json").read_bytes())
        self.look()
        self.assertIn("3,016,666.67", self.text())
        self.driver.get(self.address)
        self.driver.find_element(By.NAME, "needed").click()
        self.drop("document", "terms.json", (EXAMPLES / "business_days" / "terms.json").read_bytes())
        self.look()
        self.assertIn("K12", self.text())

    def test_xml(self):
        self.drop("document", "trade.xml", b"<?xml version='1.0'?><dataDocument>")
        self.look()
        self.assertIn("isn't XML that this program reads", self.text())
        self.driver.get(self.address)
        self.drop("document", "terms.xml", (EXAMPLES / "carrier" / "terms.xml").read_bytes())
        self.look()
        self.assertIn("K2", self.text())
        self.driver.get(self.address)
        document = (EXAMPLES / "xml_fixed_leg" / "terms.xml").read_bytes()
        self.drop("document", "terms.xml", document)
        self.look()
        self.assertIn("25,277.78", self.text())
        made = self.download("Document with its cash flows")
        self.assertEqual(made.name, "document.xml")
        self.driver.get(self.address)
        self.drop("document", "terms", document)
        self.drop("flows", "their.txt", made.read_bytes().replace(b"25555.56", b"25555.57"))
        self.look()
        self.assertIn("(their.txt) depart from the schedule in amount of payment 2", self.text())
        marked = self.driver.find_elements(By.CSS_SELECTOR, "td.departs")
        self.assertEqual([cell.text for cell in marked], ["25,555.56", "25,555.57"])

    def test_a_script_in_an_index(self):
        made = trades.stream(
            1,
            "us",
            "2024-01-15",
            "2025-01-15",
            6,
            "1000",
            "USD",
            "ACT/360",
            convention="NONE",
            index="<script>document.title='hit'</script><img src=x onerror=alert(1)>\u202e",
        )
        parties = [
            {"@id": "us", "partyName": "<b onclick=alert(1)>us</b>"},
            {"@id": "them", "partyName": "\u202ethem"},
        ]
        self.drop("document", "<img src=x>.json", trades.document(made, parties=parties))
        self.look()
        self.assertIn("<script>document.title='hit'</script><img src=x onerror=alert(1)>\\u202e", self.text())
        self.assertIn("<b onclick=alert(1)>us</b> pays \\u202ethem", self.text())
        self.assertEqual(self.driver.title, "<img src=x>.json")
        self.assertEqual(len(self.driver.find_elements(By.CSS_SELECTOR, "main script, main img, main b")), 0)

    def test_five_mebibytes(self):
        self.choose("document", "big.json", b"[" + b" " * (5 << 20) + b"]")
        self.look()
        self.assertIn("big.json has more than 4,194,304 bytes", self.text())

    def test_too_much_together(self):
        path = self.folder / "huge.json"
        with path.open("wb") as file:
            file.truncate(100 << 20)
        self.driver.find_element(By.ID, "document").send_keys(str(path))
        self.look()
        self.assertIn("larger than this page takes", self.driver.page_source)
        path.unlink()
        self.driver.get_log("browser")  # the browser reports status 413 there

    def test_a_name_that_climbs(self):
        before = sorted(str(path) for path in self.folder.rglob("*"))
        self.drop(
            "document",
            "../" * 9 + tempfile.gettempdir()[1:] + "/evil.json",
            (EXAMPLES / "fixed_leg" / "terms.json").read_bytes(),
        )
        self.look()
        self.assertIn("25,277.78", self.text())
        self.assertFalse(Path(tempfile.gettempdir(), "evil.json").exists())
        self.assertEqual(self.download("Report").name, "report.html")
        (self.folder / "downloads" / "report.html").unlink()
        after = sorted(str(path) for path in self.folder.rglob("*") if "profile" not in path.parts)
        self.assertEqual([path for path in after if path not in before], [])

    def press(self, key):
        ActionChains(self.driver).send_keys(key).perform()
        return self.driver.switch_to.active_element

    def test_the_keyboard_alone(self):
        self.choose("document", "terms.json", (EXAMPLES / "fixed_leg" / "terms.json").read_bytes())
        fields = []
        while (active := self.press(Keys.TAB)).tag_name != "button":
            self.assertNotEqual(
                self.driver.execute_script("return getComputedStyle(arguments[0]).outlineStyle", active),
                "none",
            )
            fields.append(active.get_attribute("name") or active.text)
            self.assertLess(len(fields), 20)
        self.assertEqual(
            [field for field in fields if field != "offered"],
            ["To the content", "document", "flows", "fixings", "calendars", "needed", "party"],
        )
        before = self.driver.current_url
        self.press(Keys.ENTER)
        WebDriverWait(self.driver, 30).until(lambda driver: driver.current_url != before)
        self.assertIn("25,277.78", self.text())
        reached = []
        for _ in range(14):
            active = self.press(Keys.TAB)
            reached.append(active.text if active.tag_name == "a" else active.get_attribute("aria-label"))
        self.assertEqual(
            reached[:8],
            [
                "To the content",
                "Look at another",
                "Cash flows, CSV",
                "Periods, CSV",
                "Exchanges, CSV",
                "Workbook",
                "Document with its cash flows",
                "Report",
            ],
        )
        self.assertIn("Periods", reached)

    def test_without_the_random_part_there_is_nothing(self):
        root = self.address.rsplit("/", 2)[0]
        for address in (
            root + "/",
            root + "/x/",
            self.address[:-2] + "x/",
            self.address + "look/none",
        ):
            self.driver.get("about:blank")
            self.driver.get(address)
            WebDriverWait(self.driver, 30).until(lambda driver: "There is nothing" in driver.page_source)
            self.assertIn("There is nothing at this address", self.driver.page_source)
        self.driver.get_log("browser")


class Looks(Browser):
    """No overflow and no clipped label, at 1,280 and 400 pixels, light and dark; pictures of
    both."""

    def picture(self, name, height=900):
        if PICTURES is None:
            return
        clip = {
            "x": 0,
            "y": 0,
            "width": self.driver.execute_script("return document.documentElement.clientWidth"),
            "height": height,
            "scale": 1,
        }
        shot = self.driver.execute_cdp_cmd("Page.captureScreenshot", {"captureBeyondViewport": True, "clip": clip})
        Path(PICTURES, f"{name}.png").write_bytes(base64.b64decode(shot["data"]))

    def each_size(self, name, height=900):
        for width in (1280, 400):
            for dark in (False, True):
                self.sized(width, dark)
                self.assertEqual(self.driver.execute_script(OUTSIDE), [], (name, width, dark))
                self.assertEqual(self.driver.execute_script(FAINT), [], (name, width, dark))
                self.picture(f"{name}-{width}-{'dark' if dark else 'light'}", height)

    def test_the_checks_can_fail(self):
        """A text that is wider than the page and one that is too faint are found."""
        self.driver.execute_script(
            "const wide = document.createElement('p');"
            "document.querySelector('main').append(wide);"
            "wide.textContent = 'wide'; wide.style.width = '3000px'; wide.style.color = '#999';"
        )
        self.assertTrue(self.driver.execute_script(OUTSIDE))
        self.assertEqual(self.driver.execute_script(FAINT), ["P wide 2.85"])

    def test_the_form(self):
        self.each_size("desk-form")

    def test_five_trades_and_forty_years(self):
        for make in (*trades.FIVE, trades.forty_years):
            trade = make()
            self.sized(1280, False)
            self.driver.get(self.address)
            self.drop_trade(trade)
            self.look()
            self.each_size(f"desk-{make.__name__}", 1500)
            report = self.download("Report")
            self.driver.get(report.as_uri())
            self.each_size(f"report-{make.__name__}", 1500)

    def test_departure_and_refusal(self):
        trade = trades.departing()
        self.drop_trade(trade)
        self.drop("flows", trade.flows.name, trade.flows.content)
        self.look()
        self.each_size("desk-departs", 1500)
        report = self.download("Report")
        self.driver.get(report.as_uri())
        self.each_size("report-departs", 1500)
        self.sized(1280, False)
        self.driver.get(self.address)
        self.drop(
            "document",
            "terms.json",
            (EXAMPLES / "amortising" / "terms.json").read_bytes().replace(b'"2024-07-15"', b'"2024-07-16"'),
        )
        self.look()
        self.each_size("desk-refused")

    def test_a_printed_report(self):
        self.drop_trade(trades.vanilla())
        self.look()
        report = self.download("Report")
        self.driver.get(report.as_uri())
        self.sized(1280, True)
        printed = self.driver.execute_cdp_cmd("Page.printToPDF", {"preferCSSPageSize": True, "printBackground": True})
        content = base64.b64decode(printed["data"])
        self.assertEqual(content[:5], b"%PDF-")
        if PICTURES is not None:
            Path(PICTURES, "report-printed.pdf").write_bytes(content)


if __name__ == "__main__":
    unittest.main()
