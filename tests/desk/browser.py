"""A real browser at `desk serve`: good and wrong files, and the report light, dark, narrow and printed. With --pictures DIR it takes the README's pictures."""

import argparse
import base64
import json
import re
import shutil
import subprocess
import sys
import tempfile
import time
from dataclasses import replace
from pathlib import Path

sys.path.insert(0, str(Path(__file__).resolve().parent))

import seeds  # noqa: E402
from frontdesk.reading import binding, casefile, commas, tables  # noqa: E402
from selenium import webdriver  # noqa: E402
from selenium.common.exceptions import WebDriverException  # noqa: E402
from selenium.webdriver.chrome.service import Service  # noqa: E402
from selenium.webdriver.common.action_chains import ActionChains  # noqa: E402
from selenium.webdriver.common.by import By  # noqa: E402
from selenium.webdriver.common.keys import Keys  # noqa: E402
from selenium.webdriver.support.expected_conditions import staleness_of  # noqa: E402
from selenium.webdriver.support.wait import WebDriverWait  # noqa: E402
from tally import Tally  # noqa: E402

ROOT = seeds.ROOT
EXAMPLES = ROOT / "examples"
FERRY = "ferry"
AUDIT = (Path(__file__).resolve().parent / "audit.js").read_text()
WIDE, NARROW, PAPER = (1280, 900), (360, 800), (1062, 726)  # pixels; the last is A4 across, within its margins
tally = Tally()


class Browser:
    """Chromium without a window, and `./desk serve` on a free port."""

    def __init__(self, scratch):
        options = webdriver.ChromeOptions()
        options.binary_location = shutil.which("chromium")
        for word in ("--headless=new", "--no-sandbox", "--disable-gpu", "--disable-dev-shm-usage", "--disable-background-networking", "--no-first-run",
                     "--force-device-scale-factor=1", "--window-size=%d,%d" % WIDE, "--user-data-dir=%s" % (scratch / "profile")):  # fmt: skip
            options.add_argument(word)
        options.add_experimental_option("prefs", {"download.default_directory": str(scratch / "downloads")})
        options.set_capability("goog:loggingPrefs", {"performance": "ALL", "browser": "ALL"})
        self.driver = webdriver.Chrome(service=Service(shutil.which("chromedriver")), options=options)
        self.scratch, self.desk = scratch, subprocess.Popen([str(ROOT / "desk"), "serve", "--port", "0"], stdout=subprocess.PIPE)
        self.driver.set_page_load_timeout(30)
        self.address = re.search(r"http://\S+", self.desk.stdout.readline().decode()).group()

    def close(self):
        self.driver.quit()
        self.desk.terminate()
        self.desk.wait()

    def send(self, *files, tick=()):
        """Fills in the form and sends it."""
        self.driver.get(self.address)
        self.driver.find_element(By.ID, "file").send_keys("\n".join(map(str, files)))
        for box in tick:
            self.driver.find_element(By.ID, box).click()
        button = self.driver.find_element(By.TAG_NAME, "button")
        button.click()
        WebDriverWait(self.driver, 20).until(staleness_of(button))
        WebDriverWait(self.driver, 20).until(lambda driver: driver.execute_script("return document.readyState") == "complete")
        return self.driver.find_element(By.TAG_NAME, "main").text

    def look(self, size=WIDE, scheme="light", media=""):
        self.driver.execute_cdp_cmd("Emulation.setDeviceMetricsOverride", {"width": size[0], "height": size[1], "deviceScaleFactor": 1, "mobile": False})
        self.driver.execute_cdp_cmd("Emulation.setEmulatedMedia", {"media": media, "features": [{"name": "prefers-color-scheme", "value": scheme}]})

    def audit(self, what, drawings=0):
        begun = time.monotonic()
        found = self.driver.execute_script(AUDIT)
        if "--times" in sys.argv:
            print("%s %.1f s" % (what, time.monotonic() - begun), file=sys.stderr)
        tally.same(found["faults"], [], "%s: what it does not keep" % what)
        tally.that(found["texts"] > 5 and found["drawings"] >= drawings, "%s: it was looked at" % what, found)
        return found

    def requests(self):
        """Every address that the browser asked for since the last time."""
        messages = [json.loads(entry["message"])["message"] for entry in self.driver.get_log("performance")]
        return [message["params"]["request"]["url"] for message in messages if message["method"] == "Network.requestWillBeSent"]


def written(scratch):
    """The files that are sent."""
    ferry = casefile.parse((EXAMPLES / (FERRY + ".case")).read_bytes())
    sheets = tables.sheets_of(ferry)
    files = {"ferry.xlsx": binding.bound(sheets), "not a workbook.xlsx": b"nothing of the kind", "large.xlsx": b"PK\x03\x04" + b"\0" * 5_000_000,
            **commas.written(sheets)}
    bad = dict(sheets)
    table = sheets["cases"]
    at = table.headings.index("range deg, partial")
    rows = [(number, tuple(1605 if (number, place) == (14, at) else cell for place, cell in enumerate(cells))) for number, cells in table.rows]
    bad["cases"] = replace(table, rows=tuple(rows))
    files["hundredths.xlsx"] = binding.bound(bad)
    for name, content in files.items():
        (scratch / name).write_bytes(content)


def uploads(browser):
    """Good and wrong files, as a user sends them."""
    scratch, driver = browser.scratch, browser.driver
    browser.look()
    driver.get(browser.address)
    browser.audit("the form")
    browser.look(NARROW, "dark")
    browser.audit("the form, narrow and dark")
    browser.look()
    keyboard(driver, 4, "the form")
    text = browser.send(scratch / "ferry.xlsx")
    tally.that("0.728015" in text and "0.9 R" in text and "fail" in text.lower(), "a good workbook: its report", text[:300])
    tally.that(browser.driver.title and "/report/" in driver.current_url, "the report has an address and a title")
    text = browser.send(*(scratch / name for name in ("ship.csv", "zones.csv", "cases.csv")), tick=["against", "licensed-slip"])
    tally.that("0.728015" in text and "Was my ship among them?" in text, "CSV files with the slip", text[:300])
    text = browser.send(EXAMPLES / "printed.case")
    tally.that("0.487529" in text, "a case file: its report", text[:300])
    download(browser)
    text = browser.send(scratch / "hundredths.xlsx")
    tally.that('cases, row 14, "range deg, partial": ' in text and "1605" in text and "hundredths" in text,
            "a bad table is told by sheet, row and heading", text)
    browser.audit("the page of a bad table")
    browser.look(NARROW, "dark")
    browser.audit("the page of a bad table, narrow and dark")
    browser.look()
    text = browser.send(scratch / "not a workbook.xlsx")
    tally.that("not a workbook.xlsx" in text and "expected an .xlsx workbook" in text, "no workbook at all", text)
    text = browser.send(scratch / "large.xlsx")
    tally.that("4,000,000 are taken" in text, "too large", text)
    driver.find_element(By.LINK_TEXT, "Another file").click()
    tally.same(driver.current_url, browser.address, "the way back")


def download(browser):
    """The link saves the report, without the bar above it."""
    folder = browser.scratch / "downloads"
    browser.driver.execute_cdp_cmd("Browser.setDownloadBehavior", {"behavior": "allow", "downloadPath": str(folder)})
    browser.driver.find_element(By.LINK_TEXT, "Download this report").click()
    saved, until = folder / "printed.html", time.monotonic() + 10
    while not saved.exists() and time.monotonic() < until:
        time.sleep(0.05)
    tally.that(saved.exists() and "Another file" not in saved.read_text() and "0.874789561" in saved.read_text(),
            "the report is downloaded", list(folder.glob("*")))


def keyboard(driver, steps, what):
    """Goes through a page by the tabulator: each stop is seen."""
    driver.execute_script("document.activeElement.blur()")
    stops = set()
    for _ in range(steps):
        ActionChains(driver).send_keys(Keys.TAB).perform()
        stop = driver.execute_script(
            "const a = document.activeElement, s = getComputedStyle(a), b = a.getBoundingClientRect();"
            "return [a.outerHTML.slice(0, 90), a.matches(':focus-visible'), s.outlineStyle, parseFloat(s.outlineWidth), b.left >= 0 && b.width > 0]")
        stops.add(stop[0])
        tally.that(stop[1] and stop[2] != "none" and stop[3] >= 1 and stop[4], "%s: the focus is seen" % what, stop)
    tally.that(len(stops) >= min(steps, 3), "%s: the tabulator goes on" % what, stops)


def reports(browser):
    """The reports of ships that fail, meet and are unsettled, light, dark, narrow and on paper."""
    for name, looks in (
        (FERRY, ("light", "dark", "narrow", "paper")), ("container-ship", ("light", "narrow", "paper")), ("reefer", ("light", "dark")),
                ("printed", ("light", "narrow")),
        ("day-boat", ("light", "narrow")),
    ):  # fmt: skip
        page = browser.scratch / (name + ".html")
        subprocess.run([str(ROOT / "desk"), "report", str(EXAMPLES / (name + ".case")), "-o", str(page), "--licensed-slip"],
                stdout=subprocess.DEVNULL, check=False)
        browser.look()
        browser.driver.get(page.as_uri())
        browser.driver.execute_script("for (const part of document.querySelectorAll('details')) part.open = true")
        for look in looks:
            browser.look({"narrow": NARROW, "paper": PAPER}.get(look, WIDE), "dark" if look == "dark" else "light", "print" if look == "paper" else "")
            browser.audit("%s, %s" % (name, look), drawings=2)
    browser.look()
    keyboard(browser.driver, 6, "the report")
    for name, most in ((FERRY, 18), ("container-ship", 25), ("printed", 8)):
        paper(browser, browser.scratch / (name + ".html"), most)


FAULTY = """<!DOCTYPE html><html><head><title> </title></head><body style="background: #fff; color: #000"><main><h1>One</h1><h3>Three</h3><h1>Two</h1>
<a href="#nowhere">link</a><a href="#p"></a><p id="p" aria-labelledby="q">text</p><p id="p" style="color: #888">pale</p><input type="text"><button></button>
<table><tr><td>1</td></tr><tr><th>2</th></tr></table><div class="scroll" style="overflow: auto; width: 9em"><p style="width: 20em">wide</p></div>
<p style="overflow: hidden; width: 2em; white-space: nowrap">cut off in the middle</p><p style="width: 3000px">beyond</p>
<svg viewBox="0 0 100 40" width="400"><text y="20">no role</text></svg>
<svg role="img" viewBox="0 0 100 40" width="400"><text x="10" y="20">one</text></svg>
<svg role="img" viewBox="0 0 100 40" width="400"><title>t</title><text x="90" y="10">outside</text></svg>
<svg role="img" viewBox="0 0 100 40" width="400"><title>t</title><desc>d</desc><rect width="100" height="40" fill="#666"/><text x="10" y="20">first</text>
<text x="14" y="22">second</text></svg><script></script></main></body></html>"""
FOUND = (
    "no language", "no title", "headings of the first level: 2", "a heading that skips a level", "something that is loaded or run", "an id twice: p",
            "a link that leads nowhere",
    "a link without text", "aria-labelledby of nothing", "an input without a label", "a button without text", "a table without a caption",
            "a table without headings",
    "a heading of a table without its scope", "an area that scrolls and cannot be reached", "a drawing that is not said to be one", "a drawing without a title",
    "a drawing without a description", "the page is wider than the window", "text that is cut off", "a text outside of its drawing", "two texts on each other",
    "contrast 3.5", "contrast 3.66",
)  # fmt: skip


def audited(browser):
    """The audit itself: a page with every fault that it looks for."""
    page = browser.scratch / "faulty.html"
    page.write_text(FAULTY)
    browser.look()
    browser.driver.get(page.as_uri())
    faults = browser.driver.execute_script(AUDIT)["faults"]
    for what in FOUND:
        tally.that(any(fault.startswith(what) for fault in faults), "the audit finds %r" % what, faults)


def paper(browser, page, most):
    """The report on paper: the whole of it, closed parts too, on as few pages as dense tables take."""
    browser.driver.get(page.as_uri())
    printed = browser.driver.execute_cdp_cmd("Page.printToPDF", {"preferCSSPageSize": True, "printBackground": True})
    content = base64.b64decode(printed["data"])
    pages = len(re.findall(rb"/Type\s*/Page\b", content))
    sizes = {tuple(sorted(round(float(side)) for side in box.split()[2:])) for box in re.findall(rb"/MediaBox\s*\[([^\]]*)\]", content)}
    tally.that(sizes and all(abs(short - 595) <= 1 and abs(long - 842) <= 1 for short, long in sizes), "%s prints on A4" % page.name, sizes)
    tally.that(most * 2 // 3 <= pages <= most, "%s is on at most %d pages" % (page.name, most), pages)
    page.with_suffix(".pdf").write_bytes(content)


def pictures(browser, folder):
    """The head of the ferry's report and its zones, light, for the README."""
    book = EXAMPLES / "ferry.xlsx"
    book = book if book.exists() else browser.scratch / "ferry.xlsx"
    page = browser.scratch / "picture.html"
    subprocess.run([str(ROOT / "desk"), "report", str(book), "-o", str(page)], stdout=subprocess.DEVNULL, check=False)
    browser.look()
    browser.driver.get(page.as_uri())
    folder.mkdir(parents=True, exist_ok=True)
    for name, first, last in (("report.png", "main > :first-child", "main > figure"),
            ("zones.png", "#zones, [aria-labelledby=zones]", "#zones, [aria-labelledby=zones]")):
        ends = browser.driver.execute_script(
            "const f = document.querySelector(arguments[0]), l = document.querySelector(arguments[1]);"
            "return f && l ? [f.getBoundingClientRect().top + scrollY, l.getBoundingClientRect().bottom + scrollY] : null", first, last)
        if not tally.that(ends, "the part for %s is there" % name):
            continue
        clip = {"x": 0, "y": max(0, ends[0] - 24), "width": WIDE[0], "height": ends[1] - ends[0] + 48, "scale": 1}
        shot = browser.driver.execute_cdp_cmd("Page.captureScreenshot", {"format": "png", "captureBeyondViewport": True, "clip": clip})
        (folder / name).write_bytes(base64.b64decode(shot["data"]))


def tried(asked, scratch):
    """Everything that is asked of the browser, or the pictures alone."""
    browser = Browser(scratch)
    try:
        written(scratch)
        if asked.pictures:
            return pictures(browser, asked.pictures)
        uploads(browser)
        elsewhere = [url for url in browser.requests() if not url.startswith((browser.address, "data:", "chrome:", "about:"))]
        tally.same(elsewhere, [], "nothing is asked for elsewhere")
        audited(browser)
        reports(browser)
        elsewhere = [url for url in browser.requests() if not url.startswith(("file://%s/" % scratch, "data:"))]
        tally.same(elsewhere, [], "a report asks for nothing but itself")
        refused = [entry["message"] for entry in browser.driver.get_log("browser") if "Content Security Policy" in entry["message"]]
        tally.same(refused, [], "the page keeps to its own policy")
        if asked.keep:
            shutil.copytree(scratch, asked.keep, dirs_exist_ok=True, ignore=shutil.ignore_patterns("profile"))
    finally:
        browser.close()


def main():
    words = argparse.ArgumentParser(description=__doc__)
    words.add_argument("--pictures", type=Path, metavar="DIR", help="takes the README's pictures into a folder, and tests nothing else")
    words.add_argument("--keep", type=Path, metavar="DIR", help="keeps pages and the printed report in a folder")
    words.add_argument("--times", action="store_true", help="tells how long each look took")
    asked = words.parse_args()
    for again in (True, False):
        with tempfile.TemporaryDirectory(prefix="browser.", ignore_cleanup_errors=True) as scratch:
            try:
                tried(asked, Path(scratch))
                break
            except WebDriverException as fault:  # the browser has died, which says nothing of the desk: once more from the start, and only once
                print("the browser ended:", str(fault).splitlines()[0], file=sys.stderr)
                if not again:
                    raise
                tally.passed = 0
    return tally.close()


sys.exit(main())
