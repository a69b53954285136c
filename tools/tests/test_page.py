"""The page of tools/picture in a headless Chromium. Where none is to be had, these tests are left out.

KEMIRONA_INSTALL_CHROMIUM=1 has Debian's installed; KEMIRONA_SCREENSHOTS=FOLDER keeps the screenshots.
"""
import os
import tempfile
import time
import unittest
from pathlib import Path
from statistics import median

from kemirona.picture import film_of, page_of
from kemirona.report_text import read_report

from . import browser
from .filler import filled
from .png import Png
from .support import data

CHROMIUM = browser.find()
MANY_MOVES = 60000
MOST_MILLISECONDS = 100
OBJECT, BIN = "#2166ac", "#e6e6e6"  # two of the page's colours


@unittest.skipUnless(CHROMIUM, "no Chromium is here")
class Page(unittest.TestCase):
    @classmethod
    def setUpClass(cls):
        cls.place = tempfile.TemporaryDirectory(ignore_cleanup_errors=True)
        cls.folder = Path(cls.place.name)
        cls.addClassCleanup(cls.place.cleanup)
        try:
            cls.browser = browser.Browser(CHROMIUM, cls.folder / "profile")
        except (browser.BrowserError, OSError) as error:
            raise unittest.SkipTest(f"{CHROMIUM} does not start here: {error}") from error
        cls.addClassCleanup(cls.browser.close)

    def open(self, *reports: tuple[str, bytes]) -> Path:
        page = self.folder / "page.html"
        page.write_text(page_of([film_of(name, read_report(text)) for name, text in reports]), encoding="utf-8")
        self.browser.errors.clear()
        self.browser.requests.clear()
        self.browser.open(page)
        return page

    def box(self, selector: str) -> tuple[float, float, float, float]:
        """The left, top, right and bottom of an element."""
        return tuple(self.browser.value(f"(b => [b.left, b.top, b.right, b.bottom])"
                                        f"(document.querySelector({selector!r}).getBoundingClientRect())"))

    def keep_shot(self, name: str) -> None:
        if os.environ.get("KEMIRONA_SCREENSHOTS"):
            Path(os.environ["KEMIRONA_SCREENSHOTS"], name).write_bytes(self.browser.screenshot())

    def regions_shot(self) -> Png:
        left, top, right, bottom = self.box(".regions")
        return Png(self.browser.screenshot(x=left, y=top, width=right - left, height=bottom - top))

    def paths(self) -> str:
        return self.browser.value("[...document.querySelectorAll('.bar')].map(p => p.getAttribute('d')).join()")

    def test_opens_without_an_error_and_asks_for_nothing(self):
        for name in ("threads", "narrow", "calls"):
            page = self.open((name, data(f"{name}.report")))
            self.assertEqual(self.browser.errors, [])
            self.assertEqual(self.browser.requests, [page.as_uri()])
            most = self.browser.value("picture.most")
            for position in range(0, most + 1, 7):
                self.browser.value(f"picture.show({position})")
            self.assertEqual(self.browser.errors, [])

    def test_the_slider_moves(self):
        self.open(("threads", data("threads.report")))
        last, (left, top, right, bottom) = self.paths(), self.box("#slider")
        for kind, is_down in (("mouseMoved", False), ("mousePressed", True), ("mouseReleased", True)):
            self.browser.mouse(kind, left + (right - left) / 4, (top + bottom) / 2, is_down)
        at, most = self.browser.value("[+document.querySelector('#slider').value, picture.most]")
        self.assertAlmostEqual(at / most, 0.25, delta=0.05)
        self.assertEqual(self.browser.value("document.querySelector('#where').textContent"), f"move {at} of {most}")
        self.assertNotEqual(self.paths(), last)

    def test_play_and_pause(self):
        self.open(("threads", data("threads.report")))
        self.browser.value("picture.show(0)")
        self.browser.value("document.querySelector('#play').click()")
        self.assertEqual(self.browser.value("document.querySelector('#play').textContent"), "pause")
        end = time.monotonic() + 20
        while self.browser.value("+document.querySelector('#slider').value") < 3 and time.monotonic() < end:
            time.sleep(0.05)
        self.browser.value("document.querySelector('#play').click()")
        at = self.browser.value("+document.querySelector('#slider').value")
        self.assertGreaterEqual(at, 3)
        time.sleep(0.3)
        self.assertEqual(self.browser.value("+document.querySelector('#slider').value"), at)
        self.assertEqual(self.browser.value("document.querySelector('#play').textContent"), "play")

    def test_the_screenshot_shows_the_regions(self):
        self.open(("threads", data("threads.report")))
        self.browser.value("picture.show(200)")
        self.keep_shot("threads.png")
        image = self.regions_shot()
        self.assertGreater(image.count(OBJECT), 100)
        self.assertGreater(image.count(BIN), 1000)
        self.browser.value("picture.show(0)")
        self.assertEqual(self.regions_shot().count(OBJECT), 0)

    def test_pointing_at_a_granule_tells_what_it_holds(self):
        self.open(("calls", data("calls.report")))
        self.browser.value("picture.show(31)")  # line 31: a slab with two freed objects, and two cached blocks
        left, top, right, _ = self.box(".regions")
        scale = (right - left) / 640
        self.browser.mouse("mouseMoved", left + 5 * scale, top + 30 * scale)
        tip = self.browser.value("document.querySelector('#tip').textContent")
        self.assertEqual(tip, "granule at P0.R0+0\nslab of class 8128 at P0.R0+0, an orphan\n"
                              "2 objects: 0 held, 1 private, 1 public, 0 rest")
        self.keep_shot("tip.png")
        self.browser.mouse("mouseMoved", left + 25 * scale, top + 30 * scale)
        tip = self.browser.value("document.querySelector('#tip').textContent")
        self.assertIn("2 objects: 1 held, 0 private, 0 public, 1 rest\nheld by A: 1\nA#3 at +24640", tip)
        self.browser.mouse("mouseMoved", left + 45 * scale, top + 30 * scale)
        tip = self.browser.value("document.querySelector('#tip').textContent")
        self.assertIn("block of 2 granules in the cache of large objects", tip)

    def test_two_reports_stand_at_the_same_line(self):
        self.open(("threads", data("threads.report")), ("narrow", data("narrow.report")))
        self.browser.value("picture.show(60)")
        lines = self.browser.value("picture.panels.map(p => p.film.lines[p.shown - 1])")
        self.assertEqual(lines[0], lines[1])
        self.assertEqual(self.browser.value("document.querySelectorAll('section').length"), 2)
        self.keep_shot("two.png")
        self.assertEqual(self.browser.errors, [])

    def test_many_moves_are_drawn_in_time(self):
        self.open(("many", filled(MANY_MOVES).encode()))
        self.assertGreaterEqual(self.browser.value("picture.most"), MANY_MOVES)
        times = self.browser.value("""[...Array(41).keys()].map(i => {
            const start = performance.now();
            picture.show(i * 7919 * 13 % picture.most);
            document.body.getBoundingClientRect();
            return performance.now() - start;
        })""")
        painted = self.browser.value("""(async () => {
            const frame = () => new Promise(requestAnimationFrame), times = [];
            for (let i = 0; i < 11; i++) {
                await frame();
                const start = performance.now();
                picture.show(i * 7919 * 29 % picture.most);
                await frame();
                times.push(performance.now() - start);
            }
            return times;
        })()""")
        if os.environ.get("KEMIRONA_SCREENSHOTS"):
            print(f"redraw: middle {median(times):.1f} ms, most {max(times):.1f} ms; to the next frame: middle "
                  f"{median(painted):.1f} ms, most {max(painted):.1f} ms")
        self.assertLess(median(times), MOST_MILLISECONDS)
        self.assertLess(median(painted), MOST_MILLISECONDS)
        self.keep_shot("many.png")
        self.assertEqual(self.browser.errors, [])
