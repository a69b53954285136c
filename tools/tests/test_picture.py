"""tools/picture: the page's data. test_page.py looks at the page itself."""
import json
import re
import tempfile
import unittest
from pathlib import Path

from kemirona import words
from kemirona.picture import MOST_POINTS, STACK, film_of, page_of
from kemirona.report_text import read_report

from .filler import filled
from .support import DATA, EXAMPLES, data, run


def film(name: str):
    return film_of(name, read_report(data(name)))


class Films(unittest.TestCase):
    def test_every_kind_of_holder_has_its_area(self):
        self.assertEqual(sorted(STACK), sorted(words.HOLDERS))

    def test_the_last_point_is_the_totals(self):
        found = film("calls.report")
        totals = read_report(data("calls.report")).totals
        self.assertEqual(dict(zip(STACK, found.points[-1][1:])),
                         {kind: sum(total.holders[kind] for total in totals) for kind in STACK})

    def test_steps_are_moves_and_the_end_of_a_pool(self):
        found = film("calls.report")
        self.assertEqual(len(found.steps), 68 + 1)
        self.assertEqual(len(found.lines), len(found.steps))
        at = [step[1] for step in found.steps]
        self.assertEqual(at, [*range(1, 67), 66, 67, 68])
        self.assertEqual([found.lines[i] for i in (0, 4, 11, 65, 66, 67)], [11, 12, 16, 41, 42, 45])

    def test_points_are_few(self):
        found = film_of("many", read_report(filled(3000, 1, 20).encode()))
        self.assertLessEqual(len(found.points), MOST_POINTS + 2)
        self.assertEqual(found.points[-1][0], len(found.steps))


class Pages(unittest.TestCase):
    def test_a_page_holds_its_data_and_asks_for_nothing(self):
        page = page_of([film("threads.report"), film("narrow.report")])
        value = json.loads(re.search(r'<script type="application/json" id="data">(.*?)</script>', page, re.S)[1])
        self.assertEqual([one["name"] for one in value["films"]], ["threads.report", "narrow.report"])
        self.assertNotRegex(page.replace("http://www.w3.org/2000/svg", ""), r"https?:|\bsrc=|@import|url\(")
        self.assertNotIn("<!--", page)

    def test_a_name_is_no_markup(self):
        page = page_of([film_of("</script><b>.report", read_report(data("calls.report")))])
        self.assertNotIn("<b>", page)

    def test_bad_reports_get_one_line_and_nothing_is_written(self):
        with tempfile.TemporaryDirectory() as folder:
            page, bad = Path(folder) / "a.html", Path(folder) / "bad.report"
            text = data("calls.report").decode()
            wrong_total = text.replace("bin 106496", "bin 106495")
            wrong_total = wrong_total.replace("private 0 public 64", "private 1 public 64")
            for report, what in ((wrong_total,
                                  "line 131: the total of private is 1, and the moves give 0"),
                                 (text.replace("16384 none hand:A", "16384 bin hand:A"),
                                  "line 31: more bytes leave bin than it has"),
                                 (text.replace("B M5 P0", "B M5 P9", 1), "line 15: 'P9.R0+8256' is no place")):
                bad.write_text(report, encoding="ascii")
                ran = run("picture", bad, "-o", page)
                self.assertEqual((ran.status, ran.out, ran.err.count("\n")), (2, "", 1), ran.err)
                self.assertIn(f"{bad}: {what}", ran.err)
                self.assertFalse(page.exists())

    def test_a_report_without_moves_is_refused(self):
        ran = run("picture", EXAMPLES / "one-malloc.report")
        self.assertEqual((ran.status, ran.out), (2, ""))
        self.assertIn("a report of `replay --moves` is wanted", ran.err)

    def test_words_of_the_command(self):
        self.assertEqual(run("picture", "--help").status, 0)
        self.assertEqual(run("picture").status, 2)
        self.assertEqual(run("picture", *[DATA / "calls.report"] * 3).status, 2)
        self.assertTrue(run("picture", DATA / "calls.report").out.startswith("<!DOCTYPE html>"))
