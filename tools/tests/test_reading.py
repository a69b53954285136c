"""The list of what has to be read to believe the headline."""
import re
import unittest

from kemirona import reading
from kemirona.faults import BadInput

from .support import run


class Reading(unittest.TestCase):
    def test_the_page_lists_what_the_headline_leads_to(self):
        page = reading.PAGE.read_text(encoding="utf-8")
        self.assertEqual(reading.table(page), reading.table_anew(page), "run tools/reading --write")

    def test_the_tool_prints_the_table(self):
        done = run("reading")
        self.assertEqual((done.status, done.err), (0, ""))
        self.assertEqual(done.out.splitlines(), reading.table(reading.PAGE.read_text(encoding="utf-8")))

    def test_a_file_that_no_row_lists_is_told(self):
        page = re.sub(r", Suits \d+", "", reading.PAGE.read_text(encoding="utf-8"))
        with self.assertRaisesRegex(BadInput, "machine: Suits"):
            reading.table_anew(page)

    def test_a_row_is_counted_anew(self):
        row = reading.read_row("| legal answers | `machine`: Suits 1, Looks 2; `size_classes`: Served 3 | 6 |")
        self.assertEqual(row.text(), "| legal answers | `machine`: Suits 1, Looks 2; `size_classes`: Served 3 | 6 |")
        anew = reading.counted_anew(row, {("machine", "Suits"): 10, ("size_classes", "Served"): 5})
        self.assertEqual(anew.text(), "| legal answers | `machine`: Suits 10; `size_classes`: Served 5 | 15 |")
