"""tools/figures: what is counted, against numbers that were counted by hand or otherwise."""
import json
import re
import unittest
from collections import Counter

from kemirona.faults import BadInput
from kemirona.figures import Figures, figures_of
from kemirona.figures_text import as_json, as_text, call_text
from kemirona.report_text import Answer, Move, read_report
from kemirona.trace_text import Kind, read_trace

from .support import DATA, EXAMPLES, TOOLS, data, reports_of_traces, run


def figures(name: str) -> Figures:
    return figures_of(read_trace(data(f"{name}.trace")), read_report(data(f"{name}.report")))


class Calls(unittest.TestCase):
    def setUp(self):
        self.figures = figures("calls")

    def test_calls_by_kind_and_thread(self):
        self.assertEqual(self.figures.calls["A"], {Kind.MALLOC: 9, Kind.ALIGNED: 1, Kind.FREE: 2, Kind.MSIZE: 1,
                                                   Kind.EXIT: 1})
        self.assertEqual(self.figures.calls["B"], {Kind.MALLOC: 2, Kind.REALLOC: 2, Kind.AREALLOC: 1, Kind.FREE: 4,
                                                   Kind.IDENTIFY: 1})
        self.assertEqual(self.figures.not_run, {"gone": 2, "call-open": 2, "idle": 1})

    def test_nulls_by_cause(self):
        self.assertEqual(self.figures.nulls, {"bad-request": 1, "freed": 1, "no-fit": 1, "too-large": 1})

    def test_objects_by_class(self):
        found = {size: (of.objects, of.asked, of.usable) for size, of in self.figures.classes.items()}
        self.assertEqual(found, {64: (2, 110, 128), 8128: (5, 40640, 40640), None: (4, 78000, 94016)})

    def test_freed_by_strangers(self):
        self.assertEqual(self.figures.freed, {("A", "B"): 4, ("B", "B"): 2})
        self.assertEqual(self.figures.freed_by_strangers, 4)

    def test_the_peak(self):
        peak = self.figures.peak
        self.assertEqual((peak.objects, peak.move, peak.regions, peak.regions_move), (81664, 40, 147456, 32))
        self.assertEqual({kind: count for kind, count in peak.holders.items() if count}, {
            "waste": 8192, "head": 384, "rest": 8128, "private": 8128, "public": 16256, "object": 81664,
            "large-head": 128, "bin": 24576})

    def test_moves_a_call(self):
        self.assertEqual(self.figures.moves_a_call(), (0, 2, 6))
        most = self.figures.most_moved()
        self.assertEqual([(call.line, call.moves) for call in most], [
            (36, 6), (29, 5), (38, 5), (11, 4), (15, 4), (30, 4), (16, 3), (20, 3), (35, 3), (13, 2)])
        self.assertEqual(call_text(most[1].call), "e = realloc y 9000")


class Threads(unittest.TestCase):
    """The same figures, counted from the texts in another way."""

    def setUp(self):
        self.figures = figures("threads")
        self.report = read_report(data("threads.report"))

    def test_strangers_are_those_whose_moves_left_another_threads_object(self):
        found = Counter()
        for move in self.report.run:
            if isinstance(move, Move) and move.source.startswith("object:"):
                found[move.source.removeprefix("object:").split("#")[0], move.thread] += 1
        self.assertEqual(self.figures.freed, found)

    def test_objects_are_the_grants(self):
        grants = {entry.grant: entry.usable for entry in self.report.run if isinstance(entry, Answer) and entry.grant}
        self.assertEqual(sum(of.objects for of in self.figures.classes.values()), len(grants))
        self.assertEqual(sum(of.usable for of in self.figures.classes.values()), sum(grants.values()))

    def test_every_move_is_of_one_call(self):
        moves = {entry.number for entry in self.report.run if not isinstance(entry, Answer)}
        self.assertEqual(sum(call.moves for call in self.figures.moves), len(moves))


class Texts(unittest.TestCase):
    def test_a_report_without_moves(self):
        ran = run("figures", EXAMPLES / "full-pool.trace", EXAMPLES / "full-pool.report")
        self.assertEqual((ran.status, ran.err), (0, ""))
        self.assertEqual(ran.out, """\
calls by thread  malloc  all
A                   129  129
all                 129  129

nulls by cause  calls
no-fit              1

objects by class  objects    asked   usable  lost  lost of usable
8128                  128  1040384  1040384     0           0.0 %
all                   128  1040384  1040384     0           0.0 %

freed by a stranger: 0 of 0 (-)
""")

    def test_the_tables_have_the_figures(self):
        text = as_text(figures("calls"))
        for part in ("\nall                  11        1        2         1     6      1         1     1   24\n",
                     "large                   4   78000   94016  16016          17.0 %\n",
                     "A              B        4\n",
                     "objects, at move 40           81664      55.4 %\n", "a byte of object costs         1.81\n",
                     "moves a call: least 0, middle 2, most 6\n", "line 36: j = malloc 30000              6\n"):
            self.assertIn(part, text)

    def test_json(self):
        value = json.loads(as_json(figures("calls")))
        self.assertEqual(value["calls"]["B"]["free"], 4)
        self.assertEqual(value["objects"][-1],
                         {"class": None, "objects": 4, "asked": 78000, "usable": 94016, "lost": 16016})
        self.assertEqual(value["moves"]["peak"]["holders"]["public"], 16256)
        self.assertEqual(value["moves"]["calls_with_most"][0], {"line": 36, "call": "j = malloc 30000", "moves": 6})
        plain = run("figures", "--json", EXAMPLES / "one-malloc.trace", EXAMPLES / "one-malloc.report")
        self.assertIsNone(json.loads(plain.out)["moves"])

    def test_every_example_has_figures(self):
        for path in reports_of_traces(EXAMPLES):
            if not path.read_bytes().startswith(b"bad trace"):
                trace = read_trace(path.with_suffix(".trace").read_bytes())
                self.assertIn("calls by thread", as_text(figures_of(trace, read_report(path.read_bytes()))))


class ThePage(unittest.TestCase):
    """docs/from-a-program.md shows what the tools print."""

    def test_figures_of_the_stored_report(self):
        page = (TOOLS.parent / "docs" / "from-a-program.md").read_text(encoding="utf-8")
        shown = re.search(r"Among the figures are\n\n(.*?)\n\nso half", page, re.S)[1].split("\n")
        text = as_text(figures("threads"))
        for line in shown:
            self.assertIn(line.strip(), text)
        self.assertIn(f"costs {costs(as_text(figures('narrow')))} (", page)


def costs(text: str) -> str:
    """What a byte of object costs, as the tables tell it."""
    return re.search(r"a byte of object costs +([0-9.]+)", text)[1]


class BadInputs(unittest.TestCase):
    def test_reports_that_are_not_of_the_trace(self):
        head = b"threads A\npool P0\nA P0 x = malloc 8\nA P0 free x\n"
        got = b"3 got P0.R0+16376 8 A#1\n"
        for report, line in ((b"2 made\nend\n", 2), (b"2 made\n3 freed\nend\n", 2),
                             (b"2 made\n" + got + b"5 freed\nend\n", 3),
                             (b"2 made\n" + got + b"4 freed\n5 freed\nend\n", 4),
                             (b"2 made\nmove 1 A M2 P0.R0+0 8 rest object:A#1\n" + got + b"4 freed\nend\n", 2),
                             (b"2 made\n3 null raw-failed\n4 freed\nend\n", 3),
                             (b"2 made\nmove 1 B F3 P0.R0+0 8 none hand:B\n" + got + b"4 freed\nend\n", 2)):
            with self.subTest(report=report):
                with self.assertRaises(BadInput) as caught:
                    figures_of(read_trace(head), read_report(report))
                self.assertEqual(caught.exception.line, line, caught.exception.what)

    def test_one_line_and_status_2(self):
        ran = run("figures", DATA / "calls.trace", DATA / "threads.report")
        self.assertEqual((ran.status, ran.out, ran.err.count("\n")), (2, "", 1))
        self.assertIn("threads.report: line 1: ", ran.err)
        ran = run("figures", EXAMPLES / "unbound-name.trace", EXAMPLES / "one-malloc.report")
        self.assertEqual((ran.status, ran.out), (2, ""))
        self.assertIn("unbound-name.trace: line 4: no earlier line binds the name y\n", ran.err)
        self.assertEqual(run("figures", "--help").status, 0)
