"""The readers of traces and reports, and the sizes."""
import re
import unittest

from kemirona import sizes
from kemirona.faults import BadInput
from kemirona.report_text import Answer, KeeperMove, Move, RegionEnd, read_report
from kemirona.trace_text import Act, Kind, read_trace
from kemirona.words import Grant, Place

from .support import DATA, EXAMPLES, data, reports_of_traces

NOT_SERVED = "12"  # the kind of lines that are well spelled


class Examples(unittest.TestCase):
    def test_what_the_program_refuses_is_refused_at_the_same_line(self):
        for path in reports_of_traces(EXAMPLES):
            found = re.fullmatch(rb"bad trace line (\d+) kind (\d+)\n", path.read_bytes())
            trace = path.with_suffix(".trace").read_bytes()
            with self.subTest(path.name):
                if found and found[2].decode() != NOT_SERVED:
                    with self.assertRaises(BadInput) as caught:
                        read_trace(trace)
                    self.assertEqual(caught.exception.line, int(found[1]))
                else:
                    read_trace(trace)

    def test_every_report_is_read_and_answers_its_trace(self):
        for path in reports_of_traces(EXAMPLES) + reports_of_traces(DATA):
            if path.read_bytes().startswith(b"bad trace"):
                continue
            with self.subTest(path.name):
                trace = read_trace(path.with_suffix(".trace").read_bytes())
                report = read_report(path.read_bytes())
                answered = [entry.line for entry in report.run if isinstance(entry, Answer)]
                self.assertEqual(answered, list(trace.lines))


class Traces(unittest.TestCase):
    def test_lines_are_read(self):
        trace = read_trace(b"threads A B\npool P0 gran=1\n\n# a note\n"
                           b"begin B P0 y = arealloc P0.R1+8 9 16\nfinish B P0\n")
        self.assertEqual(trace.threads, ["A", "B"])
        begin = trace.lines[5]
        self.assertEqual((begin.act, begin.thread, begin.pool), (Act.BEGIN, "B", 0))
        self.assertEqual((begin.call.kind, begin.call.name, begin.call.what, begin.call.size, begin.call.alignment),
                         (Kind.AREALLOC, "y", Place(0, 1, 8), 9, 16))
        self.assertEqual(trace.lines[6].act, Act.FINISH)

    def test_bad_lines_are_refused(self):
        head = b"threads A\npool P0\nA P0 x = malloc 8\n"
        for line in (b"A P0 free y", b"A P0 x = malloc 8", b"A P1 free x", b"B P0 free x", b"A P0 free",
                     b"A P0 y = free x",
                     b"A P0 y = malloc 01", b"A P0 y = malloc 18446744073709551616", b"A P0 free x x", b" A P0 free x",
                     b"A P0 free  x", b"A P0 y = realloc y 8", b"pool P0", b"pool P1 fixed fixed",
                     b"pool P1 span=4294967296", b"pool P1 other", b"threads B", b"step A P0 0", b"upto A P0 M9",
                     b"raw P0 get 1", b"reset", b"a b",
                     b"A P0 msize P0.R4194304+0", b"A P0 null = malloc 8", b"A P0 free \xff", b"# " + b"x" * 1023):
            with self.subTest(line=line):
                with self.assertRaises(BadInput) as caught:
                    read_trace(head + line + b"\nA P0 exit\n")
                self.assertEqual(caught.exception.line, 4)

    def test_limits_are_kept(self):
        with self.assertRaises(BadInput) as caught:
            read_trace(b"\n" * 65537)
        self.assertEqual(caught.exception.line, 65537)
        with self.assertRaises(BadInput):
            read_trace(b"threads " + b" ".join(b"A%d" % n for n in range(65)) + b"\n")
        with self.assertRaises(BadInput):
            read_trace(b"#" * 1000 + b"\n" * 4194304)


class Reports(unittest.TestCase):
    def test_entries_are_read(self):
        report = read_report(data("calls.report"))
        moves = [entry for entry in report.run if isinstance(entry, Move)]
        self.assertEqual((moves[3].number, moves[3].thread, moves[3].row, moves[3].place, moves[3].bytes),
                         (3, "A", "F8", Place(0, 0, 128), 16256))
        self.assertEqual((moves[4].source, moves[4].target), ("rest", "object:A#1"))
        keepers = [entry.target for entry in report.run if isinstance(entry, KeeperMove)]
        self.assertEqual(keepers, ["orphan", "orphan", "hand:A", "hand:A", "A", "A"])
        self.assertEqual([entry.word for entry in report.run if isinstance(entry, RegionEnd)], ["returned"])
        self.assertEqual([total.pool for total in report.totals], [0, 2])
        self.assertEqual(report.leaks[0].grant, Grant("A", 4))
        self.assertTrue(report.has_moves)

    def test_bad_reports_are_refused(self):
        good = ["2 made", "move 1 A F3 P0.R0+0 16384 none hand:A", "3 got P0.R0+16272 112 A#1", "end"]
        for line, change in ((1, "2 mad"), (1, "x made"), (2, "move 2 A F3 P0.R0+0 16384 none hand:A"),
                             (2, "move 1 A F3 P0.R0+0 16384 none hand:A left"),
                             (2, "move 1 A F3 P0.R0+0 0 none hand:A"),
                             (2, "move 1 A F11 P0.R0+0 16384 none hand:A"), (2, "move 1 A F3 P0.R0+0 16384 none mine"),
                             (2, "keeper 1 A O5 P0.R0+0 A none"), (3, "2 freed"), (3, "3 got P0.R0+16272 112 A"),
                             (3, "3 null no-memory"), (3, "total P0 regions 1 bytes 8 waste 7"), (4, "3 freed"),
                             (4, "endd")):
            lines = good[:line - 1] + [change] + good[line:]
            with self.subTest(change=change):
                with self.assertRaises(BadInput) as caught:
                    read_report(("\n".join(lines) + "\n").encode())
                self.assertEqual(caught.exception.line, line)

    def test_a_refusal_is_no_report(self):
        with self.assertRaisesRegex(BadInput, "bad trace line 3 kind 5"):
            read_report(b"bad trace line 3 kind 5\n")
        for text in (b"", b"2 made\n", b"2 made\nend"):
            with self.assertRaises(BadInput):
                read_report(text)


class Sizes(unittest.TestCase):
    def test_what_requests_are_served_as(self):
        for size, alignment, small, count in ((0, None, True, 8), (100, None, True, 112), (8128, None, True, 8128),
                                              (8129, None, False, 16384), (100, 256, True, 256),
                                              (8128, 64, True, 8128),
                                              (8128, 128, False, 16384), (100000, 65536, False, 172032)):
            with self.subTest(size=size, alignment=alignment):
                self.assertEqual(sizes.served(size, alignment), sizes.Served(count, small))
        self.assertIsNone(sizes.served(0, 16))
        self.assertIsNone(sizes.served(8, 24))

    def test_usable_bytes_of_the_reports_small_objects(self):
        for name in ("calls", "threads", "narrow"):
            trace, report = read_trace(data(f"{name}.trace")), read_report(data(f"{name}.report"))
            for answer in report.run:
                line = trace.lines[answer.line] if isinstance(answer, Answer) else None
                if line and answer.word == "got" and line.call and line.call.kind in (Kind.MALLOC, Kind.ALIGNED):
                    served = sizes.served(line.call.size, line.call.alignment)
                    self.assertTrue(not served.is_small or served.bytes == answer.usable, line)
