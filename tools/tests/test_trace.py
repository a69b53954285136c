"""tools/trace: records become traces."""
import tempfile
import unittest
from pathlib import Path

from kemirona.faults import BadInput
from kemirona.make_trace import Made, make_trace
from kemirona.recordings import Recorder, read_recording
from kemirona.report_text import Answer, read_report
from kemirona.trace_builder import Wanted
from kemirona.trace_text import read_trace

from .support import DATA, data, run

HEAD = "kemirona-record 1 77\n"


def made(text: str | bytes, **wanted) -> Made:
    """The trace of a record, which is read once more."""
    raw = text if isinstance(text, bytes) else text.encode()
    result = make_trace(read_recording(raw), Wanted(**wanted))
    read_trace(result.text.encode())
    return result


def calls(text: str | bytes, **wanted) -> list[str]:
    return [line for line in made(text, **wanted).text.splitlines()[2:] if not line.startswith("#")]


class Recorders(unittest.TestCase):
    def test_valgrind(self):
        lines = calls(data("calls.valgrind"))
        self.assertEqual(lines[:8], ["T1 P0 v1 = malloc 100", "T1 P0 v2 = realloc v1 300", "T1 P0 v3 = malloc 15",
                                     "T1 P0 free v2", "T1 P0 v4 = aligned 100 64", "T1 P0 v5 = aligned 256 128",
                                     "T1 P0 v6 = aligned 77 32", "T1 P0 v7 = realloc v3 0"])
        self.assertEqual(lines[9], "T1 P0 v9 = realloc null 100")
        self.assertEqual(len(lines), 20)

    def test_valgrind_of_cpp_and_of_children(self):
        lines = calls("==7== Memcheck\n--7-- _Znwm(4) = 0x10\n--7-- _Znam(120) = 0x20\n--7-- _ZdlPvm(0x10)\n"
                      "--7-- _ZnwmSt11align_val_t(size 128, al 64) = 0x40\n--8-- free(0x20)\n"
                      "--7-- malloc_usable_size(0x20) = 120\n--7-- _ZdaPv(0x20)\n")
        self.assertEqual(lines, ["T1 P0 v1 = malloc 4", "T1 P0 v2 = malloc 120", "T1 P0 free v1",
                                 "T1 P0 v3 = aligned 128 64", "T1 P0 free v2"])
        self.assertIn("1 events of other processes than 7", made("--7-- malloc(4) = 0x10\n--8-- free(0x20)\n").note)

    def test_mtrace(self):
        lines = calls(data("calls.mtrace"))
        self.assertEqual(lines[:4], ["T1 P0 v1 = malloc 100", "T1 P0 v2 = realloc v1 300", "T1 P0 v3 = malloc 15",
                                     "T1 P0 free v2"])
        self.assertEqual(len(lines), 20)

    def test_the_threads_record_gives_the_stored_trace(self):
        self.assertEqual(made(data("threads.record")).text, data("threads.trace").decode())

    def test_every_free_of_the_stored_trace_was_of_a_held_object(self):
        answers = [entry.word for entry in read_report(data("threads.report")).run if isinstance(entry, Answer)]
        self.assertEqual(set(answers), {"made", "got", "freed", "exited"})

    def test_numbers_give_the_order_and_tell_what_is_missing(self):
        text = HEAD + "2 1 malloc 8 0x20\n4 2 free 0x10\n1 1 malloc 9 0x10\n7 2 malloc 10 0x10\n"
        self.assertEqual(calls(text), ["T1 P0 v1 = malloc 9", "T1 P0 v2 = malloc 8", "T2 P0 free v1",
                                       "T2 P0 v3 = malloc 10"])
        self.assertIn("3 numbers of events, which the recorder could not write", made(text).note)

    def test_an_address_that_comes_again_within_a_realloc(self):
        text = HEAD + ("1 1 malloc 8 0x10\n2 1 malloc 9 0x30\n5 1 realloc 3 0x10 99 0x20\n4 2 malloc 7 0x10\n"
                       "6 2 free 0x10\n")
        self.assertEqual(calls(text), ["T1 P0 v1 = malloc 8", "T1 P0 v2 = malloc 9", "T2 P0 v3 = malloc 7",
                                       "T1 P0 v4 = realloc v1 99", "T2 P0 free v3"])

    def test_a_failed_realloc_leaves_the_object(self):
        text = HEAD + "1 1 malloc 8 0x10\n3 1 realloc 2 0x10 99 0x0\n4 1 free 0x10\n"
        self.assertEqual(calls(text), ["T1 P0 v1 = malloc 8", "T1 P0 free v1"])

    def test_what_was_got_before_the_record_began(self):
        result = made(HEAD + "1 1 free 0x10\n3 1 realloc 2 0x20 99 0x30\n4 1 free 0x30\n5 1 free 0x0\n")
        self.assertEqual(result.text.splitlines()[2:], ["T1 P0 v1 = malloc 99", "T1 P0 free v1"])
        self.assertIn("1 frees of what was got before the record began", result.note)
        self.assertIn("1 frees of null", result.note)
        self.assertIn("written: 1 reallocs of what was got before", result.note)

    def test_a_free_that_the_record_lacks(self):
        result = made(HEAD + "1 1 malloc 8 0x10\n2 1 malloc 9 0x10\n")
        self.assertEqual(result.text.splitlines()[2:], ["T1 P0 v1 = malloc 8", "T1 P0 free v1", "T1 P0 v2 = malloc 9"])
        self.assertIn("1 frees that the record lacks", result.note)

    def test_what_pools_refuse_and_c_libraries_serve(self):
        text = HEAD + "1 1 aligned 0 16 0x10\n2 1 aligned 100 24 0x20\n3 1 malloc 0 0x30\n5 1 realloc 4 0x30 0 0x40\n"
        self.assertEqual(calls(text), ["T1 P0 v1 = aligned 1 16", "T1 P0 v2 = aligned 100 32", "T1 P0 v3 = malloc 0",
                                       "T1 P0 v4 = realloc v3 1"])


class Wishes(unittest.TestCase):
    def test_pool_options_stand_in_the_pool_line(self):
        text = made(HEAD + "1 1 malloc 8 0x10\n", pool=("fixed", "region=65536")).text
        self.assertIn("\npool P0 fixed region=65536\n", text)

    def test_threads_are_folded(self):
        mallocs = "".join(f"{n} {n} malloc 8 {16 * n:#x}\n" for n in range(1, 6))
        text = HEAD + mallocs + "6 1 end\n7 3 end\n8 5 end\n9 2 end\n"
        self.assertEqual([line.split()[0] for line in calls(text, threads=2)],
                         ["T1", "T2", "T1", "T2", "T1", "T1"])
        self.assertEqual(calls(text, threads=2)[-1], "T1 P0 exit")  # its last thread has ended; one of T2's has not
        self.assertEqual(len(calls(text)), 9)

    def test_plain_is_mallocs_and_frees_of_one_thread(self):
        text = HEAD + ("1 1 malloc 100 0x10\n2 2 aligned 100 256 0x20\n4 1 realloc 3 0x10 112 0x10\n"
                       "5 1 malloc 9000 0x30\n7 2 realloc 6 0x10 113 0x40\n8 1 free 0x30\n9 2 end\n"
                       "11 1 realloc 10 0x40 0 0x0\n"
                       "13 1 realloc 12 0x20 9000 0x50\n15 1 realloc 14 0x50 10 0x60\n")
        result = made(text, is_plain=True, pool=("fixed",))
        self.assertEqual(result.text.splitlines(), [
            "threads T1", "pool P0 fixed", "T1 P0 v1 = malloc 100", "T1 P0 v2 = malloc 256", "T1 P0 v3 = malloc 113",
            "T1 P0 free v1", "T1 P0 free v3", "T1 P0 free v2", "T1 P0 v4 = malloc 10"])
        self.assertIn("2 requests that no class serves", result.note)

    def test_requests_above_a_size_are_left_out_with_their_frees(self):
        text = HEAD + ("1 1 malloc 100 0x10\n2 1 malloc 101 0x20\n3 1 free 0x20\n5 1 realloc 4 0x10 300 0x30\n"
                       "6 1 free 0x30\n")
        self.assertEqual(calls(text, largest=100), ["T1 P0 v1 = malloc 100", "T1 P0 free v1"])


class Limits(unittest.TestCase):
    def cut(self, result: Made, count: int, line: int, left_out: int):
        """The trace has so many lines, and its last one tells where it was cut, as the note does."""
        lines = result.text.splitlines()
        self.assertEqual(len(lines), count)
        self.assertTrue(lines[-1].startswith(f"# cut at line {line} of the record, since "), lines[-1])
        self.assertIn(f": {left_out} of ", lines[-1])
        self.assertIn(lines[-1][2:], result.note)

    def test_lines(self):
        text = HEAD + "".join(f"{n} 1 malloc 8 {16 * n:#x}\n" for n in range(1, 11))
        self.assertEqual(len(made(text, lines=12).text.splitlines()), 12)
        self.cut(made(text, lines=11), 11, 10, 2)
        self.cut(made(text, lines=3), 3, 2, 10)

    def test_an_event_of_two_lines_is_cut_whole(self):
        text = HEAD + "1 1 malloc 8 0x10\n2 1 malloc 8 0x20\n4 1 realloc 3 0x10 900 0x30\n5 1 free 0x30\n"
        for lines in (6, 5):
            result = made(text, lines=lines, is_plain=True)
            self.assertNotIn("900", result.text)

    def test_the_most_lines(self):
        text = HEAD + "".join(f"{2 * n + 1} 1 malloc 8 0x10\n{2 * n + 2} 1 free 0x10\n" for n in range(33000))
        self.cut(made(text), 65536, 65535, 66000 - 65533)

    def test_threads(self):
        text = HEAD + "".join(f"{n} {n} malloc 8 {16 * n:#x}\n" for n in range(1, 70))
        self.cut(made(text), 67, 66, 5)
        self.assertEqual(len(calls(text, threads=64)), 69)

    def test_the_room_of_a_pool(self):
        text = HEAD + "".join(f"{n} 1 malloc 1000000 {16 * n:#x}\n" for n in range(1, 12))
        self.cut(made(text), 11, 10, 3)
        self.cut(made(text, pool=("fixed",)), 4, 3, 10)
        self.cut(made(HEAD + "1 1 malloc 18446744073709551615 0x10\n"), 3, 2, 1)

    def test_room_comes_back(self):
        text = HEAD + "".join(f"{2 * n + 1} 1 malloc 8000000 0x10\n{2 * n + 2} 1 free 0x10\n" for n in range(20))
        self.assertEqual(len(calls(text)), 40)


class BadRecords(unittest.TestCase):
    def refused(self, text: str, line: int, recorder: Recorder | None = None):
        with self.assertRaises(BadInput) as caught:
            read_recording(text.encode("latin-1"), recorder)
        self.assertEqual(caught.exception.line, line, caught.exception.what)

    def test_lines_that_no_recorder_writes(self):
        for text, line in (("", 1), ("hello\n", 1), (HEAD, 1), (HEAD + "1 1 malloc 8\n", 2),
                           (HEAD + "1 1 free zz\n", 2),
                           (HEAD + "1 1 free 0x8\n1 1 free 0x9\n", 3), (HEAD + "2 1 realloc 2 0x0 8 0x8\n", 2),
                           (HEAD + "1 1 malloc -8 0x8\n", 2), ("kemirona-record 2 7\n1 1 free 0x8\n", 1),
                           ("= Start\n@ ./a:[0x1] + 0x10\n", 2), ("= Start\n> 0x10 0x8\n", 2), ("= Start\nhello\n", 2),
                           ("= Start\n< 0x10\n- 0x10\n", 3), ("= Start\n= End\n", 2), ("==7== Memcheck\n", 1),
                           ("--7-- malloc(8) = 0x10\n--7-- malloc(8 = 0x20\n", 2), ("--7-- calloc(8) = nil\n", 1)):
            with self.subTest(text=text):
                self.refused(text, line)

    def test_one_line_status_2_and_nothing_written(self):
        with tempfile.TemporaryDirectory() as folder:
            record, trace = Path(folder) / "bad.rec", Path(folder) / "bad.trace"
            record.write_text(HEAD + "1 1 malloc 8\n", encoding="ascii")
            ran = run("trace", record, "-o", trace)
            self.assertEqual((ran.status, ran.out), (2, ""))
            self.assertEqual(ran.err, f"trace: {record}: line 2: '1 1 malloc 8' is no event\n")
            self.assertFalse(trace.exists())
            ran = run("trace", Path(folder) / "none")
            self.assertEqual((ran.status, ran.out, ran.err.count("\n")), (2, "", 1))

    def test_words_of_the_command(self):
        self.assertEqual(run("trace", "--help").status, 0)
        for words in ((), ("--lines", "65537"), ("--fold", "0"), ("--pool", "fixed fixed"), ("--pool", "large")):
            with self.subTest(words=words):
                self.assertEqual(run("trace", *words, *([DATA / "calls.mtrace"] if words else [])).status, 2)

    def test_the_command_writes_what_it_made(self):
        ran = run("trace", "--pool", "fixed region=65536", "-", text=data("calls.mtrace").decode())
        self.assertEqual(ran.status, 0)
        self.assertTrue(ran.out.startswith("threads T1\npool P0 fixed region=65536\nT1 P0 v1 = malloc 100\n"))
        self.assertEqual(ran.err, "trace: 20 calls of 1 thread; left out: 2 calls that got nothing\n")
