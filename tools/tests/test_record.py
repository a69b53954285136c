"""tools/record, built and put under programs. Where no C compiler is there, these tests are left out."""
import os
import shutil
import signal
import subprocess
import tempfile
import unittest
from pathlib import Path

from kemirona.make_trace import make_trace
from kemirona.recordings import Did, Recording, read_recording
from kemirona.trace_builder import Wanted
from kemirona.trace_text import read_trace

from .support import DATA, TOOLS

CC = shutil.which("cc")
WARNINGS = ("-Wall", "-Wextra", "-Werror")


@unittest.skipUnless(CC, "no cc is here")
class Recorded(unittest.TestCase):
    @classmethod
    def setUpClass(cls):
        cls.place = tempfile.TemporaryDirectory()
        cls.addClassCleanup(cls.place.cleanup)
        cls.folder = Path(cls.place.name)
        cls.library, cls.threads = cls.folder / "record.so", cls.folder / "threads"
        for words in (["-shared", "-fPIC", "-o", cls.library, TOOLS / "record" / "record.c", "-ldl"],
                      ["-o", cls.threads, DATA / "threads.c"]):
            subprocess.run([CC, "-O2", *WARNINGS, "-pthread", *words], check=True)

    def setUp(self):
        self.record = Path(tempfile.mkdtemp(dir=self.folder)) / "a.rec"

    def run_recorded(self, *words: str | Path, record: str | Path | None = None) -> subprocess.CompletedProcess:
        names = {**os.environ, "LD_PRELOAD": str(self.library), "KEMIRONA_RECORD": str(record or self.record)}
        return subprocess.run(words, env=names, cwd=self.record.parent, capture_output=True, check=False)

    def read(self, path: Path | None = None) -> Recording:
        """The record, in which no number is missing and no address is got while it is held."""
        recording = read_recording((path or self.record).read_bytes())
        self.assertEqual(recording.missing, [])
        held = set()
        for event in recording.events:
            if event.did in (Did.FREED, Did.MOVES):
                held.discard(event.old or event.address)
            elif event.address:
                self.assertNotIn(event.address, held)
                held.add(event.address)
            elif event.did is Did.MOVED and event.size:
                held.add(event.old)
        read_trace(make_trace(recording, Wanted()).text.encode())
        return recording

    def test_threads_lose_nothing_however_the_program_ends(self):
        for way, status in (("return", 0), ("_exit", 0), ("kill", -signal.SIGKILL)):
            with self.subTest(way):
                done = self.run_recorded(self.threads, "4", "200", way)
                self.assertEqual((done.returncode, done.stderr), (status, b""))
                events = self.read().events
                self.assertEqual(sum(event.did is Did.ENDED for event in events), 3 * 4)
                self.assertEqual(len({event.thread for event in events}), 3 * 4 + 1)
                self.assertGreater(len(events), 3 * 4 * 200 * 2)
                self.record.unlink()

    def test_a_child_has_a_record_of_its_own(self):
        self.assertEqual(self.run_recorded(self.threads, "2", "10", "fork").returncode, 0)
        self.read()
        children = list(self.record.parent.glob("a.rec.*"))
        self.assertEqual(len(children), 1)
        first = self.read(children[0]).events[:2]
        self.assertEqual([(event.did, event.size) for event in first], [(Did.GOT, 77), (Did.FREED, 0)])

    def test_programs_begun_by_a_program(self):
        self.assertEqual(self.run_recorded("sh", "-c", "ls -d / && exec ls -d /").returncode, 0)
        self.assertGreaterEqual(len(list(self.record.parent.glob("a.rec*"))), 3)

    def test_a_program_that_closes_what_it_has_not_opened(self):
        done = self.run_recorded(self.threads, "2", "2000", "close")
        self.assertEqual((done.returncode, done.stderr), (0, b""))
        self.read()

    def test_what_is_lost_is_told(self):
        for record in ("/dev/full", self.record.parent / "none" / "a.rec"):
            done = self.run_recorded(self.threads, "2", "10", "return", record=record)
            self.assertEqual(done.returncode, 0)
            told = f"record: {record}: events are lost, since the file can't be written\n"
            self.assertEqual(done.stderr.decode(), told)
        done = self.run_recorded(self.threads, "2", "2000", "lose")
        self.assertEqual(done.returncode, 0)
        self.assertIn(b"events are lost", done.stderr)

    def test_a_file_has_a_largest_size(self):
        done = self.run_recorded("sh", "-c", f"ulimit -f 256; exec {self.threads} 2 3000 return")
        self.assertEqual(done.returncode, 0)
        self.assertIn(b"events are lost", done.stderr)

    def test_every_call_is_recorded(self):
        self.run_recorded(self.threads, "1", "300", "return")
        events = self.read().events
        self.assertEqual({event.alignment for event in events}, {None, 32, 64, 128})
        self.assertTrue(any(event.did is Did.MOVED and event.old for event in events))
        self.assertTrue(any(event.did is Did.MOVED and not event.old for event in events))  # of reallocarray
        self.assertTrue(any(event.did is Did.GOT and not event.address for event in events))  # a calloc of too much

    def test_ls(self):
        self.assertEqual(self.run_recorded("ls", "-l", "/").returncode, 0)
        self.assertGreater(len(self.read().events), 50)

    @unittest.skipUnless(shutil.which("valgrind"), "no valgrind is here")
    def test_valgrind(self):
        subprocess.run(["valgrind", "--trace-malloc=yes", f"--log-file={self.record}", "ls", "-l", "/"],
                       stdout=subprocess.DEVNULL, check=True)
        trace = read_trace(make_trace(read_recording(self.record.read_bytes()), Wanted()).text.encode())
        self.assertGreater(len(trace.lines), 50)
