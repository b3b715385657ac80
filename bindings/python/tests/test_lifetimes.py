"""What is freed, and when: threads at exit, finalizers, signal handlers, faults. Each program runs in a process of its own."""

from __future__ import annotations

import concurrent.futures
import contextlib
import copy
import gc
import os
import pickle
import subprocess
import sys
import tracemalloc
import unittest

import hayro_jbig2
import lifetimes

BOOK = lifetimes.BOOK


class Lifetimes(unittest.TestCase):
    def run_program(self, name, times=1):
        """Runs a function of lifetimes.py, with freed memory overwritten, and returns what it wrote."""
        written = b""
        for _ in range(times):
            command = [sys.executable, lifetimes.__file__, name]
            run = subprocess.run(
                command, capture_output=True, timeout=1000, check=False, env={**os.environ, "MALLOC_PERTURB_": "165"}
            )
            self.assertEqual((run.returncode, run.stderr.decode()), (0, ""))
            written += run.stdout
        return written.decode().split()

    def test_daemon_threads_decode_at_exit(self):
        self.run_program("daemon_threads", 15)

    def test_a_handler_decodes_at_exit(self):
        self.run_program("atexit_handler", 3)

    def test_finalizers_decode_at_exit(self):
        said = self.run_program("module_teardown", 3)
        self.assertEqual(len(said), 6)
        # What is collected may meet modules that are taken apart, but no page of other pixels.
        self.assertLessEqual(set(said), {"decoded", "AttributeError", "TypeError", "ImportError"})

    def test_finalizers_of_cycles_meet_no_freed_memory(self):
        self.assertLessEqual(set(self.run_program("cycles")), {"decoded", "ValueError", "StopIteration"})

    def test_the_collector_runs_at_every_turn(self):
        self.run_program("collector_at_every_turn")

    def test_signal_handlers_decode(self):
        self.run_program("signals")

    def test_signal_handlers_that_raise_lose_no_memory(self):
        self.run_program("raising_signals")

    def test_threads_decode_damaged_pages_with_the_same_globals(self):
        self.run_program("damaged_inputs")

    def test_children_of_a_process_with_threads_decode(self):
        self.run_program("forks")

    def test_subinterpreters_decode(self):
        self.run_program("subinterpreters")

    def test_without_the_gil_globals_serve_one_thread_at_a_time(self):
        self.run_program("without_the_gil")


class Faults(unittest.TestCase):
    def test_a_fault_that_is_raised_keeps_no_file(self):
        data = bytes.fromhex("974A42320D0A1A0A 03 00000000 30 00 02 00000013 00000000 00000001") + bytes(11 + 1_000_000)
        gc.disable()
        self.addCleanup(gc.enable)
        tracemalloc.start()
        self.addCleanup(tracemalloc.stop)
        # assertRaises would clear what the fault keeps.
        with contextlib.suppress(hayro_jbig2.FormatError):
            hayro_jbig2.decode(bytearray(data), salvage=True)
        self.assertLess(tracemalloc.get_traced_memory()[0], len(data))


class Values(unittest.TestCase):
    def test_pages_are_values(self):
        pages = list(hayro_jbig2.pages(BOOK))
        self.assertEqual(len(set(pages + list(hayro_jbig2.pages(BOOK)))), 3)
        for page in pages:
            for protocol in range(pickle.HIGHEST_PROTOCOL + 1):
                self.compare(pickle.loads(pickle.dumps(page, protocol)), page)
            self.compare(copy.copy(page), page)
            self.compare(copy.deepcopy(page), page)

    def compare(self, other, page):
        self.assertEqual((other, hash(other), other.passed_over), (page, hash(page), page.passed_over))
        self.assertEqual((other.left_out, other.to_pbm(), other.rows.readonly), (page.left_out, page.to_pbm(), True))

    def test_errors_of_pages_are_copied(self):
        page = hayro_jbig2.decode(lifetimes.TEXT, salvage=True, warn=False)
        other = pickle.loads(pickle.dumps(page))
        self.assertEqual(str(other.passed_over.first.error), str(page.passed_over.first.error))
        self.assertEqual(type(other.passed_over.first.error), type(page.passed_over.first.error))
        for other in other, copy.deepcopy(page), hayro_jbig2.decode(lifetimes.TEXT, warn=False):
            self.compare(other, page)
            self.assertEqual(hash(other.passed_over), hash(page.passed_over))
        lacking = hayro_jbig2.decode(lifetimes.TEXT[:-1], warn=False)
        self.assertNotEqual(lacking.passed_over, page.passed_over)

    def test_other_processes_return_pages(self):
        with concurrent.futures.ProcessPoolExecutor(1) as processes:
            self.assertEqual(processes.submit(hayro_jbig2.decode, BOOK).result(), hayro_jbig2.decode(BOOK))
            with self.assertRaises(hayro_jbig2.NoSuchPage):
                processes.submit(hayro_jbig2.decode, BOOK, page=3).result()

    def test_globals_are_not_copied(self):
        shared = hayro_jbig2.Globals(lifetimes.GLOBALS)
        for copied in pickle.dumps, copy.deepcopy:
            with self.assertRaisesRegex(TypeError, "hand on the bytes"):
                copied(shared)
        # Both are one handle.
        self.assertEqual(hayro_jbig2.decode(lifetimes.TEXT, globals=copy.copy(shared)).rows, b"\x80")
        with self.assertRaisesRegex(TypeError, "hand on the bytes"):
            copy.copy(shared._inner)


if __name__ == "__main__":
    unittest.main()
