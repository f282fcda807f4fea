"""What turns promise, over files. tools/check failover tries those of PostgreSQL, and turns with rooms behind them."""

import copy
import os
import pickle
import select
import signal
import subprocess
import sys
import tempfile
import time
import unittest
from contextlib import suppress

from entangle import stores
from entangle.stores import PostgresTurn, SqliteTurn, Turn

# A process that says when it has the turn, and then keeps it until it is killed.
HOLDER = """
import sys, time
from entangle.stores import SqliteTurn
turn = SqliteTurn(sys.argv[1], "trips")
print("waits", flush=True)
turn.take()
print("turn", flush=True)
time.sleep(600)
"""
PACKAGE = os.path.dirname(os.path.dirname(os.path.abspath(__file__)))


class Turns(unittest.TestCase):
    def setUp(self):
        folder = tempfile.TemporaryDirectory()
        self.addCleanup(folder.cleanup)
        self.folder, self.path = folder.name, os.path.join(folder.name, "trips.sqlite")

    def turn(self, name="trips"):
        turn = SqliteTurn(self.path, name)
        self.addCleanup(turn.give)
        return turn

    def holder(self):
        """A process that waits for the turn."""
        env = {**os.environ, "PYTHONPATH": PACKAGE}
        words = [sys.executable, "-B", "-c", HOLDER, self.path]
        process = subprocess.Popen(words, stdout=subprocess.PIPE, bufsize=0, env=env)
        self.addCleanup(process.stdout.close)
        self.addCleanup(process.wait)
        self.addCleanup(process.kill)
        self.assertEqual(process.stdout.readline(), b"waits\n")
        return process

    def says(self, processes, seconds=30):
        """Those of the processes that say something within so many seconds, as soon as one does."""
        pipes = {process.stdout: process for process in processes}
        return [pipes[pipe] for pipe in select.select(list(pipes), [], [], seconds)[0]]

    def test_one_has_the_turn(self):
        first, second = self.turn(), self.turn()
        self.assertFalse(first.keep())
        self.assertTrue(first.take())
        self.assertTrue(first.take())
        self.assertTrue(first.keep())
        begun = time.monotonic()
        self.assertFalse(second.take(0))
        self.assertLess(time.monotonic() - begun, 0.2)
        self.assertFalse(second.take(0.3))
        self.assertGreaterEqual(time.monotonic() - begun, 0.3)
        self.assertFalse(second.keep())
        first.give()
        self.assertFalse(first.keep())
        self.assertTrue(second.take(0))
        self.assertFalse(first.take(0))
        second.give()
        second.give()

    def test_with_takes_and_gives(self):
        first, second = self.turn(), self.turn()
        with first as turn:
            self.assertIs(turn, first)
            self.assertFalse(second.take(0))
        self.assertFalse(first.keep())
        self.assertTrue(second.take(0))

    def test_each_store_of_a_file_has_a_turn(self):
        self.assertTrue(self.turn().take(0))
        self.assertTrue(self.turn("seats").take(0))
        self.assertFalse(self.turn("seats").take(0))

    def test_a_turn_stays_that_of_its_file(self):
        """Whatever the folder is in which the process works later."""
        before = os.getcwd()
        self.addCleanup(os.chdir, before)
        os.chdir(self.folder)
        relative = SqliteTurn("trips.sqlite", "trips")
        self.addCleanup(relative.give)
        os.chdir(before)
        self.assertTrue(relative.take(0))
        self.assertFalse(self.turn().take(0))

    def test_a_file_that_was_removed(self):
        first, second = self.turn(), self.turn()
        self.assertTrue(first.take(0))
        os.remove(f"{self.path}.trips.turn")
        self.assertFalse(first.keep())
        self.assertTrue(second.take(0))
        self.assertFalse(first.take(0))

    def test_who_is_killed_has_no_turn(self):
        first = self.holder()
        self.assertEqual(self.says([first]), [first])
        second = self.holder()
        self.assertEqual(self.says([second], 0.3), [])
        first.kill()
        self.assertEqual(self.says([second]), [second])

    def test_who_stands_still_keeps_the_turn(self):
        first = self.holder()
        self.assertEqual(self.says([first]), [first])
        first.send_signal(signal.SIGSTOP)
        self.assertFalse(self.turn().take(0.3))
        first.send_signal(signal.SIGCONT)
        self.assertFalse(self.turn().take(0.3))

    def test_of_nine_who_wait_one_takes_over(self):
        first = self.holder()
        self.says([first])
        nine = [self.holder() for _ in range(9)]
        self.assertEqual(self.says(nine, 0.3), [])
        first.kill()
        (then,) = self.says(nine)
        self.assertEqual(then.stdout.readline(), b"turn\n")
        nine.remove(then)
        self.assertEqual(self.says(nine, 0.5), [])

    def test_a_forked_process_has_no_turn(self):
        """Neither has it, nor does it hold the file once its parent has given the turn."""
        turn = self.turn()
        self.assertTrue(turn.take(0))
        heard, said = os.pipe()
        self.addCleanup(os.close, heard)
        self.addCleanup(os.close, said)
        child = os.fork()
        if not child:
            with suppress(BaseException):
                os.write(said, b"no" if not turn.keep() and not turn.take(0) else b"yes")
                time.sleep(600)
            os._exit(1)
        try:
            self.assertEqual(os.read(heard, 9), b"no")
            self.assertTrue(turn.keep())
            self.assertFalse(self.turn().take(0))
            turn.give()
            self.assertTrue(self.turn().take(0))
            self.assertEqual(os.waitpid(child, os.WNOHANG), (0, 0))
        finally:
            os.kill(child, signal.SIGKILL)
            os.waitpid(child, 0)

    def test_a_file_that_cannot_be_made(self):
        with self.assertRaises(stores.StoreFailed) as raised:
            SqliteTurn(os.path.join(self.folder, "nowhere", "trips.sqlite"), "trips").take()
        self.assertIsInstance(raised.exception.__cause__, FileNotFoundError)

    def test_a_turn_is_one_thing(self):
        for turn in (self.turn(), *self.of_postgres("host=/nowhere")):
            for copied in (copy.copy, copy.deepcopy, pickle.dumps):
                self.assertRaises(TypeError, copied, turn)

    def of_postgres(self, dsn, **how):
        """A turn of PostgreSQL, or nothing where psycopg isn't there, which it says."""
        try:
            return [PostgresTurn(dsn, "trips", **how)]
        except stores.StoreError as error:
            self.assertIn("psycopg", str(error))
            return []

    def test_what_no_turn_can_be(self):
        for name in ("", "Trips", "1", "a b", 41 * "a"):
            self.assertRaises(ValueError, SqliteTurn, self.path, name)
            self.assertRaises(ValueError, PostgresTurn, "", name)
        for lease in (0, 0.9, -1, float("nan"), float("inf"), 86_401):
            with self.assertRaises(ValueError):
                PostgresTurn("", "trips", lease=lease)

    def test_a_server_that_is_not_there(self):
        for turn in self.of_postgres("host=/nowhere port=1,2"):
            begun = time.monotonic()
            with self.assertLogs("entangle", "WARNING") as logged:
                self.assertFalse(turn.take(0.5))
            self.assertEqual(len(logged.output), 1)
            self.assertGreaterEqual(time.monotonic() - begun, 0.5)
            self.assertFalse(turn.keep())
            turn.give()

    def test_a_turn_is_what_the_protocol_says(self):
        turn: Turn = self.turn()
        with turn:
            self.assertTrue(turn.keep())


if __name__ == "__main__":
    unittest.main()
