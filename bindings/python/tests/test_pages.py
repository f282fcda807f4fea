"""The examples of the package's page and of its description run as they stand."""

import contextlib
import io
import os
import re
import sqlite3
import tempfile
import textwrap
import unittest
from pathlib import Path

import entangle

PAGE = Path(__file__).resolve().parent.parent / "README.md"
EMBEDDING = PAGE.parent.parent.parent / "docs" / "EMBEDDING.md"


def run(code, names):
    """Runs code, and gives what it prints."""
    with contextlib.redirect_stdout(io.StringIO()) as said:
        exec(compile(code, "an example", "exec"), names)
    return said.getvalue().splitlines()


class Pages(unittest.TestCase):
    def test_the_examples_of_the_page_run(self):
        names = {}
        friends, loop, driver = re.findall(r"```python\n(.*?)```", PAGE.read_text(encoding="utf-8"), re.DOTALL)
        lonely, ends, bookings = run(friends, names)
        self.assertTrue(lonely.startswith("TicketLonely(demand=0) lonely"), lonely)
        self.assertEqual(ends.count("TicketCommitted(epoch=1, number="), 2)
        self.assertEqual(bookings, "[('Mickey', 122), ('Minnie', 122)]")
        self.assertEqual(run(loop, names), ["[True, True]"])
        self.assertEqual(run(driver, names), ["Committed(number=1, runs=1) [CountAnswer(count=1)] [(1,)]"])

    def test_the_ways_out_of_the_page_of_stores_run(self):
        program, section = re.search(
            r"```python\n(import sys\n.*?)```.*?### When the database is in the way\n(.*?)\n## ",
            EMBEDDING.read_text(encoding="utf-8"),
            re.DOTALL,
        ).groups()
        names = {}
        with tempfile.TemporaryDirectory() as folder:
            at = os.getcwd()
            os.chdir(folder)
            try:
                run(program.partition("me, friend = ")[0], names)
                entangle.stores.DurableRoom(names["TABLES"], names["SqliteStore"]("trips.sqlite")).close()
                for kind, code in re.findall(r"```(sql|python)\n(.*?)```", section, re.DOTALL):
                    if kind == "python":
                        self.assertEqual(run(code, names), re.findall("# prints: (.*)", code))
                    else:
                        with contextlib.closing(sqlite3.connect("trips.sqlite")) as database:
                            database.executescript(code)
            finally:
                os.chdir(at)
        self.assertEqual(section.count("# prints: "), 6)

    def test_the_examples_of_the_description_run(self):
        code = "\n".join(re.findall(r"^(?:    .*)?$", entangle.__doc__, re.MULTILINE))
        names = {"input": "CREATE TABLE T (a INT);"}
        self.assertEqual(run(textwrap.dedent(code), names)[0], "201 1 19")
        self.assertEqual(names["mickey"], entangle.Ticket(1))
