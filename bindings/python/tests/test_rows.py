"""The worked rows of the program, byte for byte."""

import unittest
from pathlib import Path

import entangle

ROWS = Path(__file__).resolve().parents[3] / "crates" / "ent_rows" / "data" / "rows"


def rows(*arguments):
    """The rows with one of these command lines: name, version asked for, status and line on standard error."""
    for entry in (ROWS / "INDEX.tsv").read_text(encoding="utf-8").splitlines()[1:]:
        name, words, status, line = entry.split("\t")[:4]
        if words in arguments:
            yield name, 2 if words.endswith("2") else 1, int(status), line


def file(name, ending):
    return (ROWS / f"{name}.{ending}").read_bytes()


def driven(text, version):
    """The report of a driver that is opened over an input and run until it can be closed."""
    with entangle.Driver(text) as driver:
        while True:
            try:
                driver.finish()
                return driver.report(version)
            except entangle.Refused:
                driver.run()


class Rows(unittest.TestCase):
    def test_runs_are_those_of_the_program(self):
        count = 0
        for name, version, status, line in rows("run", "run --report 2"):
            with self.subTest(name):
                try:
                    got, said, ended = entangle.report(file(name, "in"), version), "", 0
                except entangle.Refused as fault:
                    got, said, ended = "", str(fault), 1
                self.assertEqual((got.encode(), ended), (file(name, "out"), status))
                self.assertIn(line, ("*", said))
            count += 1
        print(f"{count} rows of a run")
        self.assertGreater(count, 100)

    def test_drivers_tell_what_the_program_does(self):
        count = 0
        for name, version, status, line in rows("run", "run --report 2"):
            with self.subTest(name):
                try:
                    got, said, ended = driven(file(name, "in"), version), "", 0
                except entangle.Refused as fault:
                    got, said, ended = "", str(fault), 1
                self.assertEqual((got.encode(), ended), (file(name, "out"), status))
                self.assertIn(line, ("*", said))
            count += 1
        self.assertGreater(count, 100)

    def test_explanations_of_faults_are_those_of_the_program(self):
        wanted = [name for name, _, status, line in rows("run --explain") if status == 1 and line == "@"]
        for name in wanted:
            with self.subTest(name):
                self.assertEqual((entangle.explain(file(name, "in")) or "").encode(), file(name, "err"))
        print(f"{len(wanted)} rows of an explanation")
        self.assertTrue(wanted)

    def test_checks_are_those_of_the_program(self):
        count = 0
        for name, _, status, _ in rows("check"):
            with self.subTest(name):
                verdict = entangle.check(file(name, "in"))
                said = "yes\n" if verdict.is_legal else f"no {verdict.line} {verdict.rule}\n"
                self.assertEqual((said.encode(), 0 if verdict.is_legal else 1), (file(name, "out"), status))
            count += 1
        print(f"{count} rows of a check")
        self.assertGreater(count, 0)
