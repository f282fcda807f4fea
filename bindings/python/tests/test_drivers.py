"""What drivers promise."""

import copy
import pickle
import threading
import unittest

import entangle

TABLES = """CREATE TABLE Flights (fno INT, dest TEXT);
CREATE TABLE Trips (fno INT);
INSERT INTO Flights VALUES (122, 'LA');
"""


def trip(who, friend):
    """The script of somebody who flies where a friend does."""
    return f"""BEGIN TRANSACTION WITHIN 3 RUNS;
SELECT '{who}', fno INTO ANSWER Trip
  WHERE fno IN (SELECT fno FROM Flights) AND ('{friend}', fno) IN ANSWER Trip CHOOSE 1;
SELECT * FROM Flights;
SET @d = 'it''s';
DELETE FROM Trips WHERE fno = 0;
COMMIT;
"""


class Drivers(unittest.TestCase):
    def test_friends_are_answered_together(self):
        with entangle.Driver(TABLES) as driver:
            mickey = driver.submit(trip("Mickey", "Minnie"))
            driver.run()
            self.assertEqual(driver.standing(mickey), entangle.Waiting(runs=1))
            self.assertEqual(driver.answers(mickey), [])
            minnie = driver.submit(trip("Minnie", "Mickey"))
            driver.run()
            self.assertEqual(driver.standing(minnie), entangle.Committed(number=2, runs=1))
            self.assertEqual(
                driver.answers(mickey),
                [
                    entangle.EntangledAnswer((entangle.Fact("Trip", ("Mickey", 122)),)),
                    entangle.RowsAnswer(((122, "LA"),)),
                    entangle.SetAnswer("it's"),
                    entangle.CountAnswer(0),
                ],
            )
            self.assertEqual(driver.table("Flights"), [(122, "LA")])

    def test_who_finds_nobody_gives_up(self):
        with entangle.Driver(TABLES) as driver:
            eve = driver.submit(trip("Eve", "Finn"))
            for _ in range(3):
                self.assertFalse(driver.standing(eve).is_finished)
                driver.run()
            self.assertEqual(driver.standing(eve), entangle.GaveUp(runs=3))

    def test_a_fault_of_a_script_changes_nothing(self):
        with entangle.Driver(TABLES) as driver:
            for script, code, offset in [
                ("BEGIN TRANSACTION;\nINSERT INTO T VALUES (1);\nCOMMIT;", 301, 31),
                ("CREATE TABLE T (a INT);", 201, 0),
                ("BEGIN TRANSACTION; COMMIT; BEGIN TRANSACTION; COMMIT;", 201, 27),
                (b"BEGIN \xff", 100, 6),
            ]:
                with self.subTest(script), self.assertRaises(entangle.Refused) as caught:
                    driver.submit(script)
                self.assertEqual((caught.exception.code, caught.exception.offset), (code, offset))
            self.assertEqual(driver.submit("BEGIN TRANSACTION; COMMIT;"), 1)

    def test_what_is_not_there_is_refused(self):
        with entangle.Driver(TABLES) as driver:
            for call in (
                lambda: driver.standing(1),
                lambda: driver.answers(0),
                lambda: driver.table("Tours"),
                lambda: driver.table("no name"),
            ):
                with self.assertRaises(entangle.Refused) as caught:
                    call()
                self.assertEqual(caught.exception.code, 401)
            self.assertRaises(entangle.StateError, driver.report)
            driver.submit("BEGIN TRANSACTION; COMMIT;")
            with self.assertRaises(entangle.Refused) as caught:
                driver.finish()
            self.assertEqual(caught.exception.code, 405)

    def test_a_text_may_have_strange_spaces(self):
        text = "a\x85b\u2028c\u2029d"
        with entangle.Driver("CREATE TABLE T (a TEXT);") as driver:
            tx = driver.submit(f"BEGIN TRANSACTION; INSERT INTO T VALUES ('{text}'); SELECT a FROM T; COMMIT;")
            driver.run()
            self.assertEqual(driver.table("T"), [(text,)])
            self.assertEqual(driver.answers(tx)[1], entangle.RowsAnswer(((text,),)))

    def test_events_are_made_one_at_a_time(self):
        alone = """BEGIN TRANSACTION WITHIN 1 RUNS;
            SELECT 'Eve', fno INTO ANSWER R WHERE fno IN (SELECT fno FROM Flights) AND ('Finn', fno) IN ANSWER R
            CHOOSE 1; COMMIT;"""
        with entangle.Driver(TABLES) as driver:
            eve = driver.submit(alone)
            self.assertEqual(driver.why(eve), "dormant after 0, and waits for a run")
            self.assertEqual(driver.step("end run"), "not now")
            self.assertEqual(driver.step("start run"), "started")
            self.assertEqual(driver.step("begin", 2), "absent")
            self.assertEqual(driver.step("begin", eve), "posted")
            self.assertEqual(driver.step("pick"), "nothing")
            self.assertEqual(driver.step("break cycle"), "no cycle")
            self.assertIn("('Finn', _) IN ANSWER R", driver.why(eve))
            self.assertEqual(driver.step("end run"), "ended")
            self.assertEqual(driver.why(eve), "gave up after 1")
            self.assertRaises(ValueError, driver.step, "end")
            self.assertRaises(entangle.Refused, driver.why, 2)

    def test_a_closed_driver_goes_on_with_its_tables(self):
        with entangle.Driver(TABLES) as driver:
            self.assertRaises(entangle.StateError, driver.renew)
            for number in range(3):
                tx = driver.submit(f"BEGIN TRANSACTION; INSERT INTO Flights VALUES ({number}, 'LA'); COMMIT;")
                self.assertEqual(tx, 1)
                driver.run()
                driver.finish()
                driver.renew()
            self.assertEqual(driver.table("Flights"), [(0, "LA"), (1, "LA"), (2, "LA"), (122, "LA")])

    def test_a_closed_driver_has_its_report_alone(self):
        driver = entangle.Driver(TABLES)
        driver.finish()
        self.assertEqual(driver.report(), "report 1\ntable Flights 1\n(122, 'LA')\ntable Trips 0\nend\n")
        self.assertTrue(entangle.check(driver.report(2)).is_legal)
        self.assertRaises(entangle.StateError, driver.run)
        self.assertRaises(entangle.StateError, driver.table, "Flights")
        driver.close()
        driver.close()
        self.assertRaises(entangle.StateError, driver.report)

    def test_an_opening_with_a_fault_is_explained(self):
        with self.assertRaises(entangle.Refused) as caught:
            entangle.Driver("CREATE TABLE T (a INTEGER);")
        self.assertTrue(caught.exception.explanation.startswith("E201 at 18\nline 1, column 19: "))

    def test_threads_may_share_one(self):
        with entangle.Driver("CREATE TABLE T (a INT);") as driver:

            def one(number):
                driver.submit(f"BEGIN TRANSACTION; INSERT INTO T VALUES ({number}); COMMIT;")
                driver.run()

            threads = [threading.Thread(target=one, args=(number,)) for number in range(32)]
            for thread in threads:
                thread.start()
            for thread in threads:
                thread.join()
            driver.run()
            self.assertEqual(driver.table("T"), [(number,) for number in range(32)])

    def test_a_refused_script_is_explained_in_its_own_lines(self):
        with entangle.Driver(TABLES) as driver:
            for script, said in [
                (
                    "BEGIN TRANSACTION;\n-- 東\nSELECT fno FROM Flights WHERE dst = 'LA';\nCOMMIT;",
                    "E302 at 56\nline 3, column 31: Flights has no column dst\n"
                    "  SELECT fno FROM Flights WHERE dst = 'LA';\n" + 32 * " " + "^^^\ndid you mean dest?\n",
                ),
                (
                    "INSERT INTO Trips VALUES (1);",
                    "E201 at 0\nline 1, column 1: INSERT can't stand here: expected BEGIN\n"
                    "  INSERT INTO Trips VALUES (1);\n  ^^^^^^\n"
                    "a statement stands in a script: BEGIN TRANSACTION; .. COMMIT;\n",
                ),
            ]:
                with self.subTest(script), self.assertRaises(entangle.Refused) as caught:
                    driver.submit(script)
                self.assertEqual(caught.exception.explanation, said)
                self.assertEqual(driver.explain(script), said)
            self.assertIsNone(driver.explain("BEGIN TRANSACTION; COMMIT;"))
            self.assertEqual(driver.submit("BEGIN TRANSACTION; COMMIT;"), 1)
            driver.run()
            driver.finish()
            self.assertRaises(entangle.StateError, driver.explain, "BEGIN")

    def test_a_full_driver_explains_nothing(self):
        with entangle.Driver(TABLES) as driver:
            for _ in range(10_000):
                driver.submit("BEGIN TRANSACTION; COMMIT;")
            for script in ("BEGIN TRANSACTION; COMMIT;", "BEGIN TRANSACTION; SELECT * FROM U; COMMIT;"):
                with self.assertRaises(entangle.Refused) as caught:
                    driver.submit(script)
                self.assertEqual((str(caught.exception), caught.exception.explanation), ("E406", ""))

    def test_fates_are_told(self):
        with entangle.Driver("CREATE TABLE T (a INT);") as driver:
            fates = []
            for statements in ("ROLLBACK", "SET @d = 9223372036854775807 + 1; COMMIT", "COMMIT"):
                fates.append(driver.submit(f"BEGIN TRANSACTION; {statements};"))
            self.assertEqual(driver.standing(1), entangle.Waiting(runs=0))
            driver.step("start run")
            self.assertEqual(driver.standing(1), entangle.Running())
            driver.run()
            rolled_back, failed, committed = map(driver.standing, fates)
            self.assertEqual(rolled_back, entangle.RolledBack(runs=1))
            self.assertEqual(failed, entangle.Failed(entangle.Failure.OVERFLOW, runs=1))
            self.assertEqual(committed, entangle.Committed(number=1, runs=1))
            self.assertEqual((failed.failure, failed.kind, failed.is_finished), ("F1", "failed", True))
            self.assertEqual(len({rolled_back, failed, committed, driver.standing(1)}), 3)

    def test_wrong_types_are_refused(self):
        with entangle.Driver(TABLES) as driver:
            for call in (driver.submit, driver.explain, driver.table):
                for wrong in (5, None, ("a",)):
                    with self.subTest(wrong=wrong, call=call):
                        self.assertRaisesRegex(TypeError, " is a str or bytes, not ", call, wrong)
            for call in (driver.standing, driver.answers, driver.answer_lines, driver.why, driver.report):
                for wrong in ("1", None, 1.0):
                    with self.subTest(wrong=wrong, call=call):
                        self.assertRaises(TypeError, call, wrong)
            self.assertRaises(TypeError, driver.step, 1)
            self.assertRaises(TypeError, driver.step, "begin", "1")
            self.assertEqual(driver.step("end run"), "not now")

    def test_a_driver_is_neither_copied_nor_pickled(self):
        with entangle.Driver(TABLES) as driver:
            self.assertRaisesRegex(TypeError, "a driver can't be copied", copy.copy, driver)
            self.assertRaisesRegex(TypeError, "a driver can't be copied", copy.deepcopy, [driver])
            self.assertRaisesRegex(TypeError, "a driver can't be pickled", pickle.dumps, driver)
            self.assertEqual(driver.table("Trips"), [])

    def test_too_many_rows_are_not_renewed(self):
        rows = "".join(f"INSERT INTO T VALUES ({row});" for row in range(65_536))
        with entangle.Driver(f"CREATE TABLE T (a INT); CREATE TABLE U (a INT); {rows}") as driver:
            driver.submit("BEGIN TRANSACTION; INSERT INTO U VALUES (1); COMMIT;")
            driver.run()
            driver.finish()
            with self.assertRaises(entangle.Refused) as caught:
                driver.renew()
            self.assertEqual(str(caught.exception), "E407")

    def test_a_number_of_any_size_is_no_transaction(self):
        with entangle.Driver(TABLES) as driver:
            for tx in (0, -1, 1, 2**64, 2**64 + 1, 10**40):
                self.assertRaises(entangle.Refused, driver.standing, tx)
