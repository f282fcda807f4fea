"""What the calls without a driver promise beside the rows, and the errors of the package."""

import copy
import pickle
import threading
import unittest

import entangle


class Calls(unittest.TestCase):
    def test_a_fault_has_its_place(self):
        with self.assertRaises(entangle.Refused) as caught:
            entangle.report("CREATE TABLE T (a INT);\nINSERT INTO T VALUES ('東', b);")
        fault = caught.exception
        self.assertEqual((fault.code, fault.offset, fault.line, fault.column), (201, 53, 2, 28))
        self.assertEqual(str(fault), "E201 at 53")
        self.assertTrue(fault.explanation.startswith("E201 at 53\nline 2, column 28: "))

    def test_an_input_that_is_too_long_has_no_place(self):
        with self.assertRaises(entangle.Refused) as caught:
            entangle.report(b" " * 16_777_217)
        self.assertEqual((caught.exception.code, caught.exception.offset), (105, None))

    def test_another_version_is_refused(self):
        self.assertRaises(ValueError, entangle.report, "", 3)

    def test_a_report_longer_than_the_first_buffer_comes_whole(self):
        rows_of_t = "".join(f"INSERT INTO T VALUES ({number});\n" for number in range(500))
        text = f"CREATE TABLE T (a INT);\n{rows_of_t}" + 20 * "BEGIN TRANSACTION;\nSELECT a FROM T;\nCOMMIT;\n"
        told = entangle.report(text)
        self.assertGreater(len(told), 2 * len(text))
        self.assertTrue(told.endswith("end\n"))

    def test_an_input_without_a_fault_has_nothing_to_explain(self):
        self.assertIsNone(entangle.explain(""))

    def test_calls_may_be_made_from_many_threads(self):
        text = "CREATE TABLE T (a INT);\nBEGIN TRANSACTION;\nINSERT INTO T VALUES (1);\nCOMMIT;\n"
        alone, got = entangle.report(text, 2), []
        threads = [threading.Thread(target=lambda: got.append(entangle.report(text, 2))) for _ in range(8)]
        for thread in threads:
            thread.start()
        for thread in threads:
            thread.join()
        self.assertEqual(got, 8 * [alone])
        self.assertTrue(entangle.check(alone).is_legal)

    def test_wrong_types_are_refused(self):
        for wrong in (5, None, ["a"], 1.5, object()):
            for call in (entangle.report, entangle.explain, entangle.check, entangle.Driver):
                with self.subTest(wrong=wrong, call=call):
                    self.assertRaisesRegex(TypeError, " is a str or bytes, not ", call, wrong)
        for version in ("1", None, 1.0):
            self.assertRaises(TypeError, entangle.report, "", version)

    def test_texts_come_in_several_types(self):
        text = "CREATE TABLE T (a TEXT);\nINSERT INTO T VALUES ('東');\n"
        given = text.encode()
        for one in (given, bytearray(given), memoryview(given)):
            self.assertEqual(entangle.report(one), entangle.report(text))
        with self.assertRaises(entangle.Refused) as caught:
            entangle.report("-- \ud800")
        self.assertEqual((caught.exception.code, caught.exception.offset), (100, 3))

    def test_the_library_says_its_version(self):
        version, _, how = entangle.library_version().partition(", ")
        self.assertEqual(version, entangle.__version__)
        self.assertRegex(how, r"\A(proved by logic [0-9a-f]{16}|built without proof)\Z")


class Errors(unittest.TestCase):
    def test_all_have_one_base(self):
        for error in (entangle.Refused, entangle.OutOfMemory, entangle.StateError, entangle.LibraryError):
            self.assertTrue(issubclass(error, entangle.Error) and issubclass(entangle.Error, Exception))
        for error in (entangle.Refused, entangle.OutOfMemory):
            self.assertTrue(issubclass(error, entangle.Fault))
        self.assertTrue(issubclass(entangle.OutOfMemory, MemoryError))
        self.assertTrue(issubclass(entangle.LibraryError, ImportError))
        memory = entangle.OutOfMemory()
        self.assertEqual((str(memory), memory.code, memory.offset, memory.explanation), ("E900", 900, None, ""))

    def test_faults_are_copied_and_pickled(self):
        with self.assertRaises(entangle.Refused) as caught:
            entangle.report("CREATE TABLE T (a INTEGER);")
        fault = caught.exception
        for same in (copy.copy(fault), copy.deepcopy(fault), pickle.loads(pickle.dumps(fault))):
            self.assertIs(type(same), entangle.Refused)
            self.assertEqual((str(same), same.code, same.line, same.column), ("E201 at 18", 201, 1, 19))
            self.assertEqual(same.explanation, fault.explanation)
        self.assertEqual(str(pickle.loads(pickle.dumps(entangle.OutOfMemory()))), "E900")

    def test_names_are_those_of_the_package(self):
        for name in entangle.__all__:
            thing = getattr(entangle, name)
            if isinstance(thing, type) and name != "Row":  # a list of values, which Python 3.9 calls a type too
                self.assertEqual((thing.__module__, thing.__qualname__), ("entangle", name))
