"""Tests of wrong versions: the list, how one is loaded and tried, and the measure over them."""

import io
import random
import sys
import time
import unittest
from contextlib import redirect_stdout
from importlib.machinery import SourceFileLoader
from importlib.util import module_from_spec, spec_from_loader
from itertools import islice, takewhile
from unittest.mock import Mock, patch

import rules
import stored
from corpus import Case, worked
from generator import cases
from search import NotFound
from tables import good_table
from versions import HERE, WRONG_VERSIONS, NoSuchPlace, TooLong, Wrong, at_most, cases_needed, loaded, wrong_source
from walks import any_walk

RULE_8 = Wrong("rule 8 never breaks", "rules.py", "if slack < 0", "if slack < 0 and rule != 8")
HARMLESS = Wrong("nothing", "rules.py", "if slack < 0", "if 0 > slack")
ENDLESS = Wrong("no end", "rules.py", "    both_ways =", "    while True:\n        pass\n    both_ways =")
RAISING = Wrong("an error for each table", "rules.py", "    both_ways =", "    raise ValueError\n    both_ways =")


def script():
    """The program `sharpness` as a module."""
    loader = SourceFileLoader("sharpness", str(HERE / "sharpness"))
    module = module_from_spec(spec_from_loader("sharpness", loader))
    # Those who try versions look it up by its name.
    sys.modules["sharpness"] = module
    loader.exec_module(module)
    return module


class TheList(unittest.TestCase):
    def test_names_and_texts_differ(self):
        self.assertEqual(len({wrong.what for wrong in WRONG_VERSIONS}), len(WRONG_VERSIONS))
        self.assertEqual(len({wrong[1:] for wrong in WRONG_VERSIONS}), len(WRONG_VERSIONS))

    def test_each_stands_in_its_file_once_and_can_be_read(self):
        for wrong in WRONG_VERSIONS:
            compile(wrong_source(wrong), wrong.what, "exec")


class Loading(unittest.TestCase):
    def setUp(self):
        self.answered = [(case, worked(case).line()) for case in islice(cases(0, 0), 100)]

    def test_a_wrong_version_beside_the_one_in_use(self):
        version = loaded("rules", RULE_8)
        broken = rules.OLD_DEFAULT._replace(Sync_DE=150)
        self.assertEqual((version.broken_rule(broken), rules.broken_rule(broken)), (0, 8))
        self.assertIs(sys.modules["rules"], rules)

    def test_what_imports_it_has_the_wrong_version_too(self):
        broken = rules.OLD_DEFAULT._replace(Sync_DE=150)
        self.assertEqual(loaded("files", RULE_8).write(broken, b"", [], bytes(48))[0], 0)
        self.assertEqual(loaded("files").write(broken, b"", [], bytes(48))[0], 4)

    def test_a_text_that_does_not_stand_there_once(self):
        for old, places in (("no such text", 0), ("Channel_DL", 4)):
            with self.assertRaisesRegex(NoSuchPlace, f"{places} times"):
                loaded("rules", Wrong("", "rules.py", old, ""))
        self.assertIs(sys.modules["rules"], rules)

    def test_cases_needed(self):
        self.assertIsNone(cases_needed(loaded("corpus").worked, self.answered))
        self.assertIsNone(cases_needed(loaded("corpus", HARMLESS).worked, self.answered))
        self.assertEqual(cases_needed(worked, self.answered[:7] + [(self.answered[7][0], "another line")]), 8)

    def test_an_error_is_no_line(self):
        version = loaded("corpus", RAISING).worked
        with self.assertRaises(ValueError):
            version(self.answered[0][0])
        self.assertIsNone(cases_needed(version, self.answered))

    def test_at_most(self):
        with self.assertRaises(TooLong), at_most(0.05):
            while True:
                pass
        with at_most(0.05):
            pass
        begun = time.process_time()
        while time.process_time() < begun + 0.1:
            pass


class TheOldBox(unittest.TestCase):
    def test_old_and_new_agree_at_rest_and_in_done(self):
        old, = (loaded("rules", wrong) for wrong in WRONG_VERSIONS
                if wrong.what == "entering 22 moves the box and taking doesn't")
        chance, compared, differing = random.Random(0), set(), set()
        for table, walk in [(table, any_walk(chance, table)) for table in (good_table(chance) for _ in range(200))]:
            before, now = old.START, rules.START
            for given in takewhile(lambda step: step[0] != rules.RESET, walk):
                (*old_answer, before), (*answer, now) = (each.admitted_step(table, state, *given)
                                                         for each, state in ((old, before), (rules, now)))
                self.assertEqual((old_answer, before._replace(box=0)), (answer, now._replace(box=0)))
                (compared if before.box == now.box else differing).add(now.phase)
        self.assertEqual(compared | differing, set(range(24)))
        self.assertEqual(differing, {5, 10, 11, 12, 13, 14, 21, 23})


class TheStoredCorpus(unittest.TestCase):
    def test_its_answers_are_this_program_s(self):
        answered = stored.stored_cases()
        self.assertEqual([worked(case).line() for case, _ in answered], [line for _, line in answered])
        self.assertEqual(len(answered), len((stored.STORED / "stdout").read_bytes().splitlines()))

    def test_a_case_for_each_wrong_version(self):
        small = list(islice(cases(0, 0), 300))
        with patch.object(stored, "WRONG_VERSIONS", [HARMLESS, RULE_8, RULE_8]):
            (case, line), = stored.sharpened([], small)
            self.assertEqual(stored.sharpened([case], small), [(case, line)])
        self.assertEqual(cases_needed(loaded("corpus", RULE_8).worked, [(case, line)]), 1)


class Measuring(unittest.TestCase):
    @classmethod
    def setUpClass(cls):
        cls.made = list(islice(cases(0, 0), 500))

    def setUp(self):
        self.sharpness = script()
        self.sharpness.SECONDS = 0.3
        self.sharpness.cases = lambda *_: self.made

    def measured(self, wrong):
        """How many of one wrong version are told apart, and what is printed."""
        answered = [(case, worked(case).line()) for case in self.made]
        with redirect_stdout(io.StringIO()) as out:
            passed = self.sharpness.measure([wrong], answered[:50], answered[50:])
        return passed, out.getvalue()

    def test_told_apart(self):
        passed, out = self.measured(RULE_8)
        self.assertEqual(passed, 1)
        self.assertNotIn("not told apart", out)

    def test_quick(self):
        answered = [(case, worked(case).line()) for case in self.made]
        (stored, fresh), fault = self.sharpness.tried(RULE_8, answered, answered)
        self.assertEqual((stored, fault), (fresh, ""))
        self.assertEqual(self.sharpness.tried(RULE_8, answered, answered, quick=True), ([stored, None], ""))
        self.assertEqual(self.sharpness.tried(RULE_8, [], answered, quick=True), ([None, fresh], ""))

    def test_not_told_apart(self):
        for wrong, why in (
            (HARMLESS, "no line differs"),
            (RAISING, "no line differs"),
            (ENDLESS, "no end after 0.3 s"),
            (Wrong("rotten", "rules.py", "no such text", ""), "stands 0 times"),
            (Wrong("unreadable", "rules.py", "if slack < 0", "if slack <"), "SyntaxError"),
        ):
            passed, out = self.measured(wrong)
            self.assertEqual(passed, 0)
            self.assertRegex(out, f"not told apart: {wrong.what}: .*{why}")
            self.assertIn(repr(wrong.new), out)

    def last_line(self, command, text):
        """Whether all is well with this program and the wrong versions of this name, and the last line printed."""
        with redirect_stdout(io.StringIO()) as out:
            well = self.sharpness.sharpness(0, 0, command, text)
        return bool(well), out.getvalue().splitlines()[-1]

    def test_programs(self):
        right = "second/compare.py --answer -"
        wrong = f"bash -c '{right} | sed s/admit/admits/'"
        self.assertEqual(self.last_line(right, "rule 8 "), (True, "3 passed, 0 failed"))
        self.assertEqual(self.last_line(right, "no such name"), (False, "0 passed, 0 failed"))
        self.assertEqual(self.last_line(wrong, "rule 8 "), (False, "0 passed, 4 failed"))
        self.assertEqual(self.last_line("true", "rule 8 "), (False, "0 passed, 4 failed"))
        self.assertEqual(self.last_line("no/such/program", "rule 8 "), (False, "0 passed, 4 failed"))

    def test_cases_that_are_not_found(self):
        self.sharpness.cases = Mock(side_effect=NotFound("a unicorn"))
        self.assertEqual(self.last_line("true", "rule 8 "), (False, "0 passed, 1 failed"))

    def test_the_order(self):
        answered = [(Case(5, b=bytes(length)), str(length)) for length in (30_000, *range(20))]
        ordered = self.sharpness.by_chance(0, answered)
        self.assertEqual(sorted(ordered), sorted(answered))
        self.assertEqual(ordered[-1], answered[0])
        self.assertNotEqual(ordered[:-1], answered[1:])
