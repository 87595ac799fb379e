"""Tests of the words that `bin/admit` has to say, and of the check over it."""

import io
import random
import sys
import tempfile
import unittest
from contextlib import redirect_stdout
from pathlib import Path

import desk
from desk_cases import WIDE, Call, Desk, inputs, pairs
from files import file_of, file_with_entries, file_without_entries
from reports import (
    CAN_REFUSE, Said, report, said_as_text, said_of, said_of_file, said_of_two, taken, ways,
)
from rules import NEW_DEFAULT, OLD_DEFAULT, Table, broken_rule
from table_cases import ALL_BROKEN, ZEROS
from tables import HOUSE, RULES
from test_texts import DELAYS_TEXT, HOUSE_TEXT, OLD_TEXT
from texts import printed

ROUTES = """route  kind          sum, ms  left of ChangeDL, ms
F      from neutral      905                   595
N      to neutral        905                   595
G1     gear to gear     1405                    95
G2     gear to gear     1255                   245
"""
NOWHERE = ("nowhere tighter: every list of steps accepted under the old table is accepted under the new one, with the "
           "same end\n")
TIGHTER = """tighter: a step accepted under the old table can be refused under the new one
entry                    old    new  can refuse
"""


def table(**entries):
    """The new default with other entries."""
    return NEW_DEFAULT._replace(**entries)


class Reports(unittest.TestCase):
    def assert_broken(self, given, *lines):
        """The report of a table begins with these lines and goes on with the routes."""
        self.assertEqual(report(given).split("route  kind")[0], "".join(f"{line}\n" for line in lines))

    def test_admitted(self):
        for given in (OLD_DEFAULT, NEW_DEFAULT, HOUSE):
            self.assertEqual(report(given), f"admitted\n{ROUTES}")

    def test_the_rules_one_by_one(self):
        self.assert_broken(table(Channel_DL=0), "rule 1: Channel_DL 0 is less than 1")
        for entries, line in (
            ({"Engine_Sync_DL": 131}, "2: 2 * Channel_DL 10 + Engine_Sync_DL 131 = 151 is more than Sync_EX 150"),
            ({"Engine_Zero_DL": 231}, "3: 2 * Channel_DL 10 + Engine_Zero_DL 231 = 251 is more than Zero_EX 250"),
            ({"Clutch_Open_DL": 180},
             "4: 2 * Channel_DL 10 + Clutch_Open_DL 180 = 200 is not less than OpenClutch_DL 200"),
            ({"Clutch_Close_DL": 181},
             "5: 2 * Channel_DL 10 + Clutch_Close_DL 181 = 201 is not less than CloseClutch_DL 200"),
            ({"Gear_Set_DL": 330}, "6: 2 * Channel_DL 10 + Gear_Set_DL 330 = 350 is not less than SetGear_DL 350"),
            ({"Gear_Release_DL": 230},
             "7: 2 * Channel_DL 10 + Gear_Release_DL 230 = 250 is not less than Release_DL 250"),
            ({"Sync_EX": 151}, "8: Sync_EX 151 is not less than Sync_DE 151"),
            ({"Zero_EX": 251}, "9: Zero_EX 251 is not less than Zero_DE 251"),
            ({"Sync_DE": 156}, "10: Sync_DE 156 is more than Sync_DL 155"),
            ({"Zero_DE": 256}, "11: Zero_DE 256 is more than Zero_DL 255"),
            ({"ChangeDL": 1404}, "14: Zero_EX 250 + Release_DL 250 + F 905 = 1405 is more than ChangeDL 1404"),
        ):
            self.assert_broken(table(**entries), f"rule {line}")

    def test_sums(self):
        self.assert_broken(
            table(ChangeDL=904),
            "rule 12: Sync_DL 155 + OpenClutch_DL 200 + SetGear_DL 350 + CloseClutch_DL 200 = 905 "
            "is more than ChangeDL 904",
            "rule 13: Zero_DL 255 + OpenClutch_DL 200 + Release_DL 250 + CloseClutch_DL 200 = 905 "
            "is more than ChangeDL 904",
            "rule 14: Zero_EX 250 + Release_DL 250 + F 905 = 1405 is more than ChangeDL 904",
            "rule 15: Zero_DL 255 + OpenClutch_DL 200 + Release_DL 250 + SetGear_DL 350 + CloseClutch_DL 200 = 1255 "
            "is more than ChangeDL 904",
        )
        self.assertIn("G1     gear to gear     1405                  -501\n", report(table(ChangeDL=904)))

    def test_rule_16(self):
        self.assert_broken(
            HOUSE._replace(Clutch_Open_DE=0, Error_Clutch_Open_DE=0, Clutch_Close_DE=160, Error_Clutch_Close_DE=151),
            "rule 16: Clutch_Open_DE 0 is less than 1",
            "rule 16: Clutch_Open_DE 0 is not less than Error_Clutch_Open_DE 0",
            "rule 16: Clutch_Close_DE 160 is not less than Error_Clutch_Close_DE 151",
            "rule 16: Error_Clutch_Close_DE 151 is more than Clutch_Close_DL 150",
        )
        self.assert_broken(HOUSE._replace(Error_Clutch_Open_DE=151, Clutch_Close_DE=0),
                           "rule 16: Error_Clutch_Open_DE 151 is more than Clutch_Open_DL 150",
                           "rule 16: Clutch_Close_DE 0 is less than 1")

    def test_every_rule_in_order(self):
        rules = [rule for rule, _ in ways(ALL_BROKEN)]
        self.assertEqual((sorted(set(rules)), rules), (list(RULES), sorted(rules)))
        self.assertEqual([words for _, words in ways(ZEROS)][:2],
                         ["Channel_DL is less than 1", "Engine_Sync_DL is less than 1"])
        self.assertEqual(sum(rule == 1 for rule, _ in ways(ZEROS)), 18)


class Inputs(unittest.TestCase):
    def test_tables(self):
        for given, wanted in (
            (OLD_TEXT, OLD_DEFAULT), (HOUSE_TEXT, HOUSE), (file_of(HOUSE, b""), HOUSE), (file_of(ZEROS, b""), ZEROS),
            (file_without_entries(b"x" * 4), OLD_DEFAULT), (file_with_entries(18, HOUSE, b""), NEW_DEFAULT),
            (file_with_entries(22, NEW_DEFAULT, b""), NEW_DEFAULT), (OLD_TEXT.ljust(65_536), OLD_DEFAULT),
        ):
            self.assertEqual(taken(given), (wanted, None))

    def test_what_is_wrong(self):
        for given, words in (
            (OLD_TEXT[:13] + b"\nx", "line 3: its first word is no name of an entry"),
            (OLD_TEXT[:13] * 2, "line 2: Channel_DL stands there a second time"),
            (b"Channel_DL", "line 1: Channel_DL wants one number behind it, in digits"),
            (b"Sync_DE 65536", "line 1: Sync_DE has a number above 65535"),
            (OLD_TEXT.replace(b"Sync_DE", b"#"), "line 19: the text ends without Sync_DE"),
            (OLD_TEXT + DELAYS_TEXT[:18], "line 20: the text ends without Error_Clutch_Open_DE, and has another delay"),
            (b"", "line 1: the text ends without Channel_DL"),
            (b"\x0c\0", "the step file is refused with 1: it has fewer than 12 bytes"),
            (b"\x0c\0" + bytes(10), "the step file is refused with 2: a header field, or too many records"),
            (file_of(HOUSE, b"") + b"x", "the step file is refused with 3: its length"),
            (OLD_TEXT.ljust(65_537), "the text is longer than 65536 bytes"), (None, "can not be opened"),
        ):
            self.assertEqual(taken(given), (None, words))


class Calls(unittest.TestCase):
    def test_several(self):
        wrong = "admit: b: line 1: its first word is no name of an entry\nadmit: d: can not be opened\n"
        self.assertEqual(said_of([("a", OLD_TEXT), ("b", b"x"), ("c", HOUSE_TEXT), ("d", None)]),
                         (f"a:\nadmitted\n{ROUTES}\nc:\nadmitted\n{ROUTES}", wrong, 1))
        self.assertEqual(said_of([("a", OLD_TEXT), ("b", OLD_TEXT)])[1:], ("", 0))
        self.assertEqual(said_of([("a", OLD_TEXT)]), (f"admitted\n{ROUTES}", "", 0))
        self.assertEqual(said_of([("a", printed(ZEROS))])[1:], ("", 1))
        self.assertEqual(said_of([("-", b"x")]),
                         ("", "admit: standard input: line 1: its first word is no name of an entry\n", 1))

    def test_two(self):
        house, old, broken = HOUSE_TEXT, OLD_TEXT, printed(table(ChangeDL=1404))
        new = house.replace(b"Clutch_Open_DL 150", b"Clutch_Open_DL 140")
        self.assertEqual(said_of_two([("a", old), ("b", house.replace(DELAYS_TEXT, b""))]), (NOWHERE, "", 0))
        self.assertEqual(said_of_two([("a", old), ("b", new)]), (
            f"{TIGHTER}Clutch_Open_DL           150    140  a tick with 12 in phases 2, 7, 11 and 18\n"
            "Clutch_Open_DE             0     20  a device good with 9 in phases 2, 7, 11 and 18\n"
            "Error_Clutch_Open_DE       0     60  a device failed with 9 in phases 2, 7, 11 and 18\n"
            "Clutch_Close_DE            0     20  a device good with 9 in phases 5, 15, 16 and 21\n"
            "Error_Clutch_Close_DE      0     60  a device failed with 9 in phases 5, 15, 16 and 21\n", "", 1))
        said = f"b:\n{report(table(ChangeDL=1404))}"
        self.assertEqual(said_of_two([("a", old), ("b", broken)]), (said, "", 1))
        self.assertEqual(said_of_two([("b", broken), ("b", broken)]), (f"{said}\n{said}", "", 1))
        self.assertEqual(said_of_two([("a", old), ("b", None)]), ("", "admit: b: can not be opened\n", 1))

    def test_what_each_entry_can_refuse(self):
        by_order = {"1 and 10": (1, 9), "6 and 17": (2, 10), "2, 7, 11 and 18": (3, 13), "5, 15, 16 and 21": (4, 16),
                    "3, 4, 12, 13 and 14": (5, 14), "8, 9, 19 and 20": (6, 15)}
        wanted = {0: "a tick with 12 in phases 1 to 21", 7: "a take with 10 in phases 1 and 10",
                  8: "a take with 10 in phases 6 and 17", 11: "an ask clutch with 9 in phases 1 and 10",
                  12: "an ask clutch with 9 in phases 6 and 17", 18: "a device good with 9 in phases 2, 7, 11 and 18",
                  19: "a device failed with 9 in phases 2, 7, 11 and 18",
                  20: "a device good with 9 in phases 5, 15, 16 and 21",
                  21: "a device failed with 9 in phases 5, 15, 16 and 21"}
        for phases, (device, phase) in by_order.items():
            wanted.update({device: f"a tick with 12 in phases {phases}", phase: f"a tick with 11 in phases {phases}"})
        self.assertEqual({Table._fields.index(name): words for name, words in CAN_REFUSE.items()}, wanted)

    def test_as_text(self):
        self.assertEqual(said_as_text("a", file_of(HOUSE, b"")), (HOUSE_TEXT.decode(), "", 0))
        self.assertEqual(said_as_text("a", printed(ZEROS)), (printed(ZEROS).decode(), "", 0))
        self.assertEqual(said_as_text("a", b"x")[1:], ("admit: a: line 1: its first word is no name of an entry\n", 1))

    def test_files(self):
        for text, wanted, length in ((OLD_TEXT, OLD_DEFAULT, 48), (HOUSE_TEXT, HOUSE, 56)):
            for there, over in ((False, False), (False, True), (True, True)):
                self.assertEqual(said_of_file("a", text, "out", there, over),
                                 ((f"out: {length} bytes\n", "", 0), file_of(wanted, b"")))
        self.assertEqual(said_of_file("a", OLD_TEXT, "out", True, False),
                         (("", "admit: out: is there already; --over writes over it\n", 1), None))
        broken = printed(table(ChangeDL=1404))
        self.assertEqual(said_of_file("a", broken, "out", False, False), ((report(table(ChangeDL=1404)), "", 1), None))


class TheCheck(unittest.TestCase):
    def test_inputs(self):
        found = [taken(given) for given in inputs(random.Random(0), 300)]
        broken = {broken_rule(given) for given, _ in found if given}
        self.assertEqual(broken, {0, *RULES})
        words = " ".join(wrong for _, wrong in found if wrong)
        for part in ("no name of", "a second time", "wants one number", "above 65535", "ends without", "another delay",
                     "with 1:", "with 2:", "with 3:", "longer than", "opened"):
            self.assertIn(part, words)

    def test_pairs(self):
        said = [said_of_two([("old", old), ("new", new)]) for old, new in pairs(random.Random(0))]
        self.assertEqual({outcome.status for outcome in said}, {0, 1})
        for words in CAN_REFUSE.values():
            self.assertTrue(any(words in outcome.out for outcome in said), words)
        self.assertEqual(broken_rule(WIDE), 0)

    def test_calls(self):
        with tempfile.TemporaryDirectory() as folder:
            calls = list(Desk(folder, random.Random(0)).calls(70))
        options = [next((word for word in call.arguments if word.startswith("--")), None) for call in calls]
        self.assertEqual({*options}, {None, "--from", "--text", "--file", "--over", "--no-such-option"})
        self.assertEqual({call.said.status for call in calls}, {0, 1, 4})
        written = {len(file) for call in calls if not call.said.status for file in call.written.values()}
        self.assertEqual(written, {48, 56})

    def test_what_differs_is_told(self):
        with tempfile.TemporaryDirectory() as folder:
            path = Path(folder, "out")
            command = f"{sys.executable} -c 'print(1)'"
            for said, written, wanted in (
                (Said("1\n", "", 0), {}, [True] * 3), (Said("1\n", None, 0), {}, [True] * 3),
                (Said("2\n", "", 0), {}, [False, True, True]), (Said("1\n", "x", 1), {}, [True, False, False]),
                (Said("1\n", "", 0), {str(path): None}, [True] * 4),
                (Said("1\n", "", 0), {str(path): b"x"}, [True] * 3 + [False]),
            ):
                with redirect_stdout(io.StringIO()) as out:
                    self.assertEqual(list(desk.compared(command, Call((), said, written=written))), wanted)
                self.assertEqual(bool(out.getvalue()), False in wanted)

    def test_a_program_that_is_not_there(self):
        with redirect_stdout(io.StringIO()) as out:
            self.assertFalse(desk.check(0, 3, "no/such/program"))
        *_, kept, last = out.getvalue().splitlines()
        self.assertEqual(last, "0 passed, 1 failed")
        Path(kept.split()[-1]).rmdir()
