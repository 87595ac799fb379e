"""Tests of tables as text: hand-written texts with their answers, what is printed, what is tighter, and all rules."""

import random
import unittest

from corpus import case_of, worked
from coverage import marks, possible_cells
from rules import NEW_DEFAULT, OLD_DEFAULT, Table, broken_rule
from table_cases import ALL_BROKEN, RISING, ZEROS, breaking_alone
from tables import HOUSE, RULES, any_table
from text_cases import any_text, demanded
from texts import NAMES, all_rules, printed, read, tighter

OLD_TEXT = b"""Channel_DL 5
Engine_Sync_DL 100
Engine_Zero_DL 200
Clutch_Open_DL 150
Clutch_Close_DL 150
Gear_Set_DL 300
Gear_Release_DL 200
Sync_EX 150
Zero_EX 250
Sync_DL 155
Zero_DL 255
Sync_DE 151
Zero_DE 251
OpenClutch_DL 200
SetGear_DL 350
Release_DL 250
CloseClutch_DL 200
ChangeDL 1500
"""
DELAYS_TEXT = b"""Clutch_Open_DE 20
Error_Clutch_Open_DE 60
Clutch_Close_DE 20
Error_Clutch_Close_DE 60
"""
HOUSE_TEXT = OLD_TEXT.replace(b"Channel_DL 5", b"Channel_DL 10") + DELAYS_TEXT
LINES = OLD_TEXT.splitlines(keepends=True)
REST = b"".join(LINES[1:])


class Reading(unittest.TestCase):
    def assert_read(self, table, *texts):
        """Each text is read as this table."""
        for text in texts:
            with self.subTest(text=text[-60:]):
                self.assertEqual(read(text), (0, 0, 0, table))

    def assert_faults(self, *faults):
        """Each text has this fault, line and entry."""
        for text, *fault in faults:
            with self.subTest(text=text[-60:]):
                self.assertEqual(read(text), tuple(fault))

    def test_the_defaults(self):
        self.assert_read(OLD_DEFAULT, OLD_TEXT, OLD_TEXT[:-1], OLD_TEXT.replace(b"\n", b"\r\n"))
        self.assert_read(NEW_DEFAULT, OLD_TEXT.replace(b"DL 5\n", b"DL 10\n"))
        self.assert_read(HOUSE, HOUSE_TEXT, HOUSE_TEXT[:-1], DELAYS_TEXT + HOUSE_TEXT[:-len(DELAYS_TEXT)])

    def test_any_order(self):
        self.assert_read(OLD_DEFAULT, b"".join(reversed(LINES)), b"".join(sorted(LINES)), REST + LINES[0])

    def test_four_zeros(self):
        zeros = b"".join(name + b" 0\n" for name in NAMES[18:])
        self.assert_read(OLD_DEFAULT, OLD_TEXT + zeros, zeros + OLD_TEXT)

    def test_blanks_and_comments(self):
        self.assert_read(
            OLD_DEFAULT, b"\n\n" + OLD_TEXT, b"# the old one\n" + OLD_TEXT, OLD_TEXT + b"#", OLD_TEXT + b" \t\r",
            b"Channel_DL\t5\n" + REST, b"  Channel_DL  \t 5 \r\n" + REST, b"\rChannel_DL\r5\r\n" + REST,
            b"Channel_DL 5#ms\n" + REST, b"Channel_DL 5 # Channel_DL 6\n" + REST,
            b"#Channel_DL 6\nChannel_DL 5\n" + REST, b"Channel_DL 5#0#0\n" + REST, b"#\0\xff\nChannel_DL 5\n" + REST,
            REST + b"Channel_DL 5",
        )

    def test_numbers(self):
        for digits, value in ((b"0", 0), (b"00", 0), (b"05", 5), (b"0" * 5_000 + b"5", 5), (b"65534", 65_534),
                              (b"65535", 65_535), (b"00065535", 65_535), (b"9", 9), (b"10", 10)):
            self.assert_read(OLD_DEFAULT._replace(Channel_DL=value), b"Channel_DL " + digits + b"\n" + REST)

    def test_no_name(self):
        self.assert_faults(
            (b"x", 1, 1, 0), (b"x 5\n", 1, 1, 0), (b"channel_DL 5\n", 1, 1, 0), (b"CHANNEL_DL 5", 1, 1, 0),
            (b"Channel_D 5", 1, 1, 0), (b"Channel_DLx 5", 1, 1, 0), (b"Channel_DL\0 5", 1, 1, 0),
            (b"5 Channel_DL", 1, 1, 0), (b"Channel_DL=5", 1, 1, 0), (b"Chan#nel_DL 5", 1, 1, 0),
            (b"\xef\xbb\xbf" + OLD_TEXT, 1, 1, 0), (b"\x0bChannel_DL 5", 1, 1, 0), (b"\xa0Channel_DL 5", 1, 1, 0),
            (OLD_TEXT + b"x", 1, 19, 0), (OLD_TEXT + b"\n# c\nx\n", 1, 21, 0), (b"Engine 5\n" + OLD_TEXT, 1, 1, 0),
            (b"x y z", 1, 1, 0), (b"x 70000", 1, 1, 0), (b"Sync_EX\x0c5", 1, 1, 0),
        )

    def test_given_twice(self):
        self.assert_faults(
            (b"Channel_DL 5\nChannel_DL 5\n", 2, 2, 0), (b"Sync_EX 5\n\nSync_EX x", 2, 3, 7),
            (b"Sync_EX 0\nSync_EX", 2, 2, 7), (b"Sync_EX 5\nSync_EX 70000", 2, 2, 7),
            (OLD_TEXT + b"ChangeDL 1500", 2, 19, 17), (OLD_TEXT + LINES[0], 2, 19, 0),
            (HOUSE_TEXT + b"Error_Clutch_Close_DE 60\n", 2, 23, 21), (b"Sync_EX 5\nSync_EX 5\nx", 2, 2, 7),
        )

    def test_no_number(self):
        for behind in (b"", b" ", b" x", b" 5 5", b" 5 x", b" x 5", b" +5", b" -5", b" 0x5", b" 5.0", b" 5,0",
                       b" 1_0", b" 5ms", b" 5\0", b" \xb2", b" \xd9\xa5", b"#5", b" #5", b" 5\x0b", b" =5", b" = 5",
                       b" 99999 1", b" 99999x", b" 5 5 5", b" /", b" :", b" 1e1", b" Sync_EX"):
            self.assert_faults((b"Zero_EX" + behind, 3, 1, 8), (b"\nZero_EX" + behind + b"\nx\n", 3, 2, 8))

    def test_too_large(self):
        for digits in (b"65536", b"065536", b"65537", b"99999", b"100000", b"655350", b"4294967301",
                       b"18446744073709551621", b"1" + b"0" * 29, b"9" * 5_000, b"0" * 5_000 + b"65536"):
            self.assert_faults((b"Zero_EX " + digits, 4, 1, 8), (b"Sync_EX 1\nZero_EX " + digits + b"#\nx", 4, 2, 8))

    def test_missing(self):
        self.assert_faults(
            (b"", 5, 1, 0), (b"\n", 5, 2, 0), (b"\n\n\n", 5, 4, 0), (b"# nothing", 5, 1, 0), (b"#\n#\n", 5, 3, 0),
            (b" \r", 5, 1, 0), (REST, 5, 18, 0), (REST[:-1], 5, 17, 0), (b"Channel_DL 5", 5, 1, 1),
            (DELAYS_TEXT, 5, 5, 0), (OLD_TEXT.replace(b"ChangeDL 1500\n", b""), 5, 18, 17),
            (OLD_TEXT + DELAYS_TEXT[:18], 5, 20, 19), (OLD_TEXT + b"Error_Clutch_Close_DE 0", 5, 19, 18),
            (HOUSE_TEXT.replace(b"\nSync_DE 151", b""), 5, 22, 11),
            (HOUSE_TEXT.replace(b"Clutch_Close_DE 20\n", b"", 1), 5, 22, 20),
            (HOUSE_TEXT.replace(b"Channel_DL 10", b"#").replace(b"Clutch_Open_DE 20", b"#", 1), 5, 23, 0),
        )

    def test_each_that_is_missing(self):
        for entry in range(22):
            lines = printed(RISING).splitlines(keepends=True)
            self.assertEqual(read(b"".join(lines[:entry] + lines[entry + 1:])), (5, 22, entry))

    def test_the_first_wrong_line(self):
        self.assert_faults(
            (b"Sync_EX 70000\nSync_EX x\nx", 4, 1, 7), (b"Sync_EX x\nSync_EX 70000", 3, 1, 7),
            (b"Sync_EX 5\nSync_EX 6\nx", 2, 2, 7), (b"x\nSync_EX x", 1, 1, 0), (b"#x\n \nSync_EX x", 3, 3, 7),
        )


class Printing(unittest.TestCase):
    def test_18_and_22_lines(self):
        self.assertEqual((printed(OLD_DEFAULT), printed(HOUSE)), (OLD_TEXT, HOUSE_TEXT))
        self.assertEqual(printed(ZEROS).count(b" 0\n"), 18)
        self.assertEqual(printed(ZEROS._replace(Error_Clutch_Close_DE=65_535)).splitlines()[17:],
                         [b"ChangeDL 0", b"Clutch_Open_DE 0", b"Error_Clutch_Open_DE 0", b"Clutch_Close_DE 0",
                          b"Error_Clutch_Close_DE 65535"])

    def test_it_reads_back(self):
        chance = random.Random(0)
        for table in (OLD_DEFAULT, HOUSE, ZEROS, RISING, *(any_table(chance) for _ in range(50))):
            self.assertEqual(read(printed(table)), (0, 0, 0, table))


class Tighter(unittest.TestCase):
    def test_each_entry(self):
        for entry, name in enumerate(Table._fields):
            for change in (-1, 1):
                new = RISING._replace(**{name: RISING[entry] + change})
                is_tighter = entry != 17 and change == (1 if entry in (11, 12, 18, 19, 20, 21) else -1)
                self.assertEqual(tighter(RISING, new), (entry if is_tighter else 22,
                                                        bytes(is_tighter and each == entry for each in range(22))))

    def test_several(self):
        self.assertEqual(tighter(OLD_DEFAULT, OLD_DEFAULT), (22, bytes(22)))
        self.assertEqual(tighter(OLD_DEFAULT, NEW_DEFAULT), (22, bytes(22)))
        self.assertEqual(tighter(NEW_DEFAULT, OLD_DEFAULT), (0, b"\1" + bytes(21)))
        self.assertEqual(tighter(NEW_DEFAULT, HOUSE), (18, bytes(18) + b"\1\1\1\1"))
        self.assertEqual(tighter(HOUSE, NEW_DEFAULT), (22, bytes(22)))
        all_tight = b"\1" * 11 + b"\0\0" + b"\1" * 4 + bytes(5)
        self.assertEqual(tighter(RISING, ZEROS), (0, all_tight))
        self.assertEqual(tighter(ZEROS, RISING), (11, bytes(11) + b"\1\1" + bytes(5) + b"\1" * 4))


class AllRules(unittest.TestCase):
    def test_none_and_all(self):
        for table in (OLD_DEFAULT, NEW_DEFAULT, HOUSE):
            self.assertEqual(all_rules(table), (bytes(16), 905, 905, 1405, 1255))
        self.assertEqual(all_rules(ALL_BROKEN)[0], b"\1" * 16)
        self.assertEqual(all_rules(ZEROS), (bytes.fromhex("01000001010101010100000000000000"), 0, 0, 0, 0))
        self.assertEqual(all_rules(Table(*[65_535] * 22))[1:], (4 * 65_535, 4 * 65_535, 6 * 65_535, 5 * 65_535))

    def test_each_alone(self):
        chance = random.Random(0)
        for rule in set(RULES) - {12, 13}:
            table = breaking_alone(chance, rule)
            self.assertEqual(all_rules(table)[0], bytes(each == rule for each in RULES))
            self.assertEqual(broken_rule(table), rule)

    def test_sums_that_break_together(self):
        self.assertEqual(all_rules(OLD_DEFAULT._replace(ChangeDL=1404))[0], bytes(13) + b"\1\0\0")
        self.assertEqual(all_rules(OLD_DEFAULT._replace(ChangeDL=1254))[0], bytes(13) + b"\1\1\0")
        self.assertEqual(all_rules(OLD_DEFAULT._replace(ChangeDL=904))[0], bytes(11) + b"\1\1\1\1\0")


class TheCorpus(unittest.TestCase):
    def test_lines(self):
        numbers = "5 100 200 150 150 300 200 150 250 155 255 151 251 200 350 250 200 1500 0 0 0 0"
        for given, line in (
            (("text", OLD_TEXT), f"text 0 0 0 {numbers}"), (("text", b""), "text 5 1 0"),
            (("text", OLD_TEXT + b"x"), "text 1 19 0"),
            (("tighter", HOUSE, OLD_DEFAULT), f"tighter 0 01{'00' * 21}"),
            (("tighter", NEW_DEFAULT, HOUSE), f"tighter 18 {'00' * 18}01010101"),
            (("print", HOUSE), f"print {HOUSE_TEXT.hex()}"), (("rules", HOUSE), f"rules {'00' * 16} 905 905 1405 1255"),
        ):
            self.assertEqual(worked(case_of(*given)).line(), line)

    def test_what_cases_cover(self):
        possible = set(possible_cells())
        for given, cells in (
            (("text", OLD_TEXT), {("names in order", "18 names", "in order"), ("text ends", 0, "line feed")}),
            (("text", b"channel_DL 5#"), {
                ("near names", "Channel_DL", "another case"), ("comments", 1, "touching a word"),
                ("wrong lines", 1, "only")}),
            (("text", b"Sync_EX 5\nSync_EX 70000\n"), {
                ("later in the line", 2, "too large a number"), ("next faults", 2, 5), ("text faults", "Sync_EX", 2)}),
            (("text", b"Sync_EX 1/5"), {
                ("wrong bytes", "beside the digits", "between"), ("words behind", "other bytes", 1)}),
            (("text", b"Sync_EX 065536"), {
                ("read numbers", "65536", "leading zeros"), ("read numbers", "16 bits lost", "leading zeros")}),
            (("text", OLD_TEXT + DELAYS_TEXT[:18]), {
                ("delays given", "x 0 0 0", "all limits"), ("names given", "19", 5)}),
            (("text", b" #\r\nChannel_DL\t5\r\n" + REST), {
                ("blanks", "tab", "before a number"), ("blanks", "space", "without a word"),
                ("blanks", "carriage return", "behind a number"), ("comments", 0, "behind blanks")}),
            (("tighter", NEW_DEFAULT, OLD_DEFAULT), {
                ("tighter", "Channel_DL", "first"), ("tighter", "Channel_DL", "alone, smaller"),
                ("tighter entries", "different", "1")}),
            (("print", HOUSE), {
                ("printed delays", "x x x x", 22), ("printed values", 10, 22), ("printed values", 100, 22)}),
            (("rules", OLD_DEFAULT._replace(ChangeDL=1404)), {
                ("broken rules", 14, "alone"), ("broken rules", 14, "broken by one")}),
            (("rules", HOUSE._replace(Clutch_Open_DE=0)), {("ways of rule 16", "open at least 1", "alone")}),
        ):
            found = marks(worked(case_of(*given)))
            self.assertLessEqual(cells, found)
            self.assertLessEqual(found, possible)

    def test_a_seed_makes_the_same_texts(self):
        first, again, other = (list(demanded(random.Random(seed))) for seed in (7, 7, 8))
        self.assertEqual(first, again)
        self.assertNotEqual(first, other)

    def test_any_text_is_answered(self):
        chance, possible, faults = random.Random(0), set(possible_cells()), set()
        for text in (any_text(chance) for _ in range(500)):
            answered = worked(case_of("text", text))
            faults.add(answered.answer[0])
            self.assertLessEqual(marks(answered), possible)
        self.assertEqual(faults, set(range(6)))
