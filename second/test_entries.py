"""Tests of request 6: files of 22 entries, what is written of a table, the record maxima, and what cases cover."""

import unittest

from corpus import case_of, worked
from coverage import marks, possible_cells
from files import MOST_RECORDS, MOST_WITH_DELAYS, file_of, file_with_entries, judge, k_written, line, read, write
from records import packed_steps
from rules import LAST_CLOCK, NEW_DEFAULT, OLD_DEFAULT, START, State
from shifts import build, extend, list_of
from tables import HOUSE
from test_delays import CLOSING, OPENING, delayed
from test_files import lists, written
from test_m9 import steps


class Files(unittest.TestCase):
    def test_22_entries(self):
        file = written("t9 1", HOUSE)
        self.assertEqual((len(file), file[:12].hex()), (12 + 44 + 8, "0c0016003800000002000000"))
        self.assertEqual(file[48:56].hex(), "14003c0014003c00")
        self.assertEqual(read(file), (0, 0, HOUSE, file[56:]))
        self.assertEqual(read(file[:-1])[:3], (3, 0, HOUSE))

    def test_22_entries_with_four_zeros(self):
        file = file_with_entries(22, OLD_DEFAULT, packed_steps([(1, 0)]))
        self.assertEqual(len(file), 60)
        self.assertEqual(read(file), (0, 0, OLD_DEFAULT, file[56:]))
        self.assertEqual(judge(file)[:4], (0, 0, 1, 0))
        self.assertEqual(build(file, bytes(24))[0], 0)

    def test_18_entries_and_none_have_four_zeros(self):
        records = packed_steps([(12, 9), (12, 300), (12, 7)])
        self.assertEqual(read(file_with_entries(18, HOUSE, records)), (0, 0, NEW_DEFAULT, records))
        self.assertEqual(read(file_with_entries(0, HOUSE, records)), (0, 0, OLD_DEFAULT, records))

    def test_the_table_of_short_files(self):
        odd = HOUSE._replace(ChangeDL=1_700)
        file = file_with_entries(22, odd, b"")
        for length, table in ((12, OLD_DEFAULT), (47, OLD_DEFAULT), (48, OLD_DEFAULT), (55, OLD_DEFAULT), (56, odd)):
            self.assertEqual(read(file[:length])[2], table)
        short = file_with_entries(18, odd, b"")
        self.assertEqual([read(short[:length])[2][17:] for length in (47, 48)],
                         [(1_500, 0, 0, 0, 0), (1_700, 0, 0, 0, 0)])

    def test_rule_16(self):
        file = file_with_entries(22, delayed(0, 0, 20, 60), b"")
        self.assertEqual(read(file)[:2], (4, 16))
        self.assertEqual(line(file), b"unread 0 4 0 0 0 0\n")
        self.assertEqual(read(file_with_entries(22, OLD_DEFAULT._replace(ChangeDL=1), b""))[:2], (4, 12))

    def test_other_numbers_of_entries(self):
        for k in (1, 17, 19, 20, 21):
            self.assertEqual(read(file_with_entries(k, HOUSE, b""))[0], 2)

    def test_maxima(self):
        for k, most in ((0, 16_372), (18, 16_372), (22, 16_370)):
            for count, number in ((most, 0), (most + 1, 2)):
                for table in (HOUSE, OLD_DEFAULT):
                    file = file_with_entries(k, table, packed_steps([(12, 1)] * count))
                    self.assertEqual(read(file)[0], number)
        self.assertEqual(len(file_with_entries(22, HOUSE, bytes(4 * 16_370))), 65_536)


class Writing(unittest.TestCase):
    def test_18_or_22_entries(self):
        for table, k in ((OLD_DEFAULT, 18), (NEW_DEFAULT, 18), (HOUSE, 22), (delayed(0, 0, 0, 1), 22),
                         (delayed(1, 0, 0, 0), 22)):
            self.assertEqual(k_written(table), k)
        for table, length in ((None, 52), (OLD_DEFAULT, 52), (NEW_DEFAULT, 52), (HOUSE, 60)):
            number, rule, index, got, buffer = write(table, b"\x01", [0], b"x" * 70)
            self.assertEqual((number, rule, index, got, buffer[length:]), (0, 0, 0, length, b"x" * (70 - length)))
            self.assertEqual(read(buffer[:length])[:3], (0, 0, table or NEW_DEFAULT))
            self.assertEqual(write(table, b"\x01", [0], b"x" * (length - 1)), (15, 0, 0, 0, b"x" * (length - 1)))

    def test_maxima(self):
        for table, most in ((None, MOST_RECORDS), (OLD_DEFAULT, MOST_RECORDS), (HOUSE, MOST_WITH_DELAYS)):
            codes, amounts = lists("t1 " * (most + 1))
            self.assertEqual(write(table, codes, amounts, b"")[:3], (2, 0, 0))
            number, *_, length, _ = write(table, codes[1:], amounts[1:], bytes(65_536))
            self.assertEqual((number, length), (0, 65_536))

    def test_2_comes_before_4_by_how_the_table_would_be_written(self):
        for table, count, wanted in (
            (delayed(0, 0, 0, 1), 16_371, (2, 0)), (delayed(0, 0, 0, 1), 16_370, (4, 16)),
            (HOUSE._replace(ChangeDL=1), 16_371, (2, 0)), (HOUSE._replace(ChangeDL=1), 16_370, (4, 12)),
            (OLD_DEFAULT._replace(ChangeDL=1), 16_371, (4, 12)), (OLD_DEFAULT._replace(ChangeDL=1), 16_373, (2, 0)),
        ):
            self.assertEqual(write(table, bytes(count), [0] * count, b"")[:2], wanted)
            self.assertEqual(write(table, bytes(count), [0] * (count + 1), b"")[0], 3)


class Extending(unittest.TestCase):
    def test_maxima(self):
        empty = list_of(b"")
        for table, most, bad in ((OLD_DEFAULT, 16_372, 0), (HOUSE, 16_370, 0), (delayed(0, 0, 0, 1), 16_370, 4),
                                 (OLD_DEFAULT._replace(ChangeDL=1), 16_372, 4)):
            for new in (0, 2):
                ticks = packed_steps([(12, 1)] * new)
                self.assertEqual(extend(table, START, 8, most - new, ticks, empty)[0], bad)
                self.assertEqual(extend(table, START, 8, most + 1 - new, ticks, empty)[0], 2)

    def test_a_clutch_that_is_early(self):
        _, _, _, _, state = judge(written(OPENING, HOUSE))
        length, buffer = build(written(OPENING, HOUSE), bytes(24))[4:]
        answers = [extend(HOUSE, state, length, 7, packed_steps(steps(text)), buffer)[:4]
                   for text in ("t19 5", "t20 5", "t59 6", "t60 6")]
        self.assertEqual(answers, [(9, 0, 8, 1), (0, 0, 0, 0), (9, 0, 8, 1), (0, 0, 0, 0)])


class TheCorpus(unittest.TestCase):
    def test_lines(self):
        early = State(phase=2, stage=2, stage_time=LAST_CLOCK)
        for case, text in (
            (case_of("admit", delayed(0, 0, 20, 60)), "admit 16"),
            (case_of("step", HOUSE, early, 5, 0), "step 9 0 4294967315 0 0 2 0 2 4294967295 0 0"),
            (case_of("read", file_of(HOUSE, b"")), f"read 0 0 {' '.join(map(str, HOUSE))} -"),
            (case_of("judge", written(f"{OPENING} t19 5", HOUSE)), "judge 9 0 8 1 173 0 2 151 2 154 0 0"),
        ):
            self.assertEqual(worked(case).line(), text)


class TheCoverage(unittest.TestCase):
    def test_what_cases_cover(self):
        early, ahead = State(clock=19, phase=2, stage=2), State(phase=5, stage=2, stage_time=1)
        gear_ahead = State(phase=3, stage=2, stage_time=9)
        zeros = file_with_entries(22, OLD_DEFAULT, b"")
        for given, cells in (
            (("step", HOUSE, early, 5, 0), {
                ("clutch answers", 2, "given 5 one early"), ("early answers", "open 5", "1")}),
            (("advance", HOUSE, early._replace(clock=60), b"\x06\0\0\0"), {("clutch answers", 2, "given 6 kept")}),
            (("step", HOUSE, early._replace(clock=21), 5, 0), {("clutch answers", 2, "given 5 one later")}),
            (("step", OLD_DEFAULT, ahead, 6, 0), {
                ("no delays", 5, "6 ahead of the clock"), ("early answers", "close 6", "1")}),
            (("step", OLD_DEFAULT, ahead._replace(clock=1), 5, 0), {("no delays", 5, "5 at the stage time")}),
            (("step", HOUSE, gear_ahead, 6, 0), {("times ahead", "set", 6)}),
            (("judge", written(f"{OPENING} t20 5", HOUSE)), {
                ("clutch answers", 2, "judge 5 kept"), ("entries", "22 entries", "judge 0")}),
            (("manual", HOUSE, packed_steps(steps(f"{OPENING} t59 6"))), {
                ("clutch answers", 2, "manual 6 one early"), ("events", "Error_Clutch_Open", 9)}),
            (("list", written(f"{CLOSING} 5", HOUSE), b""), {("early answers", "close 5", "list")}),
            (("block", HOUSE, early, b"\x06\0\0\0"), {("early answers", "open 6", "block")}),
            (("read", zeros), {("entries", "22 entries, four zeros", "read 0")}),
            (("read", zeros[:8] + (16_371).to_bytes(4, "little") + zeros[12:]), {
                ("maxima", "read, 22 entries, four zeros", 16_371)}),
            (("write", 1, HOUSE, [0], b"\x01", bytes(60)), {("written", "22 entries", "exact")}),
            (("write", 1, HOUSE, [0], b"\x01", bytes(52)), {("written", "22 entries", "eight short")}),
            (("write", 1, OLD_DEFAULT, [0], b"\x01", bytes(51)), {("written", "18 entries", "one short")}),
            (("admit", delayed(0, 0, 20, 60)), {("zero delays", "0 0 x x", 16)}),
            (("admit", delayed(20, 20, 20, 60)), {
                ("delay conditions", "failing to open exceeds open", "broken by one")}),
            (("extend", delayed(0, 0, 0, 1), START, 8, 16_371, b"", list_of(b"")), {
                ("maxima", "extend, 22 entries, not admitted", 16_371)}),
        ):
            found = marks(worked(case_of(*given)))
            self.assertLessEqual(cells, found)
            self.assertLessEqual(found, set(possible_cells()))
