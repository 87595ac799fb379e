"""Tests of request 7: the old default for ever without entries, the new one for the wish for none, and both apart."""

import random
import unittest

import m9
from corpus import case_of, worked
from coverage import marks, possible_cells
from default_coverage import answers_of_both, said
from files import advance, block, file_of, file_with_entries, file_without_entries, judge, line, read, run, write
from records import packed_steps
from rules import NEW_DEFAULT, OLD_DEFAULT, PHASES, START, State, Table, broken_rule, step
from shifts import Shift, build, extend, list_of
from tables import HOUSE
from test_delays import delayed
from test_files import K1, WOULD_NOT_CLOSE, lists, written
from test_m9 import steps
from test_shifts import listed
from walks import ROUNDS, lead, mixed, states, timed

# The channel is used for 10 ms each time.
SLOW = "1 t10 4 t100 5 t10 8 4 t300 5 t10 8 11"
NEW_ENTRIES = "0a006400c800960096002c01c8009600fa009b00ff009700fb00c8005e01fa00c800dc05"
NOT_ADMITTED = OLD_DEFAULT._replace(ChangeDL=1404)


def none_wished(text, room=65_536):
    """What the writer answers to a run with the wish for none."""
    return write(None, *lists(text), b"x" * room)


class TheTables(unittest.TestCase):
    def test_they_differ_in_the_channel_time_alone(self):
        self.assertEqual((OLD_DEFAULT.Channel_DL, NEW_DEFAULT.Channel_DL), (5, 10))
        self.assertEqual(OLD_DEFAULT[1:], NEW_DEFAULT[1:])
        self.assertEqual((Table(), broken_rule(NEW_DEFAULT)), (OLD_DEFAULT, 0))
        self.assertEqual(HOUSE[:18], NEW_DEFAULT[:18])


class WrittenWithTheWishForNone(unittest.TestCase):
    def test_every_byte(self):
        number, rule, index, length, buffer = none_wished("1 t10", 60)
        self.assertEqual((number, rule, index, length), (0, 0, 0, 56))
        self.assertEqual(buffer[:12].hex(), "0c0012003000000002000000")
        self.assertEqual(buffer[12:48].hex(), NEW_ENTRIES)
        self.assertEqual(buffer[48:], bytes.fromhex("010000000c000a00") + b"xxxx")

    def test_it_is_the_new_default_as_a_table(self):
        for text in ("", "1", K1, WOULD_NOT_CLOSE):
            self.assertEqual(none_wished(text), write(NEW_DEFAULT, *lists(text), b"x" * 65_536))

    def test_48_bytes_and_4_a_record(self):
        for count in (0, 1, 2, 12):
            text, needed = "t1 " * count, 48 + 4 * count
            self.assertEqual(none_wished(text, needed)[:4], (0, 0, 0, needed))
            self.assertEqual(none_wished(text, needed + 9)[4][needed:], b"x" * 9)
            for room in (0, 11 + 4 * count, *range(12 + 4 * count, needed)):
                self.assertEqual(none_wished(text, room), (15, 0, 0, 0, b"x" * room))

    def test_what_is_said_of_the_file(self):
        *_, length, buffer = none_wished(SLOW)
        file = buffer[:length]
        self.assertEqual(read(file), (0, 0, NEW_DEFAULT, packed_steps(steps(SLOW))))
        self.assertEqual(judge(file), (0, 0, 13, 0, State(430, 1, 0, 430, 0, 430)))
        self.assertEqual(line(file), b"accepted 13 0 430 0 1 0\n")
        self.assertEqual(build(file, bytes(24)), (0, 0, 0, 0, 24, listed(Shift(0, 11, 1, 0, 1, 0, 430))))

    def test_the_most_records(self):
        codes, amounts = lists("t1 " * 16_373)
        self.assertEqual(write(None, codes, amounts, b""), (2, 0, 0, 0, b""))
        self.assertEqual(write(None, codes[1:], amounts[1:], bytes(65_535))[0], 15)
        number, *_, length, file = write(None, codes[1:], amounts[1:], bytes(65_536))
        self.assertEqual((number, length, read(file)[:3]), (0, 65_536, (0, 0, NEW_DEFAULT)))

    def test_refusals_in_order(self):
        many = 16_373
        for given, wanted in (
            ((bytes(many), [0] * (many + 1)), (3, 0, 0)), ((bytes(many), [0] * many), (2, 0, 0)),
            ((b"\x01\x00\x0e", [0] * 3), (5, 0, 1)), ((b"\x01\x0c\x00", [0] * 3), (6, 0, 1)),
            ((b"\x01\x0c", [0, 65_536]), (6, 0, 1)), ((b"\x01\x0c", [0, 65_535]), (15, 0, 0)),
        ):
            for room in (b"", b"x" * 20, b"x" * 55):
                self.assertEqual(write(None, *given, room), (*wanted, 0, room))

    def test_the_table_handed_along_is_not_looked_at(self):
        for codes, amounts, room in ((b"\x0c", [9], 52), (b"\x0c", [9], 51), (b"\x0c", [0], 52), (b"\x0e", [0], 52),
                                     (b"\x0c", [], 52), (b"\x01" * 16_371, [0] * 16_371, 9)):
            lines = {worked(case_of("write", 0, table, amounts, codes, bytes(room))).line() for table in (
                OLD_DEFAULT, NEW_DEFAULT, HOUSE, NOT_ADMITTED, delayed(0, 0, 0, 1), Table(*[0] * 22))}
            self.assertEqual(len(lines), 1)
        self.assertEqual(worked(case_of("write", 0, HOUSE, [], b"", b"x" * 49)).line(),
                         f"write 0 0 0 48 0c0012003000000000000000{NEW_ENTRIES}78")


class ADefaultAsATable(unittest.TestCase):
    def test_both_are_written_in_eighteen_entries(self):
        for table in (OLD_DEFAULT, NEW_DEFAULT):
            number, _, _, length, buffer = write(table, *lists(K1), b"x" * 99)
            self.assertEqual((number, length, buffer[2]), (0, 96, 18))
            self.assertEqual(buffer[12:48].hex(), f"{table.Channel_DL:02x}{NEW_ENTRIES[2:]}")
            self.assertEqual(read(buffer[:length]), (0, 0, table, written(K1)[12:]))
            self.assertEqual(write(table, *lists(K1), bytes(95))[0], 15)


class WithoutEntries(unittest.TestCase):
    def test_the_old_default_is_read(self):
        self.assertEqual(read(written(SLOW)), (0, 0, OLD_DEFAULT, written(SLOW)[12:]))
        file = file_with_entries(22, HOUSE._replace(Channel_DL=7), bytes(4))
        for given, number in (
            (b"", 1), (file[:11], 1), (file[:12], 3), (file[:55], 3), (written("") + b"\0", 3), (bytes(60), 2),
            (file[:2] + b"\x12" + file[3:47], 2), (file_with_entries(21, HOUSE, b""), 2),
        ):
            self.assertEqual(read(given), (number, 0, OLD_DEFAULT, b""))

    def test_the_old_default_judges(self):
        for file in (written(SLOW), written(SLOW, OLD_DEFAULT)):
            self.assertEqual(judge(file), (12, 0, 1, 5, State(phase=1, stage=1)))
            self.assertEqual(line(file), b"refused 1 12 0 1 0 5\n")
            self.assertEqual(build(file, bytes(24)), (12, 0, 1, 5, 0, bytes(24)))
        self.assertEqual(judge(written(SLOW, NEW_DEFAULT))[:4], (0, 0, 13, 0))

    def test_known_runs(self):
        for text, number, count, excess in (
            (K1, 0, 12, 0), ("", 0, 0, 0), ("1 t6", 12, 1, 1), ("1 t5", 0, 2, 0), ("1 t5 4 t101", 12, 3, 1),
            ("1 4 7 t150 9", 9, 4, 1), ("1 4 7 t151 9", 0, 5, 0), ("1 4 7 t156", 11, 3, 1), ("2", 8, 0, 0),
            ("1 1", 7, 1, 0), ("1 4 6", 7, 2, 0), (f"{K1} 3 4 5 8 4 6 10 11", 7, 19, 0),
        ):
            file, with_new = written(text), written(text, NEW_DEFAULT)
            self.assertEqual(judge(file)[:4], (number, 0, count, excess))
            self.assertEqual(read(file)[2], OLD_DEFAULT)
            if text != "1 t6":
                self.assertEqual(judge(with_new), judge(file))
        self.assertEqual(judge(written("1 t6", NEW_DEFAULT)), (0, 0, 2, 0, State(6, 0, 1, 0, 1)))
        self.assertEqual(len(written(K1)), 60)


class Apart(unittest.TestCase):
    def test_every_phase_where_an_order_is_sent_or_a_device_good(self):
        for phase in PHASES:
            for stage in (1, 3):
                state = State(100, 0, phase, 100, stage, 100, 100)
                for amount, old, new in ((5, 0, 0), (6, 1, 0), (10, 5, 0), (11, 6, 1)):
                    for table, excess in ((OLD_DEFAULT, old), (NEW_DEFAULT, new)):
                        after = state if excess else state._replace(clock=100 + amount)
                        answer = 12 if excess else 0, 0, excess, after
                        four = packed_steps([(12, amount)])
                        self.assertEqual(step(table, state, 12, amount), answer)
                        self.assertEqual(advance(table, state, four), answer)
                        self.assertEqual(block(table, state, four)[-2:], answer[-2:])

    def test_other_stages_and_phases_are_alike(self):
        for phase in range(24):
            for stage in (0, 2, 4, 5) if phase in PHASES else range(6):
                for amount in (5, 6, 10, 11, 300):
                    state = State(100, 0, phase, 100, stage, 100, 100)
                    self.assertEqual(*(step(table, state, 12, amount) for table in (OLD_DEFAULT, NEW_DEFAULT)))

    def test_both_engines_along_the_slow_run(self):
        for place, text in ((1, "1 t10"), (5, "1 t10 4 t100 5 t10"), (10, SLOW[:-5])):
            fast = " ".join("t5" if word == "t10" else word for word in text.split()[:place])
            late = f"{fast} t10"
            for given, table, wanted in (
                (late, OLD_DEFAULT, (12, 0, place, 5)), (text, NEW_DEFAULT, (0, 0, place + 1, 0)),
                (f"{text} t1", NEW_DEFAULT, (12, 0, place + 1, 1)),
            ):
                records = packed_steps(steps(given))
                self.assertEqual(judge(file_of(table, records))[:4], wanted)
                self.assertEqual(run(m9.step, m9.START, table, records)[:4], wanted)

    def test_a_list_goes_on(self):
        held = list_of(b"")
        for table, wanted in ((OLD_DEFAULT, (12, 0, 1, 5)), (NEW_DEFAULT, (0, 0, 0, 0))):
            self.assertEqual(extend(table, START, 8, 0, packed_steps(steps(SLOW)), held + bytes(16))[:4], wanted)

    def test_what_the_old_accepts_the_new_accepts_too(self):
        chance = random.Random(7)
        for request, shift in [(request, shift) for request, shifts in ROUNDS.items() for shift in shifts]:
            codes = lead(chance, request) + shift
            for pace in (min, max, mixed(chance)):
                walk = timed(OLD_DEFAULT, codes, pace)
                self.assertEqual(*(states(table, walk) for table in (OLD_DEFAULT, NEW_DEFAULT)))
                self.assertEqual(said(answers_of_both(packed_steps(walk))), "both accept")
            slow = packed_steps(timed(NEW_DEFAULT, codes, max))
            self.assertEqual(said(answers_of_both(slow)), "the new alone accepts")

    def test_what_both_say(self):
        for text, wanted in (
            (SLOW, "the new alone accepts"), (K1, "both accept"), ("1 1", "both refuse alike"),
            ("1 4 t101", "both refuse alike"), ("1 t11", "both refuse, by another excess"),
            (f"{SLOW} 11", "the new refuses a later record"),
        ):
            self.assertEqual(said(answers_of_both(packed_steps(steps(text)))), wanted)


class TheCoverage(unittest.TestCase):
    def test_what_cases_cover(self):
        sent, slow = State(phase=1, stage=1), packed_steps(steps(SLOW))
        for given, cells in (
            (("write", 0, HOUSE, [0], b"\x01", bytes(52)), {
                ("none wished for", 0, "with delays"), ("written room", "none wished for", "exact"),
                ("wished records", 1, "written")}),
            (("write", 0, NOT_ADMITTED, [], b"", bytes(12)), {
                ("none wished for", 15, "not admitted"), ("written room", "none wished for", "36 short"),
                ("wished records", 0, "no room")}),
            (("write", 0, OLD_DEFAULT, [0], b"", bytes(52)), {("none wished for", 3, "admitted")}),
            (("write", 1, OLD_DEFAULT, [0], b"\x01", bytes(16)), {("written room", "old default", "36 short")}),
            (("write", 1, NEW_DEFAULT, [0], b"\x01", bytes(52)), {("written room", "new default", "exact")}),
            (("step", OLD_DEFAULT, sent, 12, 6), {
                ("channel", "step", "old default 6"), ("apart", "sync", "sent, the old refuses")}),
            (("advance", NEW_DEFAULT, sent, packed_steps([(12, 10)])), {
                ("channel", "advance", "new default 10"), ("apart", "sync", "sent, the new accepts")}),
            (("judge", file_of(NEW_DEFAULT, slow)), {
                ("channel", "judge", "new default 10"), ("apart", "set", "good, the new accepts"),
                ("both defaults", "new default", "the new alone accepts")}),
            (("line", file_without_entries(slow), bytes(40)), {
                ("channel", "line", "old default 10"), ("both defaults", "no entries", "the new alone accepts")}),
            (("list", file_of(OLD_DEFAULT, slow), b""), {
                ("channel", "list", "old default 10"), ("both defaults", "old default", "the new alone accepts")}),
            (("block", NEW_DEFAULT, sent, packed_steps([(12, 11)]) + b"12"), {("channel", "block", "new default 11")}),
            (("extend", NEW_DEFAULT, START, 8, 0, slow, list_of(b"") + bytes(16)), {
                ("channel", "extend", "new default 10")}),
            (("manual", OLD_DEFAULT, slow), {("channel", "manual", "old default 10")}),
            (("read", b""), {("read as old", "under 12 bytes", 1)}),
            (("read", file_without_entries(slow)), {("read as old", "no entries", 0)}),
            (("read", file_of(NEW_DEFAULT, slow)[:47]), {("read as old", "18 entries, not all there", 3)}),
            (("read", file_with_entries(21, HOUSE, b"")), {("read as old", "another number of entries", 2)}),
        ):
            found = marks(worked(case_of(*given)))
            self.assertLessEqual(cells, found)
            self.assertLessEqual(found, set(possible_cells()))
        for given in (("read", file_of(NEW_DEFAULT, slow)), ("step", OLD_DEFAULT, State(phase=1, stage=2), 12, 6),
                      ("judge", file_of(HOUSE, slow)), ("line", file_without_entries(slow), b""),
                      ("extend", OLD_DEFAULT, START, 9, 0, slow, list_of(b""))):
            grids = {grid for grid, _, _ in marks(worked(case_of(*given)))}
            self.assertTrue(grids.isdisjoint({"channel", "apart", "both defaults", "read as old"}))
