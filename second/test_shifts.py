"""Tests of the seven o'clock list: built over the known runs, fetched from, extended, and cut at every place."""

import random
import unittest

import refused_extend_cases
from corpus import worked
from extend_coverage import REASONS, reasons
from extensions import cut_walk, extend_case
from files import file_of, judge
from records import packed_steps
from rules import OLD_DEFAULT, START, State
from shifts import Shift, build, entries_of, extend, fetch, list_of
from tables import good_table
from test_files import K1, WOULD_NOT_CLOSE, written
from walks import any_walk

K1_SHIFT = Shift(0, 10, 1, 0, 1, 0, 410)
K11_ERROR = f"{K1} 3 4 5 8 4 6 10"
K11_SHIFTS = [K1_SHIFT, Shift(12, 18, 3, 0, 2, 410, 0)]


def records(text):
    """The record bytes of a run."""
    return written(text)[12:]


def accepted_walk(chance):
    """A table and a walk under it that is accepted, its list's length, and that in a buffer of zeros."""
    table = good_table(chance)
    steps = any_walk(chance, table)
    steps = steps[:judge(file_of(table, packed_steps(steps)))[2]]
    *_, length, whole = build(file_of(table, packed_steps(steps)), bytes(9_999))
    return table, steps, length, whole


def listed(*shifts):
    """The list of shifts."""
    return list_of(entries_of(shifts))


class Building(unittest.TestCase):
    def assert_list(self, text, *shifts, table=None):
        """A run has this list; its buffer keeps its other bytes."""
        wanted = listed(*shifts)
        answer = build(written(text, table), b"x" * (len(wanted) + 3))
        self.assertEqual(answer, (0, 0, 0, 0, len(wanted), wanted + b"xxx"))

    def assert_refused(self, text, number, index, excess):
        """A run has no list, with a buffer and without one."""
        for buffer in (b"", b"x" * 99):
            self.assertEqual(build(written(text), buffer), (number, 0, index, excess, 0, buffer))

    def test_the_bytes_of_k1(self):
        wanted = bytes.fromhex("01000000 08000000 0000 0a00 01 00 01 00 00000000 9a010000")
        self.assertEqual(build(written(K1), b"xy" * 13), (0, 0, 0, 0, 24, wanted + b"xy"))
        self.assertEqual(listed(K1_SHIFT), wanted)

    def test_the_bytes_of_a_long_shift_that_asked(self):
        text = "t65535 t65535 " + "t1 " * 255 + WOULD_NOT_CLOSE
        wanted = bytes.fromhex("01000000 08000000 0101 0e01 01 01 02 00 fd000200 97000000")
        self.assertEqual(build(written(text), bytes(24)), (0, 0, 0, 0, 24, wanted))

    def test_no_shift(self):
        self.assert_list("")
        self.assert_list("t5 t65535")

    def test_known_runs_that_are_accepted(self):
        self.assert_list(K1, K1_SHIFT)
        self.assert_list("1 t5", Shift(0, 1, 1, 0, 0, 0, 5))
        self.assert_list("1 t5 4 t100", Shift(0, 3, 1, 0, 0, 0, 105))
        self.assert_list("1 4 7 t151 9", Shift(0, 4, 1, 1, 0, 0, 151))
        self.assert_list("1 4 7 t155", Shift(0, 3, 1, 0, 0, 0, 155))
        self.assert_list(K11_ERROR, *K11_SHIFTS)
        self.assert_list(WOULD_NOT_CLOSE, Shift(0, 13, 1, 1, 2, 0, 151))

    def test_known_runs_that_are_refused(self):
        self.assert_refused("1 t6", 12, 1, 1)
        self.assert_refused("1 t5 4 t101", 12, 3, 1)
        self.assert_refused("1 4 7 t150 9", 9, 4, 1)
        self.assert_refused("1 4 7 t156", 11, 3, 1)
        self.assert_refused("2", 8, 0, 0)
        self.assert_refused("1 1", 7, 1, 0)
        self.assert_refused("1 4 6", 7, 2, 0)
        self.assert_refused(f"{K11_ERROR} 11", 7, 19, 0)

    def test_what_belongs_to_no_shift(self):
        self.assert_list(f"t7 {K1[:-3]} t50 t60 11 t70", Shift(1, 11, 1, 0, 1, 7, 410))
        self.assert_list(f"{K11_ERROR} t9", *K11_SHIFTS)
        self.assert_list(f"{K11_ERROR} t9 13 t4", *K11_SHIFTS)
        self.assert_list(f"{K11_ERROR} t9 13 t4 2", *K11_SHIFTS, Shift(22, 22, 2, 0, 0, 423, 0))
        self.assert_list(f"{K11_ERROR} t9 13 t4 2 t1", *K11_SHIFTS, Shift(22, 23, 2, 0, 0, 423, 1))

    def test_a_request_that_is_the_last_record(self):
        self.assert_list("1", Shift(0, 0, 1, 0, 0, 0, 0))
        self.assert_list("t9 1", Shift(1, 1, 1, 0, 0, 9, 0))
        self.assert_list(f"{K1} 3", K1_SHIFT, Shift(12, 12, 3, 0, 0, 410, 0))

    def test_a_clutch_that_is_asked_for_later(self):
        released = f"{K1} 2 4 5 8 4 5 8 4 7 t151"
        self.assert_list(released, K1_SHIFT, Shift(12, 21, 2, 0, 0, 410, 151))
        self.assert_list(f"{released} 9", K1_SHIFT, Shift(12, 22, 2, 1, 0, 410, 151))
        self.assert_list(f"{released} 9 4 5 8 4 5 8 4 5 t4 8", K1_SHIFT, Shift(12, 32, 2, 1, 1, 410, 155))
        self.assert_list(f"{released} 9 4 5 8 4 5 8 4 5 8 11 3", K1_SHIFT, Shift(12, 31, 2, 1, 1, 410, 151),
                         Shift(33, 33, 3, 0, 0, 561, 0))

    def test_room(self):
        for room in (0, 7, 8, 23):
            self.assertEqual(build(written(K1), b"x" * room), (15, 0, 0, 0, 0, b"x" * room))
        self.assertEqual(build(written(""), b"x" * 7), (15, 0, 0, 0, 0, b"x" * 7))
        self.assertEqual(build(written(""), b"x" * 8), (0, 0, 0, 0, 8, listed()))

    def test_files_that_are_not_read(self):
        file = written(K1, OLD_DEFAULT)
        broken = file[:46] + (1404).to_bytes(2, "little") + file[48:]
        for given, number, rule in ((b"", 1, 0), (bytes(12), 2, 0), (file[:-1], 3, 0), (broken, 4, 14)):
            self.assertEqual(build(given, b""), (number, rule, 0, 0, 0, b""))


class Fetching(unittest.TestCase):
    def test_each_shift(self):
        for number, shift in enumerate(K11_SHIFTS):
            self.assertEqual(fetch(number, listed(*K11_SHIFTS)), (0, shift))

    def test_numbers_past_the_count(self):
        for number in (2, 3, 2**16, 2**28, 2**28 + 1, 2**32, 2**32 + 1, 2**60, 2**60 + 1, 2**64 - 1):
            self.assertEqual(fetch(number, listed(*K11_SHIFTS)), (14, Shift()))
        self.assertEqual(fetch(0, listed()), (14, Shift()))

    def test_entries_as_they_stand(self):
        largest = Shift(65_535, 65_535, 255, 255, 255, 2**32 - 1, 2**32 - 1)
        self.assertEqual(fetch(0, list_of(b"\xff" * 16)), (0, largest))
        self.assertEqual(fetch(1, list_of(bytes(16) + bytes(range(1, 17)))),
                         (0, Shift(0x201, 0x403, 5, 6, 7, 0xc0b0a09, 0x100f0e0d)))

    def test_refusals_in_order(self):
        good = listed(K1_SHIFT)
        for given, number in (
            (b"", 1), (good[:7], 1), (bytes(8), 2), (bytes(7), 1), (good[:8], 3), (good[:-1], 3), (good + b"\0", 3),
            (good[:4] + b"\x09" + good[5:], 2), (good[:4] + b"\x09" + good[5:-1], 2),
            (good[:7] + b"\x01" + good[8:], 2), (bytes.fromhex("0000001008000000"), 3),
            (bytes.fromhex("ffffffff08000000"), 3), (bytes.fromhex("0800000000000000"), 2),
        ):
            for place in (0, 1, 2**28):
                self.assertEqual(fetch(place, given), (number, Shift()))


class Extending(unittest.TestCase):
    def assert_extended(self, before, text, *shifts, behind=b""):
        """A run, extended by more of it, has the list of the whole; other bytes of its buffer stay."""
        wanted = listed(*shifts)
        number, _, count, _, state = judge(written(before))
        self.assertEqual(number, 0)
        *_, length, held = build(written(before), bytes(999))
        buffer = held[:length] + b"x" * (len(wanted) + 5 - length)
        self.assertEqual(extend(OLD_DEFAULT, state, length, count, records(text) + behind, buffer),
                         (0, 0, 0, 0, len(wanted), wanted + b"x" * 5))

    def test_k1_at_every_place(self):
        words = K1.split()
        for place in range(len(words) + 1):
            for behind in (b"", b"\x01", b"\xff\xff\xff"):
                self.assert_extended(" ".join(words[:place]), " ".join(words[place:]), K1_SHIFT, behind=behind)

    def test_an_open_shift_that_goes_on(self):
        self.assert_extended("t3 1", "t5", Shift(1, 2, 1, 0, 0, 3, 5))
        self.assert_extended("t3 1 t5", "4", Shift(1, 3, 1, 0, 0, 3, 5))
        self.assert_extended("t3 1 t5", "", Shift(1, 2, 1, 0, 0, 3, 5))
        self.assert_extended("t3 1 4 7 t151", "9", Shift(1, 5, 1, 1, 0, 3, 151))
        self.assert_extended("t3 1 4 7 t151 9", "4 t6", Shift(1, 7, 1, 1, 0, 3, 157))
        self.assert_extended("t3 1 4 7 t151 9", "4 6 10 t8 13", Shift(1, 8, 1, 1, 2, 3, 151))

    def test_new_shifts(self):
        self.assert_extended(K1, "3 4 5 8 4 6 10", *K11_SHIFTS)
        self.assert_extended(K1, "3 4 5 8 4 6 10 t9 13 t4 2", *K11_SHIFTS, Shift(22, 22, 2, 0, 0, 423, 0))
        self.assert_extended("1 t5 4 t100 5", "t5 8 4 t300 5 8 11 3 4 5 8 4 6 10 13 3", *K11_SHIFTS,
                             Shift(20, 20, 3, 0, 0, 410, 0))
        self.assert_extended("t9", "t1 1", Shift(2, 2, 1, 0, 0, 10, 0))

    def test_every_cut_of_many_walks_is_the_list_of_the_whole(self):
        chance, cuts, in_shifts = random.Random(0), 0, 0
        for _ in range(60):
            table, steps, length, whole = accepted_walk(chance)
            for place in chance.sample(range(len(steps) + 1), min(len(steps) + 1, 25)):
                given = cut_walk(table, steps, place)
                case = worked(extend_case(chance, given, 0))
                self.assertEqual(case.answer, (0, 0, 0, 0, length, whole[:length]))
                cuts += 1
                in_shifts += 0 < given.state.phase < 22
        self.assertGreater(cuts, 900)
        self.assertGreater(in_shifts, 500)

    def test_three_pieces(self):
        chance = random.Random(1)
        for _ in range(40):
            table, steps, length, whole = accepted_walk(chance)
            first, second = sorted(chance.choices(range(len(steps) + 1), k=2))
            given = cut_walk(table, steps, first, second)
            buffer = given.listed() + bytes(9_999 - len(given.listed()))
            _, _, _, _, held, buffer = extend(table, given.state, len(given.listed()), first, given.records, buffer)
            given = cut_walk(table, steps, second)
            self.assertEqual(extend(table, given.state, held, second, given.records, buffer)[4:], (length, whole))


class RefusedExtensions(unittest.TestCase):
    # K1 up to its first working stage, and what fits it.
    STATE = State(clock=9, phase=1, phase_time=4, stage=2, stage_time=9, request_time=4)
    ENTRY = Shift(1, 3, 1, 0, 0, 4, 5)
    BROKEN = OLD_DEFAULT._replace(ChangeDL=1404)

    def numbers(self, **given):
        """Number, rule, index and excess of an extension of K1; where one of them is not 0, nothing changes."""
        fields = {"table": OLD_DEFAULT, "state": self.STATE, "count": 4, "shifts": [self.ENTRY],
                  "new": records("t100 5"), "head": None, "held": None, "room": 24, **given}
        held = listed(*fields["shifts"])
        buffer = ((fields["head"] or held[:8]) + held[8:] + bytes(99))[:fields["room"]]
        held = len(held) if fields["held"] is None else fields["held"]
        *answer, length, after = extend(fields["table"], fields["state"], held, fields["count"], fields["new"], buffer)
        if answer[0]:
            self.assertEqual((length, after), (0, buffer))
        return tuple(answer)

    def test_the_one_that_is_accepted(self):
        *_, state = judge(written("t4 1 t5 4"))
        self.assertEqual(state, self.STATE)
        self.assertEqual(self.numbers(), (0, 0, 0, 0))

    def test_one_reason_each(self):
        for given, answer in (
            ({"held": 25}, 15), ({"held": 2**64 - 1}, 15), ({"room": 23}, 15), ({"held": 7}, 1), ({"held": 0}, 1),
            ({"head": bytes(8)}, 2), ({"head": bytes.fromhex("0100000008000001")}, 2),
            ({"held": 8}, 3), ({"held": 23}, 3),
            ({"head": bytes.fromhex("0200000008000000")}, 3), ({"head": bytes.fromhex("0100001008000000")}, 3),
            ({"count": 16_371}, 2), ({"count": 2**32 - 1}, 2), ({"count": 0}, 2), ({"count": 3}, 14),
            ({"count": 5}, 14),
            ({"shifts": []}, 14), ({"state": START}, 14), ({"shifts": [self.ENTRY._replace(end=1)]}, 14),
            ({"shifts": [self.ENTRY._replace(request_time=5)]}, 14), ({"shifts": [self.ENTRY._replace(age=4)]}, 14),
            ({"shifts": [self.ENTRY._replace(last=2)]}, 14), ({"shifts": [self.ENTRY._replace(first=3)]}, 0),
            ({"shifts": [self.ENTRY._replace(kind=0, route=7)]}, 0),
        ):
            self.assertEqual(self.numbers(**given), (answer, 0, 0, 0), given)

    def test_a_table_that_is_not_admitted(self):
        for new in (b"", bytes(4), records("t100")):
            self.assertEqual(self.numbers(table=self.BROKEN, new=new), (4, 14, 0, 0))

    def test_records_that_are_refused(self):
        for text, number, index, excess in (
            ("t101", 12, 4, 1), ("t100 t7", 12, 5, 7), ("5 5", 7, 5, 0), ("7 t151", 11, 5, 1), ("7 t9 9", 9, 6, 137),
            ("1", 7, 4, 0),
        ):
            self.assertEqual(self.numbers(new=records(text)), (number, 0, index, excess), text)
        for new, number in ((bytes(4), 5), (b"\x0e\0\0\0", 5), (b"\x05\0\1\0", 6)):
            self.assertEqual(self.numbers(new=records("t1") + new), (number, 0, 5, 0))
        self.assertEqual(self.numbers(state=START, shifts=[], count=0, new=records("2")), (8, 0, 0, 0))
        late, shifts = State(clock=160, phase=1, stage=3, request_time=155), [self.ENTRY._replace(request_time=155)]
        self.assertEqual(self.numbers(state=late, shifts=shifts, new=records("8")), (10, 0, 4, 10))
        last = State(clock=2**32 - 2)
        self.assertEqual(self.numbers(state=last, shifts=[], new=records("t1 t3")), (13, 0, 5, 3))

    def test_the_order(self):
        head, many, table = {"head": bytes(8)}, {"count": 16_372}, {"table": self.BROKEN}
        fit, new = {"state": START}, {"new": bytes(4)}
        room = {"new": records("5 8 4 5 8 11 2"), "room": 24}
        for given, answer in (
            ({"held": 7, "room": 6}, (15, 0, 0, 0)), ({"held": 7, **head}, (1, 0, 0, 0)),
            ({"held": 8, **head}, (2, 0, 0, 0)), ({"held": 8, **many}, (3, 0, 0, 0)),
            ({**many, **table}, (2, 0, 0, 0)), ({"count": 0, **table}, (2, 0, 0, 0)),
            ({**table, **fit}, (4, 14, 0, 0)), ({**fit, **new}, (14, 0, 0, 0)), (room, (15, 0, 0, 0)),
            ({**room, "new": room["new"] + bytes(4)}, (5, 0, 11, 0)), ({**room, **fit}, (14, 0, 0, 0)),
        ):
            self.assertEqual(self.numbers(**given), answer, given)

    def test_outside_of_a_shift(self):
        ended = Shift(0, 3, 2, 1, 2, 0, 0)
        for phase in (0, 22, 23, 24, 255):
            state = State(clock=9, phase=phase)
            for shifts, number in (
                ([], 0), ([ended], 0), ([ended._replace(end=255)], 0), ([ended._replace(end=0)], 14),
                ([ended._replace(last=4)], 14), ([ended._replace(last=0)], 0), ([ended._replace(end=0), ended], 0),
                ([ended, ended._replace(end=0)], 14), ([ended._replace(last=4), ended], 0),
            ):
                self.assertEqual(self.numbers(state=state, shifts=shifts, new=b"", room=60), (number, 0, 0, 0))

    def test_foreign_entries(self):
        state = State(clock=5, phase=3, phase_time=5, stage=3, stage_time=5, request_time=7)
        before, entry = b"\xff" * 16, bytes.fromhex("0900 0400 00 07 00 ee 07000000 00000000")
        for text, after in (
            ("", "0900 0400 00 07 00 00 07000000 00000000"), ("t1", "0900 0500 00 07 00 00 07000000 00000000"),
            ("t4", "0900 0500 00 07 00 00 07000000 02000000"),
            ("t3 8 t9 11", "0900 0600 00 07 01 00 07000000 01000000"),
        ):
            self.assertEqual(extend(OLD_DEFAULT, state, 40, 5, records(text), list_of(before + entry)),
                             (0, 0, 0, 0, 40, list_of(before + bytes.fromhex(after))))
        asks = State(clock=200, phase=10, stage=5, request_time=200)
        entry = bytes.fromhex("0000 0400 03 07 00 00 c8000000 00000000")
        self.assertEqual(extend(OLD_DEFAULT, asks, 24, 5, records("9"), list_of(entry))[5],
                         list_of(bytes.fromhex("0000 0500 03 01 00 00 c8000000 00000000")))

    def test_the_reasons_of_the_coverage_are_this_program_s(self):
        for case in map(worked, refused_extend_cases.demanded(random.Random(2))):
            number, found = case.answer[0], reasons(*case.parts)
            wanted = REASONS[found[0]] if found else 0
            self.assertTrue(5 <= number <= 13 if found[:1] == ["record"] else number == wanted)
