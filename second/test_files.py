"""Tests of files, lines, writing, joining and the corpus, over the known runs."""

import unittest

from corpus import Case, case_of, cases_in, packed, parts_of, worked
from files import advance, block, file_without_entries, fours, join, judge, lay_line, line, read, write
from records import packed_steps
from rules import NEW_DEFAULT, OLD_DEFAULT, START, State

K1 = "1 t5 4 t100 5 t5 8 4 t300 5 8 11"
# The customer's case: the set order is taken in phase 4, and the clutch would not close in 5.
WOULD_NOT_CLOSE = "1 4 7 t151 9 4 5 8 4 5 8 4 6 10"


def lists(text):
    """The codes and the amounts of a run, where tN is a tick."""
    words = [(12, int(word[1:])) if word[0] == "t" else (int(word), 0) for word in text.split()]
    return bytes(code for code, _ in words), [amount for _, amount in words]


def written(text, table=None):
    """The file of a run: as the writer has it with a table, and else without entries."""
    codes, amounts = lists(text)
    if table is None:
        return file_without_entries(packed_steps(zip(codes, amounts)))
    number, _, _, length, buffer = write(table, codes, amounts, bytes(65_536))
    assert number == 0
    return buffer[:length]


class KnownRuns(unittest.TestCase):
    def assert_run(self, text, number, count, over=0, **fields):
        """The judge's number, count and excess of a run, and fields of its state; the running judge has to agree."""
        file = written(text)
        got, rule, accepted, excess, state = judge(file)
        self.assertEqual((got, rule, accepted, excess), (number, 0, count, over))
        self.assertEqual({name: getattr(state, name) for name in fields}, fields)
        running, answers = START, [(0, 0)]
        for four in fours(read(file)[3]):
            if answers[-1] == (0, 0):
                number, _, excess, running = advance(OLD_DEFAULT, running, four)
                answers.append((number, excess))
        self.assertEqual((answers[-1], running), ((got, over), state))

    def test_k1(self):
        self.assert_run(K1, 0, 12, clock=410, phase=0, box=1, stage=0, request_time=0, failed_phase=0)

    def test_k2(self):
        self.assert_run("", 0, 0, **START._asdict())

    def test_k3(self):
        self.assert_run("1 t6", 12, 1, over=1, clock=0, phase=1)
        self.assert_run("1 t5", 0, 2, clock=5, phase=1)

    def test_k4(self):
        self.assert_run("1 t5 4 t101", 12, 3, over=1, clock=5, phase=1, stage=2)
        self.assert_run("1 t5 4 t100", 0, 4, clock=105)

    def test_k5(self):
        self.assert_run("1 4 7 t150 9", 9, 4, over=1, clock=150, phase=1, stage=5)

    def test_k6(self):
        self.assert_run("1 4 7 t151 9", 0, 5, clock=151, phase=2, phase_time=151, stage=1, stage_time=151)

    def test_k7(self):
        self.assert_run("1 4 7 t156", 11, 3, over=1, clock=0, phase=1)
        self.assert_run("1 4 7 t155", 0, 4, clock=155, phase=1)

    def test_how_far_over(self):
        self.assert_run("1 t65535", 12, 1, over=65_530)
        self.assert_run("t9 1 t2 4 t3 t98", 12, 5, over=1, clock=14)
        self.assert_run("t9 1 t2 4 t3 t300", 12, 5, over=203, clock=14)
        self.assert_run("t9 1 t2 4 7 t3 9", 9, 6, over=146, clock=14)
        self.assert_run("t9 1 t2 4 7 t3 t200", 11, 6, over=50, clock=14)
        self.assert_run("t9 1 t2 4 7 t3 4", 7, 6, clock=14)

    def test_k8(self):
        self.assert_run("2", 8, 0, **START._asdict())

    def test_k9(self):
        self.assert_run("1 1", 7, 1, phase=1)

    def test_k10(self):
        self.assert_run("1 4 6", 7, 2, phase=1, stage=2)

    def test_k11(self):
        self.assert_run(f"{K1} 3 4 5 8 4 6 10 11", 7, 19, clock=410, phase=23, failed_phase=19, box=1, request_time=410)

    def test_only_ticks_and_a_reset_follow_an_error(self):
        error = f"{K1} 3 4 5 8 4 6 10 t9"
        for code in range(1, 12):
            self.assert_run(f"{error} {code}", 7, 20, clock=419, phase=23)
        self.assert_run(f"{error} 13 13", 7, 21, clock=419, phase=0, box=1)

    def test_a_clutch_that_would_not_close(self):
        error = {"clock": 151, "box": 1, "phase": 23, "phase_time": 151, "failed_phase": 5, "request_time": 0}
        self.assert_run(WOULD_NOT_CLOSE, 0, 14, **error)
        self.assert_run(f"t9 {WOULD_NOT_CLOSE}", 0, 15, clock=160, request_time=9, failed_phase=5, box=1)
        at_rest = {"clock": 160, "box": 1, "phase": 0, "stage": 0, "request_time": 0, "failed_phase": 0}
        self.assert_run(f"t9 {WOULD_NOT_CLOSE} 13", 0, 16, phase_time=160, stage_time=160, **at_rest)
        self.assert_run(f"{WOULD_NOT_CLOSE} 13 1", 8, 15, phase=0, box=1)
        self.assert_run(f"{WOULD_NOT_CLOSE} 13 2", 0, 16, phase=6, box=1)
        self.assert_run(f"{WOULD_NOT_CLOSE} t3 13 t4 3", 0, 18, phase=17, request_time=158, failed_phase=0, box=1)

    def test_a_reset_with_the_box_neutral(self):
        self.assert_run("1 4 5 8 4 6 10 13", 0, 8, **START._asdict())
        self.assert_run("1 4 5 8 4 6 10 13 3", 8, 8, phase=0, box=0)
        self.assert_run("1 4 5 8 4 6 10 13 1", 0, 9, phase=1, box=0)

    def test_the_box_along_gear_to_gear(self):
        without = f"{K1} 2 4 5 8 4 5 8"
        self.assert_run(without, 0, 19, phase=10, box=0)
        self.assert_run(f"{without} 4 5 8 4 6 10", 0, 25, phase=23, failed_phase=12, box=0)
        self.assert_run(f"{without} 4 5 8 4 5 8", 0, 25, phase=22, box=1)
        asked = f"{K1} 2 4 7 t251 9 4 5 8 4 5 8"
        self.assert_run(asked, 0, 23, phase=14, box=0)
        self.assert_run(f"{asked} 4 5 8", 0, 26, phase=16, box=1)
        self.assert_run(f"{asked} 4 5 8 4 6 10 13 2", 0, 31, phase=6, box=1)

    def test_the_box_along_to_neutral(self):
        asked = f"{K1} 3 4 7 t251 9 4 5 8"
        self.assert_run(asked, 0, 20, phase=20, box=1)
        self.assert_run(f"{asked} 4 5 8", 0, 23, phase=21, box=0)
        self.assert_run(f"{asked} 4 5 8 4 6 10 13 1", 0, 28, phase=1, box=0)


class Blocks(unittest.TestCase):
    RECORDS = written(K1)[12:]

    def test_a_run_cut_in_two_blocks(self):
        whole = judge(written(K1))
        for place in range(0, len(self.RECORDS) + 1, 4):
            first = block(OLD_DEFAULT, START, self.RECORDS[:place])
            self.assertEqual(first[:4], (0, 0, place // 4, 0))
            second = block(OLD_DEFAULT, first[4], self.RECORDS[place:])
            self.assertEqual((*second[:2], first[2] + second[2], *second[3:]), whole)

    def test_what_is_left_over(self):
        for left in range(4):
            for byte in b"\x01\xff":
                self.assertEqual(block(OLD_DEFAULT, START, self.RECORDS + bytes((byte,)) * left), judge(written(K1)))
                self.assertEqual(block(OLD_DEFAULT, START, bytes((byte,)) * left), (0, 0, 0, 0, START))

    def test_the_state_before_the_refused_record_and_its_excess(self):
        for text, number, count, excess in (
            ("13 1", 7, 0, 0), ("1 t6 4", 12, 1, 1), ("1 t5 4 t101", 12, 3, 1), ("1 4 7 t150 9", 9, 4, 1),
            ("1 4 7 t156", 11, 3, 1), ("t7 1 t2 4 t1 t400 4", 12, 5, 301),
        ):
            *_, state = judge(written(" ".join(text.split()[:count])))
            self.assertEqual(block(OLD_DEFAULT, START, written(text)[12:]), (number, 0, count, excess, state))

    def test_excesses_on_given_states(self):
        ahead = State(phase=1, stage=5, phase_time=2**32 - 1)
        given = [
            (ahead, "9", (9, 0, 0, 2**32 + 150, ahead)),
            (ahead, "t3 t4 9 9", (9, 0, 2, 2**32 + 143, ahead._replace(clock=7))),
            (State(clock=151, phase=1, stage=3), "8", (10, 0, 0, 1, State(clock=151, phase=1, stage=3))),
            (State(clock=2**32 - 9), "t8 t9", (13, 0, 1, 9, State(clock=2**32 - 1))),
        ]
        for state, text, answer in given:
            self.assertEqual(block(OLD_DEFAULT, state, written(text)[12:]), answer)

    def test_a_table_that_is_not_admitted(self):
        table, unlisted = OLD_DEFAULT._replace(ChangeDL=1404), State(box=2)
        for records in (b"", b"\xff" * 3):
            self.assertEqual(block(table, unlisted, records), (0, 0, 0, 0, unlisted))
        for records in (b"\xff" * 4, self.RECORDS):
            self.assertEqual(block(table, unlisted, records), (4, 14, 0, 0, unlisted))

    def test_a_state_that_is_not_listed(self):
        for state in (State(phase=24), State(stage=6), State(box=2)):
            for records, number in ((b"", 0), (self.RECORDS, 7), (b"\xff" * 8, 5), (b"\x01\1\0\0", 6)):
                self.assertEqual(block(OLD_DEFAULT, state, records), (number, 0, 0, 0, state))


class Lines(unittest.TestCase):
    def test_samples(self):
        self.assertEqual(len(written(K1)), 60)
        self.assertEqual(line(written(K1)), b"accepted 12 0 410 0 1 0\n")
        self.assertEqual(line(written("1 4 7 t150 9")), b"refused 4 9 150 1 0 1\n")
        self.assertEqual(line(written(WOULD_NOT_CLOSE)), b"accepted 14 0 151 23 1 0\n")
        self.assertEqual(line(written(f"{WOULD_NOT_CLOSE} 13")), b"accepted 15 0 151 0 1 0\n")
        self.assertEqual(line(b""), b"unread 0 1 0 0 0 0\n")

    def test_the_seventh_field(self):
        self.assertEqual(line(written("1 t6")), b"refused 1 12 0 1 0 1\n")
        self.assertEqual(line(written("1 t5 4 t101")), b"refused 3 12 5 1 0 1\n")
        self.assertEqual(line(written("1 4 7 t156")), b"refused 3 11 0 1 0 1\n")
        self.assertEqual(line(written(f"{K1} 3 t65535")), b"refused 13 12 410 17 1 65530\n")
        self.assertEqual(line(written(f"{K1} 3 4 7 9")), b"refused 15 9 410 17 1 251\n")
        self.assertEqual(line(written("1 1")), b"refused 1 7 0 1 0 0\n")
        self.assertEqual(line(written("2")), b"refused 0 8 0 0 0 0\n")
        self.assertEqual(line(written("t9")[:-4] + bytes(4)), b"refused 0 5 0 0 0 0\n")
        broken = written("1 t6", OLD_DEFAULT)
        self.assertEqual(line(broken[:46] + bytes(2) + broken[48:]), b"unread 0 4 0 0 0 0\n")

    def test_room(self):
        file, text = written(K1), b"accepted 12 0 410 0 1 0\n"
        self.assertEqual(lay_line(file, b"x" * 23), (15, 0, b"x" * 23))
        self.assertEqual(lay_line(file, b"x" * 24), (0, 24, text))
        self.assertEqual(lay_line(file, b"x" * 26), (0, 24, text + b"xx"))


class Reading(unittest.TestCase):
    def numbers(self, *given):
        """The reader's number and rule of each; what is refused has no records."""
        answers = [read(file) for file in given]
        self.assertTrue(all(number == 0 or records == b"" for number, _, _, records in answers))
        return [(number, rule) for number, rule, _, _ in answers]

    def test_header_and_length(self):
        file = written(K1)
        self.assertEqual(self.numbers(file, b"", file[:11], file[:12], file[:-1], file + b"\0"),
                         [(0, 0), (1, 0), (1, 0), (3, 0), (3, 0), (3, 0)])
        changed = [file[:place] + bytes((file[place] ^ 128,)) + file[place + 1:] for place in range(12)]
        self.assertEqual(self.numbers(*changed), [(2, 0)] * 8 + [(3, 0)] + [(2, 0)] * 3)

    def test_most_records(self):
        self.assertEqual(self.numbers(written("t1 " * 16_372)), [(0, 0)])
        header = written("")[:8]
        given = [header + (16_373).to_bytes(4, "little") + bytes(4 * 16_373), bytes(65_537)]
        self.assertEqual(self.numbers(*given, header + (16_372).to_bytes(4, "little")), [(2, 0), (2, 0), (3, 0)])

    def test_table(self):
        table = OLD_DEFAULT._replace(ChangeDL=2000)
        file = written(K1, table)
        self.assertEqual(read(file), (0, 0, table, written(K1)[12:]))
        rule_14 = file[:46] + (1404).to_bytes(2, "little") + file[48:]
        self.assertEqual(read(rule_14), (4, 14, OLD_DEFAULT._replace(ChangeDL=1404), b""))
        self.assertEqual(judge(rule_14), (4, 14, 0, 0, START))
        self.assertEqual(read(rule_14[:48])[:3], (3, 0, OLD_DEFAULT._replace(ChangeDL=1404)))
        self.assertEqual(read(rule_14[:47])[:3], (3, 0, OLD_DEFAULT))

    def test_records(self):
        def refused(four):
            return judge(written("t7 t8")[:16] + four)[:3] + (advance(OLD_DEFAULT, START, four)[0],)

        self.assertEqual(refused(bytes((14, 9, 0, 0))), (5, 0, 1, 5))
        self.assertEqual(refused(bytes((13, 9, 0, 0))), (6, 0, 1, 6))
        self.assertEqual(refused(bytes((13, 0, 1, 0))), (6, 0, 1, 6))
        self.assertEqual(refused(bytes((13, 0, 0, 0))), (7, 0, 1, 7))
        self.assertEqual(refused(bytes((0, 0, 0, 0))), (5, 0, 1, 5))
        self.assertEqual(refused(bytes((12, 1, 1, 0))), (6, 0, 1, 6))
        self.assertEqual(refused(bytes((12, 0, 0, 0))), (6, 0, 1, 6))
        self.assertEqual(refused(bytes((1, 0, 0, 1))), (6, 0, 1, 6))


class Writing(unittest.TestCase):
    def refused(self, *given):
        """Number, rule and index of a writing that is refused, into a buffer with room."""
        number, rule, index, length, buffer = write(*given, b"x" * 65_540)
        self.assertEqual((length, buffer), (0, b"x" * 65_540))
        return number, rule, index

    def test_round_trip(self):
        for table in (None, OLD_DEFAULT, NEW_DEFAULT, OLD_DEFAULT._replace(ChangeDL=1405)):
            codes, amounts = lists(f"{K1} 13")
            number, rule, index, length, buffer = write(table, codes, amounts, b"x" * 200)
            self.assertEqual((number, rule, index, length), (0, 0, 0, 100))
            self.assertEqual(buffer[length:], b"x" * (200 - length))
            _, _, got, records = read(buffer[:length])
            self.assertEqual(got, table or NEW_DEFAULT)
            self.assertEqual([tuple(four) for four in fours(records)],
                             [(code, 0, amount % 256, amount // 256) for code, amount in zip(codes, amounts)])

    def test_room(self):
        for table in (None, OLD_DEFAULT):
            self.assertEqual(write(table, b"\x01", [0], b"x" * 51), (15, 0, 0, 0, b"x" * 51))
            self.assertEqual(write(table, b"\x01", [0], b"x" * 52)[:4], (0, 0, 0, 52))

    def test_refusals_in_order(self):
        broken, many = OLD_DEFAULT._replace(ChangeDL=1404), 16_373
        self.assertEqual(self.refused(broken, bytes(many), [0] * (many + 1)), (3, 0, 0))
        self.assertEqual(self.refused(broken, bytes(many), [0] * many), (2, 0, 0))
        self.assertEqual(self.refused(broken, bytes(3), [0] * 3), (4, 14, 0))
        self.assertEqual(self.refused(OLD_DEFAULT, b"\x01\x00\x0e", [0] * 3), (5, 0, 1))
        self.assertEqual(self.refused(OLD_DEFAULT, b"\x0d\x0e", [0] * 2), (5, 0, 1))
        self.assertEqual(self.refused(OLD_DEFAULT, b"\x0d\x0d", [0, 1]), (6, 0, 1))
        self.assertEqual(self.refused(None, b"\x01\x0c\x00", [0] * 3), (6, 0, 1))
        self.assertEqual(self.refused(None, b"\x01\x0c", [0, 65_536]), (6, 0, 1))


class Joining(unittest.TestCase):
    def test_parts_of_one_file(self):
        buffer, held = b"x" * 10, 0
        for offset, part, now in ((0, b"abc", 3), (3, b"de", 5), (1, b"bcdefg", 7), (2, b"cd", 7), (7, b"", 7)):
            number, held, buffer = join(buffer, held, offset, part)
            self.assertEqual((number, held, buffer), (0, now, b"abcdefg"[:now] + b"x" * (10 - now)))

    def test_refusals_in_order(self):
        buffer = b"abcxx"
        self.assertEqual(join(buffer, 6, 7, b""), (15, 6, buffer))
        self.assertEqual(join(buffer, 3, 4, b"xyz"), (14, 3, buffer))
        self.assertEqual(join(buffer, 3, 2**64 - 1, b"xyz"), (14, 3, buffer))
        self.assertEqual(join(buffer, 3, 2, b"Cdef"), (15, 3, buffer))
        self.assertEqual(join(buffer, 3, 2, b"Cde"), (16, 3, buffer))
        self.assertEqual(join(buffer, 3, 2, b"cde"), (0, 5, b"abcde"))


class Corpus(unittest.TestCase):
    def test_bytes_and_parts(self):
        state = State(1, 2, 3, 4, 5, 6, 7, 8)
        given = [
            ("admit", OLD_DEFAULT),
            ("step", OLD_DEFAULT, state, 9, 10),
            ("advance", OLD_DEFAULT, state, b"1234"),
            ("read", b"file"),
            ("judge", b"file"),
            ("line", b"file", b"buffer"),
            ("join", 1, 2, b"part", b"buffer"),
            ("write", 1, OLD_DEFAULT, [3, 4], b"codes", b"buffer"),
            ("manual", OLD_DEFAULT, b"12345678"),
            ("block", OLD_DEFAULT, state, b"1234567"),
            ("list", b"file", b"buffer"),
            ("fetch", 11, b"list"),
            ("extend", OLD_DEFAULT, state, 12, 13, b"1234567", b"buffer"),
            ("text", b"text"),
            ("tighter", OLD_DEFAULT, NEW_DEFAULT),
            ("print", OLD_DEFAULT),
            ("rules", OLD_DEFAULT),
        ]
        cases = [case_of(*case) for case in given]
        self.assertEqual([len(case.a) for case in cases],
                         [44, 69, 68, 0, 0, 0, 16, 53, 44, 64, 0, 8, 76, 0, 88, 44, 44])
        self.assertEqual([parts_of(case) for case in cases], [list(case[1:]) for case in given])
        self.assertEqual(list(cases_in(b"".join(map(packed, cases)))), cases)

    def test_lines(self):
        lines = [
            (case_of("admit", OLD_DEFAULT), "admit 0"),
            (case_of("step", OLD_DEFAULT, State(phase=1, phase_time=2**32 - 1, stage=5), 9, 0),
             "step 9 0 4294967446 0 0 1 4294967295 5 0 0 0"),
            (case_of("advance", OLD_DEFAULT, START, b"\x02\0\0\0"), "advance 8 0 0 0 0 0 0 0 0 0 0"),
            (case_of("read", b""), f"read 1 0 {' '.join(map(str, OLD_DEFAULT))} -"),
            (case_of("judge", written("1 t5")), "judge 0 0 2 0 5 0 1 0 1 0 0 0"),
            (case_of("judge", written("1 t5 t7")), "judge 12 0 2 7 5 0 1 0 1 0 0 0"),
            (case_of("line", b"", b"\xab"), "line 15 0 ab"),
            (case_of("join", 0, 0, b"\x01", b"\xff\xff"), "join 0 1 01ff"),
            (case_of("write", 0, OLD_DEFAULT, [], b"", b""), "write 15 0 0 0 -"),
            (case_of("manual", OLD_DEFAULT, b""),
             f"manual 0 0 0 0 01{'00' * 63}{' 0' * 34}{' 0' * 7} 0 0 0 0{' 0' * 8}"),
            (case_of("manual", OLD_DEFAULT._replace(ChangeDL=1404), b"\x01\0\0\0"),
             f"manual 4 14 0 0 01{'00' * 63}{' 0' * 34}{' 0' * 7} 4 14 0 0{' 0' * 8}"),
            (case_of("manual", OLD_DEFAULT, b"\x0c\0\x07\0\x01\0\0\0\x0c\0\x02\0\x01\0\0\0"),
             f"manual 7 0 3 0 0101{'00' * 62} 9 7{' 0' * 32} 9 0 1 1 7 7 7 7 0 3 0 9 0 1 7 1 7 7 0"),
            (case_of("manual", OLD_DEFAULT, b"\x01\0\0\0\x0c\0\x0f\0"),
             f"manual 12 0 1 10 0101{'00' * 62}{' 0' * 34} 0 0 1 1 0 0 0 12 0 1 10 0 0 1 0 1 0 0 0"),
            (case_of("manual", OLD_DEFAULT, b"123"), "bad"),
            (case_of("block", OLD_DEFAULT, START, b"\x01\0\0\0\x0c\0\x05\0\x0c"), "block 0 0 2 0 5 0 1 0 1 0 0 0"),
            (case_of("block", OLD_DEFAULT, START, b"\x01\0\0\0\x0c\0\x06\0"), "block 12 0 1 1 0 0 1 0 1 0 0 0"),
            (Case(10, bytes(63)), "bad"),
            (Case(10, bytes(64), b"", b"x"), "bad"),
            (case_of("list", written(""), b"x" * 9), "list 0 0 0 0 8 000000000800000078"),
            (case_of("list", written("1"), b"x" * 8), f"list 15 0 0 0 0 {'78' * 8}"),
            (case_of("list", written("t9 1 t15"), b""), "list 12 0 2 10 0 -"),
            (Case(11, b"x"), "bad"),
            (case_of("fetch", 1, bytes.fromhex("0200000008000000" + "01" * 16 + "020003000401060708000000ffffffff")),
             "fetch 0 2 3 4 1 6 8 4294967295"),
            (case_of("fetch", 2, bytes.fromhex("0200000008000000" + "01" * 32)), "fetch 14 0 0 0 0 0 0 0"),
            (Case(12, bytes(7)), "bad"),
            (Case(12, bytes(9)), "bad"),
            (Case(12, bytes(8), b"", b"x"), "bad"),
            (case_of("extend", OLD_DEFAULT, START, 8, 0, b"\x01\0\0\0x", bytes.fromhex("0000000008000000" + "78" * 17)),
             f"extend 0 0 0 0 24 0100000008000000{'00' * 4}01{'00' * 11}78"),
            (case_of("extend", OLD_DEFAULT, START, 8, 7, b"\x0c\0\1\0\x02\0\0\0", bytes.fromhex("0000000008000000")),
             "extend 8 0 8 0 0 0000000008000000"),
            (Case(13, bytes(75)), "bad"),
            (Case(13, bytes(77)), "bad"),
            (Case(1, bytes(43)), "bad"),
            (Case(1, bytes(36)), "bad"),
            (Case(8, bytes(46)), "bad"),
            (Case(5, b"", b"", b"x"), "bad"),
            (None, "bad"),
        ]
        self.assertEqual([worked(case).line() for case, _ in lines], [text for _, text in lines])

    def test_what_ends_a_run(self):
        good = case_of("admit", OLD_DEFAULT)
        too_long = bytes((4, 0, 0, 0, 0)) + (66_001).to_bytes(4, "little") + bytes(4 + 66_001)
        for end in (b"\x01", packed(Case(18)), packed(Case(0)), packed(good)[:-1], too_long):
            self.assertEqual(list(cases_in(packed(good) + end)), [good, None])
