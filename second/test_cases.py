"""Tests of what makes the cases: tables, walks and the generator; and that each search ends."""

import io
import random
import unittest
from contextlib import redirect_stdout
from itertools import islice
from types import SimpleNamespace
from unittest.mock import patch

import compare
import generator
from block_cases import refused_behind_ticks
from corpus import case_of, worked
from coverage import OVER, Coverage, later_numbers, marks, possible_cells
from files import block, file_of, file_without_entries, judge
from generator import cases
from records import LISTED, packed_pieces, packed_steps
from rules import LAST_CLOCK, OLD_DEFAULT, REQUESTS, START, State, broken_rule, slacks, step
from search import MOST_TRIES, NotFound, first_found
from shifts import Shift, list_of
from step_cases import aimed_steps
from tables import RULES, admitted_table, edge_tables, good_table
from test_files import WOULD_NOT_CLOSE, written
from test_shifts import listed
from versions import Wrong, loaded
from walks import ROUNDS, SHIFTS, SLOW, lead, leads, mixed, steps_over, timed, walks_over, walks_through_errors


class Makers(unittest.TestCase):
    def setUp(self):
        self.chance = random.Random(0)

    def test_admitted_tables(self):
        for tight in [False, True] * 50:
            self.assertEqual(broken_rule(admitted_table(self.chance, tight)), 0)

    def test_edge_tables(self):
        for rule in RULES:
            neighbours = edge_tables(self.chance, rule)
            self.assertEqual(broken_rule(neighbours[0]), rule)
            self.assertEqual([slacks(table)[rule - 1] for table in neighbours[:2]], [-1, 0])

    def test_every_shift_is_accepted_at_any_pace(self):
        self.assertEqual([len(shifts) for shifts in SHIFTS.values()], [6, 12, 6])
        for request, shifts in ROUNDS.items():
            for shift in shifts:
                table = admitted_table(self.chance)
                for pace in (min, max, mixed(self.chance)):
                    steps = timed(table, lead(self.chance, request) + shift, pace)
                    number, *_, state = judge(file_of(table, packed_steps(steps)))
                    self.assertEqual((number, state.phase), (0, 0))

    def test_leads(self):
        self.assertEqual([len(leads(request)) for request in REQUESTS], [4, 3, 3])
        for request in REQUESTS:
            for codes in leads(request):
                file = file_without_entries(packed_steps(timed(OLD_DEFAULT, codes, min)))
                self.assertEqual(judge(file)[-1].box, REQUESTS[request].box)

    def test_walks_through_errors(self):
        walks = list(walks_through_errors(self.chance, admitted_table))
        numbers = [judge(file_of(table, packed_steps(steps)))[0] for table, steps in walks]
        self.assertEqual([numbers.count(number) for number in (0, 8)], [26, 25])

    def test_records_of_blocks_that_are_refused_behind_ticks(self):
        for code in LISTED:
            for number in later_numbers(code) - {0}:
                table = good_table(self.chance)
                state, ticks, four = refused_behind_ticks(self.chance, table, code, number)
                self.assertEqual(block(table, state, packed_pieces(ticks, four))[:3], (number, 0, len(ticks)))

    def test_steps_that_are_over_by_an_excess(self):
        sizes = {number: set() for number in OVER}
        for table, state, code, amount in aimed_steps(self.chance):
            number, rule, excess, _ = step(table, state, code, amount)
            sizes[number].add(excess)
            self.assertEqual(rule, 0)
        narrow = {1, 2, 2**16 - 1, 2**16, 2**31, LAST_CLOCK - 65_535}
        self.assertEqual(sizes, {9: narrow | {LAST_CLOCK, LAST_CLOCK + 1}, 10: narrow, 11: narrow, 12: narrow,
                                 13: {1, 2, 65_535}})

    def test_walks_that_are_over_by_an_excess(self):
        answers = [judge(file_of(SLOW, packed_steps(steps))) for steps in walks_over(self.chance)]
        self.assertEqual([(number, len(str(excess))) for number, _, _, excess, _ in answers],
                         [(number, digits) for number in (9, 11, 12) for digits in range(1, 6)])

    def test_steps_over_a_limit(self):
        waiting = State(clock=100, phase=1, stage=5)
        self.assertEqual([steps_over(OLD_DEFAULT, waiting, number, 3) for number in (9, 11, 13)],
                         [[(12, 48), (9, 0)], [(12, 58)], None])
        self.assertIsNone(steps_over(OLD_DEFAULT, waiting, 9, 51))

    def test_a_seed_makes_the_same_cases(self):
        first, again, other = (list(islice(cases(seed, 0), 200)) for seed in (7, 7, 8))
        self.assertEqual(first, again)
        self.assertNotEqual(first, other)


class TheCoverage(unittest.TestCase):
    def assert_marked(self, cells, *parts):
        """A case covers at least these cells, and nothing that can't come up."""
        found = marks(worked(case_of(*parts)))
        self.assertLessEqual(cells, found)
        self.assertLessEqual(found, set(possible_cells()))

    def test_an_error_its_reset_and_the_next_request(self):
        file = written(f"{WOULD_NOT_CLOSE} t1 13 t1 3 13")
        self.assert_marked({
            ("file takes", 4, "neutral, in gear"), ("errors", 5, "in gear"), ("errors", 5, "reset"),
            ("errors", 5, "then 3"), ("resets", 23, "judge 0"), ("resets", 17, "judge 7"), ("judge", 0, 13),
        }, "judge", file)
        self.assert_marked({
            ("place errors", 5, "in gear"), ("place errors", 5, "reset"), ("place errors", 5, "then 3"),
            ("place resets", 5, "error"), ("place resets", 17, "sent"), ("events", "RESET", 0), ("manual", 7, 13),
        }, "manual", OLD_DEFAULT, file[12:])

    def test_single_resets_and_takes(self):
        error = State(phase=23, stage=4, box=1)
        self.assert_marked({("accepted resets", "failed", "step, in gear"), ("resets", 23, "step 0")},
                           "step", OLD_DEFAULT, error, 13, 0)
        self.assert_marked({("accepted resets", "failed", "advance, in gear"), ("resets", 23, "advance 0")},
                           "advance", OLD_DEFAULT, error, b"\x0d\0\0\0")
        self.assert_marked({("resets", 23, "advance 6")}, "advance", OLD_DEFAULT, error, b"\x0d\0\1\0")
        self.assert_marked({("resets", 0, "step 7")}, "step", OLD_DEFAULT, START, 13, 0)
        self.assert_marked({("takes", 5, "neutral, neutral")}, "step", OLD_DEFAULT, State(phase=5, stage=3), 8, 0)
        self.assert_marked({("takes", 9, "neutral, neutral")}, "step", OLD_DEFAULT, State(phase=9, stage=3), 8, 0)

    def test_codes(self):
        self.assert_marked({("step", 5, 14)}, "step", OLD_DEFAULT, START, 14, 0)
        self.assert_marked({("step", 5, "other")}, "step", OLD_DEFAULT, START, 15, 0)
        self.assert_marked({("write", 0, 1), ("write", 0, 13)}, "write", 0, OLD_DEFAULT, [0, 0], b"\x01\x0d", bytes(56))
        self.assert_marked({("write", 5, 14)}, "write", 0, OLD_DEFAULT, [0, 0], b"\x0d\x0e", bytes(20))
        self.assert_marked({("write", 6, 13)}, "write", 0, OLD_DEFAULT, [1, 0], b"\x0d\x0e", bytes(20))

    def test_blocks(self):
        bad, shift = OLD_DEFAULT._replace(ChangeDL=1404), written(WOULD_NOT_CLOSE)[12:]
        for given, cells in (
            ((OLD_DEFAULT, START, shift), {("left over", 0, "accepted")}),
            ((OLD_DEFAULT, START, shift + b"\x0d\xff"), {("left over", 2, "a code left over")}),
            ((OLD_DEFAULT, START, shift + b"\x0e"), {("left over", 1, "no code left over")}),
            ((OLD_DEFAULT, START, shift[4:]), {("block places", 7, "first"), ("left over", 0, "refused")}),
            ((OLD_DEFAULT, START, shift + shift), {("block places", 7, "between")}),
            ((OLD_DEFAULT, START, shift + bytes(5)), {("block places", 5, "last"), ("left over", 1, "refused")}),
            ((OLD_DEFAULT, START, bytes(4)), {("block places", 5, "alone")}),
            ((bad, START, shift), {("rules", "block", 14), ("block places", 4, "first")}),
            ((bad, START, b"123"), {("numbers", "block", 0), ("left over", 3, "no record, bad table")}),
            ((bad, State(stage=6), b"1234"), {("unlisted", "stage", 4), ("left over", 0, "refused, bad table")}),
            ((OLD_DEFAULT, State(box=2), b""), {("unlisted", "box", "no record"), ("left over", 0, "no record")}),
            ((OLD_DEFAULT, State(phase=24), shift), {("unlisted", "phase", 7)}),
        ):
            self.assert_marked(cells, "block", *given)

    def test_excesses(self):
        sent, ahead = State(phase=1, stage=1), State(phase=1, phase_time=LAST_CLOCK, stage=5)
        late = State(clock=400, phase=1, stage=2, stage_time=400)
        for given, cells in (
            (("step", OLD_DEFAULT, sent, 12, 6), {("excesses", "step 12", "1")}),
            (("step", OLD_DEFAULT, sent, 12, 7), {("excesses", "step 12", "16 bits")}),
            (("step", OLD_DEFAULT, sent, 12, 157), {("both limits", "step", "channel, sent: less")}),
            (("step", OLD_DEFAULT, late, 12, 101), {
                ("excesses", "step 12", "1"), ("both limits", "step", "device: more")}),
            (("step", OLD_DEFAULT, ahead, 9, 0), {("excesses", "step 9", "64 bits")}),
            (("advance", OLD_DEFAULT, ahead._replace(clock=151), b"\x09\0\0\0"), {
                ("excesses", "advance 9", "32 bits")}),
            (("block", OLD_DEFAULT, ahead, written("t151 9")[12:]), {("excesses", "block 9", "32 bits")}),
            (("block", OLD_DEFAULT, State(clock=100, phase=1, stage=2, stage_time=100), written("t2 t255")[12:]),
             {("both limits", "block", "device: more")}),
            (("judge", written("1 4 t256")),
             {("excesses", "judge 12", "16 bits"), ("both limits", "judge", "device: less")}),
            (("manual", OLD_DEFAULT, written("1 4 t256")[12:]), {("both limits", "manual", "device: less")}),
            (("manual", OLD_DEFAULT, written("1 4 7 t156")[12:]), {("excesses", "manual 11", "1")}),
            (("line", written("1 4 7 9"), bytes(30)), {("digits", 9, 3)}),
        ):
            self.assert_marked(cells, *given)
        for given in (
            ("step", OLD_DEFAULT, late._replace(phase_time=295, stage_time=350), 12, 51),
            ("step", OLD_DEFAULT, sent, 12, 6), ("line", written("1 4 7 9"), b""),
            ("judge", written(WOULD_NOT_CLOSE)), ("judge", written("1 1")),
        ):
            grids = {grid for grid, _, _ in marks(worked(case_of(*given)))}
            self.assertTrue(grids.isdisjoint({"both limits", "digits"}))

    def test_lists(self):
        shift, head = listed(Shift(0, 0, 1)), "list damage"
        for given, cells in (
            (("list", written(f"{WOULD_NOT_CLOSE} t1 13 t1 3"), bytes(40)), {
                ("numbers", "list", 0), ("shifts", "1, route 1", "built error"), ("shifts", "3, route 0", "built open"),
                ("open shifts", 3, "built, the request last"), ("loose ticks", "in error", "list"),
                ("loose ticks", "at rest behind a shift", "list"), ("list room", 2, "exact"), ("list ends", 17, "sent"),
            }),
            (("list", written("1 t5"), bytes(23)), {("list room", 1, "one short"), ("open shifts", 1, "built, later")}),
            (("list", written("t5"), b""), {
                ("loose ticks", "at rest before all", "list, last"), ("numbers", "list", 15)}),
            (("list", written("1 1"), bytes(23)), {("refused lists", 7, "1 begun"), ("refused lists", 7, "no room")}),
            (("list", written("1 t15"), bytes(24)), {
                ("excesses", "list 12", "16 bits"), ("refused lists", 12, "room")}),
            (("fetch", 0, shift), {
                ("fetches", 1, "first"), ("fetches", 1, "last"), ("shifts", "1, route 0", "fetched open")}),
            (("fetch", 2**28, shift), {("fetches", 1, "2^28"), ("numbers", "fetch", 14)}),
            (("fetch", 1, shift), {("fetches", 1, "at the count")}),
            (("fetch", 0, list_of(b"\xff" * 16)), {("foreign entries", field, "fetched") for field in (
                "kind", "route", "end", "eighth byte")}),
            (("fetch", 0, bytes(3)), {(head, "fetch", "3 bytes")}),
            (("fetch", 0, bytes(8)), {(head, "fetch", "offset less")}),
            (("fetch", 0, bytes.fromhex("0000001008000000")), {(head, "fetch", "wraps at 32 bits")}),
            (("fetch", 0, shift[:-1]), {(head, "fetch", "a byte less")}),
        ):
            self.assert_marked(cells, *given)

    def test_extensions(self):
        empty, waiting, open_shift = listed(), State(151, 0, 1, 0, 5), listed(Shift(0, 3, 1, age=151))
        ask, request = written("9")[12:], written("1")[12:]
        for given, cells in (
            ((START, 8, 0, request, empty + bytes(16)), {
                ("cuts", 0, 1), ("shifts", "1, route 0", "new open"), ("open shifts", 1, "new, the request last"),
                ("fits", "empty list", "at rest"), ("extended room", 1, "exact"), ("counts", "0", "accepted"),
                ("extended left over", 0, "accepted"),
            }),
            ((waiting, 24, 4, ask, open_shift), {
                ("gone on", "1, route 0", "clutch asked for"), ("gone on", "1, route 0", "left open"),
                ("shifts", "1, route 1", "gone on open"), ("cuts", 1, 9),
                ("fits", "clock after the request", "in a shift"),
            }),
            ((waiting, 24, 4, b"12", open_shift), {
                ("gone on", "1, route 0", "no record"), ("extended left over", 2, "no record")}),
            ((waiting, 24, 4, request, open_shift), {
                ("reasons", "record", "alone"), ("extend places", 7, "alone"), ("counts", "8 bits", "refused")}),
            ((waiting, 24, 5, ask, open_shift), {
                ("reasons", "fit", "alone"), ("misfits", "last record one less", "in a shift")}),
            ((waiting, 24, 5, request, open_shift), {("reasons", "fit", "record")}),
            ((START, 24, 4, ask, open_shift), {("misfits", "end 0", "at rest"), ("reasons", "fit", "record")}),
            ((START, 8, 0, request, empty), {("reasons", "room", "alone"), ("extended room", 1, "shorter")}),
            ((START, 9, 0, b"", empty), {("numbers", "extend, held", 15), ("reasons", "held", "length")}),
            ((START, 5, 16_373, b"", empty), {
                ("list damage", "extend", "5 bytes"), ("reasons", "short", "records"), ("reasons", "short", "length")}),
            ((START, 8, 16_373, b"", empty), {
                ("reasons", "records", "alone"), ("counts", "one more in all", "too many")}),
        ):
            self.assert_marked(cells, "extend", OLD_DEFAULT, *given)

    def test_what_did_not_come_up_is_missing(self):
        coverage = Coverage()
        coverage.add(worked(case_of("step", OLD_DEFAULT, State(phase=23), 13, 0)))
        faults = list(coverage.faults())
        self.assertEqual(len(faults), len(list(possible_cells())) - coverage.met())
        self.assertIn("missing: numbers of resets, by phase: row 22, column step 7", faults)
        self.assertNotIn("missing: numbers of resets, by phase: row 23, column step 0", faults)


class Searches(unittest.TestCase):
    def test_the_first_that_is_found(self):
        tries = iter(range(MOST_TRIES))
        self.assertEqual(first_found("a number", lambda: next(tries) or None), 1)

    def test_what_is_never_found(self):
        tries = []
        with self.assertRaisesRegex(NotFound, "a number above 0"):
            first_found("a number above 0", lambda: tries.append(0))
        self.assertEqual(len(tries), MOST_TRIES)

    def test_a_rule_that_never_breaks(self):
        for rule in RULES:
            wrong = Wrong("", "rules.py", "if slack < 0", f"if slack < 0 and rule != {rule}")
            tables = loaded("tables", wrong)
            with self.assertRaisesRegex(tables.NotFound, f"a table that breaks rule {rule} first"):
                tables.edge_tables(random.Random(0), rule)

    def test_cases_under_a_rule_that_never_breaks(self):
        for old, new, sought in (
            ("if slack < 0", "if slack < 0 and rule != 8", "a table that breaks rule 8 first"),
            ("t.Sync_DE - t.Sync_EX - 1,", "0,", "an entry Sync_DE that gives rule 8 the slack"),
        ):
            version = loaded("generator", Wrong("", "rules.py", old, new))
            with self.assertRaisesRegex(version.NotFound, sought):
                list(version.cases(0, 0))

    def test_a_phase_table_that_leads_round(self):
        for row in ("8: Phase(RELEASE, 6)", "8: Phase(RELEASE, AT_REST)"):
            with self.assertRaisesRegex(Exception, "a way from phase 6 to done"):
                loaded("walks", Wrong("", "rules.py", "8: Phase(RELEASE, 10)", row))

    def test_walks_that_are_refused(self):
        for old, new, sought in (
            ("Request(IN_GEAR, 6)", "Request(NEUTRAL, 6)", r"a walk of .*; \(2, 0\) gives 8"),
            ("phase_time=state.clock,", "phase_time=0,", "a pause before code"),
        ):
            version = loaded("generator", Wrong("", "rules.py", old, new))
            with self.assertRaisesRegex(version.NotFound, sought):
                list(version.cases(0, 0))

    def test_draws_that_make_no_case(self):
        maker = SimpleNamespace(__name__="a maker", draw=lambda _: iter(()))
        with patch.object(generator, "MAKERS", [maker]), self.assertRaisesRegex(NotFound, "a maker"):
            next(generator.drawn(random.Random(0)))

    def test_a_comparison_says_what_was_sought(self):
        with patch.object(compare, "cases", side_effect=NotFound("not found: a unicorn")):
            with redirect_stdout(io.StringIO()) as out, patch("sys.argv", ["compare.py"]):
                with self.assertRaises(SystemExit) as end:
                    compare.main()
        self.assertEqual(end.exception.code, 1)
        self.assertEqual(out.getvalue().splitlines()[1:], ["not found: a unicorn", "0 passed, 1 failed"])
