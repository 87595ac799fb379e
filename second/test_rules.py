"""Tests of the rules: the limit table, the phase table and single steps."""

import unittest

from rules import (
    ENGINE_PHASES, LAST_CLOCK, NEW_DEFAULT, OLD_DEFAULT, ORDERS, PHASES, START, State, Table, broken_rule,
    latest_clocks, route_sums, step,
)


class TheTable(unittest.TestCase):
    def test_route_sums_of_the_old_and_the_new_default(self):
        for table in (OLD_DEFAULT, NEW_DEFAULT):
            self.assertEqual(route_sums(table), (905, 905, 1405, 1255))

    def test_the_old_and_the_new_default_are_admitted(self):
        for table in (OLD_DEFAULT, NEW_DEFAULT):
            self.assertEqual(broken_rule(table), 0)

    def test_k12(self):
        self.assertEqual(broken_rule(OLD_DEFAULT._replace(ChangeDL=1404)), 14)
        self.assertEqual(broken_rule(OLD_DEFAULT._replace(ChangeDL=1405)), 0)

    def test_each_rule_broken_by_one_and_just_kept(self):
        edges = [
            (1, "Gear_Release_DL", 0, 1),
            (2, "Sync_EX", 109, 110),
            (3, "Zero_EX", 209, 210),
            (4, "OpenClutch_DL", 160, 161),
            (5, "CloseClutch_DL", 160, 161),
            (6, "SetGear_DL", 310, 311),
            (7, "Release_DL", 210, 211),
            (8, "Sync_DE", 150, 151),
            (9, "Zero_DE", 250, 251),
            (10, "Sync_DL", 150, 151),
            (11, "Zero_DL", 250, 251),
            (14, "ChangeDL", 1404, 1405),
        ]
        for rule, name, broken, kept in edges:
            self.assertEqual(broken_rule(OLD_DEFAULT._replace(**{name: broken})), rule)
            self.assertEqual(broken_rule(OLD_DEFAULT._replace(**{name: kept})), 0)

    def test_route_rules_in_their_order(self):
        long_zero = OLD_DEFAULT._replace(Zero_DL=1000)
        self.assertEqual(route_sums(long_zero), (905, 1650, 1405, 2000))
        given = [broken_rule(long_zero._replace(ChangeDL=most)) for most in (904, 905, 1649, 1650, 1999, 2000)]
        self.assertEqual(given, [12, 13, 13, 15, 15, 0])

    def test_sums_do_not_wrap(self):
        self.assertEqual(broken_rule(OLD_DEFAULT._replace(Channel_DL=32_768)), 2)
        self.assertEqual(broken_rule(OLD_DEFAULT._replace(Sync_DL=65_535)), 12)


class ThePhases(unittest.TestCase):
    def test_numbers(self):
        self.assertEqual(list(PHASES), list(range(1, 22)))
        self.assertEqual(ENGINE_PHASES, {1, 6, 10, 17})

    def test_limits_by_order(self):
        devices = {order.name: Table._fields.index(order.device_limit) for order in ORDERS}
        phases = {order.name: Table._fields.index(order.phase_limit) for order in ORDERS}
        self.assertEqual(devices, {"sync": 1, "zero torque": 2, "open": 3, "close": 4, "set": 5, "release": 6})
        self.assertEqual(phases, {"sync": 9, "zero torque": 10, "open": 13, "set": 14, "release": 15, "close": 16})


class SingleSteps(unittest.TestCase):
    def number(self, state, code, amount=0, table=OLD_DEFAULT):
        """The number of a step; one that is refused has to hand its state back, and only 9 to 13 have an excess."""
        number, _, excess, after = step(table, state, code, amount)
        self.assertTrue(number == 0 or after == state)
        self.assertTrue(excess > 0 if number in range(9, 14) else excess == 0)
        return number

    def test_k13(self):
        good = State(phase=1, stage=3)
        self.assertEqual(self.number(good._replace(clock=150), 8), 0)
        self.assertEqual(self.number(good._replace(clock=151), 8), 10)
        self.assertEqual(step(OLD_DEFAULT, good._replace(clock=151), 8, 0)[2], 1)

    def test_table_comes_first_and_gives_its_rule(self):
        broken = OLD_DEFAULT._replace(ChangeDL=1404)
        wild = State(phase=99)
        self.assertEqual(step(broken, wild, 99, 99), (4, 14, 0, wild))

    def test_code_comes_before_amount_and_amount_before_state(self):
        wild = State(phase=99)
        self.assertEqual(self.number(wild, 0, 1), 5)
        self.assertEqual(self.number(wild, 14, 1), 5)
        self.assertEqual(self.number(wild, 255, 1), 5)
        self.assertEqual(self.number(wild, 1, 1), 6)
        self.assertEqual(self.number(wild, 1), 7)

    def test_amounts(self):
        ticks = [self.number(START, 12, amount) for amount in (0, 1, 65_535, 65_536, LAST_CLOCK)]
        self.assertEqual(ticks, [6, 0, 0, 6, 6])
        self.assertEqual([self.number(START, 1, amount) for amount in (0, 1, 65_536)], [0, 6, 6])
        self.assertEqual([self.number(State(phase=23), 13, amount) for amount in (0, 1, 65_536)], [0, 6, 6])

    def test_unlisted_states(self):
        for wild in (START._replace(phase=24), START._replace(stage=6), START._replace(box=2)):
            self.assertEqual([self.number(wild, 1), self.number(wild._replace(clock=LAST_CLOCK), 12, 1)], [7, 7])
        self.assertEqual(self.number(START._replace(failed_phase=255), 1), 0)

    def test_any_listed_stage_at_rest_in_done_and_in_error(self):
        self.assertEqual([self.number(START._replace(stage=stage), 1) for stage in range(7)], [0] * 6 + [7])
        self.assertEqual([self.number(State(phase=22, stage=stage), 11) for stage in range(7)], [0] * 6 + [7])
        self.assertEqual([self.number(State(phase=23, stage=stage), 13) for stage in range(7)], [0] * 6 + [7])

    def test_box_on_the_wrong_side(self):
        self.assertEqual([self.number(START, code) for code in (1, 2, 3)], [0, 8, 8])
        self.assertEqual([self.number(START._replace(box=1), code) for code in (1, 2, 3)], [8, 0, 0])

    def test_error_can_be_raised_in_an_engine_phase(self):
        failed = State(clock=9, phase=1, stage=4, request_time=2)
        after = State(clock=9, phase=23, phase_time=9, stage_time=9, request_time=2, failed_phase=1)
        self.assertEqual(step(OLD_DEFAULT, failed, 10, 0), (0, 0, 0, after))

    def test_taking_set_makes_the_box_in_gear_and_taking_release_neutral(self):
        boxes = {phase: [step(OLD_DEFAULT, State(phase=phase, stage=3, box=box), 8, 0)[-1].box for box in (0, 1)]
                 for phase in PHASES}
        moved = {phase: after for phase, after in boxes.items() if after != [0, 1]}
        self.assertEqual(moved, {3: [1, 1], 4: [1, 1], 8: [0, 0], 9: [0, 0], 12: [1, 1], 13: [1, 1], 14: [1, 1],
                                 19: [0, 0], 20: [0, 0]})

    def test_no_other_step_moves_the_box(self):
        steps = [(code, phase, stage) for phase in PHASES for code, stage in ((4, 1), (5, 2), (10, 4))]
        steps += [(6, phase, 2) for phase in PHASES if phase not in ENGINE_PHASES]
        steps += [(code, phase, stage) for phase in ENGINE_PHASES for code, stage in ((7, 2), (9, 5))]
        for code, phase, stage in steps + [(11, 22, 0), (12, 0, 0), (12, 3, 1), (12, 23, 0), (13, 23, 0)]:
            for box in (0, 1):
                state = State(clock=251, phase=phase, phase_time=0 if code == 9 else 251, stage=stage, stage_time=251)
                number, *_, after = step(OLD_DEFAULT, state._replace(box=box), code, int(code == 12))
                self.assertEqual((number, after.box), (0, box))
        for code, box in ((1, 0), (2, 1), (3, 1)):
            self.assertEqual(step(OLD_DEFAULT, State(box=box), code, 0)[-1].box, box)

    def test_finish_clears_request_time_and_failed_phase(self):
        done = State(clock=7, box=1, phase=22, phase_time=5, stage_time=5, request_time=3, failed_phase=9)
        self.assertEqual(step(OLD_DEFAULT, done, 11, 0), (0, 0, 0, State(clock=7, box=1, phase_time=7, stage_time=7)))

    def test_reset_enters_0_and_keeps_the_box(self):
        for box in (0, 1):
            error = State(7, box, 23, phase_time=5, stage=2, stage_time=4, request_time=3, failed_phase=9)
            at_rest = State(clock=7, box=box, phase_time=7, stage_time=7)
            self.assertEqual(step(OLD_DEFAULT, error, 13, 0), (0, 0, 0, at_rest))

    def test_reset_in_error_alone(self):
        others = [State(phase=phase, stage=stage) for phase in range(23) for stage in range(6)]
        self.assertEqual([self.number(state, 13) for state in others], [7] * len(others))
        self.assertEqual([self.number(State(phase=24), 13), self.number(State(phase=23, box=2), 13)], [7, 7])
        self.assertEqual(self.number(State(clock=LAST_CLOCK, phase=23), 13), 0)

    def test_tick_order(self):
        late = State(clock=LAST_CLOCK, phase=1, stage=1)
        self.assertEqual(self.number(late, 12, 1), 13)
        self.assertEqual(self.number(late._replace(clock=LAST_CLOCK - 1), 12, 1), 12)
        self.assertEqual(self.number(late._replace(clock=LAST_CLOCK - 1, stage=0), 12, 1), 11)

    def test_limits_past_the_last_clock_do_not_wrap(self):
        at_the_end = {"clock": LAST_CLOCK - 1, "phase": 1, "phase_time": LAST_CLOCK, "stage_time": LAST_CLOCK}
        self.assertEqual(self.number(State(stage=1, **at_the_end), 12, 1), 0)
        self.assertEqual(self.number(State(stage=3, **at_the_end), 8), 0)
        self.assertEqual(self.number(State(stage=5, **at_the_end), 9), 9)

    def test_time_runs_freely_at_rest_in_done_and_in_error(self):
        self.assertEqual([self.number(State(phase=phase, stage=2), 12, 65_535) for phase in (0, 22, 23)], [0, 0, 0])


class HowFarOver(unittest.TestCase):
    def assert_over(self, number, excess, code, amount=0, table=OLD_DEFAULT, **fields):
        """A step on the state of these fields is refused with this number, by so much."""
        state = State(**fields)
        self.assertEqual(step(table, state, code, amount), (number, 0, excess, state))

    def test_too_early(self):
        for clock, phase, excess in ((0, 1, 151), (150, 1, 1), (0, 10, 151), (0, 6, 251), (250, 17, 1)):
            self.assert_over(9, excess, 9, clock=clock, phase=phase, stage=5)
        self.assert_over(9, 120, 9, clock=1_040, phase=1, phase_time=1_009, stage=5, stage_time=1_030)

    def test_too_late(self):
        for clock, phase, excess in ((151, 1, 1), (160, 10, 10), (251, 6, 1), (LAST_CLOCK, 17, LAST_CLOCK - 250)):
            self.assert_over(10, excess, 8, clock=clock, phase=phase, stage=3)

    def test_past_the_phase_limit(self):
        self.assert_over(11, 1, 12, 156, phase=1, stage=5)
        self.assert_over(11, 65_535 - 155, 12, 65_535, phase=1, stage=5)
        self.assert_over(11, 3, 12, 200, clock=7, phase=7, phase_time=4, stage=0)
        self.assert_over(11, 2, 12, 4, clock=199, phase=16, phase_time=1, stage=3, stage_time=198)

    def test_past_the_channel_s_or_the_device_s_limit(self):
        self.assert_over(12, 1, 12, 6, phase=1, stage=1)
        self.assert_over(12, 1, 12, 101, phase=1, stage=2)
        self.assert_over(12, 9, 12, 11, clock=5, phase=3, phase_time=2, stage=3, stage_time=2)
        self.assert_over(12, 4, 12, 302, clock=7, phase=4, phase_time=1, stage=2, stage_time=5)

    def test_past_both_limits(self):
        self.assert_over(12, 195, 12, 200, phase=1, stage=1)
        self.assert_over(12, 1, 12, 6, clock=400, phase=1, stage=3, stage_time=400)
        self.assert_over(12, 100, 12, 200, clock=100, phase=2, stage=2, stage_time=50)

    def test_past_the_last_clock(self):
        self.assert_over(13, 1, 12, 1, clock=LAST_CLOCK)
        self.assert_over(13, 65_535, 12, 65_535, clock=LAST_CLOCK)
        self.assert_over(13, 2, 12, 65_535, clock=LAST_CLOCK - 65_533, phase=22)
        self.assert_over(13, 7, 12, 9, clock=LAST_CLOCK - 2, phase=1, stage=1)

    def test_it_does_not_wrap(self):
        self.assert_over(9, LAST_CLOCK + 151, 9, clock=0, phase=1, phase_time=LAST_CLOCK, stage=5)
        slow = OLD_DEFAULT._replace(Zero_DE=60_000, Zero_DL=60_000, ChangeDL=65_535)
        self.assert_over(9, LAST_CLOCK + 60_000, 9, table=slow, phase=17, phase_time=LAST_CLOCK, stage=5)
        self.assert_over(12, LAST_CLOCK - 5, 12, 1, clock=LAST_CLOCK - 1, phase=1, stage=1)
        self.assert_over(11, LAST_CLOCK - 155, 12, 1, clock=LAST_CLOCK - 1, phase=1, stage=0)

    def test_no_other_answer_has_one(self):
        early = State(phase=1, stage=5, phase_time=LAST_CLOCK)
        for given, number in (
            ((OLD_DEFAULT._replace(ChangeDL=1404), early, 9, 0), 4), ((OLD_DEFAULT, early, 14, 0), 5),
            ((OLD_DEFAULT, early, 9, 1), 6), ((OLD_DEFAULT, early, 12, 65_536), 6),
            ((OLD_DEFAULT, early._replace(stage=4), 9, 0), 7),
            ((OLD_DEFAULT, State(phase=24, clock=LAST_CLOCK), 12, 9), 7),
            ((OLD_DEFAULT, START._replace(clock=9), 2, 0), 8), ((OLD_DEFAULT, START, 12, 65_535), 0),
            ((OLD_DEFAULT, State(phase=1, clock=152, stage=5), 9, 0), 0),
        ):
            got, _, excess, _ = step(*given)
            self.assertEqual((got, excess), (number, 0))

    def test_each_limit_passed_by_one_and_by_more(self):
        for phase in PHASES:
            for stage, number in ((1, 12), (2, 12), (3, 12), (0, 11), (4, 11), (5, 11)):
                latest = dict(latest_clocks(OLD_DEFAULT, State(phase=phase, stage=stage), 12))[number]
                for excess in (1, 2, 60_000):
                    self.assert_over(number, excess, 12, latest + excess, phase=phase, stage=stage)
