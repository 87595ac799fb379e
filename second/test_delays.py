"""Tests of request 6: rule 16, and clutches that answer too early, in both engines."""

import random
import unittest

import m9
import rules
from corpus import case_of, worked
from delay_cases import delay_of, to_working
from files import advance, block, judge, line
from m9 import EVENTS, M9, Machine
from records import packed_steps
from rules import (
    CLUTCH_PHASES, DELAYS, LAST_CLOCK, NEW_DEFAULT, OLD_DEFAULT, PHASES, START, State, Table, broken_rule, slacks, step,
)
from settlements import DELAY_GUARDS
from shifts import build
from tables import DELAY_CONDITIONS, HOUSE, delay_edges, delayed_table, edge_tables, good_table, with_delays
from test_files import written
from test_m9 import ran, steps
from walks import ROUNDS, beside_delay, lead, states, timed

OPENING = "1 4 7 t151 9 t3 4"  # phase 2 is entered at 151, and its clutch works from 154 on
CLOSING = f"{OPENING} t60 5 8 4 5 8 t2 4"  # phase 5 is entered at 214, and its clutch works from 216 on


def delayed(*delays, **limits):
    """The old default with these delays and limits."""
    return OLD_DEFAULT._replace(**dict(zip(DELAYS, delays)), **limits)


class TheTable(unittest.TestCase):
    def test_22_entries(self):
        self.assertEqual((len(Table._fields), Table._fields[18:]), (22, (
            "Clutch_Open_DE", "Error_Clutch_Open_DE", "Clutch_Close_DE", "Error_Clutch_Close_DE")))
        self.assertEqual((OLD_DEFAULT[18:], NEW_DEFAULT[18:]), ((0, 0, 0, 0),) * 2)
        self.assertEqual((HOUSE[:18], HOUSE[18:]), (NEW_DEFAULT[:18], (20, 60, 20, 60)))

    def test_admitted(self):
        for delays in ((0, 0, 0, 0), (20, 60, 20, 60), (1, 2, 1, 2), (149, 150, 149, 150), (1, 150, 149, 150)):
            self.assertEqual(broken_rule(delayed(*delays)), 0)
        self.assertEqual(broken_rule(delayed(1, 2, 1, 3, Clutch_Open_DL=2, Clutch_Close_DL=3)), 0)

    def test_each_condition_broken_by_one_and_just_kept(self):
        for broken, kept in (
            ((0, 60, 20, 60), (1, 60, 20, 60)), ((20, 60, 0, 60), (20, 60, 1, 60)),
            ((20, 20, 20, 60), (20, 21, 20, 60)), ((20, 60, 20, 20), (20, 60, 20, 21)),
            ((20, 151, 20, 60), (20, 150, 20, 60)), ((20, 60, 20, 151), (20, 60, 20, 150)),
        ):
            self.assertEqual([broken_rule(delayed(*delays)) for delays in (broken, kept)], [16, 0])
        self.assertEqual([broken_rule(HOUSE._replace(Clutch_Open_DL=limit)) for limit in (59, 60)], [16, 0])
        self.assertEqual([broken_rule(HOUSE._replace(Clutch_Close_DL=limit)) for limit in (59, 60)], [16, 0])

    def test_each_limit_is_its_own_clutch_s(self):
        self.assertEqual(broken_rule(HOUSE._replace(Clutch_Open_DL=59, Clutch_Close_DL=150)), 16)
        self.assertEqual(broken_rule(delayed(1, 2, 1, 100, Clutch_Open_DL=2)), 0)
        self.assertEqual(broken_rule(delayed(1, 100, 1, 2, Clutch_Open_DL=2)), 16)

    def test_zero_for_one_clutch_or_one_delay(self):
        for delays in ((0, 0, 20, 60), (20, 60, 0, 0), (0, 60, 0, 60), (20, 0, 20, 0), (0, 0, 0, 1), (1, 0, 0, 0),
                       (0, 1, 0, 0), (0, 0, 1, 0), (65_535,) * 4):
            self.assertEqual(broken_rule(delayed(*delays)), 16)

    def test_rule_1_speaks_of_the_first_eighteen(self):
        self.assertEqual(broken_rule(delayed(0, 60, 20, 60)), 16)
        for place in range(18):
            self.assertEqual(broken_rule(HOUSE._replace(**{Table._fields[place]: 0})), 1)

    def test_it_comes_last(self):
        chance = random.Random(0)
        for rule in range(1, 16):
            broken = edge_tables(chance, rule)[0]
            self.assertEqual(broken_rule(broken._replace(**dict(zip(DELAYS, (0, 0, 0, 1))))), rule)

    def test_edges_of_each_condition(self):
        chance = random.Random(1)
        for condition in DELAY_CONDITIONS:
            neighbours = delay_edges(chance, condition)
            self.assertEqual([slacks(table)[15] for table in neighbours[:2]], [-1, 0])
            self.assertEqual([broken_rule(table) for table in neighbours[:2]], [16, 0])

    def test_tables_by_chance(self):
        chance = random.Random(2)
        for _ in range(50):
            self.assertEqual([broken_rule(make(chance)) for make in (delayed_table, good_table)], [0, 0])
            self.assertEqual(len(set(delayed_table(chance)[18:])), 4)
        self.assertEqual(with_delays(chance, OLD_DEFAULT, tight=True)[18:], (149, 150, 149, 150))
        self.assertEqual(with_delays(chance, OLD_DEFAULT._replace(Clutch_Open_DL=1))[18:], (0, 0, 0, 0))


TELLING = delayed(11, 47, 23, 90)


class SingleSteps(unittest.TestCase):
    def answers(self, table, code, *given):
        """Number and excess of a code on given states; one that is refused has to hand its state back."""
        for state in given:
            number, rule, excess, after = step(table, state, code, 0)
            self.assertEqual((rule, after == state), (0, number > 0))
            yield number, excess

    def test_each_answer_beside_its_delay(self):
        delays = {"open": (11, 47), "close": (23, 90)}
        for phase in CLUTCH_PHASES:
            for code, delay in zip((5, 6), delays[PHASES[phase].order.name]):
                state = State(phase=phase, stage=2, phase_time=3, stage_time=1_000)
                clocks = [state._replace(clock=1_000 + delay + past) for past in (-delay, -2, -1, 0, 1, 999)]
                self.assertEqual(list(self.answers(TELLING, code, *clocks)), [
                    (9, delay), (9, 2), (9, 1), (0, 0), (0, 0), (0, 0)])

    def test_the_phases_of_clutches(self):
        self.assertEqual(CLUTCH_PHASES, {2, 5, 7, 11, 15, 16, 18, 21})

    def test_it_runs_from_the_stage_time(self):
        state = State(clock=1_010, phase=2, stage=2, phase_time=0, stage_time=1_000)
        self.assertEqual(list(self.answers(TELLING, 5, state, state._replace(clock=1_011, phase_time=1_011))),
                         [(9, 1), (0, 0)])

    def test_without_delays_the_clock_is_not_before_the_stage_time(self):
        for phase in CLUTCH_PHASES:
            for code in (5, 6):
                state = State(clock=7, phase=phase, stage=2)
                given = [state._replace(stage_time=time) for time in (6, 7, 8, LAST_CLOCK)]
                self.assertEqual(list(self.answers(OLD_DEFAULT, code, *given)),
                                 [(0, 0), (0, 0), (9, 1), (9, LAST_CLOCK - 7)])

    def test_other_phases_have_no_such_condition(self):
        for phase in PHASES.keys() - CLUTCH_PHASES:
            for code in (5, 6) if not PHASES[phase].when_asked else (5, 7):
                state = State(clock=7, phase=phase, stage=2, stage_time=LAST_CLOCK)
                for table in (OLD_DEFAULT, TELLING):
                    self.assertEqual(list(self.answers(table, code, state)), [(0, 0)])

    def test_other_steps_have_no_such_condition(self):
        for phase in CLUTCH_PHASES:
            for code, stage in ((4, 1), (8, 3), (10, 4)):
                state = State(clock=7, phase=phase, stage=stage, stage_time=LAST_CLOCK)
                self.assertEqual(list(self.answers(TELLING, code, state)), [(0, 0)])

    def test_7_comes_first_and_has_no_excess(self):
        early = State(phase=2, stage=2, stage_time=9)
        for code in (5, 6):
            others = [early._replace(stage=stage) for stage in (0, 1, 3, 4, 5, 6)] + [early._replace(box=2)]
            self.assertEqual(list(self.answers(TELLING, code, *others)), [(7, 0)] * 7)

    def test_4_5_and_6_come_first(self):
        early = State(phase=2, stage=2, stage_time=9)
        self.assertEqual(step(TELLING._replace(ChangeDL=1), early, 5, 0), (4, 12, 0, early))
        self.assertEqual(step(delayed(0, 0, 0, 1), early, 5, 0), (4, 16, 0, early))
        self.assertEqual(step(TELLING, early, 5, 1), (6, 0, 0, early))
        self.assertEqual(advance(TELLING, early, b"\x05\1\0\0"), (6, 0, 0, early))

    def test_the_excess_does_not_wrap(self):
        ahead = State(phase=21, stage=2, stage_time=LAST_CLOCK)
        self.assertEqual(step(TELLING, ahead, 6, 0), (9, 0, LAST_CLOCK + 90, ahead))
        at_the_end = ahead._replace(clock=LAST_CLOCK)
        self.assertEqual(step(TELLING, at_the_end, 5, 0), (9, 0, 23, at_the_end))
        long = delayed(1, 60_000, 1, 2, Clutch_Open_DL=60_000, OpenClutch_DL=60_011, ChangeDL=65_535)
        early = State(clock=59_999, phase=18, stage=2)
        self.assertEqual(step(long, early, 6, 0), (9, 0, 1, early))
        self.assertEqual(step(long, early._replace(clock=60_000), 6, 0)[0], 0)


class AlongRuns(unittest.TestCase):
    def assert_run(self, text, number, count, over=0, table=HOUSE):
        """Judge, block, line, list and the manual's engine give this number, count and excess for a run."""
        file = written(text, table)
        self.assertEqual(judge(file)[:4], (number, 0, count, over))
        records = packed_steps(steps(text))
        self.assertEqual(block(table, START, records)[:4], (number, 0, count, over))
        _, *fields = line(file).decode().split()
        self.assertEqual((fields[0], fields[1], fields[5]), (str(count), str(number), str(over)))
        self.assertEqual(build(file, bytes(99))[0], number)
        state = judge(file)[4]
        got = worked(case_of("manual", table, records)).answer
        self.assertEqual(tuple(got[0]), (number, 0, count, over))
        self.assertEqual(got[1][2][:4], (state.clock, state.box, state.phase, state.stage))

    def test_opening(self):
        for code, delay in ((5, 20), (6, 60)):
            self.assert_run(f"{OPENING} {code}", 9, 7, over=delay)
            self.assert_run(f"{OPENING} t{delay - 1} {code}", 9, 8, over=1)
            self.assert_run(f"{OPENING} t{delay} {code}", 0, 9)
            self.assert_run(f"{OPENING} t{delay + 1} {code}", 0, 9)

    def test_closing(self):
        for code, delay in ((5, 20), (6, 60)):
            self.assert_run(f"{CLOSING} {code}", 9, 15, over=delay)
            self.assert_run(f"{CLOSING} t{delay - 1} {code}", 9, 16, over=1)
            self.assert_run(f"{CLOSING} t{delay} {code}", 0, 17)

    def test_without_delays_a_clutch_answers_at_once(self):
        for text in (f"{OPENING} 5", f"{OPENING} 6", f"{CLOSING} 5", f"{CLOSING} 6"):
            self.assert_run(text, 0, len(text.split()), table=OLD_DEFAULT)

    def test_7_comes_first(self):
        self.assert_run(f"{OPENING} t20 5 6", 7, 9)
        self.assert_run(f"{OPENING} t20 5 5", 7, 9)
        self.assert_run("1 4 7 t151 9 5", 7, 5)

    def test_gears_answer_at_once(self):
        self.assert_run("1 4 5 8 4 5 8 11", 0, 8)
        self.assert_run("1 4 5 8 4 6 10 13", 0, 8)

    def test_each_phase_in_both_engines(self):
        chance = random.Random(3)
        for phase in CLUTCH_PHASES:
            for code in (5, 6):
                table = delayed_table(chance)
                before = to_working(chance, table, phase)
                state = states(table, before)[-1]
                self.assertEqual((state.phase, state.stage), (phase, 2))
                self.assertLess(state.phase_time, state.stage_time)
                for answer, wanted in zip(beside_delay(table, state, code), ((9, 1), (0, 0), (0, 0))):
                    for engine, start in ((rules.step, START), (m9.step, m9.START)):
                        reached = start
                        for given in before + answer:
                            number, _, excess, reached = engine(table, reached, *given)
                        self.assertEqual((number, excess), wanted)
                self.assertGreater(delay_of(table, phase, code), 1)

    def test_every_shift_under_delays(self):
        chance = random.Random(4)
        for request, shifts in ROUNDS.items():
            for shift in shifts:
                for table, pace in ((delayed_table(chance), min), (with_delays(chance, OLD_DEFAULT, tight=True), max)):
                    walk = timed(table, lead(chance, request) + shift, pace)
                    variables, state = m9.START, START
                    for given in walk:
                        *answer, variables = m9.step(table, variables, *given)
                        *ours, state = step(table, state, *given)
                        self.assertEqual((answer, ours), ([0, 0, 0], [0, 0, 0]))
                    self.assertEqual((m9.reading(variables)[:3], state.phase), ((state.clock, state.box, 0), 0))


class TheManual(unittest.TestCase):
    def test_each_answer_of_a_clutch_has_its_guard(self):
        for guard in DELAY_GUARDS:
            *_, last = EVENTS[guard.event].guards
            self.assertEqual((last.label, last.printed, last.stands), ("02", None, guard.stands))
        times = {event.name: [bound[1:] for bound in event.bounds] for code in (5, 6) for event in M9.events[code]}
        self.assertEqual({name: found for name, found in times.items() if found}, {
            "Clutch_Open": [("Clutch_Request_OpenT", "Clutch_Open_DE")],
            "Error_Clutch_Open": [("Clutch_Request_OpenT", "Error_Clutch_Open_DE")],
            "Clutch_Close": [("Clutch_Request_CloseT", "Clutch_Close_DE")],
            "Error_Clutch_Close": [("Clutch_Request_CloseT", "Error_Clutch_Close_DE")],
        })

    def test_as_printed_there_is_none(self):
        for guard, text in zip(DELAY_GUARDS, (f"{OPENING} 5", f"{OPENING} 6", f"{CLOSING} 5", f"{CLOSING} 6")):
            self.assertEqual([ran(text, machine, HOUSE)[0] for machine in (M9, Machine([guard]))], [9, 0])

    def test_on_variables_that_no_run_reaches(self):
        ahead = {**m9.START, "Clutch_Request_Close": True, "Clutch_Request_CloseT": LAST_CLOCK}
        self.assertEqual(m9.step(HOUSE, ahead, 6, 0), (9, 0, LAST_CLOCK + 60, ahead))
        self.assertEqual(m9.step(OLD_DEFAULT, ahead, 5, 0), (9, 0, LAST_CLOCK, ahead))
