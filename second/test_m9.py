"""Tests of the manual's machine m9: what is printed, what is settled, its steps and its reading, beside the rules."""

import random
import unittest

import m9
import m9_printed
import rules
from files import run
from m9 import (
    BOOLS, EVENTS, FINAL_FLAGS, INITIALISATION, LIMITS, M9, NAMES_BY_CODE, NATURALS, ORDERS, PRINTED_EVENTS, START,
    Machine, reading,
)
from places import PLACES, place_of, ways
from reached import SEARCHED, first_change, reached, stop
from records import LISTED, good_amount, packed_steps
from rules import LAST_CLOCK, OLD_DEFAULT, PHASES, Table
from settlements import ADDED, DELAY_GUARDS, REQUESTED, SETTLED, SETTLED_ACTIONS, SETTLEMENTS
from tables import good_table
from test_files import K1, WOULD_NOT_CLOSE, lists
from walks import ROUNDS, any_walk, lead, mixed, timed, walks_through_errors


def steps(text):
    """The steps of a run, where tN is a tick."""
    codes, amounts = lists(text)
    return list(zip(codes, amounts))


def ran(text, machine=M9, table=OLD_DEFAULT):
    """Number, records accepted and variables of a run."""
    number, _, accepted, _, variables = run(machine.step, START, table, packed_steps(steps(text)))
    return number, accepted, variables


def over(text, machine=M9):
    """Number and excess of a run."""
    number, _, _, excess, _ = run(machine.step, START, OLD_DEFAULT, packed_steps(steps(text)))
    return number, excess


def without(event, label):
    """The machine with one guard or action as printed."""
    off = [settlement for settlement in SETTLED if settlement[:2] == (event, label)]
    assert len(off) == 1
    return Machine(off)


class AsPrinted(unittest.TestCase):
    def test_counts(self):
        guards, actions = ([clause for event in PRINTED_EVENTS for clause in clauses(event) if clause.printed]
                           for clauses in (lambda event: event.guards, lambda event: event.actions))
        self.assertEqual((len(START), len(BOOLS), len(NATURALS)), (98, 64, 34))
        self.assertEqual((len(PRINTED_EVENTS), len(guards), len(actions), len(INITIALISATION)), (65, 272, 143, 98))
        self.assertEqual(list(EVENTS), [*(event.name for event in PRINTED_EVENTS), "RESET"])
        self.assertEqual([len(EVENTS["Tick_Tock"].guards), len(EVENTS["FINAL"].actions)], [55, 42])

    def test_labels_count_on(self):
        for event in EVENTS.values():
            guards = [guard.label for guard in event.guards if guard.label not in (ADDED, REQUESTED)]
            actions = [action.label for action in event.actions if action.label != REQUESTED]
            self.assertEqual(guards, [f"grd{number}" for number in range(1, len(guards) + 1)])
            self.assertEqual(actions, [f"act{number}" for number in range(1, len(actions) + 1)])

    def test_initialisation_sets_each_variable_once(self):
        self.assertEqual(sorted(action.variable for action in INITIALISATION), sorted(START))
        self.assertEqual([name for name in BOOLS if START[name]], ["isNeu"])
        self.assertEqual({START[name] for name in NATURALS}, {0})

    def test_final_clears_flags_and_no_error(self):
        kept = {"isNeu", *(name for name in BOOLS if name.startswith("Error_"))}
        self.assertEqual(len(kept), 22)
        self.assertEqual({action.variable for action in EVENTS["FINAL"].actions}, set(BOOLS) - kept)
        self.assertEqual({action.value for action in EVENTS["FINAL"].actions}, {"FALSE"})

    def test_names_in_formulas_are_variables_and_limits(self):
        for machine in (M9, Machine(SETTLED)):
            events = sum(machine.events.values(), [])
            for needs in [event.flags for event in events] + [deadline.flags for deadline in machine.deadlines]:
                self.assertLessEqual({*needs.up, *needs.down, *sum(needs.either, ())}, set(BOOLS) - {"isNeu"})
            for needs in [event.box for event in events]:
                self.assertLessEqual({*needs.up, *needs.down, *sum(needs.either, ())}, {"isNeu"})
            bounds = [bound for event in events for bound in event.bounds]
            for bound in bounds + [deadline.bound for deadline in machine.deadlines]:
                self.assertIn(bound.time, NATURALS)
        self.assertEqual(set(LIMITS.values()), set(Table._fields))


class Settled(unittest.TestCase):
    def assert_changed(self, settlements, clauses):
        """Of the manual's events just these guards or actions stand otherwise than printed, as they are settled."""
        changed = {(event.name, clause.label): clause.stands for event in PRINTED_EVENTS for clause in clauses(event)
                   if clause.why}
        self.assertEqual(changed, {settlement[:2]: settlement.stands for settlement in settlements})
        self.assertEqual(len(changed), len(settlements))
        for event in PRINTED_EVENTS:
            for clause in clauses(event):
                self.assertEqual(bool(clause.why), clause.printed != clause.stands)

    def test_each_changes_a_guard_or_an_action(self):
        self.assert_changed(SETTLEMENTS + DELAY_GUARDS, lambda event: event.guards)
        self.assert_changed(SETTLED_ACTIONS, lambda event: event.actions)

    def test_taking_a_gear_s_order_moves_the_box_and_nothing_else_does(self):
        moved = {event.name: action.value for event in EVENTS.values() for action in event.actions
                 if action.variable == "isNeu" and action.value}
        values = {"SET": "FALSE", "RELEASE": "TRUE"}
        self.assertEqual(moved, {order.taken: values[name] for order in ORDERS.values() for name in values
                                 if order.device == getattr(m9, name)})
        self.assertEqual(len(moved), 9)
        added = [settlement for settlement in SETTLED_ACTIONS if settlement.label == REQUESTED]
        self.assertEqual((len(added), len(SETTLED_ACTIONS) - len(added)), (7, 2))

    def test_reset_is_not_the_manual_s(self):
        guard, = EVENTS["RESET"].guards
        self.assertNotIn("RESET", m9_printed.EVENTS)
        self.assertTrue(all(clause.printed is None and clause.why for clause in (guard, *EVENTS["RESET"].actions)))
        raised = [order.error() for order in ORDERS.values() if order.error()]
        self.assertEqual(guard.stands, " ∨ ".join(f"{flag} = TRUE" for flag in BOOLS if flag in raised))
        self.assertEqual(len(raised), 17)
        self.assertEqual([action.stands for action in EVENTS["RESET"].actions],
                         [f"{flag} := FALSE" for flag in BOOLS if flag != "isNeu"])
        self.assertEqual(len(EVENTS["RESET"].actions), 63)

    def test_actions_as_printed(self):
        error = reading(ran(WOULD_NOT_CLOSE)[2])
        self.assertEqual((error.phase, error.box), (23, 1))
        self.assertEqual(reading(ran(WOULD_NOT_CLOSE, without("FromNeu_SetGear_Clutch", REQUESTED))[2]).box, 0)
        both = [without("FromNeu_SetGear_Clutch", REQUESTED), Machine(SETTLED_ACTIONS)]
        closed = "1 4 7 t151 9 4 5 8 4 5 8 4 5 8"
        self.assertEqual([reading(ran(closed, machine)[2]).box for machine in (M9, *both)], [1, 0, 1])
        released = f"{K1} 2 4 5 8 4 5 8"
        self.assertEqual([reading(ran(released, machine)[2]).box for machine in (M9, *both)], [0, 0, 1])

    def test_all_errors_ask_for_their_device_s_error(self):
        for order in ORDERS.values():
            if order.error():
                *_, guard = EVENTS[order.error()].guards
                self.assertEqual(guard.stands, f"{order.device.other} = TRUE")

    def test_each_off_gives_what_is_printed(self):
        self.assertEqual(ran("1 4 7 t151 9")[0], 0)
        self.assertEqual(ran("1 4 7 t151 9", without("FromNeu_RequestOpenClutch", "grd4"))[0], 9)
        self.assertEqual(ran("1 9")[0], 7)
        self.assertEqual(ran("1 9", without("FromNeu_RequestOpenClutch", ADDED))[0], 9)
        asked = "2 4 7 t251 9 4 5 8"
        self.assertEqual(ran(f"{K1} {asked}")[0], 0)
        self.assertEqual(ran(f"{K1} {asked}", without("NoNeu_OpenClutch_Releasing", "grd1"))[0], 7)
        self.assertEqual(ran("1 4 5 8 4 6 10")[0], 0)
        self.assertEqual(ran("1 4 5 8 4 6 10", without("Error_FromNeu_SetGear_NoClutch", "grd4"))[0], 7)
        self.assertEqual(ran("1 4 7 t151 9 10")[0], 7)
        self.assertEqual(ran("1 4 7 t151 9 10", without("Error_FromNeu_OpenClutch", ADDED))[0], 0)
        self.assertEqual(ran("1 4 5 8 4 t300")[0], 0)
        self.assertEqual(ran("1 4 5 8 4 t300", without("Tick_Tock", "grd46"))[0], 12)
        set_order = "1 4 7 t151 9 4 5 8 t6"
        self.assertEqual(ran(set_order)[0], 12)
        self.assertEqual(ran(set_order, without("Tick_Tock", "grd47"))[0], 0)
        close = f"{K1} 2 4 5 8 4 5 8 4 7 t151 9 4 5 8 4 5 8 t5"
        self.assertEqual(ran(close)[0], 0)
        self.assertEqual(ran(close, without("Tick_Tock", "grd35"))[0], 12)


class Codes(unittest.TestCase):
    def test_each_event_has_one_code(self):
        self.assertEqual([len(NAMES_BY_CODE[code]) for code in LISTED], [1, 1, 1, 6, 6, 4, 2, 21, 4, 17, 1, 1, 1])
        self.assertEqual(sorted(name for names in NAMES_BY_CODE.values() for name in names), sorted(EVENTS))

    def test_an_event_raises_the_flag_that_it_is_named_by(self):
        for event in EVENTS.values():
            if event.name not in ("FINAL", "Tick_Tock", "RESET"):
                self.assertEqual((event.actions[0].variable, event.actions[0].value), (event.name, "TRUE"))

    def test_orders_are_the_phases(self):
        by_entering = {order.entering: phase for phase, order in ORDERS.items()}
        for phase, order in ORDERS.items():
            self.assertEqual(by_entering.get(order.taken, 22), PHASES[phase].when_taken)
            self.assertEqual(by_entering.get(order.asked), PHASES[phase].when_asked)


class KnownRuns(unittest.TestCase):
    def test_k1_to_k11(self):
        for text, number, accepted in (
            (K1, 0, 12), ("", 0, 0), ("1 t6", 12, 1), ("1 t5", 0, 2), ("1 t5 4 t101", 12, 3), ("1 4 7 t150 9", 9, 4),
            ("1 4 7 t151 9", 0, 5), ("1 4 7 t156", 11, 3), ("1 4 7 t155", 0, 4), ("2", 8, 0), ("1 1", 7, 1),
            ("1 4 6", 7, 2), (f"{K1} 3 4 5 8 4 6 10 11", 7, 19), (f"{WOULD_NOT_CLOSE} 13 3", 0, 16),
        ):
            self.assertEqual(ran(text)[:2], (number, accepted))

    def test_what_they_read_as(self):
        self.assertEqual(reading(ran(K1)[2]), (410, 1, 0, 0, 0, 0, 0))
        self.assertEqual(reading(ran("1 4 7 t151 9")[2]), (151, 0, 2, 1, 151, 151, 0))
        self.assertEqual(reading(ran("t7 1 t2 4 7 t3")[2]), (12, 0, 1, 5, 7, 0, 7))
        self.assertEqual(reading(ran(f"{K1} 3 4 5 8 4 6 10 11")[2]), (410, 1, 23, 0, 0, 0, 0))
        self.assertEqual(reading(ran(WOULD_NOT_CLOSE)[2]), (151, 1, 23, 0, 0, 0, 0))
        self.assertEqual(reading(ran(f"{WOULD_NOT_CLOSE} 13")[2]), (151, 1, 0, 0, 0, 0, 0))
        self.assertEqual(reading(ran(f"{WOULD_NOT_CLOSE} 13 t4 3")[2]), (155, 1, 17, 1, 155, 155, 155))

    def test_flags_that_are_up(self):
        variables = ran("t9 1 t5 4 t9 5 t3 8 t1")[2]
        self.assertEqual([name for name in BOOLS if variables[name]], [
            "isNeu", "RequestFromNeu", "FromNeu_SyncSpeed", "Engine_SyncSpeed", "Engine_Request_SyncSpeed"])
        kept = {name: variables[name] for name in NATURALS if variables[name]}
        self.assertEqual(kept, {"time": 27, "RequestFromNeuT": 9, "Engine_Request_SyncSpeedT": 14,
                                "Engine_SyncSpeedT": 23, "FromNeu_SyncSpeedT": 26})

    def test_final_keeps_the_times(self):
        variables = ran(K1)[2]
        self.assertEqual([name for name in BOOLS if variables[name]], [])
        self.assertEqual([name for name in NATURALS if variables[name]], [
            "time", "FromNeu_SyncSpeedT", "Engine_Request_SyncSpeedT", "Gear_Request_SetT", "Engine_SyncSpeedT",
            "Gear_SetT"])


    def test_reset_lowers_every_flag_and_keeps_the_box_and_the_times(self):
        up = set()
        for table, steps_to in walks_through_errors(random.Random(4), good_table):
            variables = START
            for code, amount in steps_to:
                before, variables = variables, m9.step(table, variables, code, amount)[-1]
                if code == 13:
                    up.update(name for name in BOOLS if before[name])
                    kept = {name: before[name] for name in ("isNeu", *NATURALS)}
                    self.assertEqual(variables, {**START, **kept})
        self.assertEqual(set(BOOLS) - up, {*FINAL_FLAGS, "Clutch_Close"})


class Refusals(unittest.TestCase):
    def test_table_then_code_then_amount_then_flags(self):
        broken = OLD_DEFAULT._replace(ChangeDL=1404)
        self.assertEqual(m9.step(broken, START, 99, 99), (4, 14, 0, START))
        unread = (0, 9), (14, 0), (8, 1), (8, 0, 1), (12, 0), (13, 1), (13, 0, 1)
        self.assertEqual([m9.step(OLD_DEFAULT, START, *given)[0] for given in unread], [5, 5, 6, 6, 6, 6, 6])
        self.assertEqual(m9.step(OLD_DEFAULT, START, 13, 0)[0], 7)
        self.assertEqual([m9.step(OLD_DEFAULT, START, code, 0)[0] for code in range(1, 12)], [0, 8, 8] + [7] * 8)

    def test_the_last_clock_comes_before_deadlines(self):
        late = {**START, "time": LAST_CLOCK, "RequestFromNeu": True}
        self.assertEqual(m9.step(OLD_DEFAULT, late, 12, 1)[0], 13)
        self.assertEqual(m9.step(OLD_DEFAULT, {**late, "time": LAST_CLOCK - 1}, 12, 1)[0], 12)
        asked = {**late, "time": LAST_CLOCK - 1, "Engine_Request_SyncSpeed": True, "Engine_WaitForSyncClutch": True}
        self.assertEqual(m9.step(OLD_DEFAULT, asked, 12, 1)[0], 11)
        self.assertEqual(m9.step(OLD_DEFAULT, {**START, "time": LAST_CLOCK - 1}, 12, 1)[0], 0)

    def test_too_late_on_variables_that_no_run_reaches(self):
        good = {**START, "RequestFromNeu": True, "Engine_Request_SyncSpeed": True, "Engine_SyncSpeed": True}
        self.assertEqual([m9.step(OLD_DEFAULT, {**good, "time": time}, 8, 0)[0] for time in (150, 151)], [0, 10])

    def test_how_far_over(self):
        for text, *answer in (
            ("1 t6", 12, 1), ("1 t5 4 t101", 12, 1), ("1 4 7 t150 9", 9, 1), ("1 4 7 t156", 11, 1), ("1 t200", 12, 195),
            ("1 t5 4 t200", 12, 100), ("t9 1 t2 4 5 t3 t9", 12, 7), ("t9 1 t2 4 7 9", 9, 149),
            ("t9 1 t2 4 7 t200", 11, 47), (f"{K1} 3 4 7 9", 9, 251), (f"{K1} 2 4 5 8 4 5 8 4 7 t7 9", 9, 144),
            ("1 4 5 8 4 t400", 12, 100), (K1, 0, 0), ("1 t5", 0, 0), ("1 4 7 t155 9", 0, 0), ("1 1", 7, 0),
            ("2", 8, 0), ("t9 2", 8, 0),
        ):
            self.assertEqual(over(text), tuple(answer))

    def test_the_excess_of_a_guard_as_printed(self):
        self.assertEqual([over("1 4 7 9", machine) for machine in (M9, without("FromNeu_RequestOpenClutch", "grd4"))],
                         [(9, 151), (9, 251)])

    def test_excesses_on_variables_that_no_run_reaches(self):
        late = {**START, "time": LAST_CLOCK, "RequestFromNeu": True}
        self.assertEqual(m9.step(OLD_DEFAULT, late, 12, 9), (13, 0, 9, late))
        late["time"] -= 1
        self.assertEqual(m9.step(OLD_DEFAULT, late, 12, 1), (12, 0, LAST_CLOCK - 5, late))
        late.update(Engine_Request_SyncSpeed=True, Engine_WaitForSyncClutch=True)
        self.assertEqual(m9.step(OLD_DEFAULT, late, 12, 1), (11, 0, LAST_CLOCK - 155, late))
        early = {**late, "time": 0, "RequestFromNeuT": LAST_CLOCK}
        self.assertEqual(m9.step(OLD_DEFAULT, early, 9, 0), (9, 0, LAST_CLOCK + 151, early))
        asked = {**START, "time": 170, "RequestFromNeu": True, "Engine_Request_SyncSpeed": True}
        good = {**asked, "Engine_SyncSpeed": True}
        self.assertEqual(m9.step(OLD_DEFAULT, good, 8, 0), (10, 0, 20, good))

    def test_a_tick_gets_the_excess_of_the_first_guard_of_its_number(self):
        asked = {**START, "time": 300, "RequestFromNeu": True, "FromNeu_RequestOpenClutch": True,
                 "FromNeu_RequestOpenClutchT": 90}
        passed = {deadline.label: excess for deadline, excess in M9.excesses(OLD_DEFAULT, asked, 1)}
        self.assertEqual(passed, {"grd3": 11, "grd23": 296, "grd29": 206})
        self.assertEqual(m9.step(OLD_DEFAULT, asked, 12, 1), (12, 0, 296, asked))

    def test_what_is_refused_changes_nothing(self):
        for text in ("1 4 7 t150 9", "1 t6", "2", "1 1"):
            number, accepted, variables = ran(text)
            self.assertNotEqual(number, 0)
            self.assertEqual(variables, ran(" ".join(text.split()[:accepted]))[2])


class Places(unittest.TestCase):
    def test_there_are_110(self):
        self.assertEqual(sum(map(len, PLACES.values())), 110)
        self.assertEqual(set(ways()), {(phase, how) for phase, found in PLACES.items() for how in found})

    def test_each_way_leads_to_the_same_flags_under_any_table_and_at_any_pace(self):
        chance = random.Random(3)
        for place, led in ways().items():
            flags = set()
            for way in led:
                table = good_table(chance)
                records = packed_steps(timed(table, way, mixed(chance)))
                number, *_, variables = run(m9.step, START, table, records)
                self.assertEqual((number, place_of(variables)), (0, place))
                flags.add(m9.flags(variables))
            self.assertEqual(len(flags), 1)


class TheSearch(unittest.TestCase):
    def test_the_machine_itself_never_stops(self):
        for table, ticks in SEARCHED.values():
            for variables, _ in reached(M9, table, ticks):
                given = [(code, 0) for code in LISTED if code != 12] + [(12, 1)]
                self.assertIn(0, [m9.step(table, variables, *each)[0] for each in given])

    def test_it_reaches_every_place(self):
        for table, ticks in SEARCHED.values():
            self.assertEqual({place_of(variables) for variables, _ in reached(M9, table, ticks)}, set(ways()))

    def test_a_settlement_that_is_off_is_found(self):
        table, ticks = SEARCHED["old default"]
        states = list(reached(M9, table, ticks))
        delay, waits = SETTLEMENTS[:2]
        self.assertEqual(first_change(delay, table, states), (tuple(steps("1 4 7 t151 9")), 9, 0))
        self.assertEqual(stop(delay, table, ticks), tuple(steps("1 4 7 t155")))
        self.assertEqual(first_change(waits, table, states), (((1, 0), (9, 0)), 9, 7))
        self.assertIsNone(stop(waits, table, ticks))

    def test_an_action_that_is_off_is_found_where_it_shows(self):
        table, ticks = SEARCHED["old default"]
        states = list(reached(M9, table, ticks))
        taken, closed = SETTLED_ACTIONS[:2]
        self.assertEqual(first_change(taken, table, states), (tuple(steps("1 4 7 t151 9 4 5 8 4 5 8")), 0, 0))
        self.assertIsNone(first_change(closed, table, states))


class BesideTheRules(unittest.TestCase):
    def assert_same(self, table, variables, state, *given):
        """A step has the same number, rule and excess in both engines, and leads to the same in our terms."""
        *answer, variables = m9.step(table, variables, *given)
        *ours, state = rules.step(table, state, *given)
        self.assertEqual(answer, ours)
        read = reading(variables)
        self.assertEqual(read[:4], (state.clock, state.box, state.phase, state.stage))
        if state.stage:
            self.assertEqual((read.phase_time, read.request_time), (state.phase_time, state.request_time))
            self.assertEqual(read.stage_time, state.stage_time if state.stage < 4 else 0)
        else:
            self.assertEqual(read[4:], (0, 0, 0))
        return variables, state

    def assert_walk(self, chance, table, walk):
        """Both engines agree along a walk, and on a step of each code at each place of it."""
        variables, state = START, rules.START
        for given in walk:
            for code in LISTED:
                self.assert_same(table, variables, state, code, good_amount(chance, code))
            self.assert_same(table, variables, state, chance.randint(0, 16), chance.randint(0, 1), chance.randint(0, 1))
            variables, state = self.assert_same(table, variables, state, *given)

    def test_every_shift(self):
        chance = random.Random(0)
        for request, shifts in ROUNDS.items():
            for shift in shifts:
                table = good_table(chance)
                self.assert_walk(chance, table, timed(table, lead(chance, request) + shift, mixed(chance)))

    def test_through_every_error(self):
        chance = random.Random(5)
        for table, walk in walks_through_errors(chance, good_table):
            variables, state = START, rules.START
            for given in walk:
                variables, state = self.assert_same(table, variables, state, *given)

    def test_walks_by_chance(self):
        chance = random.Random(1)
        for _ in range(60):
            table = good_table(chance)
            self.assert_walk(chance, table, any_walk(chance, table))

    def test_at_most_one_event_of_a_code_is_enabled_along_walks(self):
        chance = random.Random(2)
        for request, shifts in ROUNDS.items():
            for shift in shifts:
                variables = START
                for given in timed(OLD_DEFAULT, lead(chance, request) + shift, mixed(chance)):
                    for events in M9.events.values():
                        self.assertLessEqual(sum(event.flags.met(variables) for event in events), 1)
                    *_, variables = m9.step(OLD_DEFAULT, variables, *given)
