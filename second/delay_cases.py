"""Cases of the clutches' delays: tables, answers beside delays on given states and along walks, and whole shifts."""

from itertools import cycle, product

import places
from block_cases import block_case
from corpus import case_of
from delay_coverage import ANSWERS, without_delay
from extensions import cut_walk, extend_case
from file_cases import file_with, line_case
from list_cases import list_case
from manual_cases import manual_case, unhurried
from records import packed_steps
from rules import (
    ALLOWED, ASK_CLUTCH, CLUTCH_PHASES, DELAYS, DEVICE_FAILED, LAST_CLOCK, ORDERS, PHASES, TICK, WORKING,
    earliest_clock, has_delays,
)
from step_cases import EXCESSES, either, free_state
from tables import DELAY_CONDITIONS, HOUSE, RULES, admitted_table, delay_edges, delayed_table, edge_tables, with_delays
from walks import SHIFTS, beside_delay, lead, mixed, states, timed

# Beside these a clock is large enough for times before it, and small enough for times behind it.
FAR = 2**20
# Delays that are as small as can be, and such as fit only their own clutch's limit, where those are 2 and 9.
SMALLEST, ONE_CLUTCH_S = (1, 2, 1, 2), ((1, 2, 3, 9), (1, 9, 1, 2), (1, 2, 1, 3), (1, 3, 1, 3))


def delay_of(table, phase, code):
    """The delay of a clutch's answer."""
    order = PHASES[phase].order
    return getattr(table, order.error_delay if code == DEVICE_FAILED else order.delay)


def with_four(table, delays):
    """The table with these delays."""
    return table._replace(**dict(zip(DELAYS, delays)))


def every_condition(chance):
    """Tables at the edge of each condition of rule 16, with each of the delays 0 or not, and with crossed limits."""
    for condition in DELAY_CONDITIONS:
        for table in delay_edges(chance, condition):
            yield case_of("admit", table)
    for zeros in product((0, 1), repeat=len(DELAYS)):
        table = delayed_table(chance)
        yield case_of("admit", with_four(table, (delay * kept for delay, kept in zip(table[-len(DELAYS):], zeros))))
    yield case_of("admit", HOUSE)
    for delays, limits in product((SMALLEST, *ONE_CLUTCH_S), ((2, 9), (9, 2), (2, 2))):
        limited = HOUSE._replace(Clutch_Open_DL=limits[0], Clutch_Close_DL=limits[1])
        yield case_of("admit", with_four(limited, delays))


def rules_before(chance):
    """Tables that break each of the other rules, with delays that keep rule 16 and with such as break it."""
    for rule in RULES[:-1]:
        broken = edge_tables(chance, rule)[0]
        for delays in (SMALLEST, (0, 0, 0, 1)):
            yield case_of("admit", with_four(broken, delays))


def answer_state(chance, table, phase, code, past):
    """A state in which a clutch's answer comes so far past its delay; from the phase's time it would be otherwise."""
    clock = chance.choice((FAR, LAST_CLOCK, chance.randint(FAR, LAST_CLOCK)))
    stage_time = min(clock - past - delay_of(table, phase, code), LAST_CLOCK)
    phase_time = clock if past >= 0 else 0
    return free_state(chance, clock=clock, phase=phase, phase_time=phase_time, stage=WORKING, stage_time=stage_time)


def beside_delays(chance):
    """In every phase of a clutch its answers one before, at and one behind their delays."""
    for phase, code, past in product(sorted(CLUTCH_PHASES), ANSWERS, (-1, 0, 1)):
        table = delayed_table(chance)
        yield either(chance, table, answer_state(chance, table, phase, code, past), code, 0)


def without_delays(chance):
    """The same without delays: at the stage time, and with the stage time one ahead of the clock and far ahead."""
    for phase, code, ahead in product(sorted(CLUTCH_PHASES), ANSWERS, (0, 1)):
        clock = chance.choice((0, FAR, LAST_CLOCK - 1))
        state = free_state(chance, clock=clock, phase=phase, stage=WORKING, stage_time=clock + ahead)
        yield either(chance, admitted_table(chance), state, code, 0)


def every_excess(chance):
    """Answers of each clutch that are early by excesses of each size, up to the largest, with and without delays."""
    for order, code in product((order for order in ORDERS if order.delay), ANSWERS):
        phase = chance.choice([phase for phase, row in PHASES.items() if row.order == order])
        for excess in EXCESSES:
            table = delayed_table(chance)
            age = delay_of(table, phase, code) - excess
            clock = chance.choice((max(0, age), min(LAST_CLOCK, LAST_CLOCK + age)))
            state = free_state(chance, clock=clock, phase=phase, stage=WORKING, stage_time=clock - age)
            yield either(chance, table, state, code, 0)
        for table in (delayed_table(chance), admitted_table(chance)):
            state = free_state(chance, clock=0, phase=phase, stage=WORKING, stage_time=LAST_CLOCK)
            yield either(chance, table, state, code, 0)


def times_ahead(chance):
    """Every code on orders where no delay counts, under delays, with the stage time ahead of the clock."""
    for order in ORDERS:
        for code in sorted(without_delay(order)):
            table = delayed_table(chance)
            phase = chance.choice([phase for phase, row in PHASES.items() if row.order == order])
            stage = chance.choice(sorted(ALLOWED[code][1]))
            clock = chance.randint(FAR, 2 * FAR)
            phase_time = clock - getattr(table, order.earliest) if code == ASK_CLUTCH else clock
            state = free_state(chance, clock=clock, phase=phase, phase_time=phase_time, stage=stage,
                               stage_time=clock + chance.choice((1, 2, FAR)))
            yield either(chance, table, state, code, int(code == TICK))


def to_working(chance, table, phase):
    """A walk to where the clutch of a phase works, on which no two times are the same."""
    return timed(table, chance.choice(places.ways()[phase, "working"]), unhurried)


def along_walks(chance):
    """In every phase of a clutch, along a walk, its answers beside their delays, and then the other answer."""
    functions = cycle(("line", "list", "block", "extend"))
    for phase, code in product(sorted(CLUTCH_PHASES), ANSWERS):
        table = delayed_table(chance)
        steps = to_working(chance, table, phase)
        for answer in beside_delay(table, states(table, steps)[-1], code):
            other = [(sum(ANSWERS) - code, 0)]
            yield case_of("judge", file_with(chance, table, steps, answer, other))
            yield manual_case(table, steps, answer, other)
            yield from as_function(chance, next(functions), table, steps, answer)


def early_answers(chance):
    """Answers of each clutch that are early by a few digits, in each function that judges records."""
    for order, code, name in product((order for order in ORDERS if order.delay), ANSWERS,
                                     ("line", "list", "block", "extend", "manual")):
        table = delayed_table(chance)
        phase = chance.choice([phase for phase, row in PHASES.items() if row.order == order])
        steps = to_working(chance, table, phase)
        state = states(table, steps)[-1]
        amount = chance.randint(0, earliest_clock(table, state, code) - state.clock - 1)
        yield from as_function(chance, name, table, steps, [(TICK, amount)] * (amount > 0) + [(code, 0)])


def as_function(chance, name, table, steps, more):
    """A walk and more steps as a case of this function; a block and an extension begin within the walk."""
    file, place = file_with(chance, table, steps, more), chance.randint(0, len(steps))
    if name == "judge":
        yield case_of("judge", file)
    if name == "line":
        yield line_case(chance, file, 0)
    if name == "list":
        yield list_case(chance, file, 24)
    if name == "block":
        yield block_case(table, states(table, steps[:place])[-1], steps[place:], more)
    if name == "extend":
        given = cut_walk(table, steps, place)
        yield extend_case(chance, given._replace(records=given.records + packed_steps(more)), 0)
    if name == "manual":
        yield manual_case(table, steps, more)


def whole_shifts(chance):
    """Every shift under delays: at its fastest, at its slowest with delays as long as can be, and at any pace."""
    functions = cycle(("line", "list", "block", "extend"))
    for request, shift in [(request, shift) for request, shifts in SHIFTS.items() for shift in shifts]:
        codes, fast = lead(chance, request) + shift, delayed_table(chance)
        yield case_of("judge", file_with(chance, fast, timed(fast, codes, min)))
        slow = long_delays(chance)
        yield manual_case(slow, timed(slow, codes, max))
        yield from as_function(chance, next(functions), HOUSE, timed(HOUSE, codes, mixed(chance)), [])


def long_delays(chance):
    """A tight table with delays as long as they can be."""
    table = with_delays(chance, admitted_table(chance, tight=True), tight=True)
    return table if has_delays(table) else with_delays(chance, HOUSE, tight=True)


def demanded(chance):
    """The cases that the coverage demands of delays."""
    yield from every_condition(chance)
    yield from rules_before(chance)
    yield from beside_delays(chance)
    yield from without_delays(chance)
    yield from every_excess(chance)
    yield from times_ahead(chance)
    yield from along_walks(chance)
    yield from early_answers(chance)
    yield from whole_shifts(chance)


def draw(chance):
    """A table with delays, an answer of a clutch on a given state and one along a walk, by chance."""
    table = delayed_table(chance)
    entry = chance.choice((*DELAYS, "Clutch_Open_DL", "Clutch_Close_DL"))
    yield case_of("admit", table._replace(**{entry: chance.randint(0, 2 * getattr(table, entry))}))
    phase, code = chance.choice(sorted(CLUTCH_PHASES)), chance.choice(ANSWERS)
    yield either(chance, table, answer_state(chance, table, phase, code, chance.randint(-9, 9)), code, 0)
    steps = to_working(chance, table, phase)
    more = [(TICK, chance.randint(1, 400)), (code, 0), (TICK, 1)]
    yield from as_function(chance, chance.choice(("line", "list", "block", "manual", "extend")), table, steps, more)
