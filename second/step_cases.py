"""Cases of admit, step and advance: tables, and single steps on states that no walk need reach."""

from itertools import cycle, product

from corpus import case_of
from coverage import LISTED_NUMBERS, OVER, STAGE_LIMITS, step_numbers
from records import (
    EXTREME_AMOUNTS, LISTED, any_record, bad_amount, bad_records, good_amount, packed_steps, tick_amount,
    unlisted_code, unlisted_codes,
)
from rules import (
    ALLOWED, ASK_CLUTCH, AT_REST, BOXES, DONE, ENGINE_PHASES, ERROR, GOOD, LAST_CLOCK, LONGEST_TICK, NEW_DEFAULT,
    NOT_ALLOWED, OLD_DEFAULT, PAST_CLOCK, PAST_PHASE_LIMIT, PAST_STAGE_LIMIT, PHASES, REQUESTS, RESET, STAGES, START,
    TAKE, TICK, TOO_EARLY, TOO_LATE, WAITING, State, Table, earliest_clock, forbidden, latest_clocks,
)
from search import first_found
from tables import LARGEST_ENTRY, RULES, admitted_table, any_table, broken_table, edge_tables, good_table

BESIDE = -1, 0, 1
# How far ticks go past the limits of a stage and of its phase, where they just keep or pass one of them.
PAST = (-1, 0), (-1, 1), (0, -1), (0, 0), (0, 1), (1, -1), (1, 0)
# Excesses at the ends of their sizes and where a sign would change, and the largest that each refusal gets of them.
EXCESSES = 1, 2, 2**16 - 1, 2**16, 2**31, LAST_CLOCK - LARGEST_ENTRY, LAST_CLOCK, LAST_CLOCK + 1
LARGEST_EXCESS = {TOO_EARLY: LAST_CLOCK + 1, PAST_CLOCK: LONGEST_TICK}


def both(table, state, code, amount):
    """A step as such and as the running judge's."""
    yield case_of("step", table, state, code, amount)
    yield case_of("advance", table, state, packed_steps([(code, amount)]))


def either(chance, table, state, code, amount):
    """A step as such or as the running judge's."""
    return chance.choice(list(both(table, state, code, amount)))


def any_time(chance):
    """A time near 0, near the last clock or anywhere."""
    near = chance.randint(0, 2_000)
    return chance.choice((near, LAST_CLOCK - near, chance.randint(0, LAST_CLOCK)))


def free_state(chance, **named):
    """A listed state with its times near each other or anywhere; the named fields are as named."""
    clock = any_time(chance)

    def time():
        near = clock + chance.randint(-400, 400)
        return near if 0 <= near <= LAST_CLOCK and chance.random() < 0.8 else any_time(chance)

    state = State(
        clock=clock,
        box=chance.choice(BOXES),
        phase=chance.randint(AT_REST, ERROR),
        phase_time=time(),
        stage=chance.choice(STAGES),
        stage_time=time(),
        request_time=time(),
        failed_phase=chance.choice((0, chance.randint(0, ERROR), chance.randint(0, 255))),
    )
    return state._replace(**named)


def allowing(chance, code, **named):
    """A state whose phase and stage allow the step; the named fields are as named."""
    phases, stages = ALLOWED[code]
    fields = {"phase": chance.choice(sorted(phases)), "stage": chance.choice(sorted(stages)), **named}
    return free_state(chance, **fields)


def unlisted(chance, state):
    """The state with a number in one of its fields that is not listed."""
    field, least = chance.choice(list(LISTED_NUMBERS.items()))
    return state._replace(**{field: chance.randint(least, 255)})


def limits(table, phase, stage, code):
    """The limits of a step in a phase and stage, by the refusal for passing them."""
    return dict(latest_clocks(table, START._replace(phase=phase, stage=stage), code))


def clocks_from(chance, least):
    """Clocks that are no smaller than the least: that one, the last and any."""
    return least, LAST_CLOCK, chance.randint(least, LAST_CLOCK)


def aimed_tick(chance, table, phase, stage, past_stage, past_phase):
    """A state, and a tick to so far past the channel's or device's limit and so far past the phase's."""
    found = limits(table, phase, stage, TICK)
    stage_limit, phase_limit = found.get(PAST_STAGE_LIMIT, 0), found[PAST_PHASE_LIMIT]
    amount = tick_amount(chance)
    clock = chance.choice(clocks_from(chance, max(amount, past_stage + stage_limit, past_phase + phase_limit)))
    state = free_state(
        chance,
        clock=clock - amount,
        phase=phase,
        phase_time=min(clock - past_phase - phase_limit, LAST_CLOCK),
        stage=stage,
        stage_time=min(clock - past_stage - stage_limit, LAST_CLOCK),
    )
    return state, amount


def past_both(chance):
    """How far ticks go that pass both limits, further past one of them."""
    far = chance.randint(2, 400)
    return (1, far), (far, 1)


def aimed_engine(chance, table, number, excess):
    """A state of an engine's phase, and a step that is refused on it with 9 or 10 by so much."""
    phase = chance.choice(sorted(ENGINE_PHASES))
    if number == TOO_EARLY:
        code, stage, age = ASK_CLUTCH, WAITING, earliest_clock(table, START._replace(phase=phase), ASK_CLUTCH) - excess
    else:
        code, stage, age = TAKE, GOOD, limits(table, phase, GOOD, TAKE)[TOO_LATE] + excess
    clock = chance.choice((max(0, age), min(LAST_CLOCK, LAST_CLOCK + age)))
    return free_state(chance, clock=clock, phase=phase, phase_time=clock - age, stage=stage), code, 0


def aimed_step(chance, table, number, excess):
    """A state and a step that is refused on it with this number, from 9 on, by so much."""
    if number in (TOO_EARLY, TOO_LATE):
        return aimed_engine(chance, table, number, excess)
    if number == PAST_CLOCK:
        amount = chance.randint(excess, LONGEST_TICK)
        return free_state(chance, clock=LAST_CLOCK + excess - amount), TICK, amount
    past = (excess, chance.choice(BESIDE)) if number == PAST_STAGE_LIMIT else (chance.choice((-1, 0)), excess)
    phase, stage = chance.choice(list(PHASES)), chance.choice(list(STAGE_LIMITS))
    state, amount = aimed_tick(chance, table, phase, stage, *past)
    return state, TICK, amount


def aimed_steps(chance):
    """Tables, states and steps that are refused with each number from 9 on, by excesses of each size."""
    for number, excess in product(OVER, EXCESSES):
        if excess <= LARGEST_EXCESS.get(number, LAST_CLOCK - LARGEST_ENTRY):
            table = good_table(chance)
            yield (table, *aimed_step(chance, table, number, excess))


def extreme_entries(chance):
    """Both defaults, and admitted tables with one entry at an end of its range or where sums of 16 bits would wrap."""
    for table in (OLD_DEFAULT, NEW_DEFAULT):
        yield case_of("admit", table)
    for entry, value in product(Table._fields, (0, 1, (LARGEST_ENTRY + 1) // 2, LARGEST_ENTRY)):
        yield case_of("admit", admitted_table(chance)._replace(**{entry: value}))


def rules_at_their_edge(chance):
    """Tables that break each rule first and by one, with their neighbours, and steps under the broken ones."""
    for rule, _ in product(RULES, range(3)):
        neighbours = edge_tables(chance, rule)
        for table in neighbours:
            yield case_of("admit", table)
        code = chance.choice(LISTED)
        yield from both(neighbours[0], free_state(chance), code, good_amount(chance, code))


def every_phase_and_stage(chance):
    """Every listed code in every phase: in every stage where the phase can allow it, else in one of them in turn."""
    turn = cycle(STAGES)
    for phase, code in product(range(ERROR + 1), LISTED):
        phases, _ = ALLOWED[code]
        for stage in STAGES if phase in phases else (next(turn),):
            state = free_state(chance, phase=phase, stage=stage)
            yield case_of("step", good_table(chance), state, code, good_amount(chance, code))


def every_box(chance):
    """Every request at rest in every stage, with the box on either side."""
    for code, box, stage in product(REQUESTS, BOXES, STAGES):
        yield from both(good_table(chance), free_state(chance, box=box, phase=AT_REST, stage=stage), code, 0)


def every_reset(chance):
    """Resets in error in every stage, with the box on either side, and in every phase with a good and a bad amount."""
    for box, stage in product(BOXES, STAGES):
        yield from both(good_table(chance), free_state(chance, box=box, phase=ERROR, stage=stage), RESET, 0)
    for phase in range(ERROR + 1):
        yield from both(good_table(chance), free_state(chance, phase=phase), RESET, 0)
        table, state = good_table(chance), free_state(chance, phase=phase)
        yield case_of("step", table, state, RESET, bad_amount(chance, RESET))
        yield case_of("advance", table, state, chance.choice(bad_records(chance, RESET)))


def every_amount(chance):
    """Every listed code on states that allow it, with amounts at the ends of what it may have."""
    for code, amount in product(LISTED, EXTREME_AMOUNTS):
        yield case_of("step", good_table(chance), allowing(chance, code), code, amount)


def every_unlisted_field(chance):
    """Every listed code on states that would allow it, but are not listed; the tick would pass the last clock too."""
    for code, (field, least) in product(LISTED, LISTED_NUMBERS.items()):
        for value in (least, chance.randint(least, 255), 255):
            state = allowing(chance, code, clock=LAST_CLOCK, **{field: value})
            yield from both(good_table(chance), state, code, good_amount(chance, code))


def neither_listed(chance):
    """Codes that are none on states that are not listed, and under tables that are not admitted."""
    for (field, least), code in product(LISTED_NUMBERS.items(), unlisted_codes(chance)):
        yield from both(good_table(chance), free_state(chance, **{field: least}), code, 0)
    for code in unlisted_codes(chance):
        yield from both(broken_table(chance), free_state(chance), code, 0)


def accepted_step(chance, table, code, phase, box):
    """A state with this phase and box, whose times differ, and an amount: the step is accepted and can change all."""

    def attempt():
        state = allowing(chance, code, phase=phase, box=box, failed_phase=chance.randint(1, 255))
        amount = good_amount(chance, code)
        times = {0, state.clock, state.phase_time, state.stage_time, state.request_time}
        return (state, amount) if len(times) == 5 and not forbidden(table, state, code, amount)[0] else None

    return first_found(f"a state with phase {phase} and box {box} on which code {code} is accepted", attempt)


def every_effect(chance):
    """Every listed code accepted in every phase that allows it, with the box on either side that does."""
    for code in LISTED:
        phases, _ = ALLOWED[code]
        for phase, box in product(sorted(phases), (REQUESTS[code].box,) if code in REQUESTS else BOXES):
            table = good_table(chance)
            state, amount = accepted_step(chance, table, code, phase, box)
            yield either(chance, table, state, code, amount)


def refused_step(chance, table, code, number, any_amount):
    """A state and an amount for which the step would be refused with this number if its table and amount were good."""

    def attempt():
        state = allowing(chance, code)
        if number == TOO_LATE:
            state = state._replace(phase=chance.choice(sorted(ENGINE_PHASES)))
        if number == NOT_ALLOWED:
            state = chance.choice((free_state(chance), unlisted(chance, state)))
        amount = any_amount(chance, code)
        return (state, amount) if forbidden(table, state, code, amount)[0] == number else None

    return first_found(f"a state and an amount for which code {code} is refused with {number}", attempt)


def not_allowing(state, code):
    """The state with a stage, a box or, for a request, a phase, one at a time, that doesn't allow the step."""
    yield state._replace(stage=LISTED_NUMBERS["stage"])
    yield state._replace(box=LISTED_NUMBERS["box"])
    _, stages = ALLOWED[code]
    yield from (state._replace(stage=stage) for stage in STAGES if stage not in stages)
    if code in REQUESTS:
        yield from (state._replace(phase=phase) for phase in (*PHASES, DONE, ERROR, LISTED_NUMBERS["phase"]))


def two_refusals(chance):
    """Every number from 7 on that a listed code can give, where 4, 6 or 7 comes before it."""
    for code, number in [(code, number) for code in LISTED for number in sorted(step_numbers(code)) if number >= 7]:
        broken, good = broken_table(chance), good_table(chance)
        state, amount = refused_step(chance, broken, code, number, good_amount)
        yield from both(broken, state, code, amount)
        state, amount = refused_step(chance, good, code, number, bad_amount)
        yield case_of("step", good, state, code, amount)
        state, amount = refused_step(chance, good, code, number, good_amount)
        for four in bad_records(chance, code):
            yield case_of("advance", good, state, four)
        if number > NOT_ALLOWED:
            for wrong in not_allowing(state, code):
                yield case_of("step", good, wrong, code, amount)


def every_excess(chance):
    """Steps over each limit by excesses of each size, and the earliest of all in every engine's phase."""
    for given in aimed_steps(chance):
        yield from both(*given)
    for phase in sorted(ENGINE_PHASES):
        state = free_state(chance, clock=0, phase=phase, phase_time=LAST_CLOCK, stage=WAITING)
        yield from both(good_table(chance), state, ASK_CLUTCH, 0)


def ticks_beside_limits(chance):
    """Ticks to the limits of every phase and stage and to one past them, in every pairing, and past both limits."""
    for phase, stage in product(PHASES, STAGES):
        for past in (*PAST, *past_both(chance)) if stage in STAGE_LIMITS else ((0, 0), (0, 1)):
            table = good_table(chance)
            state, amount = aimed_tick(chance, table, phase, stage, *past)
            yield either(chance, table, state, TICK, amount)


def ticks_beside_the_last_clock(chance):
    """Ticks to the last clock and past it in every phase, within the limits and past them."""
    for phase, time in product(range(ERROR + 1), (LAST_CLOCK - 1, 0)):
        state = free_state(chance, clock=LAST_CLOCK - 1, phase=phase, phase_time=time, stage_time=time)
        for amount in (1, 2, LONGEST_TICK):
            yield either(chance, good_table(chance), state, TICK, amount)


def engines_beside_limits(chance):
    """Taking one before, at and one past EX, and asking for the clutch beside DE, up to the last clock."""
    for phase, past in product(sorted(ENGINE_PHASES), BESIDE):
        table = good_table(chance)
        expiry = limits(table, phase, GOOD, TAKE)[TOO_LATE]
        earliest = earliest_clock(table, START._replace(phase=phase), ASK_CLUTCH)
        for code, stage, limit in ((TAKE, GOOD, expiry), (ASK_CLUTCH, WAITING, earliest)):
            for clock in clocks_from(chance, past + limit):
                state = free_state(chance, clock=clock, phase=phase, stage=stage, phase_time=clock - past - limit)
                yield either(chance, table, state, code, 0)


def refusals_in_order(chance):
    """Every listed code with table, code, amount and state good or bad, in every pairing, as a step or a record."""
    for code, bad_table, bad_code, wrong_amount, bad_state in product(LISTED, *[(False, True)] * 4):
        table = broken_table(chance) if bad_table else good_table(chance)
        given = unlisted_code(chance) if bad_code else code
        amount = bad_amount(chance, code) if wrong_amount else good_amount(chance, code)
        state = free_state(chance)
        if bad_state:
            state = unlisted(chance, state)
        four = chance.choice(bad_records(chance, code)) if wrong_amount else packed_steps([(code, amount)])
        yield chance.choice((case_of("step", table, state, given, amount),
                             case_of("advance", table, state, bytes((given,)) + four[1:])))


def demanded(chance):
    """The cases that the coverage demands of these functions."""
    yield from extreme_entries(chance)
    yield from rules_at_their_edge(chance)
    yield from every_phase_and_stage(chance)
    yield from every_box(chance)
    yield from every_reset(chance)
    yield from every_amount(chance)
    yield from every_unlisted_field(chance)
    yield from neither_listed(chance)
    yield from every_effect(chance)
    yield from two_refusals(chance)
    yield from every_excess(chance)
    yield from ticks_beside_limits(chance)
    yield from ticks_beside_the_last_clock(chance)
    yield from engines_beside_limits(chance)
    yield from refusals_in_order(chance)


def draw(chance):
    """A table, two ticks beside limits and two steps, by chance."""
    yield case_of("admit", any_table(chance))
    table = any_table(chance) if chance.random() < 0.1 else good_table(chance)
    phase, stage = chance.choice(list(PHASES)), chance.choice(STAGES)
    state, amount = aimed_tick(chance, table, phase, stage, chance.randint(-2, 2), chance.randint(-2, 2))
    yield from both(table, state, TICK, amount)
    code = chance.choice(LISTED)
    state = allowing(chance, code) if chance.random() < 0.7 else free_state(chance)
    if chance.random() < 0.1:
        state = unlisted(chance, state)
    yield case_of("advance", table, state, any_record(chance, code))
    if chance.random() < 0.1:
        code = chance.randint(0, 255)
    amount = bad_amount(chance, code) if chance.random() < 0.1 else good_amount(chance, code)
    yield case_of("step", table, state, code, amount)
