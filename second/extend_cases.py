"""Cases of extend that are accepted: files cut at every place, foreign states and lists, and buffers of every size."""

from itertools import product

from block_cases import LEFT_OVER, left_over
from extensions import Given, any_shift, cut_walk, extend_case, on_state
from files import MOST_RECORDS
from list_cases import shifts_in_a_row, there_and_back
from records import LISTED, UNLISTED, packed_steps
from rules import (
    ALLOWED, ASK_CLUTCH, AT_REST, DELIVER, DEVICE_FAILED, DONE, ENGINE_PHASES, ENGINE_WAITS, ERROR, FAILED, FINISH,
    FROM_NEUTRAL, GEAR_TO_GEAR, GOOD, LAST_CLOCK, LONGEST_TICK, OLD_DEFAULT, RAISE_ERROR, REQUESTS, RESET, SENT, START,
    TAKE, TICK, WAITING, WORKING, State,
)
from shifts import ENTRY, entries_of
from step_cases import accepted_step, free_state
from tables import good_table
from walks import FINISHED, ROUNDS, SHIFTS, box_after, lead, mixed, requests_at, states, timed, to_rest

NO_RECORD = None
# A phase whose order leads to done once it is taken, or to error.
SETTING = 3
# A state at rest behind some ticks, and a phase that is none.
RESTING, NO_PHASE = State(clock=5), 24
EVERY_SHIFT = [(request, shift) for request, shifts in ROUNDS.items() for shift in shifts]


def walk_through(chance, request, shift, slowest=False):
    """A walk with this shift and one or two behind it, the place of its request and that of the record that ends it."""
    table, before, box = good_table(chance), lead(chance, request), box_after(shift)
    again = chance.choice(SHIFTS[chance.choice(requests_at(box))])
    more = chance.choice(SHIFTS[chance.choice(requests_at(box_after(again)))])
    codes = before + shift + chance.choice((again, to_rest(again) + more))
    steps = timed(table, codes, max if slowest else mixed(chance))
    phases = [state.phase for state in states(table, steps)]
    first = [place for place, (code, _) in enumerate(steps) if code in REQUESTS][1 if before else 0]
    last = next(place for place in range(first, len(steps)) if phases[place + 1] in (DONE, ERROR))
    return table, steps, first, last


def every_cut(chance):
    """Walks that are cut in every phase, before every code that can come there and before none."""
    cuts = {}
    for (request, shift), slowest in product(EVERY_SHIFT, (False, True)):
        table, steps, _, _ = walk_through(chance, request, shift, slowest)
        for place, state in enumerate(states(table, steps)):
            for code in [NO_RECORD, *(code for code, _ in steps[place:place + 1])]:
                cuts.setdefault((state.phase, code), []).append((table, steps, place))
    for (_, code), found in cuts.items():
        table, steps, place = chance.choice(found)
        end = chance.choice((place + 1, chance.randint(place + 1, len(steps) + 1), len(steps)))
        yield extend_case(chance, cut_walk(table, steps, place, place if code is NO_RECORD else end))


def every_going_on(chance):
    """Every shift, cut behind its request, before and behind its ask for the clutch, before and behind its end."""
    for request, shift in EVERY_SHIFT:
        table, steps, first, last = walk_through(chance, request, shift)
        asks = [place for place in range(first, last) if steps[place][0] == ASK_CLUTCH]
        inside = sorted({first + 1, last, *asks, *(place + 1 for place in asks)})
        for place in (*inside, last + 1):
            yield extend_case(chance, cut_walk(table, steps, place, chance.choice((last + 1, len(steps)))))
        for place in (chance.randint(first + 1, last - 1), chance.choice(inside)):
            yield extend_case(chance, cut_walk(table, steps, place, chance.randint(min(place + 1, last), last)))


def every_new_shift(chance):
    """A list that is empty or not, extended by every shift: up to its request, into it, and to its end."""
    for request, shift in EVERY_SHIFT:
        table, steps, first, last = walk_through(chance, request, shift)
        place = chance.choice((0, first, chance.randint(0, first)))
        for end in (first + 1, chance.randint(first + 2, last), last + 1):
            yield extend_case(chance, cut_walk(table, steps, place, end))


def every_loose_tick(chance):
    """Ticks that belong to no shift: before all, in done and error, and behind them, before and behind a cut."""
    for ticks, (begin, end) in product(([(TICK, 5)], [(TICK, LONGEST_TICK), (TICK, 1)]), ((0, 0), (0, 2), (1, 3))):
        steps = ticks + timed(OLD_DEFAULT, FINISHED[FROM_NEUTRAL][0], min)
        yield extend_case(chance, cut_walk(OLD_DEFAULT, steps, min(begin, len(ticks)), end))
    for request, to_done in product(REQUESTS, (False, True)):
        table, shift = good_table(chance), SHIFTS[request][0][:-1] if to_done else SHIFTS[request][-1]
        steps = timed(table, lead(chance, request) + shift, mixed(chance)) + [(TICK, 3), (TICK, 4)]
        steps += [(FINISH if to_done else RESET, 0), (TICK, 6)]
        for place, end in ((-5, -2), (-4, -3), (-3, -2), (-3, 0), (-2, 0), (-1, 0)):
            yield extend_case(chance, cut_walk(table, steps, len(steps) + place, len(steps) + end))


def every_room(chance):
    """No new shift, one, two and more, into buffers that just fit, are too short or have room to spare."""
    for count, spare, in_a_shift in product((0, 1, 2, 4), (-15, -9, -1, 0, 1, 40), (False, True)):
        table = good_table(chance)
        steps = timed(table, shifts_in_a_row(chance, count + 4), mixed(chance))
        requests = [place for place, (code, _) in enumerate(steps) if code in REQUESTS]
        given = cut_walk(table, steps, requests[2] + in_a_shift, requests[2 + count + in_a_shift])
        if count or spare >= 0:
            yield extend_case(chance, given, spare)
    for spare in (0, 9):
        yield extend_case(chance, cut_walk(OLD_DEFAULT, [], 0), spare)


def every_left_over(chance):
    """Bytes left over behind no record, and behind some, that begin with a code or with none."""
    for count, code, alone in product(LEFT_OVER, (chance.choice(LISTED), *UNLISTED), (False, True)):
        table, steps, _, _ = walk_through(chance, *chance.choice(EVERY_SHIFT))
        place = chance.randrange(len(steps))
        given = cut_walk(table, steps, place, place if alone else chance.randint(place + 1, len(steps)))
        yield extend_case(chance, given._replace(records=given.records + left_over(chance, count, code)))


def every_foreign_step(chance):
    """States that no file need reach: with a code that can be accepted in each phase, and, not listed, with none."""
    for phase in range(ERROR + 1):
        codes = {code for code, (phases, _) in ALLOWED.items() if phase in phases}
        wanted = {chance.choice(sorted(codes)), *(codes & {RAISE_ERROR, ASK_CLUTCH} if phase in ENGINE_PHASES else ())}
        for code in sorted(wanted):
            table, box = good_table(chance), REQUESTS[code].box if code in REQUESTS else chance.choice((0, 1))
            state, amount = accepted_step(chance, table, code, phase, box)
            yield extend_case(chance, on_state(chance, table, state, packed_steps([(code, amount)])))
    for (phase, stage), box in product(((NO_PHASE, 0), (255, 3), (1, 6), (0, 9), (DONE, 255)), (0, 2)):
        state = free_state(chance, phase=phase, stage=stage, box=box)
        yield extend_case(chance, on_state(chance, good_table(chance), state, left_over(chance, 3, TICK)))


def in_shift(stage, age):
    """A state in the midst of a shift that has this age, and so much room before its limits."""
    clock = 1_000_000
    return State(clock, 0, SETTING, clock, stage, clock, clock - age)


def with_eighth_bytes(chance, given):
    """The same with eighth bytes that are not 0."""
    entries = bytearray(given.entries)
    for place in range(7, len(entries), ENTRY.size):
        entries[place] = chance.randint(1, 255)
    return given._replace(entries=bytes(entries))


def every_foreign_entry(chance):
    """Entries with what no file leads to: they are kept, stay without a record, are left open, done or in error."""
    tick, odd = [(TICK, 1)], {"kind": (0, 4, 255), "route": (2, 7, 255), "first": (MOST_RECORDS, 2**16 - 1)}
    ways = (GOOD, []), (GOOD, tick), (GOOD, [(TAKE, 0)]), (FAILED, [(RAISE_ERROR, 0)])
    for (stage, steps), (field, values) in product(ways, odd.items()):
        for value in values:
            state = in_shift(stage, chance.randint(0, 9))
            yield extend_case(chance, on_state(chance, OLD_DEFAULT, state, packed_steps(steps), **{field: value}))
    for stage, steps in ways:
        given = on_state(chance, OLD_DEFAULT, in_shift(stage, 7), packed_steps(steps))
        yield extend_case(chance, with_eighth_bytes(chance, given))
    for (field, values), steps in product({**odd, "end": (3, 255)}.items(), ([], [*tick, (FROM_NEUTRAL, 0)])):
        for value in values:
            given = on_state(chance, OLD_DEFAULT, RESTING, packed_steps(steps), **{field: value})
            yield extend_case(chance, chance.choice((given, with_eighth_bytes(chance, given))))


def every_asking(chance):
    """Clutches asked for in every engine phase, on entries of every kind and route, and engines that only wait."""
    steps = [(ASK_CLUTCH, 0), (DELIVER, 0), (DEVICE_FAILED, 0), (RAISE_ERROR, 0)]
    for phase, kind, route in product(sorted(ENGINE_PHASES), REQUESTS, (0, 1, 7)):
        state = State(1_000, 1, phase, 0, WAITING, 0, chance.choice((0, 999, 1_000)))
        records = packed_steps(steps[:chance.randint(1, len(steps))])
        yield extend_case(chance, on_state(chance, OLD_DEFAULT, state, records, kind=kind, route=route))
    for kind, route in product(REQUESTS, (0, 1)):
        state, waits = State(9, 1, chance.choice(sorted(ENGINE_PHASES)), 0, WORKING), packed_steps([(ENGINE_WAITS, 0)])
        yield extend_case(chance, on_state(chance, OLD_DEFAULT, state, waits, kind=kind, route=route))


def every_kind_and_route(chance):
    """Entries of every kind and route that stay, are left open, done or in error, and new shifts behind them."""
    error = [(RAISE_ERROR, 0), (RESET, 0), (FROM_NEUTRAL, 0), (TICK, 1)]
    done = [(TAKE, 0), (TICK, 5), (FINISH, 0), (TICK, 2), (GEAR_TO_GEAR, 0)]
    ways = (SENT, []), (SENT, [(DELIVER, 0)]), (FAILED, error[:1]), (FAILED, error), (GOOD, done[:1]), (GOOD, done)
    for kind, route, (stage, steps) in product(REQUESTS, (0, 1), ways):
        state = in_shift(stage, chance.choice((0, 1, 300)))
        yield extend_case(chance, on_state(chance, OLD_DEFAULT, state, packed_steps(steps), kind=kind, route=route))


def every_clock(chance):
    """Clocks before, at and behind the request time, up to the last clock, with and without records."""
    ways = [], [(TICK, 3)], [(TICK, 4), (TAKE, 0)], [(TAKE, 0)]
    clocks = (0, 0), (5, 6), (0, LAST_CLOCK), (7, 7), (8, 7), (LAST_CLOCK, 0), (10, 13)
    for (clock, request_time), steps in product(clocks, ways):
        if clock + sum(amount for _, amount in steps) <= LAST_CLOCK:
            state = State(clock, 0, SETTING, clock, GOOD, clock, request_time)
            yield extend_case(chance, on_state(chance, OLD_DEFAULT, state, packed_steps(steps)))


def every_count(chance):
    """Files of many records before the new ones, up to the most, lists whose count gets more bytes, and no entry."""
    counts = (16_371, 1), (16_372, 0), (16_370, 2), (16_360, 9), (255, 2), (256, 3), (4_096, 2), (1, 1)
    for (count, new), (state, code) in product(counts, ((RESTING, FROM_NEUTRAL), (in_shift(GOOD, 3), TAKE))):
        records = packed_steps([(code, 0), *[(TICK, 1)] * 9][:new]) + left_over(chance, chance.choice((0, 3)), TICK)
        yield extend_case(chance, on_state(chance, OLD_DEFAULT, state, records, count))
    ways = (RESTING, [(FROM_NEUTRAL, 0)]), (in_shift(FAILED, 3), [(RAISE_ERROR, 0), (RESET, 0), (FROM_NEUTRAL, 0)])
    for shifts, (state, steps) in product((254, 255, 256), ways):
        given = on_state(chance, OLD_DEFAULT, state, packed_steps(steps), 9_000)
        before = entries_of(any_shift(chance, 8_000) for _ in range(shifts - len(given.entries) // ENTRY.size))
        yield extend_case(chance, given._replace(entries=before + given.entries))
    for phase, count in product((AT_REST, DONE, ERROR, NO_PHASE), (0, 1, 77)):
        records = packed_steps([(TICK, 1)] if phase < NO_PHASE else [])
        yield extend_case(chance, Given(OLD_DEFAULT, free_state(chance, phase=phase, clock=9), count, b"", records))


def every_last_record(chance):
    """Ended entries whose last record is the last before the count, the one before that, or the first of all."""
    for phase, last in product((AT_REST, DONE, ERROR, NO_PHASE), (0, 40, 41)):
        state, records = free_state(chance, phase=phase, clock=9), packed_steps([(TICK, 1)] if phase < NO_PHASE else [])
        yield extend_case(chance, on_state(chance, OLD_DEFAULT, state, records, 42, last=last, first=0))


def longest(chance):
    """The most records at once, with many shifts behind an open one, and with one that is open behind many ticks."""
    steps = there_and_back() * (MOST_RECORDS // len(there_and_back()))
    yield extend_case(chance, cut_walk(OLD_DEFAULT, steps, 3), 0)
    steps = [(TICK, 7)] * (MOST_RECORDS - 3) + there_and_back()[:3]
    yield extend_case(chance, Given(OLD_DEFAULT, START, 0, b"", packed_steps(steps)), 0)


def demanded(chance):
    """The accepted cases that the coverage demands of extending."""
    yield from every_cut(chance)
    yield from every_going_on(chance)
    yield from every_new_shift(chance)
    yield from every_loose_tick(chance)
    yield from every_room(chance)
    yield from every_left_over(chance)
    yield from every_foreign_step(chance)
    yield from every_foreign_entry(chance)
    yield from every_asking(chance)
    yield from every_kind_and_route(chance)
    yield from every_clock(chance)
    yield from every_count(chance)
    yield from every_last_record(chance)
    yield from longest(chance)


def draw(chance):
    """Three extensions of a walk, each by what is between two cuts by chance."""
    table = good_table(chance)
    steps = timed(table, shifts_in_a_row(chance, chance.randint(1, 4)), mixed(chance))
    for _ in range(3):
        place = chance.randint(0, len(steps))
        yield extend_case(chance, cut_walk(table, steps, place, chance.randint(place, len(steps))))
