"""Walks: lists of steps, each a code and an amount, from the start through every way of a shift."""

from functools import lru_cache
from itertools import product

from rules import (
    ASK_CLUTCH, CLUTCH_PHASES, DELIVER, DEVICE_FAILED, DEVICE_GOOD, DONE, ENGINE_WAITS, FINISH, FROM_NEUTRAL,
    GEAR_TO_GEAR, IN_GEAR, LONGEST_TICK, NEUTRAL, OLD_DEFAULT, PAST_PHASE_LIMIT, PAST_STAGE_LIMIT, PHASES, RAISE_ERROR,
    REQUESTS, RESET, START, TAKE, TICK, TO_NEUTRAL, TOO_EARLY, WAITING, WORKING, admitted_step, earliest_clock,
    latest_clocks,
)
from search import NotFound

# No shift is begun on a walk that has so many codes.
LONG_WALK = 1_000

# A table under which asking for the clutch can be early by five digits.
SLOW = OLD_DEFAULT._replace(Sync_DE=12_000, Sync_DL=13_000, Zero_DE=14_000, Zero_DL=15_000, ChangeDL=20_000)


def ways(phase, passed=()):
    """Every way from a phase to error or, through done, to rest, as the codes of its steps."""
    if phase == DONE:
        return [(FINISH,)]
    passed += (phase,)
    if phase in passed[:-1] or phase not in PHASES:
        raise NotFound(f"not found: a way from phase {passed[0]} to done; the phases on it were {passed}")
    row = PHASES[phase]
    found = [(DELIVER, DEVICE_GOOD, TAKE, *rest) for rest in ways(row.when_taken, passed)]
    if row.when_asked:
        return found + [(DELIVER, ENGINE_WAITS, ASK_CLUTCH, *rest) for rest in ways(row.when_asked, passed)]
    return found + [(DELIVER, DEVICE_FAILED, RAISE_ERROR)]


def to_rest(shift):
    """The shift up to rest: an error is reset."""
    return shift if shift[-1] == FINISH else (*shift, RESET)


# The shifts that each request can lead to, those of them that are finished, and all of them up to rest.
SHIFTS = {code: [(code, *way) for way in ways(request.phase)] for code, request in REQUESTS.items()}
FINISHED = {code: [shift for shift in shifts if shift[-1] == FINISH] for code, shifts in SHIFTS.items()}
ROUNDS = {code: list(map(to_rest, shifts)) for code, shifts in SHIFTS.items()}


@lru_cache(None)
def box_after(shift):
    """The box that a shift leaves."""
    before = () if shift[0] == FROM_NEUTRAL else FINISHED[FROM_NEUTRAL][0]
    return states(OLD_DEFAULT, timed(OLD_DEFAULT, before + shift, min))[-1].box


def requests_at(box):
    """The requests that are made with this box."""
    return (FROM_NEUTRAL,) if box == NEUTRAL else (GEAR_TO_GEAR, TO_NEUTRAL)


def leads(request):
    """The ways from the start to rest with the box that the request needs: none at all, or one shift from neutral."""
    box = NEUTRAL if request in requests_at(NEUTRAL) else IN_GEAR
    found = [shift for shift in ROUNDS[FROM_NEUTRAL] if box_after(shift) == box]
    return [(), *found] if box == START.box else found


def lead(chance, request):
    """The codes that bring the box from the start to the side that the request needs."""
    return chance.choice(leads(request))


def pause_before(table, state, code):
    """The least and the most that can be ticked in a state before the step."""
    least = max(0, (earliest_clock(table, state, code) or 0) - state.clock)
    most = min(latest for _, latest in latest_clocks(table, state, TICK)) - state.clock
    return least, min(most, LONGEST_TICK)


def timed(table, codes, pace):
    """A walk: the codes with ticks before them; the pace, such as min or max, picks each of the least and the most."""
    steps, state = [], START
    for code in codes:
        least, most = pause_before(table, state, code)
        if least > most:
            raise NotFound(f"not found: a pause before code {code} on {state} under {table}")
        pause = pace(least, most)
        for step in [(TICK, pause), (code, 0)] if pause else [(code, 0)]:
            steps.append(step)
            number, _, state = admitted_step(table, state, *step)
            if number:
                raise NotFound(f"not found: a walk of {codes}; {step} gives {number} on {state} under {table}")
    return steps


def mixed(chance):
    """A pace by chance, often at one of the ends or beside it."""

    def pace(least, most):
        return chance.choice((least, min(least + 1, most), chance.randint(least, most), max(most - 1, least), most))

    return pace


def states(table, steps):
    """The states of a walk: the start state, and the one after each step."""
    found = [START]
    for step in steps:
        *_, state = admitted_step(table, found[-1], *step)
        found.append(state)
    return found


def steps_over(table, state, number, excess, early=ASK_CLUTCH):
    """Steps on a state, the last of them over the limit of this refusal by so much; None where no tick leads there.

    What is too early with 9 is a step of the code that is given for it.
    """
    if number == TOO_EARLY:
        amount, last = earliest_clock(table, state, early) - excess - state.clock, [(early, 0)]
    else:
        amount, last = dict(latest_clocks(table, state, TICK))[number] + excess - state.clock, []
    return [(TICK, amount), *last] if 1 <= amount <= LONGEST_TICK else None


def edges(table, state):
    """Steps that just keep a limit of the state, and steps that pass it by one."""
    limits = [(number, TICK) for number, _ in latest_clocks(table, state, TICK)]
    if state.stage == WAITING:
        limits.append((TOO_EARLY, ASK_CLUTCH))
    if state.stage == WORKING and state.phase in CLUTCH_PHASES:
        limits += [(TOO_EARLY, DEVICE_GOOD), (TOO_EARLY, DEVICE_FAILED)]
    for (number, code), excess in product(limits, (0, 1)):
        steps = steps_over(table, state, number, excess, code)
        if steps:
            yield steps


def beside_delay(table, state, code):
    """Steps on a state in which a clutch works, the last of them its answer: one early, just kept, and one later."""
    for past in (-1, 0, 1):
        amount = earliest_clock(table, state, code) + past - state.clock
        yield [(TICK, amount), (code, 0)] if amount else [(code, 0)]


# The ways into an engine's order on which a walk gets a refusal.
WAYS_OVER = {
    TOO_EARLY: [(DELIVER, ENGINE_WAITS)],
    PAST_PHASE_LIMIT: [(DELIVER, ENGINE_WAITS)],
    PAST_STAGE_LIMIT: [(), (DELIVER,), (DELIVER, DEVICE_GOOD)],
}


def walks_over(chance):
    """Walks that are refused with 9, 11 and 12 by excesses of one to five digits, under the table SLOW."""
    for number, digits in product(WAYS_OVER, range(1, 6)):
        request = chance.choice(tuple(REQUESTS))
        steps = timed(SLOW, (*lead(chance, request), request, *chance.choice(WAYS_OVER[number])), min)
        excess = chance.randint(10 ** (digits - 1), min(10 ** digits, SLOW.Sync_DE) - 1)
        yield steps + steps_over(SLOW, states(SLOW, steps)[-1], number, excess)


def walks_through_errors(chance, any_table):
    """Tables and walks through each error and its reset to each request: with a shift of those that the box allows."""
    for request, shift in [(request, shift) for request, shifts in ROUNDS.items() for shift in shifts]:
        for again in REQUESTS if shift[-1] == RESET else ():
            allowed, table = again in requests_at(box_after(shift)), any_table(chance)
            codes = lead(chance, request) + shift + (chance.choice(SHIFTS[again]) if allowed else ())
            yield table, timed(table, codes, mixed(chance)) + ([] if allowed else [(again, 0)])


def any_walk(chance, table):
    """A walk through a few shifts, sometimes broken off, sometimes with a tick at its end that may be refused."""
    codes, box, goes_on = (), START.box, True
    while goes_on and len(codes) < LONG_WALK:
        shift = chance.choice((FINISHED if chance.random() < 0.7 else SHIFTS)[chance.choice(requests_at(box))])
        goes_on = chance.random() < 0.6
        codes += to_rest(shift) if goes_on else shift
        box = box_after(shift)
    steps = timed(table, codes, mixed(chance))
    if chance.random() < 0.3:
        steps = steps[:chance.randint(0, len(steps))]
    if chance.random() < 0.3:
        steps.append((TICK, chance.randint(1, LONGEST_TICK)))
    return steps
