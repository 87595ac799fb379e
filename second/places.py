"""The 110 places of the manual's machine: where a shift is, in words, and the ways that lead there."""

from functools import lru_cache

import m9
from rules import FAILED, GOOD, OLD_DEFAULT, SENT, TICK, WAITING, WORKING
from walks import ROUNDS, leads, timed

AT_REST = 0
NEUTRAL, IN_GEAR, DONE, ERROR = "neutral", "in gear", "done", "error"
STAGES = {SENT: "sent", WORKING: "working", GOOD: "good", FAILED: "failed", WAITING: "waiting"}
HOW = (NEUTRAL, IN_GEAR, *STAGES.values(), DONE, ERROR)


def places_of(order):
    """How a shift can be in the phase of an order: its stages, and done or in error when it was left so."""
    found = {STAGES[stage] for stage in (SENT, WORKING, GOOD, order.device.other_stage)}
    return found | ({DONE} if order.taken in m9.FINAL_FLAGS else set()) | ({ERROR} if order.error() else set())


# For at rest and for each phase, how a shift can be there.
PLACES = {AT_REST: {NEUTRAL, IN_GEAR}, **{phase: places_of(order) for phase, order in m9.ORDERS.items()}}


def place_of(variables):
    """The place that the variables show: a phase, or the one that was left, and how the shift is there."""
    for phase, how in ((m9.error_phase(variables), ERROR), (m9.done_phase(variables), DONE)):
        if phase:
            return phase, how
    read = m9.reading(variables)
    return (read.phase, STAGES[read.stage]) if read.phase else (AT_REST, NEUTRAL if variables["isNeu"] else IN_GEAR)


@lru_cache(None)
def ways():
    """For each place the ways that lead to it, as codes: none for the start, and through each shift for the others."""
    found = {(AT_REST, NEUTRAL): {(): None}}
    for request, shifts in ROUNDS.items():
        for codes in [lead + shift for shift in shifts for lead in leads(request)]:
            variables, way = m9.START, ()
            for code, amount in timed(OLD_DEFAULT, codes, min):
                *_, variables = m9.step(OLD_DEFAULT, variables, code, amount)
                if code != TICK:
                    way += (code,)
                    found.setdefault(place_of(variables), {})[way] = None
    return {place: list(led) for place, led in found.items()}
