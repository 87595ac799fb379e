"""What m9 reaches from its start: a search over lists of steps, and what a settlement that is off changes there."""

from collections import deque
from typing import NamedTuple, Tuple

import m9
from m9 import M9, Machine
from rules import ALLOWED, LONGEST_TICK, OLD_DEFAULT, TICK, Table, broken_rule, route_sums
from tables import HOUSE

CODES = tuple(code for code in ALLOWED if code != TICK)


def small_table():
    """An admitted table with small entries; those of sync and of zero torque differ."""
    table = Table(*[1] * 7, Sync_EX=3, Zero_EX=4, Sync_DL=4, Zero_DL=5, Sync_DE=4, Zero_DE=5, OpenClutch_DL=4,
                  SetGear_DL=4, Release_DL=4, CloseClutch_DL=4)
    table = table._replace(ChangeDL=max(route_sums(table)))
    assert broken_rule(table) == 0
    return table


def bounds(machine, table, variables):
    """By how much the time passes each bound that counts: of deadlines that watch, of events with flags as asked."""
    for deadline, excess in machine.excesses(table, variables, 0):
        yield deadline.label, excess
    for code in CODES:
        event = machine.chosen(variables, code)
        for bound in event.bounds if event else ():
            yield event.name, bound.excess(table, variables, variables["time"])


def merged(machine, table, variables):
    """What two states have in common that can do the same now: their flags, and their bounds."""
    return m9.flags(variables), tuple(bounds(machine, table, variables))


def to_bounds(machine, table, variables):
    """Ticks to each bound."""
    found = {abs(excess) for _, excess in bounds(machine, table, variables)}
    return sorted(tick for tick in found if 1 <= tick <= LONGEST_TICK)


def probes(machine, table, variables):
    """Ticks to each bound, one less and one more, and the tick of 1."""
    found = {1, *(tick + more for tick in to_bounds(machine, table, variables) for more in (-1, 0, 1))}
    return sorted(tick for tick in found if 1 <= tick <= LONGEST_TICK)


# The tables that are searched, each with the ticks that are gone by: with small limits all of them can be.
SEARCHED = {"small": (small_table(), probes), "old default": (OLD_DEFAULT, to_bounds), "house": (HOUSE, to_bounds)}


class Reached(NamedTuple):
    """A state that a list of steps reaches."""

    variables: dict
    steps: Tuple[Tuple[int, int], ...]


def reached(machine, table, ticks):
    """States that the machine reaches, one of those that are merged, with its list of steps; short lists come first."""
    first = Reached(m9.START, ())
    seen, waiting = {merged(machine, table, first.variables)}, deque([first])
    while waiting:
        state = waiting.popleft()
        yield state
        for step in [(code, 0) for code in CODES] + [(TICK, tick) for tick in ticks(machine, table, state.variables)]:
            number, *_, variables = machine.step(table, state.variables, *step)
            key = None if number else merged(machine, table, variables)
            if key and key not in seen:
                seen.add(key)
                waiting.append(Reached(variables, state.steps + (step,)))


class Change(NamedTuple):
    """A list of steps whose last has another number as printed than as settled, or leads elsewhere; both numbers."""

    steps: Tuple[Tuple[int, int], ...]
    printed: int
    settled: int

    def accepted(self):
        """Whether one of the two accepts it; where both do, what they lead to is another."""
        return 0 in (self.printed, self.settled)


def changes(settlement, table, states):
    """Where the settlement, when it is off, changes a number on these states or what a step leads to."""
    code, = (code for code, names in m9.NAMES_BY_CODE.items() if settlement.event in names)
    printed = Machine([settlement])
    for variables, steps in states:
        amounts = {0} if code != TICK else {
            tick for machine in (M9, printed) for tick in probes(machine, table, variables)}
        for amount in sorted(amounts):
            (off, *_, off_end), (on, *_, on_end) = (machine.step(table, variables, code, amount)
                                                    for machine in (printed, M9))
            if (off, off_end) != (on, on_end):
                yield Change(steps + ((code, amount),), off, on)


def first_change(settlement, table, states):
    """The first change of what is accepted or, where there is none, of a number; None where nothing changes."""
    found = list(changes(settlement, table, states))
    return next((change for change in found if change.accepted()), found[0] if found else None)


def stop(settlement, table, ticks):
    """The shortest list to where, with the settlement off, no step is accepted any more, not even a tick; or None."""
    printed = Machine([settlement])
    for variables, steps in reached(printed, table, ticks):
        if all(printed.step(table, variables, *step)[0] for step in [(code, 0) for code in CODES] + [(TICK, 1)]):
            return steps
    return None
