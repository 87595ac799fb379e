"""What is given to extend: walks that are cut in two, and lists that fit a given state."""

from typing import NamedTuple, Optional

from corpus import case_of
from extend_coverage import run_under_any
from records import packed_steps
from rules import PHASES, REQUESTS, START, State, Table
from shifts import ENTRY, FIRST_ENTRY, HEAD, OPEN, Shift, age_at, along, entries_of, shifts_along
from walks import states

# What an extension mostly has to spare in its buffer beside what the longer list needs.
SPARES = 0, 0, 0, 1, 16, 33


class Given(NamedTuple):
    """All that is given to extend; what is None follows from the entries, and the room from what they become."""

    table: Table
    state: State
    count: int
    entries: bytes
    records: bytes
    offset: int = FIRST_ENTRY
    stated: Optional[int] = None  # the count in the list's head
    held: Optional[int] = None
    room: Optional[int] = None  # the length of the buffer

    def listed(self):
        """The list."""
        stated = len(self.entries) // ENTRY.size if self.stated is None else self.stated
        return HEAD.pack(stated, self.offset) + self.entries

    def needs(self):
        """The length that the list has once the requests among the records are in it."""
        _, codes = run_under_any(self.table, self.state, self.records)
        return len(self.listed()) + ENTRY.size * sum(code in REQUESTS for code in codes)


def extend_case(chance, given, spare=None):
    """The case, with a buffer that has so many bytes to spare; without it, any."""
    listed = given.listed()
    spare = chance.choice(SPARES) if spare is None else spare
    room = max(0, given.needs() + spare) if given.room is None else given.room
    buffer = (listed + chance.randbytes(max(0, room - len(listed))))[:room]
    held = len(listed) if given.held is None else given.held
    return case_of("extend", given.table, given.state, held, given.count, given.records, buffer)


def entries_along(table, steps):
    """The entries of a walk."""
    return entries_of(shifts_along(*along(table, START, packed_steps(steps)), 0))


def cut_walk(table, steps, place, end=None):
    """A walk that is cut at a place, and its records behind that up to an end."""
    before = steps[:place]
    return Given(table, states(table, before)[-1], place, entries_along(table, before), packed_steps(steps[place:end]))


def any_shift(chance, count):
    """An entry that an accepted file of so many records could have; it is done or in error."""
    last = chance.randint(0, count - 1)
    return Shift(chance.randint(0, last), last, chance.choice(tuple(REQUESTS)), chance.choice((0, 1)),
                 chance.choice((1, 2)), chance.randint(0, 2**32 - 1), chance.randint(0, 1_500))


def fitting(chance, state, count, **named):
    """The entry that fits the state behind so many records; the named fields are as named."""
    entry = any_shift(chance, count)
    if state.phase in PHASES:
        age = age_at(state.clock, state.request_time)
        entry = entry._replace(last=count - 1, end=OPEN, request_time=state.request_time, age=age)
    return entry._replace(**named)


def on_state(chance, table, state, records, count=None, **named):
    """Records on any state, and a list that fits it; the named fields of its last entry are as named."""
    count = chance.choice((3, chance.randint(4, 99), chance.randint(300, 16_000))) if count is None else count
    before = [any_shift(chance, count) for _ in range(chance.randint(0, min(2, count - 1)))]
    return Given(table, state, count, entries_of([*before, fitting(chance, state, count, **named)]), records)
