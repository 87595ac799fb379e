"""The seven o'clock list: the shifts of a file, a shift by its number, and a list that goes on with its file."""

import struct
from typing import NamedTuple

from files import (
    NO_ROOM, RECORD, TOO_SHORT, WRONG_HEADER, WRONG_LENGTH, block, fours, judge, k_written, laid, most_records, read,
    record,
)
from rules import ASK_CLUTCH, DONE, ERROR, NOT_ADMITTED, PHASES, REQUESTS, START, admitted_step, broken_rule

# The number for a shift at or past the count, and for a state that is not where the list ends.
NOT_IN_LIST = 14

HEAD = struct.Struct("<II")
ENTRY = struct.Struct("<HHBBBxII")
FIRST_ENTRY = 8
OPEN = 0
# The end of a shift, by the phase that its last record enters.
ENDS = {DONE: 1, ERROR: 2}


class Shift(NamedTuple):
    """An entry of a list; without arguments that of a fetch that is refused."""

    first: int = 0
    last: int = 0
    kind: int = 0
    route: int = 0
    end: int = 0
    request_time: int = 0
    age: int = 0


def age_at(clock, request_time):
    """The age of a shift at this clock: a given state may have been asked for later than its clock says."""
    return max(0, clock - request_time)


def along(table, state, records):
    """The codes of records that are accepted, and the states before the first of them and after each."""
    codes, states = [], [state]
    for code, *rest in map(record, fours(records)):
        *_, after = admitted_step(table, states[-1], code, *rest)
        codes.append(code)
        states.append(after)
    return codes, states


def rest_of_shift(codes, states, place):
    """Of a shift from a place on: its last place, if a clutch is asked for up to it, its end, and the clock there."""
    last = next((at for at in range(place, len(codes)) if states[at + 1].phase in ENDS), len(codes) - 1)
    return last, ASK_CLUTCH in codes[place:last + 1], ENDS.get(states[last + 1].phase, OPEN), states[last + 1].clock


def shifts_along(codes, states, before):
    """The shifts that are asked for along records, of which the first has so many before it."""
    for first in (place for place, code in enumerate(codes) if code in REQUESTS):
        last, asked, end, clock = rest_of_shift(codes, states, first)
        asked_at = states[first].clock
        yield Shift(before + first, before + last, codes[first], int(asked), end, asked_at, age_at(clock, asked_at))


def entries_of(shifts):
    """The bytes of entries."""
    return b"".join(ENTRY.pack(*shift) for shift in shifts)


def list_of(entries):
    """The list of entries, given as bytes."""
    return HEAD.pack(len(entries) // ENTRY.size, FIRST_ENTRY) + entries


def build(file, buffer):
    """The list of a file, laid into a lent buffer: number, rule, index, excess, length and the buffer after."""
    number, rule, accepted, excess, _ = judge(file)
    if number:
        return number, rule, accepted, excess, 0, buffer
    _, _, table, records = read(file)
    number, length, after = laid(list_of(entries_of(shifts_along(*along(table, START, records), 0))), buffer)
    return number, 0, 0, 0, length, after


def damage(listed):
    """The refusal 1, 2 or 3 of a list, or 0."""
    if len(listed) < HEAD.size:
        return TOO_SHORT
    count, offset = HEAD.unpack_from(listed)
    if offset != FIRST_ENTRY:
        return WRONG_HEADER
    return 0 if len(listed) == FIRST_ENTRY + ENTRY.size * count else WRONG_LENGTH


def count_of(listed):
    """How many shifts a list says that it has."""
    count, _ = HEAD.unpack_from(listed)
    return count


def entry_at(listed, place):
    """The entry at this byte, as it stands."""
    return Shift(*ENTRY.unpack_from(listed, place))


def fetch(number, listed):
    """The shift of this number in a list: the refusal or 0, and the entry."""
    refusal = damage(listed)
    if not refusal and number >= count_of(listed):
        refusal = NOT_IN_LIST
    return refusal, Shift() if refusal else entry_at(listed, FIRST_ENTRY + ENTRY.size * number)


def last_entry(listed):
    """The last entry of a list, or None where it has none."""
    return entry_at(listed, len(listed) - ENTRY.size) if len(listed) > HEAD.size else None


def fits(state, count, last):
    """Whether a list that ends in this entry, or in none, can be that of so many records that end in the state."""
    if state.phase in PHASES:
        return (last is not None and last.end == OPEN and last.last == count - 1
                and last.request_time == state.request_time
                and last.age == age_at(state.clock, state.request_time))
    return last is None or (last.end != OPEN and last.last < count)


def gone_on(entry, codes, states, before):
    """The entry of an open shift that goes on along records, of which the first has so many before it."""
    if not codes:
        return entry
    last, asked, end, clock = rest_of_shift(codes, states, 0)
    route = 1 if asked else entry.route
    return entry._replace(last=before + last, route=route, end=end, age=age_at(clock, entry.request_time))


def extended(table, state, count, records, listed):
    """The list that a list of so many records becomes by records that are accepted from the state at its end."""
    codes, states = along(table, state, records)
    entries = listed[HEAD.size:]
    if state.phase in PHASES:
        going_on = gone_on(last_entry(listed), codes, states, count)
        entries = entries[:-ENTRY.size] + entries_of([going_on])
    return list_of(entries + entries_of(shifts_along(codes, states, count)))


def extend(table, state, held, count, records, buffer):
    """The held list, extended by appended records: number, rule, index, excess, length and the buffer after."""
    listed, new = buffer[:held], records[:len(records) // RECORD.size * RECORD.size]
    if held > len(buffer):
        return NO_ROOM, 0, 0, 0, 0, buffer
    number = damage(listed)
    if number:
        return number, 0, 0, 0, 0, buffer
    if count + len(new) // RECORD.size > most_records(k_written(table)):
        return WRONG_HEADER, 0, 0, 0, 0, buffer
    if count_of(listed) > count:
        return WRONG_HEADER, 0, 0, 0, 0, buffer
    rule = broken_rule(table)
    if rule:
        return NOT_ADMITTED, rule, 0, 0, 0, buffer
    if not fits(state, count, last_entry(listed)):
        return NOT_IN_LIST, 0, 0, 0, 0, buffer
    number, _, accepted, excess, _ = block(table, state, new)
    if number:
        return number, 0, count + accepted, excess, 0, buffer
    number, length, after = laid(extended(table, state, count, new, listed), buffer)
    return number, 0, 0, 0, length, after
