"""Cases of extend that are refused: for each reason alone, for two at once, and by each record number."""

from itertools import product

from block_cases import left_over, refused_behind_ticks, refused_record, some_records, unreadable_records
from coverage import STAGE_LIMITS, later_numbers, step_numbers
from extend_coverage import EXTEND_GRIDS
from extensions import Given, cut_walk, extend_case, on_state
from fetch_cases import OFFSETS, OTHER_COUNTS
from files import MOST_RECORDS, RECORD, k_written, most_records
from list_cases import shifts_in_a_row
from list_coverage import OFF
from records import LISTED, UNLISTED, any_record, packed_pieces, packed_steps
from rules import (
    AT_REST, DONE, ERROR, FROM_NEUTRAL, GOOD, NOT_ADMITTED, OLD_DEFAULT, PHASES, REQUESTS, SENT, START, TICK, State,
)
from shifts import ENTRY, HEAD, Shift, entries_of
from step_cases import aimed_steps, aimed_tick, free_state, past_both, unlisted
from tables import RULES, any_table, edge_tables, good_table
from walks import mixed, states, timed


def three_and_more(chance, in_a_shift):
    """A walk of five shifts that is cut behind the third request or in the third shift's end; a fourth is appended."""
    table = good_table(chance)
    steps = timed(table, shifts_in_a_row(chance, 5), mixed(chance))
    phases = [state.phase for state in states(table, steps)]
    requests = [place for place, (code, _) in enumerate(steps) if code in REQUESTS]
    places = [place for place in range(requests[2] + 1, requests[3] + 1) if (phases[place] in PHASES) == in_a_shift]
    return cut_walk(table, steps, chance.choice(places), chance.randint(requests[3] + 1, requests[4]))


def entry_of(given, place=-1):
    """An entry of the list that is given."""
    return Shift(*list(ENTRY.iter_unpack(given.entries))[place])


def with_last(given, **fields):
    """The same with these fields in the last entry."""
    entry = entry_of(given)._replace(**fields)
    return given._replace(entries=given.entries[:-ENTRY.size] + entries_of([entry]))


def of_count(given, count):
    """The same with another count of records, that the last entry fits if it can."""
    if given.state.phase in PHASES:
        return with_last(given, last=max(0, count - 1))._replace(count=count)
    return with_last(given, last=max(0, min(entry_of(given).last, count - 1)))._replace(count=count)


def too_many(chance, given):
    """The count one too large for the records, under its table."""
    return of_count(given, most_records(k_written(given.table)) - len(given.records) // RECORD.size + 1)


def more_shifts(chance, given):
    """The count one less than the shifts that the list says."""
    stated = len(given.entries) // ENTRY.size if given.stated is None else given.stated
    return of_count(given, stated - 1)


def not_fitting(chance, given):
    """The last entry's end the other way."""
    return with_last(given, end=1 if given.state.phase in PHASES else 0)


def refused(chance, given):
    """A record behind the others that does not read."""
    return given._replace(records=given.records + chance.choice(unreadable_records(chance, chance.choice(LISTED))))


def without_room(chance, given):
    """A buffer that has the list and no room for what is appended."""
    held = len(given.listed()) if given.held is None else given.held
    return given._replace(room=chance.randint(max(HEAD.size, held), held + ENTRY.size - 1))


def beyond_buffer(chance, given):
    """A buffer that ends before what is held."""
    if given.held is not None:
        return given._replace(held=max(1, given.held), room=chance.randint(0, max(1, given.held) - 1))
    return given._replace(room=chance.randint(HEAD.size, len(given.listed()) - 1))


# What makes each reason hold, in the order in which it is done.
SPOILT = {
    "length": lambda chance, given: given._replace(stated=len(given.entries) // ENTRY.size - 1),
    "shifts": more_shifts,
    "records": too_many,
    "offset": lambda chance, given: given._replace(offset=chance.choice(OFFSETS)),
    "table": lambda chance, given: given._replace(table=given.table._replace(ChangeDL=chance.randint(0, 3))),
    "fit": not_fitting,
    "record": refused,
    "short": lambda chance, given: given._replace(held=chance.randrange(HEAD.size)),
    "held": beyond_buffer,
    "room": without_room,
}


def every_reason(chance):
    """Each reason alone and with each other of another number that can hold at once, in a shift and outside of one."""
    _, _, rows = EXTEND_GRIDS["reasons"]
    for (reason, others), in_a_shift in product(rows.items(), (False, True)):
        for other in sorted(others):
            given = three_and_more(chance, in_a_shift)
            for name, spoil in SPOILT.items():
                if name in (reason, other):
                    given = spoil(chance, given)
            if (reason, other) == ("short", "alone"):
                given = given._replace(records=b"", room=chance.randint(given.held, HEAD.size - 1))
            yield extend_case(chance, given)


def every_damage(chance):
    """Lists of every short length, with other offsets, other counts and other lengths than their counts."""
    for in_a_shift in (False, True):
        given = three_and_more(chance, in_a_shift)
        length = len(given.listed())
        for held in range(HEAD.size + 2):
            yield extend_case(chance, given._replace(held=held, room=held if held % 2 == in_a_shift else None))
        for offset in OFFSETS:
            yield extend_case(chance, given._replace(offset=offset))
        for more in OTHER_COUNTS:
            yield extend_case(chance, given._replace(stated=length // ENTRY.size + more))
        for off in (*OFF, -8, 8):
            yield extend_case(chance, given._replace(held=length + off), 40)
        for held in (length + 2**32, 2**63, 2**64 - 1, 2**64 - ENTRY.size, 2**64 - length, length + 999):
            yield extend_case(chance, given._replace(held=held), 0)
        for held, room in ((length, length - 1), (length + 1, length), (1, 0), (8, 7)):
            yield extend_case(chance, given._replace(held=held, room=room))
        for offset in (0, 16):
            yield extend_case(chance, given._replace(offset=offset, stated=2))
        yield extend_case(chance, given._replace(count=0))
        yield extend_case(chance, given._replace(count=2))
    for stated in (0, 1, 2**28, 2**28 - 1, 2**32 - 1):
        for held, count in ((8, 0), (8, 16_000), (24, 16_000)):
            given = Given(OLD_DEFAULT, START, count, bytes(16), b"", stated=stated, held=held, room=24)
            yield extend_case(chance, given)


def every_misfit(chance):
    """States and lists that do not fit for one thing, by one, on walks that are cut and on given states."""
    for phase in (1, chance.randint(2, 20), 21, None):
        state = free_state(chance, phase=phase, clock=5_000, request_time=chance.randint(10, 4_999))
        given = on_state(chance, OLD_DEFAULT, state, b"", 50) if phase else three_and_more(chance, True)
        entry = entry_of(given)
        for field in ("last", "request_time", "age"):
            for value in (getattr(entry, field) - 1, getattr(entry, field) + 1, getattr(entry, field) + 2**15):
                if 0 <= value < 2**16 or field != "last" and value >= 0:
                    yield extend_case(chance, with_last(given, **{field: value}))
        for end in (1, 2, 255):
            yield extend_case(chance, with_last(given, end=end))
        yield extend_case(chance, given._replace(entries=b""))
    ahead = State(5, 0, 3, 5, GOOD, 5, 7)
    for age in (1, 2**32 - 2, 2):
        yield extend_case(chance, on_state(chance, OLD_DEFAULT, ahead, b"", age=age))
    for phase, records in product((AT_REST, DONE, ERROR, 24, 255), (b"", packed_steps([(TICK, 1)]))):
        state = free_state(chance, phase=phase, clock=chance.randint(0, 9))
        for fields in ({"end": 0}, {"last": 50}, {"last": 51}, {"last": 65_535}, {"end": 0, "last": 49}):
            yield extend_case(chance, on_state(chance, OLD_DEFAULT, state, records, 50, **fields))
    for phase in (1, 21):
        for count, records in product((0, 1, 9), (b"", bytes(4))):
            yield extend_case(chance, Given(OLD_DEFAULT, free_state(chance, phase=phase), count, b"", records))


def every_table(chance):
    """Tables at the edge of each rule, with and without a record, on lists that fit and on ones that do not."""
    for rule in RULES:
        broken, kept, _ = edge_tables(chance, rule)
        state = free_state(chance, phase=AT_REST, box=0, clock=chance.randint(0, 2**31))
        for records in (b"", some_records(chance)):
            yield extend_case(chance, on_state(chance, broken, state, records))
        yield extend_case(chance, on_state(chance, kept, state, packed_steps([(FROM_NEUTRAL, 0), (TICK, 1)])))


def every_refusal(chance):
    """Every number from 5 on that each code can give: of a record alone, the first, between others and the last."""
    for code, behind in product((*LISTED, chance.choice(UNLISTED)), (False, True)):
        for numbers, refuse in ((step_numbers(code), refused_record), (later_numbers(code), refused_behind_ticks)):
            for number in sorted(numbers - {0, NOT_ADMITTED}):
                table, rest = good_table(chance), some_records(chance) if behind else b""
                rest += left_over(chance, chance.randrange(RECORD.size), chance.choice(LISTED))
                state, *pieces = refuse(chance, table, code, number)
                yield extend_case(chance, on_state(chance, table, state, packed_pieces(*pieces, rest)))


def every_excess(chance):
    """Records that are over each limit by excesses of each size, and ticks past both limits."""
    for table, state, code, amount in aimed_steps(chance):
        yield extend_case(chance, on_state(chance, table, state, packed_steps([(code, amount)])))
    for stage in STAGE_LIMITS:
        for past in past_both(chance):
            table = good_table(chance)
            state, amount = aimed_tick(chance, table, chance.choice(list(PHASES)), stage, *past)
            yield extend_case(chance, on_state(chance, table, state, packed_steps([(TICK, amount)])))


def every_count(chance):
    """Counts with which there are just too many records, and with which their sum would wrap."""
    most, largest = MOST_RECORDS, 2**32 - 1
    counts = (most, 1), (most + 1, 0), (most - 1, 2), (2**16, 1), (largest, 1), (largest, 0), (largest - 2, 5)
    for (count, new), state in product(counts, (State(clock=5), State(5, 0, 3, 5, SENT, 5, 2))):
        given = on_state(chance, OLD_DEFAULT, state, packed_steps([(TICK, 1)] * new), min(count, 2**16))
        yield extend_case(chance, given._replace(count=count))
    for count, records in product((most - 1, most - 2, 300, 5, 0), (bytes(4), packed_steps([(FROM_NEUTRAL, 0)]) * 2)):
        yield extend_case(chance, Given(OLD_DEFAULT, START, count, b"", records))


def demanded(chance):
    """The refused cases that the coverage demands of extending."""
    yield from every_reason(chance)
    yield from every_damage(chance)
    yield from every_misfit(chance)
    yield from every_table(chance)
    yield from every_refusal(chance)
    yield from every_excess(chance)
    yield from every_count(chance)


def draw(chance):
    """A cut walk with something odd in its list, its state, its count, its table or its records, by chance."""
    given = three_and_more(chance, chance.random() < 0.5)
    entry, place = entry_of(given), chance.randrange(RECORD.size * 3)
    odd = chance.choice((
        {"state": unlisted(chance, given.state)},
        {"state": free_state(chance)},
        {"count": chance.choice((given.count - 1, given.count + 1))},
        {"table": any_table(chance)},
        {"records": given.records[:place] + any_record(chance, chance.choice(LISTED)) + given.records[place:]},
        {"held": chance.randint(0, len(given.listed()) + 9)},
        {"room": chance.randint(0, given.needs())},
        {"entries": chance.randbytes(len(given.entries) - ENTRY.size) + entries_of([entry])},
    ))
    yield extend_case(chance, given._replace(**odd))
