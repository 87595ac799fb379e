"""Cases of list: files with no shift and with many, cut at every place, refused files, and buffers of every size."""

from itertools import product

from buffers import NO_BUFFER, buffer_for
from corpus import case_of
from file_cases import any_file, faults, file_with, wrong_headers, wrong_lengths
from files import MOST_RECORDS, file_of, file_without_entries, judge
from records import packed_steps
from rules import (
    FROM_NEUTRAL, GEAR_TO_GEAR, LONGEST_TICK, OLD_DEFAULT, PAST_STAGE_LIMIT, REQUESTS, START, TICK, TO_NEUTRAL,
)
from shifts import ENTRY, HEAD, build
from tables import RULES, admitted_table, broken_table, edge_tables, good_table
from walks import (
    FINISHED, ROUNDS, SHIFTS, SLOW, WAYS_OVER, any_walk, box_after, lead, mixed, requests_at, states, steps_over,
    timed, to_rest, walks_over,
)

# The rooms that a buffer has beside the list.
SPARES = NO_BUFFER, -5, -1, 0, 1, 40
LONGEST_LIST = HEAD.size + ENTRY.size * (MOST_RECORDS // 8 + 1)


def list_case(chance, file, spare=None):
    """The list of a file, to be laid into a buffer that has so many bytes to spare; without it, any."""
    *_, length, _ = build(file, bytes(LONGEST_LIST))
    spare = chance.choice((-1, 0, 0, 0, 7)) if spare is None else spare
    return case_of("list", file, buffer_for(chance, length, spare))


def refused_cases(chance, file, begun=0):
    """The list of a file that is refused: without a buffer, and with room for the shifts that have begun."""
    yield case_of("list", file, b"")
    yield case_of("list", file, buffer_for(chance, HEAD.size + ENTRY.size * begun, chance.choice((0, 30))))


def shifts_in_a_row(chance, count):
    """The codes of so many shifts, one behind the other from the start, up to rest."""
    codes, box = (), START.box
    for _ in range(count):
        shift = chance.choice(SHIFTS[chance.choice(requests_at(box))])
        codes, box = codes + to_rest(shift), box_after(shift)
    return codes


def pace_of(chance):
    """A pace by chance, now and then the slowest."""
    return chance.choice((max, mixed(chance)))


def every_shift(chance):
    """Every request, and every shift with ticks before and behind it, broken off at its end, before and in the next."""
    for request in REQUESTS:
        steps = timed(OLD_DEFAULT, (*lead(chance, request), request), max)
        yield list_case(chance, file_with(chance, OLD_DEFAULT, steps))
    for request, shifts in ROUNDS.items():
        for shift in shifts:
            table, box = good_table(chance), box_after(shift)
            again = chance.choice(SHIFTS[chance.choice(requests_at(box))])
            before = timed(table, lead(chance, request) + shift[:-1], pace_of(chance))
            yield list_case(chance, file_with(chance, table, before))
            yield list_case(chance, file_with(chance, table, before, [(TICK, 9)]))
            steps = timed(table, lead(chance, request) + shift + again[:1], pace_of(chance))
            yield list_case(chance, file_with(chance, table, steps[:-1], [(TICK, chance.randint(1, LONGEST_TICK))]))
            yield list_case(chance, file_with(chance, table, steps))
            steps = timed(table, lead(chance, request) + shift + again, max)
            yield list_case(chance, file_with(chance, table, [(TICK, 7)], steps))


def every_end(chance):
    """Files that end in every phase and stage that walks reach."""
    ends = {}
    for request, shifts in ROUNDS.items():
        for shift in shifts:
            table = good_table(chance)
            steps = timed(table, lead(chance, request) + shift, mixed(chance))
            for place, state in enumerate(states(table, steps)):
                ends.setdefault((state.phase, state.stage), []).append((table, steps[:place]))
    for found in ends.values():
        table, steps = chance.choice(found)
        yield list_case(chance, file_with(chance, table, steps))


def every_room(chance):
    """Lists of no shift, of one, two and more, into buffers of every size."""
    for count, spare in product((0, 1, 2, chance.randint(3, 6)), SPARES):
        table = good_table(chance)
        steps = timed(table, shifts_in_a_row(chance, count), mixed(chance))
        yield list_case(chance, file_with(chance, table, steps), spare)
    for text in ([], [(TICK, 5)], [(TICK, LONGEST_TICK)] * 3):
        yield list_case(chance, file_with(chance, OLD_DEFAULT, text), 3)


def every_refused_record(chance):
    """Files that are refused with 5 to 8 at their first record, behind shifts and within one; the last record too."""
    for count in (0, 1, 2, 4):
        table = good_table(chance)
        steps = timed(table, shifts_in_a_row(chance, count), mixed(chance))
        cut, by_number = chance.randint(0, len(steps)), {}
        for place in sorted({cut, len(steps)}):
            for fault in faults(chance, table, states(table, steps)[place]):
                file = file_with(chance, table, steps[:place], fault, steps[place:] if chance.random() < 0.5 else [])
                begun = sum(code in REQUESTS for code, _ in steps[:place])
                by_number.setdefault((judge(file)[0], begun), []).append(file)
        for (_, begun), files in by_number.items():
            yield from refused_cases(chance, chance.choice(files), begun)


def every_excess(chance):
    """Files that are refused with 9, 11 and 12 behind none, one and more shifts, by one and by more."""
    for number, count, excess in product(WAYS_OVER, (0, 1, 3), (1, chance.randint(2, 90))):
        codes = shifts_in_a_row(chance, count)
        request = chance.choice(requests_at(states(OLD_DEFAULT, timed(OLD_DEFAULT, codes, min))[-1].box))
        steps = timed(OLD_DEFAULT, (*codes, request, *chance.choice(WAYS_OVER[number])), min)
        over = steps_over(OLD_DEFAULT, states(OLD_DEFAULT, steps)[-1], number, excess)
        yield from refused_cases(chance, file_with(chance, OLD_DEFAULT, steps, over), count + 1)
    for steps in walks_over(chance):
        yield list_case(chance, file_with(chance, SLOW, steps), 24)
    for way in WAYS_OVER[PAST_STAGE_LIMIT]:
        steps = timed(OLD_DEFAULT, (FROM_NEUTRAL, *way), mixed(chance))
        yield list_case(chance, file_with(chance, OLD_DEFAULT, steps, [(TICK, LONGEST_TICK)]), 24)


def every_damage(chance):
    """Files that are refused with 1 to 4, and tables at the edge of each rule."""
    records = packed_steps(timed(OLD_DEFAULT, FINISHED[FROM_NEUTRAL][0], min))
    for file in (file_without_entries(records), file_of(admitted_table(chance), records)):
        for damaged in chance.sample([*wrong_headers(chance, file), *wrong_lengths(chance, file)], 12):
            yield list_case(chance, damaged, 24)
        for damaged in (b"", file[:11], file[:-1], file + b"\0", bytes(12)):
            yield from refused_cases(chance, damaged)
    for rule in RULES:
        broken, kept, _ = edge_tables(chance, rule)
        yield from refused_cases(chance, file_with(chance, broken, any_walk(chance, OLD_DEFAULT)))
        yield list_case(chance, file_with(chance, kept, any_walk(chance, OLD_DEFAULT)))
    file = file_with(chance, broken_table(chance), bytes(4))
    for damaged in (file, file + b"\0"):
        yield from refused_cases(chance, damaged)


def there_and_back():
    """The shortest shifts that are finished, from neutral and back, without ticks."""
    return [(code, 0) for request in (FROM_NEUTRAL, TO_NEUTRAL) for code in min(FINISHED[request], key=len)]


def most_shifts(chance):
    """The most shifts that a file can have, the last of them a request that is the last record, and a few hundred."""
    steps = there_and_back() * (MOST_RECORDS // len(there_and_back()))
    steps += [(TICK, 1)] * (MOST_RECORDS - len(steps) - 1) + [(FROM_NEUTRAL, 0)]
    for spare in (0, -1):
        yield list_case(chance, file_without_entries(packed_steps(steps)), spare)
    some = there_and_back() * 150 + timed(OLD_DEFAULT, FINISHED[FROM_NEUTRAL][0], min) + [(GEAR_TO_GEAR, 0)]
    yield list_case(chance, file_without_entries(packed_steps(some)), 5)


def demanded(chance):
    """The cases that the coverage demands of building a list."""
    yield from every_shift(chance)
    yield from every_end(chance)
    yield from every_room(chance)
    yield from every_refused_record(chance)
    yield from every_excess(chance)
    yield from every_damage(chance)
    yield from most_shifts(chance)


def draw(chance):
    """Two lists of files by chance."""
    yield list_case(chance, any_file(chance))
    table = good_table(chance)
    steps = timed(table, shifts_in_a_row(chance, chance.randint(0, 5)), mixed(chance))
    yield list_case(chance, file_with(chance, table, steps[:chance.randint(0, len(steps))]))
