"""Cases of fetch: lists of files and foreign ones, with good and bad heads and lengths, and numbers of every size."""

from itertools import product

from corpus import LONGEST_FIELD, case_of
from list_cases import shifts_in_a_row
from list_coverage import LOST, OFF
from records import packed_steps
from rules import REQUESTS, START
from shifts import ENTRY, FIRST_ENTRY, HEAD, Shift, along, count_of, entries_of, list_of, shifts_along
from tables import good_table
from walks import mixed, timed

# Heads that say another offset, and lists that say another count.
OFFSETS = 0, 1, 7, 9, 12, 16, *(FIRST_ENTRY + 2**bit for bit in (8, 16, 31)), FIRST_ENTRY * 2**24, 2**32 - 1
OTHER_COUNTS = -1, 1, 2**8, 2**16, 2**28, 2**31
FIELD_EXTREMES = {"first": 2**16 - 1, "last": 2**16 - 1, "kind": 2**8 - 1, "route": 2**8 - 1, "end": 2**8 - 1,
                  "request_time": 2**32 - 1, "age": 2**32 - 1}


def built_list(chance, count):
    """The list of a file that has so many shifts."""
    table = good_table(chance)
    steps = timed(table, shifts_in_a_row(chance, count), mixed(chance))
    return list_of(entries_of(shifts_along(*along(table, START, packed_steps(steps)), 0)))


def foreign_list(chance, count):
    """A list of any entries."""
    return list_of(chance.randbytes(ENTRY.size * count))


def with_head(listed, count=None, offset=FIRST_ENTRY):
    """The list with another head."""
    return HEAD.pack(count_of(listed) if count is None else count, offset) + listed[HEAD.size:]


def every_number(chance):
    """Numbers within lists, at and past the count, and such that lose their upper bits to one within."""
    for count, make in product((0, 1, 2, chance.randint(3, 5)), (built_list, foreign_list)):
        listed = make(chance, count)
        numbers = {*range(count), count, count + 1, count + 15, 2**31, 2**63, 2**64 - 1}
        for bits in LOST:
            numbers |= {bits, bits + max(0, count - 1)}
        for number in sorted(numbers):
            yield case_of("fetch", number, listed)


def every_entry(chance):
    """Shifts of each kind, route and end, and entries with each field at the ends of what it can say."""
    for kind, route, end in product(REQUESTS, (0, 1), (0, 1, 2)):
        shift = Shift(chance.randint(0, 999), chance.randint(0, 999), kind, route, end, chance.randint(0, 2**32 - 1),
                      chance.randint(0, 1_500))
        yield case_of("fetch", 1, list_of(chance.randbytes(ENTRY.size) + entries_of([shift])))
    for field, largest in FIELD_EXTREMES.items():
        for value in (0, 1, largest):
            entry = entries_of([Shift(9, 8, 7, 6, 5, 4, 3)._replace(**{field: value})])
            yield case_of("fetch", 0, list_of(entry))
            yield case_of("fetch", 1, list_of(chance.randbytes(ENTRY.size) + entry[:7] + b"\xff" + entry[8:]))


def every_damage(chance):
    """Lists of every short length, with each other offset, count and length, and with numbers within and past it."""
    for count in (0, 1, 3):
        listed = built_list(chance, count)
        numbers = max(0, count - 1), chance.choice((count, count + 1, 2**64 - 1))
        damaged = [listed[:length] for length in range(min(HEAD.size + 2, len(listed)))]
        damaged += [with_head(listed, offset=offset) for offset in OFFSETS]
        damaged += [with_head(listed, max(0, count + more)) for more in OTHER_COUNTS]
        damaged += [listed + chance.randbytes(off) if off > 0 else listed[:off] for off in OFF]
        damaged += [with_head(listed, count + 1, offset) for offset in OFFSETS[:4]]
        for each in damaged:
            yield case_of("fetch", chance.choice(numbers), each)
        for number in numbers:
            yield case_of("fetch", number, listed + b"\0")
            yield case_of("fetch", number, with_head(listed, offset=9) + b"\0")
    yield case_of("fetch", 0, HEAD.pack(2**32 - 1, FIRST_ENTRY))
    yield case_of("fetch", 2**28, HEAD.pack(2**28, FIRST_ENTRY))
    yield case_of("fetch", 0, HEAD.pack(FIRST_ENTRY, 0))


def longest(chance):
    """As many entries as a field holds: the last of them, one behind 65,536 bytes, and the count."""
    most = (LONGEST_FIELD - HEAD.size) // ENTRY.size
    listed = foreign_list(chance, most)
    for number in (most - 1, most, chance.randint(2**12, most - 2)):
        yield case_of("fetch", number, listed)


def demanded(chance):
    """The cases that the coverage demands of fetching."""
    yield from every_number(chance)
    yield from every_entry(chance)
    yield from every_damage(chance)
    yield from longest(chance)


def draw(chance):
    """A fetch by chance, now and then from what is no list."""
    count = chance.randint(0, 6)
    listed = chance.choice((built_list, foreign_list))(chance, count)
    if chance.random() < 0.2:
        listed = with_head(listed, chance.choice((count, chance.randint(0, 8))), chance.choice((FIRST_ENTRY, *OFFSETS)))
    if chance.random() < 0.1:
        listed = listed[:chance.randint(0, len(listed))]
    yield case_of("fetch", chance.choice((chance.randint(0, count + 1), chance.randint(0, 2**64 - 1))), listed)
