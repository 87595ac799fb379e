"""Cases of the old and the new default: what is written where none is wished for, and what tells the two apart."""

from itertools import cycle, product

import places
from corpus import case_of
from default_coverage import ADMITTED, BESIDE, BROKEN, DELAYED, FUNCTIONS, HANDED, NEW, OLD, STAGES
from delay_cases import as_function
from file_cases import line_case, with_header
from files import ENTRY_COUNTS, HEADER, MOST_RECORDS, file_of, file_with_entries, file_without_entries
from list_cases import list_case
from records import bad_amount, packed_steps, unlisted_code
from rules import FINISH, LONGEST_TICK, NEW_DEFAULT, OLD_DEFAULT, ORDERS, PHASES, REQUESTS, TICK
from tables import admitted_table, broken_table, delayed_table
from walks import FINISHED, lead, mixed, states, timed
from write_cases import A_TABLE, NO_BUFFER, NONE, lists, written

TABLES = {OLD: OLD_DEFAULT, NEW: NEW_DEFAULT}
# What makes a table that is handed along with the wish for none.
MAKERS = {ADMITTED: admitted_table, DELAYED: delayed_table, BROKEN: broken_table}
# The rooms beside what is written: 36 bytes short is what fitted before.
ROOMS = NO_BUFFER, *BESIDE, 30
# A tick under the old or the new default: first those that end a walk on which others come up.
TICKS = (OLD, 6), (OLD, 10), (NEW, 11), (NEW, 10), (OLD, 5), (NEW, 6), (OLD, 11), (NEW, 5)
# Those that are tried in every order and stage: what the one refuses and the other accepts.
EVERYWHERE = (OLD, 6), (NEW, 10)


def wished(chance, kind, codes, amounts, spare=0):
    """The lists, to be written with the wish for none while a table of this kind is handed along."""
    return written(chance, NONE, MAKERS[kind](chance), codes, amounts, spare)


def every_room(chance):
    """The wish for none into buffers of every size, and each default as a table or handed along."""
    kinds, counts = cycle(HANDED), cycle((0, 1, 6))
    for spare in ROOMS:
        yield wished(chance, next(kinds), *lists(chance, next(counts)), spare)
    for table, wish, spare in product(TABLES.values(), (A_TABLE, NONE), (-36, 0, 30)):
        yield written(chance, wish, table, *lists(chance, next(counts)), spare)


def every_refusal(chance):
    """The wish for none beside each table, written or refused with each number, with room and without."""
    for kind, spare in product(HANDED, (-36, 0, NO_BUFFER)):
        codes, amounts = lists(chance, chance.randint(1, 6))
        place = chance.randrange(len(codes))
        no_code = codes[:place] + bytes((unlisted_code(chance),)) + codes[place + 1:]
        bad = [*amounts[:place], bad_amount(chance, codes[place]), *amounts[place + 1:]]
        for given in ((codes, amounts), (codes, amounts[1:]), (codes, amounts + [1]), (no_code, amounts), (codes, bad)):
            yield wished(chance, kind, *given, spare)


def longest(chance):
    """The most records with the wish for none and one more, beside tables under which they would be too many."""
    codes, amounts = lists(chance, MOST_RECORDS)
    for kind, spare in ((BROKEN, 0), (DELAYED, 0), (DELAYED, -36)):
        yield wished(chance, kind, codes, amounts, spare)
    codes, amounts = lists(chance, MOST_RECORDS + 1)
    for kind, spare in zip(HANDED, (NO_BUFFER, 0, NO_BUFFER)):
        yield wished(chance, kind, codes, amounts, spare)
    yield wished(chance, ADMITTED, codes, amounts[1:])


def paced(*pauses):
    """A pace that goes through these pauses as far as the limits allow."""
    turn = cycle(pauses)

    def pace(least, most):
        return max(least, min(next(turn), most))

    return pace


def channel_ways(chance):
    """For each order, in stage sent and good, the longest way to one of its phases."""
    for order, stage in product(ORDERS, STAGES.values()):
        phase = chance.choice([phase for phase, row in PHASES.items() if row.order == order])
        yield max(places.ways()[phase, stage], key=len)


def tick_case(chance, name, table, steps, amount):
    """A tick behind a walk as a case of this function."""
    state, tick = states(table, steps)[-1], [(TICK, amount)]
    if name == "step":
        yield case_of("step", table, state, TICK, amount)
    if name == "advance":
        yield case_of("advance", table, state, packed_steps(tick))
    yield from as_function(chance, name, table, steps, tick)


def every_channel(chance):
    """Ticks beside both channel times, by each function, under the old and the new default, in each order and stage."""
    functions = cycle(FUNCTIONS)
    for which, amount in TICKS:
        table, pace, ways = TABLES[which], max if which == OLD else paced(6, 10), list(channel_ways(chance))
        for way in ways if (which, amount) in EVERYWHERE else chance.sample(ways, len(FUNCTIONS)):
            yield from tick_case(chance, next(functions), table, timed(table, way, pace), amount)


def told_apart(chance):
    """Records of which the two defaults say the same or not, in each way that they can."""
    for request in REQUESTS:
        before = lead(chance, request)
        codes = before + chance.choice(FINISHED[request])
        fast, slow = timed(OLD_DEFAULT, codes, mixed(chance)), timed(NEW_DEFAULT, codes, max)
        sent = timed(OLD_DEFAULT, (*before, request), mixed(chance))
        yield from (fast, slow, fast + [(FINISH, 0)], slow + [(FINISH, 0)])
        yield sent + [(TICK, chance.randint(NEW_DEFAULT.Channel_DL + 1, LONGEST_TICK))]


def same_records(chance):
    """The same records in a file without entries and in files with the entries of each default."""
    functions = cycle((lambda file: case_of("judge", file), lambda file: line_case(chance, file, 0),
                       lambda file: list_case(chance, file, 0), lambda file: case_of("read", file)))
    for records in map(packed_steps, told_apart(chance)):
        for file in (file_without_entries(records), *(file_of(table, records) for table in TABLES.values())):
            yield next(functions)(file)


def without_table(chance):
    """Files that say 18 or 22 entries and do not have them all, with a good header and without."""
    for k, table_offset in product(ENTRY_COUNTS[1:], (HEADER.size, HEADER.size + 1)):
        file = with_header(file_with_entries(k, NEW_DEFAULT, b""), table_offset=table_offset)
        yield case_of("read", file[:chance.randrange(HEADER.size, len(file))])


def demanded(chance):
    """The cases that the coverage demands of the old and the new default."""
    yield from every_room(chance)
    yield from every_refusal(chance)
    yield from longest(chance)
    yield from every_channel(chance)
    yield from same_records(chance)
    yield from without_table(chance)


def draw(chance):
    """A list with the wish for none, and a tick beside the channel time under one of the defaults, by chance."""
    codes, amounts = lists(chance, chance.randint(0, 9))
    yield wished(chance, chance.choice(HANDED), codes, amounts, chance.choice(ROOMS))
    table, way = chance.choice(list(TABLES.values())), chance.choice(list(channel_ways(chance)))
    steps = timed(table, way, mixed(chance))
    yield from tick_case(chance, chance.choice(FUNCTIONS), table, steps, chance.randint(4, 12))
