"""Cases of tables of 22 entries: files that have them, what is written of a table, and the record maxima."""

from itertools import product

from corpus import case_of
from default_coverage import NO_ENTRIES
from delay_coverage import DELAYED, DELAYED_ZEROS, IN_FILES, NOT_ADMITTED, ZEROS, counts_by_table
from extensions import Given, extend_case
from file_cases import all_three, line_case, with_header, wrong_headers, wrong_lengths
from files import MOST_WITH_DELAYS, WITH_DELAYS, WITHOUT_DELAYS, file_with_entries
from list_cases import list_case
from records import packed_steps, tick_amount
from rules import DELAYS, LONGEST_TICK, OLD_DEFAULT, START, TICK
from tables import RULES, admitted_table, any_table, delayed_table, edge_tables, good_table
from walks import SHIFTS, any_walk, lead, mixed, timed
from write_cases import A_TABLE, NO_BUFFER, lists, written

# The number of entries of each file, by what it has for a table.
ENTRIES = {NO_ENTRIES: 0, ZEROS: WITHOUT_DELAYS, DELAYED: WITH_DELAYS, DELAYED_ZEROS: WITH_DELAYS}
# The rooms that a file mostly is given beside what it needs.
SPARES = 0, -1, -8, 9


def table_for(chance, kind):
    """An admitted table as a file of this kind has it."""
    if kind == NO_ENTRIES:
        return OLD_DEFAULT
    return delayed_table(chance) if kind == DELAYED else admitted_table(chance)


def broken_for(chance, kind):
    """A table that is not admitted and is written as this kind; where it has delays, for them or for another rule."""
    if kind == DELAYED and chance.random() < 0.5:
        return edge_tables(chance, RULES[-1])[0]
    broken = edge_tables(chance, chance.choice(RULES[:-1]))[0]._replace(**dict.fromkeys(DELAYS, 0))
    return broken._replace(Error_Clutch_Close_DE=1) if kind == DELAYED else broken


def file_for(chance, kind, table, *pieces):
    """The file of this kind with a table and lists of steps."""
    return file_with_entries(ENTRIES[kind], table, b"".join(map(packed_steps, pieces)))


def every_kind(chance):
    """Files of each number of entries with walks and without records: accepted, refused, and with a bad table."""
    for kind in IN_FILES:
        table = table_for(chance, kind)
        request = chance.choice(tuple(SHIFTS))
        steps = timed(table, lead(chance, request) + chance.choice(SHIFTS[request]), mixed(chance))
        for more in ([], [(TICK, LONGEST_TICK), (9, 0)]):
            file = file_for(chance, kind, table, steps, more)
            yield from all_three(chance, file)
            yield list_case(chance, file, 24)
        yield from all_three(chance, file_for(chance, kind, table))
        if kind != NO_ENTRIES:
            broken = broken_for(chance, kind)
            yield from all_three(chance, file_for(chance, kind, broken, steps))
            yield list_case(chance, file_for(chance, kind, broken, steps), 24)


def every_rule(chance):
    """Files of 22 entries with tables at the edge of each rule; four zeros with the first fifteen."""
    for rule in RULES:
        broken, kept, _ = edge_tables(chance, rule)
        for table in (broken, kept):
            file = file_with_entries(WITH_DELAYS, table, packed_steps(any_walk(chance, OLD_DEFAULT)[:40]))
            yield chance.choice(list(all_three(chance, file)))


def every_damage(chance):
    """Files of 22 entries with each byte and each field of their headers wrong, and of other lengths."""
    for kind in (DELAYED, DELAYED_ZEROS):
        file = file_for(chance, kind, table_for(chance, kind), any_walk(chance, OLD_DEFAULT)[:40], [(TICK, 1)])
        for damaged in (*wrong_headers(chance, file), *wrong_lengths(chance, file)):
            yield chance.choice(list(all_three(chance, damaged)))
        for length in (47, 48, 49, 55, 56, 57):
            yield case_of("read", file[:length])
    for k in (WITHOUT_DELAYS, WITH_DELAYS):
        # As many bytes as with the other number of entries.
        file = file_with_entries(k, delayed_table(chance), packed_steps([(TICK, 9), (TICK, 300), (TICK, 7)]))
        other = WITHOUT_DELAYS + WITH_DELAYS - k
        for fields in ({"k": other}, {"record_offset": 12 + 2 * other}, {"k": other, "record_offset": 12 + 2 * other}):
            yield case_of("read", with_header(file, **fields))


def counts_beside(name, kind):
    """The counts of records beside the maxima that are tried."""
    return sorted(counts_by_table()[f"{name}, {kind}"])


def most_read(chance):
    """Headers with counts beside the maxima, and the largest files of 22 entries."""
    for kind in IN_FILES:
        for n, more in product(counts_beside("read", kind), (0, 1)):
            file = file_for(chance, kind, table_for(chance, kind), [(TICK, 3)] * more)
            yield case_of("read", with_header(file, n=n))
    ticks = [(TICK, tick_amount(chance)) for _ in range(MOST_WITH_DELAYS)]
    full, zeros = (file_for(chance, kind, table_for(chance, kind), ticks) for kind in (DELAYED, DELAYED_ZEROS))
    yield case_of("judge", full)
    yield line_case(chance, zeros, 0)
    yield case_of("judge", file_for(chance, DELAYED, delayed_table(chance), ticks, ticks[:1]))
    yield case_of("read", file_for(chance, DELAYED_ZEROS, admitted_table(chance), ticks, ticks[:1]))


def single_delays(chance):
    """Tables with one delay that is not 0: they are not admitted."""
    for name in DELAYS:
        yield admitted_table(chance)._replace(**{name: chance.randint(1, 65_535)})


def every_writing(chance):
    """What is written of each kind of table, into buffers with exact room, one and eight bytes short, and longer."""
    for kind, spare in product((ZEROS, DELAYED), SPARES):
        yield writing(chance, table_for(chance, kind), chance.randint(0, 9), spare)
    for table in single_delays(chance):
        yield writing(chance, table, 3, 0)


def writing(chance, table, count, spare):
    """The case of so many records that are written with a table."""
    return written(chance, A_TABLE, table, *lists(chance, count), spare)


def most_written(chance):
    """Lists beside the maxima under tables with delays, admitted or not; what is refused has no buffer."""
    for count in counts_beside("write", DELAYED):
        yield writing(chance, delayed_table(chance), count, 0 if count == MOST_WITH_DELAYS else NO_BUFFER)
    for kind in (DELAYED, ZEROS):
        for count in counts_beside("write", kind + NOT_ADMITTED):
            yield writing(chance, broken_for(chance, kind), count, NO_BUFFER)
    first, *_, last = single_delays(chance)
    for table in (first, last):
        yield writing(chance, table, MOST_WITH_DELAYS + 1, NO_BUFFER)


def most_extended(chance):
    """Counts beside the maxima of records that are extended, under tables with delays or without, admitted or not."""
    for kind, made, new in product((ZEROS, DELAYED), ("", NOT_ADMITTED), (0, 2)):
        for count in counts_beside("extend", kind + made):
            table = broken_for(chance, kind) if made else table_for(chance, kind)
            yield extend_case(chance, Given(table, START, count - new, b"", packed_steps([(TICK, 1)] * new)), 0)
    for table in single_delays(chance):
        yield extend_case(chance, Given(table, START, MOST_WITH_DELAYS + 1, b"", b""), 0)


def demanded(chance):
    """The cases that the coverage demands of tables of 22 entries."""
    yield from every_kind(chance)
    yield from every_rule(chance)
    yield from every_damage(chance)
    yield from most_read(chance)
    yield from every_writing(chance)
    yield from most_written(chance)
    yield from most_extended(chance)


def draw(chance):
    """A file of 22 entries and a list to be written, by chance."""
    table = good_table(chance) if chance.random() < 0.7 else any_table(chance)
    file = file_with_entries(WITH_DELAYS, table, packed_steps(any_walk(chance, OLD_DEFAULT)))
    if chance.random() < 0.2:
        file = chance.choice([*wrong_headers(chance, file), *wrong_lengths(chance, file)])
    yield chance.choice(list(all_three(chance, file)))
    yield writing(chance, table, chance.randint(0, 9), chance.choice(SPARES))
