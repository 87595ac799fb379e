"""Cases of read, judge and line, and of advance along walks: walks, walks with a fault, and damaged files."""

from buffers import NO_BUFFER, buffer_for, with_other_byte
from corpus import LONGEST_FIELD, case_of
from files import (
    ENTRY_COUNTS, HEADER, MOST_RECORDS, RECORD, Header, file_of, file_without_entries, header_of, line, most_records,
    record_offset,
)
from records import LISTED, any_record, bad_records, packed_pieces, packed_steps, tick_amount, unlisted_codes
from rules import FROM_NEUTRAL, LONGEST_TICK, OLD_DEFAULT, RESET, TICK, forbidden, latest_clocks
from tables import RULES, admitted_table, any_table, broken_table, edge_tables, good_table
from walks import (
    FINISHED, ROUNDS, SHIFTS, SLOW, any_walk, edges, lead, mixed, states, timed, walks_over, walks_through_errors,
)


def file_with(chance, table, *pieces):
    """The file of lists of steps and of record bytes; the old default is left out of it half the time."""
    records = packed_pieces(*pieces)
    left_out = table == OLD_DEFAULT and chance.random() < 0.5
    return file_without_entries(records) if left_out else file_of(table, records)


def line_case(chance, file, spare):
    """The file's line, laid into a buffer that has so many bytes to spare."""
    return case_of("line", file, buffer_for(chance, len(line(file)), spare))


def all_three(chance, file):
    """The file read, judged and as a line."""
    yield case_of("read", file)
    yield case_of("judge", file)
    yield line_case(chance, file, chance.choice((-1, 0, 7)))


def advances(table, steps, begin=0):
    """The steps of a walk from a place on, as the running judge has them."""
    for state, step in list(zip(states(table, steps), steps))[begin:]:
        yield case_of("advance", table, state, packed_steps([step]))


def last_place(steps, code):
    """The last place of a code in a walk."""
    return max(place for place, step in enumerate(steps) if step == (code, 0))


def every_other_beginning(chance, table, steps, begin):
    """The walk up to every other place from the given one on."""
    for end in range(begin, len(steps) + 1, 2):
        yield case_of("judge", file_with(chance, table, steps[:end]))


def every_edge(chance, table, steps, begin):
    """The walk with each limit just kept, and passed by one, at each place from the given one on."""
    for place, state in list(enumerate(states(table, steps)))[begin:]:
        for edge in edges(table, state):
            yield case_of("judge", file_with(chance, table, steps[:place], edge, steps[place:]))


def every_shift(chance):
    """Every shift: up to every other place, at its slowest under a tight table, each limit just kept and passed."""
    for request, shift in [(request, shift) for request, shifts in ROUNDS.items() for shift in shifts]:
        codes = lead(chance, request) + shift

        steps = timed(OLD_DEFAULT, codes, mixed(chance))
        yield from every_other_beginning(chance, OLD_DEFAULT, steps, last_place(steps, request))

        tight = admitted_table(chance, tight=True)
        steps = timed(tight, codes, max)
        yield case_of("judge", file_with(chance, tight, steps))
        *others, last = advances(tight, steps, last_place(steps, request))
        yield from (*chance.sample(others, 7), last)

        table = good_table(chance)
        steps = timed(table, codes, min)
        yield from every_edge(chance, table, steps, last_place(steps, request))


def every_error(chance):
    """Each error with its reset and each request after it."""
    for table, steps in walks_through_errors(chance, good_table):
        yield case_of("judge", file_with(chance, table, steps))


def every_reset(chance):
    """In every phase a reset, and one that doesn't read."""
    table, walks = good_table(chance), {}
    for request, shifts in ROUNDS.items():
        for shift in shifts:
            steps = timed(table, lead(chance, request) + shift, mixed(chance))
            for place, state in enumerate(states(table, steps)):
                walks.setdefault(state.phase, []).append(steps[:place])
    for found in walks.values():
        for four in (packed_steps([(RESET, 0)]), chance.choice(bad_records(chance, RESET))):
            yield case_of("judge", file_with(chance, table, chance.choice(found), four))


def faults(chance, table, state):
    """Records that are refused in the state, in every way that a record can be."""
    for code in unlisted_codes(chance):
        yield RECORD.pack(code, chance.choice((0, 255)), chance.choice((0, LONGEST_TICK)))
    for code in LISTED:
        yield from bad_records(chance, code)
    past = [(TICK, latest - state.clock + 1) for _, latest in latest_clocks(table, state, TICK)]
    for code, amount in [(code, 0) for code in LISTED if code != TICK] + past:
        if amount <= LONGEST_TICK and forbidden(table, state, code, amount)[0]:
            yield packed_steps([(code, amount)])


def faulty_walks(chance):
    """A walk for each request with every fault at its first, middle and last place and at any other."""
    for request in SHIFTS:
        table = good_table(chance)
        steps = timed(table, lead(chance, request) + chance.choice(FINISHED[request]), mixed(chance))
        reached = states(table, steps)
        for place in (0, len(steps) // 2, chance.randrange(len(steps)), len(steps)):
            for fault in faults(chance, table, reached[place]):
                yield case_of("judge", file_with(chance, table, steps[:place], fault, steps[place:]))


def with_header(file, **fields):
    """The file with these fields in its header."""
    return HEADER.pack(*header_of(file)._replace(**fields)) + file[HEADER.size:]


def wrong_headers(chance, file):
    """The file with each byte and each field of its header wrong in turn, and with other numbers of entries."""
    for place in range(HEADER.size):
        yield with_other_byte(chance, file, place)
    good = header_of(file)
    most = most_records(good.k)
    others = [k for k in ENTRY_COUNTS if k != good.k]
    wrong = Header(
        table_offset=(0, 11, 13, 48, 12 + 2**15),
        k=(*others, 1, 17, 19, 21, 23, 36, good.k + 2**15, 2**16 - 1),
        record_offset=(0, *map(record_offset, others), good.record_offset - 1, good.record_offset + 1, 2**32 - 1),
        n=(good.n + 1, most, most + 1, good.n + 2**16, good.n + 2**30, 2**32 - 1),
    )
    for field, values in wrong._asdict().items():
        for value in values:
            yield with_header(file, **{field: value})
    for k in (1, 17, 19, 20, 21, 23, 36, 256, 256 + 18, 256 + 22):
        fields = good._replace(k=k, record_offset=record_offset(k))
        yield HEADER.pack(*fields) + chance.randbytes(2 * k) + file[good.record_offset:]


def wrong_lengths(chance, file):
    """The file cut and lengthened."""
    for length in (*range(HEADER.size + 1), 47, 48, 49, 55, 56, 57, len(file) - 4, len(file) - 2, len(file) - 1):
        if length < len(file):
            yield file[:length]
    for more in (1, 2, 4, 100):
        yield file + chance.randbytes(more)


def damaged_files(chance):
    """Files with each damage, of a table alone, with tables at the edge of each rule, and with several things wrong."""
    for entries in (False, True):
        records = packed_steps(any_walk(chance, OLD_DEFAULT) + [(TICK, 1)])
        file = file_of(admitted_table(chance), records) if entries else file_without_entries(records)
        yield from all_three(chance, file)
        for damaged in (*wrong_headers(chance, file), *wrong_lengths(chance, file)):
            yield from chance.sample(list(all_three(chance, damaged)), 2)
    for table in (admitted_table(chance), broken_table(chance)):
        yield from all_three(chance, file_of(table, b""))
    for rule in RULES:
        for table in edge_tables(chance, rule):
            yield from all_three(chance, file_with(chance, table, any_walk(chance, OLD_DEFAULT)))
    file = file_with(chance, broken_table(chance), bytes(4))
    for damaged in (file, file + b"\0", with_header(file + b"\0", n=MOST_RECORDS + 1), file[:11]):
        yield from all_three(chance, damaged)


def every_line(chance):
    """Lines of each word with exact room, one byte short, without a buffer and with room to spare."""
    ticks = [(TICK, LONGEST_TICK)] * 3
    accepted, refused = file_with(chance, OLD_DEFAULT, ticks), file_with(chance, OLD_DEFAULT, ticks, bytes(4))
    unread = file_with(chance, broken_table(chance), ticks)
    for file in (accepted, refused, unread, unread[:-1], bytes(12), b""):
        for spare in (NO_BUFFER, -1, 0, 1, 40):
            yield line_case(chance, file, spare)


def lines_along_walks(chance):
    """Lines at every place of a walk for each request, or of a tick there that passes the limits, if there are any."""
    for request, shifts in ROUNDS.items():
        steps = timed(OLD_DEFAULT, lead(chance, request) + chance.choice(shifts), max)
        for end in range(len(steps) + 1):
            more = chance.choice(([], [(TICK, LONGEST_TICK)]))
            yield line_case(chance, file_with(chance, OLD_DEFAULT, steps[:end], more), 0)


def every_excess(chance):
    """Walks that are refused by excesses of one to five digits, judged and as lines."""
    for steps in walks_over(chance):
        file = file_with(chance, SLOW, steps)
        yield case_of("judge", file)
        yield line_case(chance, file, 0)


def largest(chance):
    """The largest good files, those with their last record spoilt, and larger ones."""
    shift = timed(OLD_DEFAULT, FINISHED[FROM_NEUTRAL][0], mixed(chance))
    ticks = [(TICK, tick_amount(chance)) for _ in range(MOST_RECORDS - len(shift))]
    yield case_of("judge", file_without_entries(packed_steps(shift + ticks)))
    full = file_of(admitted_table(chance), packed_steps([(TICK, LONGEST_TICK)] * MOST_RECORDS))
    yield case_of("read", full)
    yield line_case(chance, full, 0)
    for spoilt in (bytes(4), packed_steps([(TICK, 0)]), packed_steps([(FROM_NEUTRAL + 1, 0)])):
        yield case_of("judge", full[:-RECORD.size] + spoilt)
    one_record_more = file_without_entries(packed_steps([(TICK, 1)] * (MOST_RECORDS + 1)))
    for larger in (full + b"\0", one_record_more, bytes(len(full) + 1)):
        yield case_of("judge", larger)
        yield line_case(chance, larger, 0)
    yield case_of("read", full + bytes(LONGEST_FIELD - len(full)))


def demanded(chance):
    """The cases that the coverage demands of these functions."""
    yield from every_shift(chance)
    yield from every_error(chance)
    yield from every_reset(chance)
    yield from faulty_walks(chance)
    yield from damaged_files(chance)
    yield from every_line(chance)
    yield from lines_along_walks(chance)
    yield from every_excess(chance)
    yield from largest(chance)


def any_file(chance):
    """A walk that may have a fault, under a table that may be broken, in a file that may be damaged."""
    table = good_table(chance)
    steps = any_walk(chance, table)
    place = chance.randint(0, len(steps))
    fault = any_record(chance, chance.choice(LISTED)) if chance.random() < 0.4 else b""
    if chance.random() < 0.1:
        table = any_table(chance)
    file = file_with(chance, table, steps[:place], fault, steps[place:])
    if chance.random() < 0.1:
        file = chance.choice([*wrong_headers(chance, file), *wrong_lengths(chance, file)])
    return file


def draw(chance):
    """Five files and a step along a walk, by chance."""
    for _ in range(3):
        yield case_of("judge", any_file(chance))
    yield case_of("read", any_file(chance))
    yield line_case(chance, any_file(chance), chance.choice((-1, 0, chance.randint(1, 40))))
    table = good_table(chance)
    yield chance.choice(list(advances(table, any_walk(chance, table) + [(TICK, tick_amount(chance))])))
