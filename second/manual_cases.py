"""Cases of manual: lists to every place of the manual's machine, with steps there that are accepted or refused."""

from itertools import cycle, product

import places
from corpus import case_of
from records import LISTED, any_record, bad_records, good_amount, packed_pieces, tick_amount, unlisted_codes
from rules import (
    ASK_CLUTCH, DELIVER, DEVICE_FAILED, DEVICE_GOOD, ENGINE_WAITS, FINISH, GOOD, LONGEST_TICK, OLD_DEFAULT, RAISE_ERROR,
    REQUESTS, RESET, SENT, TAKE, TICK, WORKING,
)
from tables import RULES, admitted_table, any_table, broken_table, edge_tables, good_table
from walks import SHIFTS, SLOW, any_walk, edges, lead, mixed, states, timed, walks_over, walks_through_errors

# Lists are not longer: the programs that answer them may run under an emulator.
MOST_STEPS = 250
# At each place the controller's codes and reset are tried, and some of the others.
CONTROLLER = TAKE, ASK_CLUTCH, RAISE_ERROR
OTHERS = DELIVER, DEVICE_GOOD, DEVICE_FAILED, ENGINE_WAITS, FINISH
OTHERS_TRIED = 3


def manual_case(table, *pieces):
    """The case of lists of steps and of record bytes."""
    return case_of("manual", table, packed_pieces(*pieces))


def steps_to(chance, table, ways):
    """A walk on one of the ways, by chance."""
    return timed(table, chance.choice(ways), mixed(chance))


def every_place(chance):
    """At every place some codes, at most of them a request in turn, and a tick that passes every limit there is."""
    requests = cycle(REQUESTS)
    for (_, how), ways in places.ways().items():
        codes = [*CONTROLLER, RESET, *chance.sample(OTHERS, OTHERS_TRIED)]
        if how not in ("working", "good"):
            codes.append(next(requests))
        for code in codes:
            table = good_table(chance)
            yield manual_case(table, steps_to(chance, table, ways), [(code, 0), (TICK, 1)])
        table = good_table(chance)
        yield manual_case(table, steps_to(chance, table, ways), [(TICK, LONGEST_TICK)])


def every_request(chance):
    """Each request at rest, with the box on either side."""
    for place, ways in places.ways().items():
        for request in REQUESTS if place[0] == places.AT_REST else ():
            yield manual_case(OLD_DEFAULT, steps_to(chance, OLD_DEFAULT, ways), [(request, 0)])


def unhurried(least, most):
    """A pace at which no two times are the same and every limit is still ahead."""
    return min(least + 1, most)


def every_limit(chance):
    """In every phase and stage each limit just kept, and passed by one, some time after the stage began."""
    for ways in places.ways().values():
        table = good_table(chance)
        steps = timed(table, chance.choice(ways), unhurried)
        if states(table, steps)[-1].stage in (SENT, WORKING, GOOD):
            steps.append((TICK, 1))
        for edge in edges(table, states(table, steps)[-1]):
            yield manual_case(table, steps, edge)


def every_excess(chance):
    """Walks that are refused by excesses of one to five digits, and ones that end as late as an engine's order can."""
    for steps in walks_over(chance):
        yield manual_case(SLOW, steps)
    for request, way in product(REQUESTS, ((DELIVER, DEVICE_GOOD, TAKE), (DELIVER, ENGINE_WAITS, ASK_CLUTCH))):
        yield manual_case(SLOW, timed(SLOW, (*lead(chance, request), request, *way), max))


def every_shift(chance):
    """Every shift at its slowest under a tight table, and what a tick does after it."""
    for request, shifts in SHIFTS.items():
        for shift in shifts:
            table = admitted_table(chance, tight=True)
            yield manual_case(table, timed(table, lead(chance, request) + shift, max), [(TICK, tick_amount(chance))])


def every_error(chance):
    """Each error with its reset and each request after it."""
    for table, steps in walks_through_errors(chance, good_table):
        yield manual_case(table, steps)


def every_table(chance):
    """Tables at the edge of each rule; tables that are not admitted without a record, and with one of each code."""
    for rule in RULES:
        broken, kept, _ = edge_tables(chance, rule)
        for table in (broken, kept):
            yield manual_case(table, any_walk(chance, OLD_DEFAULT)[:MOST_STEPS], [(TICK, 1)])
    yield manual_case(broken_table(chance))
    for code in (*LISTED, *unlisted_codes(chance)):
        yield manual_case(broken_table(chance), [(code, good_amount(chance, code))])


def every_bad_record(chance):
    """Records that don't read, at a place by chance."""
    ways = list(places.ways().values())
    bad = [bytes((code, 0, 0, 0)) for code in unlisted_codes(chance)]
    for four in bad + [four for code in LISTED for four in bad_records(chance, code)]:
        table = good_table(chance)
        yield manual_case(table, steps_to(chance, table, chance.choice(ways)), four)


def demanded(chance):
    """The cases that the coverage demands of this function."""
    yield from every_place(chance)
    yield from every_request(chance)
    yield from every_limit(chance)
    yield from every_excess(chance)
    yield from every_shift(chance)
    yield from every_error(chance)
    yield from every_table(chance)
    yield from every_bad_record(chance)


def draw(chance):
    """A walk through a few shifts, with a record in it that may be refused, under a table that may not be admitted."""
    table = good_table(chance)
    steps = any_walk(chance, table)[:MOST_STEPS]
    place = chance.randint(0, len(steps))
    odd = any_record(chance, chance.choice(LISTED)) if chance.random() < 0.6 else b""
    if chance.random() < 0.1:
        table = any_table(chance)
    yield manual_case(table, steps[:place], odd, steps[place:])
