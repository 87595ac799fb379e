"""Cases of write: lists that fit or don't, each thing that can be wrong with them, and the longest lists."""

from itertools import product

from buffers import NO_BUFFER, buffer_for
from corpus import case_of
from files import MOST_RECORDS, RECORD, file_of
from records import EXTREME_AMOUNTS, LISTED, bad_amount, good_amount, unlisted_code, unlisted_codes
from rules import NEW_DEFAULT
from tables import RULES, admitted_table, any_table, broken_table, edge_tables, good_table

NONE, A_TABLE = 0, 1


def lists(chance, count):
    """Codes and amounts that read."""
    codes = bytes(chance.choice(LISTED) for _ in range(count))
    return codes, [good_amount(chance, code) for code in codes]


def with_fault(chance, codes, amounts, place):
    """The lists with a code that is none, or an amount that is wrong, at this place."""
    codes, amounts = bytearray(codes), list(amounts)
    if chance.random() < 0.4:
        codes[place] = unlisted_code(chance)
    else:
        amounts[place] = bad_amount(chance, codes[place])
    return bytes(codes), amounts


def written(chance, wish, table, codes, amounts, spare=0):
    """The lists, to be written into a buffer that has so many bytes to spare."""
    file = file_of(table if wish else NEW_DEFAULT, bytes(RECORD.size * len(codes)))
    return case_of("write", wish, table, amounts, codes, buffer_for(chance, len(file), spare))


def refusals_in_order(chance):
    """Lists of equal length or not, a good table or not, a fault or none and room or none, in every pairing."""
    for longer, table, fault, spare in product(
        (-1, 0, 1), (good_table, broken_table), (False, True), (-1, 0, 9, NO_BUFFER)
    ):
        codes, amounts = lists(chance, chance.randint(1, 9))
        if fault:
            codes, amounts = with_fault(chance, codes, amounts, chance.randrange(len(codes)))
        amounts = (amounts + [0])[:len(codes) + longer]
        yield written(chance, A_TABLE, table(chance), codes, amounts, spare)


def every_fault(chance):
    """Codes with amounts at the ends of what they may have, and faults at every place of a list."""
    for code, amount in product((*LISTED, *unlisted_codes(chance)), EXTREME_AMOUNTS):
        yield written(chance, NONE, any_table(chance), bytes((code,)), [amount])
    codes, amounts = lists(chance, 8)
    for place in range(len(codes)):
        faulty = with_fault(chance, codes, amounts, place)
        yield written(chance, A_TABLE, good_table(chance), *faulty)
        yield written(chance, A_TABLE, good_table(chance), *with_fault(chance, *faulty, chance.randrange(len(codes))))


def every_table(chance):
    """Tables at the edge of each rule."""
    for rule in RULES:
        for table in edge_tables(chance, rule):
            yield written(chance, A_TABLE, table, *lists(chance, 3))


def longest(chance):
    """The most records that a file can hold without delays and one more, with what else could be wrong."""
    codes, amounts = lists(chance, MOST_RECORDS)
    yield written(chance, A_TABLE, admitted_table(chance), codes, amounts)
    yield written(chance, A_TABLE, admitted_table(chance), codes, amounts, spare=-1)
    yield written(chance, A_TABLE, admitted_table(chance), *with_fault(chance, codes, amounts, MOST_RECORDS - 1))
    codes, amounts = lists(chance, MOST_RECORDS + 1)
    yield written(chance, A_TABLE, admitted_table(chance), codes, amounts, spare=NO_BUFFER)
    yield written(chance, A_TABLE, broken_table(chance), *with_fault(chance, codes, amounts, 0), spare=NO_BUFFER)
    yield written(chance, A_TABLE, admitted_table(chance), codes, amounts[1:])


def demanded(chance):
    """The cases that the coverage demands of the writer."""
    yield from refusals_in_order(chance)
    yield from every_fault(chance)
    yield from every_table(chance)
    yield from longest(chance)


def draw(chance):
    """A list by chance, with a fault now and then."""
    codes, amounts = lists(chance, chance.randint(0, 20))
    if codes and chance.random() < 0.3:
        codes, amounts = with_fault(chance, codes, amounts, chance.randrange(len(codes)))
    wish = chance.choice((NONE, A_TABLE))
    table = good_table(chance) if chance.random() < 0.7 else any_table(chance)
    yield written(chance, wish, table, codes, amounts, chance.choice((-1, 0, 0, chance.randint(0, 40), NO_BUFFER)))
