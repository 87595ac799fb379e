"""Cases of tables that are compared entry by entry, printed as text, and judged by all rules."""

from itertools import cycle, product

from corpus import case_of
from rules import DELAYS, LIMITS, NEW_DEFAULT, OLD_DEFAULT, Table, slacks
from search import first_found
from table_coverage import NEVER_ALONE, VALUES
from tables import (
    DELAY_CONDITIONS, HOUSE, LARGEST_ENTRY, RULES, admitted_table, any_table, delay_edges, delayed_table, edge_tables,
    good_table,
)
from texts import FREE, NAMES, is_tighter

DEFAULTS = OLD_DEFAULT, NEW_DEFAULT, HOUSE
# Tables in which every entry tells its place, in the order of entries and in the other.
RISING, FALLING = Table(*range(1, len(NAMES) + 1)), Table(*range(len(NAMES), 0, -1))
ZEROS, LARGEST = Table(*[0] * len(NAMES)), Table(*[LARGEST_ENTRY] * len(NAMES))
# Breaks every rule, and rule 16 in each of its ways but for those that exclude each other.
ALL_BROKEN = Table(9, 200, 200, 50, 50, 200, 200, 100, 100, 10, 10, 50, 50, 20, 20, 0, 20, 1, 0, 60, 70, 60)


def case(old, new):
    """The case of a pair of tables."""
    return case_of("tighter", old, new)


def moved(chance, table, entries, tight):
    """The table with these entries moved to their tight side, or to the other; ChangeDL is moved either way."""
    for entry in entries:
        old = table[entry]
        sides = {old - 1, old + 1, 0, LARGEST_ENTRY, old // 2, old * 2} - {old, -1}
        sides = [value for value in sorted(sides) if value <= LARGEST_ENTRY
                 and (entry == FREE or is_tighter(entry, old, value) == tight)]
        if sides:
            table = table._replace(**{Table._fields[entry]: chance.choice(sides)})
    return table


def every_entry(chance):
    """Each entry alone one less and one more, and at the ends of its numbers."""
    for entry, name in enumerate(Table._fields):
        table = chance.choice(DEFAULTS)._replace(**{name: chance.randint(2, 999)})
        for value in (table[entry] - 1, table[entry] + 1, table[entry] + 256):
            yield case(table, table._replace(**{name: value}))
        for ends in (0, LARGEST_ENTRY), (255, 256), (32_767, 32_768):
            lower, upper = (table._replace(**{name: value}) for value in ends)
            yield from (case(lower, upper), case(upper, lower))


def every_first(chance):
    """Each entry as the first that is tighter: all before it equal or looser, some behind it tighter."""
    for entry in range(len(NAMES)):
        table = Table(*(chance.randint(1, 999) for _ in NAMES))
        behind = range(entry + 1, len(NAMES))
        new = moved(chance, table, [entry, *behind], True)
        yield case(table, new)
        yield case(table, moved(chance, moved(chance, table, range(entry), False), [entry], True))
        some = chance.sample(behind, chance.randint(0, len(behind)))
        yield case(table, moved(chance, moved(chance, table, range(entry), False), [entry, *some], True))


def every_pair(chance):
    """Equal tables, the defaults beside each other, and all entries tighter or looser."""
    yield from (case(old, new) for old, new in product((*DEFAULTS, ZEROS, LARGEST, RISING, FALLING), repeat=2))
    for _ in range(20):
        table = good_table(chance)
        yield case(table, table)
        for tight in (True, False):
            wide = Table(*(chance.randint(1, 999) for _ in NAMES))
            yield case(wide, moved(chance, wide, range(len(NAMES)), tight))


def any_pair(chance):
    """A table and one that is any other, or that differs in a few entries."""
    table = any_table(chance)
    if chance.random() < 0.3:
        return case(table, any_table(chance))
    entries = chance.sample(range(len(NAMES)), chance.randint(0, 4))
    return case(table, moved(chance, table, entries, chance.random() < 0.5))


def with_some_delays(table, bits, value):
    """The table with this value for some of its delays, by the bits, and 0 for the others."""
    return table._replace(**{name: value * (bits >> place & 1) for place, name in enumerate(DELAYS)})


def printed_tables(chance):
    """Tables with each extreme value in all entries and in one, with delays or without, and with each of them 0."""
    yield from (*DEFAULTS, ZEROS, LARGEST, RISING, FALLING)
    for value in VALUES:
        yield Table(*[value] * len(NAMES))
        yield Table(*[value] * LIMITS, 0, 0, 0, 0)
        yield Table(*[value] * LIMITS, *chance.sample((0, 0, 9, value), 4))
    for value, name in zip(cycle(VALUES), (*Table._fields, *Table._fields)):
        yield chance.choice(DEFAULTS)._replace(**{name: value})
    for bits in range(2**len(DELAYS)):
        yield with_some_delays(any_table(chance), bits, chance.choice((1, 20, LARGEST_ENTRY)))
    yield from (any_table(chance) for _ in range(60))


def breaking_alone(chance, rule):
    """A table that breaks this rule alone, by one."""

    def attempt():
        table = edge_tables(chance, rule)[0]
        return table if sum(slack < 0 for slack in slacks(table)) == 1 else None

    return first_found(f"a table that breaks rule {rule} alone", attempt)


def judged_tables(chance):
    """Tables that are admitted, at the edge of each rule, with each entry 0, breaking several rules, and wild ones."""
    yield from (*DEFAULTS, ZEROS, LARGEST, RISING, FALLING, ALL_BROKEN, OLD_DEFAULT._replace(ChangeDL=1404))
    for rule in (*RULES, *RULES):
        broken, *others = edge_tables(chance, rule)
        yield from (broken, *others, with_some_delays(broken, chance.choice((1, 2, 4, 8)), 1))
        if rule not in NEVER_ALONE:
            yield breaking_alone(chance, rule)
    for condition in DELAY_CONDITIONS:
        yield from delay_edges(chance, condition)
        broken = delay_edges(chance, condition)[0]
        yield broken._replace(ChangeDL=chance.choice((0, 1, 9)))
    for name in Table._fields:
        for table in (admitted_table(chance), delayed_table(chance)):
            yield table._replace(**{name: 0})
            yield table._replace(**{name: 0, chance.choice(Table._fields): 0})
            yield table._replace(**{name: LARGEST_ENTRY})
    for limit, name in (("Clutch_Open_DL", "Error_Clutch_Open_DE"), ("Clutch_Close_DL", "Error_Clutch_Close_DE")):
        table = delayed_table(chance)
        yield table._replace(**{name: getattr(table, limit) + 1})
        yield table._replace(**{name: 0})
    for bits in range(2**len(DELAYS)):
        yield with_some_delays(OLD_DEFAULT, bits, 20)
    for rule in RULES[11:15]:
        for table in edge_tables(chance, rule)[:2]:
            yield table._replace(Channel_DL=chance.choice((0, 1, 40)))
    for _ in range(60):
        yield good_table(chance)
        yield any_table(chance)
    for _ in range(20):
        yield ALL_BROKEN._replace(**{chance.choice(Table._fields): chance.choice((0, 1, 50, 999)) for _ in range(4)})


def demanded(chance):
    """The cases that the coverage demands of comparing, printing and judging by all rules."""
    yield from every_entry(chance)
    yield from every_first(chance)
    yield from every_pair(chance)
    yield from (any_pair(chance) for _ in range(40))
    yield from (case_of("print", table) for table in printed_tables(chance))
    yield from (case_of("rules", table) for table in judged_tables(chance))


def draw(chance):
    """A pair of tables, one to print, and one to judge by all rules, by chance."""
    yield any_pair(chance)
    yield case_of("print", any_table(chance))
    yield case_of("rules", any_table(chance))
