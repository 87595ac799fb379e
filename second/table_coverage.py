"""What a comparison covers of tables that are compared, printed and judged by all rules: grids and marks."""

from delay_coverage import BROKEN_BY_ONE, JUST_KEPT, pattern, patterns
from files import WITH_DELAYS, WITHOUT_DELAYS, k_written
from rules import LIMITS, Table, delay_slacks, has_delays, slacks
from tables import DELAY_CONDITIONS, LARGEST_ENTRY, RULES
from texts import FREE, NAMES

# How an entry stands in the new table: tighter as the first or as a later one, or the only one that differs.
FIRST, LATER, ALONE_SMALLER, ALONE_LARGER = TIGHTER = "first", "later", "alone, smaller", "alone, larger"
EQUAL, DIFFERENT = "equal", "different"
SOME, ALL_BUT_FREE = "2 to 20", "21"
# The values that are printed: where the digits grow by one.
VALUES = 0, 9, 10, 99, 100, 999, 1_000, 9_999, 10_000, LARGEST_ENTRY
ALONE, FIRST_OF_MORE = "alone", "first of more"
# Who breaks 12 breaks 14, and who breaks 13 breaks 15: each of them adds to the sum.
NEVER_ALONE = 12, 13
BROKEN = ALONE, FIRST_OF_MORE, LATER, BROKEN_BY_ONE, JUST_KEPT
WITH_OTHERS = "with others"
ROUTES = "F", "N", "G1", "G2"
SIZES = {"0": 0, "16 bits": LARGEST_ENTRY, "more": len(NAMES) * LARGEST_ENTRY}


def tighter_columns(entry):
    """The columns of an entry among those that are tighter."""
    return {*TIGHTER} - ({FIRST, LATER} if entry == FREE else set()) - ({LATER} if entry == 0 else set())


def broken_columns(rule):
    """The columns of a rule among those that are broken."""
    never = {ALONE} if rule in NEVER_ALONE else {LATER} if rule == RULES[0] else set()
    return {*BROKEN} - never - ({FIRST_OF_MORE} if rule == RULES[-1] else set())


TABLE_GRIDS = {
    "tighter": (
        "entries of a new table beside the old one",
        TIGHTER,
        {name: tighter_columns(entry) for entry, name in enumerate(Table._fields)},
    ),
    "tighter entries": (
        "pairs of tables, by how many entries are tighter",
        ("0", "1", SOME, ALL_BUT_FREE),
        {EQUAL: {"0"}, DIFFERENT: {"0", "1", SOME, ALL_BUT_FREE}},
    ),
    "printed values": (
        "values that are printed, by the lines of the text",
        (WITHOUT_DELAYS, WITH_DELAYS),
        {value: {WITHOUT_DELAYS, WITH_DELAYS} for value in VALUES},
    ),
    "printed delays": (
        "tables that are printed, by the delays that are 0 and the lines of the text",
        (WITHOUT_DELAYS, WITH_DELAYS),
        {row: {WITH_DELAYS if "x" in row else WITHOUT_DELAYS} for row, _ in patterns()},
    ),
    "broken rules": (
        "rules that are broken, or just kept",
        BROKEN,
        {rule: broken_columns(rule) for rule in RULES},
    ),
    "broken entries": (
        "entries that are 0: the only one, or with others",
        (ALONE, WITH_OTHERS),
        {name: {ALONE, WITH_OTHERS} for name in Table._fields[:LIMITS]},
    ),
    "ways of rule 16": (
        "conditions of rule 16 that are broken",
        (ALONE, WITH_OTHERS),
        {condition: {ALONE, WITH_OTHERS} for condition in DELAY_CONDITIONS},
    ),
    "route sums": ("route sums, by their size", tuple(SIZES), {route: {*SIZES} for route in ROUTES}),
}


def tighter_marks(answer, old, new):
    """The marks of a pair of tables."""
    first, flags = answer
    differing = [entry for entry, (before, after) in enumerate(zip(old, new)) if before != after]
    for entry, flag in enumerate(flags):
        if flag:
            yield "tighter", Table._fields[entry], FIRST if entry == first else LATER
    if len(differing) == 1:
        entry, = differing
        yield "tighter", Table._fields[entry], ALONE_SMALLER if new[entry] < old[entry] else ALONE_LARGER
    count = sum(flags)
    yield "tighter entries", DIFFERENT if differing else EQUAL, SOME if 1 < count < len(flags) - 1 else str(count)


def print_marks(_, table):
    """The marks of a table that is printed."""
    lines = k_written(table)
    for value in {*table[:lines]}.intersection(VALUES):
        yield "printed values", value, lines
    yield "printed delays", pattern(table[LIMITS:]), lines


def among(place, places):
    """Whether this is the only one of its places."""
    return ALONE if [place] == places else WITH_OTHERS


def rules_marks(answer, table):
    """The marks of a table and all its rules."""
    flags, *sums = answer
    broken = [rule for rule, flag in zip(RULES, flags) if flag]
    for rule, slack in zip(RULES, slacks(table)):
        if rule in broken:
            yield "broken rules", rule, ALONE if [rule] == broken else FIRST_OF_MORE if rule == broken[0] else LATER
        if slack in (-1, 0):
            yield "broken rules", rule, BROKEN_BY_ONE if slack else JUST_KEPT
    zeros = [entry for entry, value in enumerate(table[:LIMITS]) if value == 0]
    yield from (("broken entries", Table._fields[entry], among(entry, zeros)) for entry in zeros)
    if has_delays(table):
        ways = [place for place, slack in enumerate(delay_slacks(table)) if slack < 0]
        yield from (("ways of rule 16", DELAY_CONDITIONS[place], among(place, ways)) for place in ways)
    for route, route_sum in zip(ROUTES, sums):
        yield "route sums", route, next(size for size, largest in SIZES.items() if route_sum <= largest)
