"""Limit tables by chance: admitted ones, ones at the edge of a rule, and any."""

from rules import (
    DELAYS, LIMITS, NEW_DEFAULT, OLD_DEFAULT, ORDERS, Table, broken_rule, delay_slacks, route_sums, slacks,
)
from search import NotFound, first_found

LARGEST_ENTRY = 65_535

# For each of the rules 2 to 11 the entry that keeps it by being large.
LARGER_SIDES = {
    2: "Sync_EX",
    3: "Zero_EX",
    4: "OpenClutch_DL",
    5: "CloseClutch_DL",
    6: "SetGear_DL",
    7: "Release_DL",
    8: "Sync_DE",
    9: "Zero_DE",
    10: "Sync_DL",
    11: "Zero_DL",
}

# Up to the largest of these sizes the route sums fit in an entry.
SIZES = 1, 5, 100, 2_400

RULES = range(1, 17)
# The new default with the house values of the delays.
HOUSE = NEW_DEFAULT._replace(Clutch_Open_DE=20, Error_Clutch_Open_DE=60, Clutch_Close_DE=20, Error_Clutch_Close_DE=60)
# The conditions of rule 16 on delays that are not all 0.
DELAY_CONDITIONS = (
    "open at least 1", "close at least 1", "failing to open exceeds open", "failing to close exceeds close",
    "failing to open within its limit", "failing to close within its limit",
)


def with_slack(table, rule, entry, slack):
    """The table with one entry changed so that the rule has this slack; None where that entry can't do it alone."""
    value = getattr(table, entry)
    if rule == 1:
        value = slack + 1
    else:
        now = slacks(table)[rule - 1]
        weight = slacks(table._replace(**{entry: value + 1}))[rule - 1] - now
        if abs(weight) != 1:
            return None
        value += weight * (slack - now)
    return table._replace(**{entry: value}) if 0 <= value <= LARGEST_ENTRY else None


def admitted_table(chance, tight=False):
    """An admitted table without delays; a tight one has no slack in the rules 2 to 11 and in the longest route."""
    size = chance.choice(SIZES)

    def slack():
        return 0 if tight or chance.random() < 0.5 else chance.randint(1, size)

    table = Table(*(chance.randint(1, size) for _ in range(LIMITS)))
    for rule, entry in LARGER_SIDES.items():
        wanted = slack()
        table = with_slack(table, rule, entry, wanted)
        if table is None:
            raise NotFound(f"not found: an entry {entry} that gives rule {rule} the slack {wanted}")
    longest = max(route_sums(table))
    if not tight and chance.random() < 0.2:
        entry = chance.choice(ORDERS).phase_limit
        stretched = getattr(table, entry) + LARGEST_ENTRY - longest
        return table._replace(**{entry: stretched, "ChangeDL": LARGEST_ENTRY})
    return table._replace(ChangeDL=longest + slack())


def with_delays(chance, table, tight=False):
    """The table with delays, as its clutches' limits allow them; tight ones are as long as they can be."""
    delays = []
    for limit in (table.Clutch_Open_DL, table.Clutch_Close_DL):
        if limit < 2:
            return table
        error = limit if tight else chance.choice((2, limit, chance.randint(2, limit)))
        delays += [error - 1 if tight else chance.choice((1, error - 1, chance.randint(1, error - 1))), error]
    return table._replace(**dict(zip(DELAYS, delays)))


def delayed_table(chance):
    """An admitted table with four delays that differ; each condition of rule 16 has slack."""

    def attempt():
        table = admitted_table(chance)
        limits = table.Clutch_Open_DL, table.Clutch_Close_DL
        if min(limits) < 9:
            return None
        delays = [delay for limit in limits for delay in sorted(chance.sample(range(2, limit), 2))]
        table = table._replace(**dict(zip(DELAYS, delays)))
        return table if len(set(delays)) == len(DELAYS) and min(delay_slacks(table)) > 0 else None

    return first_found("a table with four delays that differ", attempt)


def delay_edges(chance, condition):
    """Three neighbours: a table that breaks rule 16 by one for this condition alone, one that keeps it, the next."""
    place = DELAY_CONDITIONS.index(condition)

    def attempt():
        table, entry = delayed_table(chance), chance.choice((*DELAYS, "Clutch_Open_DL", "Clutch_Close_DL"))
        value, now = getattr(table, entry), delay_slacks(table)[place]
        weight = delay_slacks(table._replace(**{entry: value + 1}))[place] - now
        found = [table._replace(**{entry: value + weight * (slack - now)}) for slack in (-1, 0, 1)]
        if not weight or min(map(min, found)) < 0 or [broken_rule(each) for each in found[:2]] != [RULES[-1], 0]:
            return None
        others = [slack for other, slack in enumerate(delay_slacks(found[0])) if other != place]
        return found if min(others) >= 0 else None

    return first_found(f"a table that breaks rule 16 first and by one, for {condition} alone, and a neighbour", attempt)


def edge_tables(chance, rule):
    """Three neighbours: a table that breaks the rule first and by one, one that just keeps it, and the next."""
    if rule == RULES[-1]:
        return delay_edges(chance, chance.choice(DELAY_CONDITIONS))

    def attempt():
        table, entry = admitted_table(chance), chance.choice(Table._fields)
        broken, kept, above = (with_slack(table, rule, entry, slack) for slack in (-1, 0, 1))
        if broken and kept and above and broken_rule(broken) == rule and not 0 < broken_rule(kept) <= rule:
            return broken, kept, above
        return None

    return first_found(f"a table that breaks rule {rule} first and by one, and a neighbour that keeps it", attempt)


def broken_table(chance):
    """A table that is not admitted."""
    return edge_tables(chance, chance.choice(RULES))[0]


def good_table(chance):
    """The old or the new default, the latter also with the house values, or an admitted table, often with delays."""
    if chance.random() < 0.3:
        return chance.choice((OLD_DEFAULT, NEW_DEFAULT, HOUSE))
    tight = chance.random() < 0.3
    table = admitted_table(chance, tight)
    return with_delays(chance, table, tight) if chance.random() < 0.5 else table


def any_table(chance):
    """A table of any sort: admitted, with a few entries changed, or wild."""
    if chance.random() < 0.2:
        return Table(*(chance.randint(0, LARGEST_ENTRY) for _ in Table._fields))
    table = good_table(chance)
    for _ in range(chance.randint(0, 2)):
        entry = chance.choice(Table._fields)
        value = getattr(table, entry)
        change = chance.choice((0, 1, LARGEST_ENTRY, value - 1, value + 1, chance.randint(0, LARGEST_ENTRY)))
        table = table._replace(**{entry: min(max(change, 0), LARGEST_ENTRY)})
    return table
