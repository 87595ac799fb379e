"""What `bin/admit` says of tables, of two tables and of inputs that are none, in the words that it has for them."""

import re
from typing import NamedTuple

from files import NOT_ADMITTED, TOO_SHORT, WRONG_HEADER, WRONG_LENGTH, file_of, read
from rules import LIMITS, ORDERS, PHASES, Table, broken_rule, delay_slacks, has_delays, route_sums
from texts import GIVEN_TWICE, MISSING, NO_NAME, NO_NUMBER, TOO_LARGE, all_rules, printed, tighter
from texts import read as read_text

LONGEST_TEXT = 65_536
STANDARD_INPUT = "-"

# How each rule is broken; each name stands for its entry, and F for the sum of that route.
BROKEN = {
    2: "2 * Channel_DL + Engine_Sync_DL is more than Sync_EX",
    3: "2 * Channel_DL + Engine_Zero_DL is more than Zero_EX",
    4: "2 * Channel_DL + Clutch_Open_DL is not less than OpenClutch_DL",
    5: "2 * Channel_DL + Clutch_Close_DL is not less than CloseClutch_DL",
    6: "2 * Channel_DL + Gear_Set_DL is not less than SetGear_DL",
    7: "2 * Channel_DL + Gear_Release_DL is not less than Release_DL",
    8: "Sync_EX is not less than Sync_DE",
    9: "Zero_EX is not less than Zero_DE",
    10: "Sync_DE is more than Sync_DL",
    11: "Zero_DE is more than Zero_DL",
    12: "Sync_DL + OpenClutch_DL + SetGear_DL + CloseClutch_DL is more than ChangeDL",
    13: "Zero_DL + OpenClutch_DL + Release_DL + CloseClutch_DL is more than ChangeDL",
    14: "Zero_EX + Release_DL + F is more than ChangeDL",
    15: "Zero_DL + OpenClutch_DL + Release_DL + SetGear_DL + CloseClutch_DL is more than ChangeDL",
}
# The ways to break rule 16, each behind its place among the conditions of the rule: opening first, then closing.
DELAYS_BROKEN = (
    (0, "Clutch_Open_DE is less than 1"),
    (2, "Clutch_Open_DE is not less than Error_Clutch_Open_DE"),
    (4, "Error_Clutch_Open_DE is more than Clutch_Open_DL"),
    (1, "Clutch_Close_DE is less than 1"),
    (3, "Clutch_Close_DE is not less than Error_Clutch_Close_DE"),
    (5, "Error_Clutch_Close_DE is more than Clutch_Close_DL"),
)
ROUTES = ("F", "from neutral"), ("N", "to neutral"), ("G1", "gear to gear"), ("G2", "gear to gear")

TEXT_FAULTS = {
    NO_NAME: "its first word is no name of an entry",
    GIVEN_TWICE: "{} stands there a second time",
    NO_NUMBER: "{} wants one number behind it, in digits",
    TOO_LARGE: "{} has a number above 65535",
    MISSING: "the text ends without {}",
}
ANOTHER_DELAY = ", and has another delay"
# What a step file begins with, and what it is refused for.
STEP_FILE = b"\x0c\0"
FILE_FAULTS = {
    TOO_SHORT: "it has fewer than 12 bytes",
    WRONG_HEADER: "a header field, or too many records",
    WRONG_LENGTH: "its length",
}
NOT_OPENED = "can not be opened"

NOWHERE = ("nowhere tighter: every list of steps accepted under the old table is accepted under the new one, "
           "with the same end\n")
TIGHTER = "tighter: a step accepted under the old table can be refused under the new one\n"


def filled(table, words):
    """The words with the value of each name behind it, and with the sum where there are terms."""
    values = {**table._asdict(), "F": route_sums(table)[0]}
    terms, how, other = re.split("( is not less than | is (?:more|less) than )", words)
    if " + " in terms:
        how = f" = {sum(values[term.split()[-1]] * (1 + term.startswith('2 * ')) for term in terms.split(' + '))}{how}"
    return re.sub(r"[A-Z]\w*", lambda name: f"{name[0]} {values[name[0]]}", terms + how + other)


def ways(table):
    """The ways in which a table breaks the rules, each behind its rule, in words with names alone."""
    flags, *_ = all_rules(table)
    yield from ((1, f"{name} is less than 1") for name in Table._fields[:LIMITS] if getattr(table, name) < 1)
    yield from ((rule, words) for rule, words in BROKEN.items() if flags[rule - 1])
    if has_delays(table):
        yield from ((16, words) for place, words in DELAYS_BROKEN if delay_slacks(table)[place] < 0)


def route_row(route, kind, route_sum, left):
    """A row of the routes' sums."""
    return f"{route:<5}  {kind:<12}  {route_sum:>7}  {left:>20}\n"


def report(table):
    """The report of a table: whether it is admitted or how it breaks the rules, and its routes."""
    lines = [f"rule {rule}: {filled(table, words)}\n" for rule, words in ways(table)] or ["admitted\n"]
    lines.append(route_row("route", "kind", "sum, ms", "left of ChangeDL, ms"))
    for (route, kind), route_sum in zip(ROUTES, route_sums(table)):
        lines.append(route_row(route, kind, route_sum, table.ChangeDL - route_sum))
    return "".join(lines)


def taken(given):
    """The table of an input, and what is wrong with it; None for what is not there, in the input's place too."""
    if given is None:
        return None, NOT_OPENED
    if given.startswith(STEP_FILE):
        number, _, table, _ = read(given)
        if number in (0, NOT_ADMITTED):
            return table, None
        return None, f"the step file is refused with {number}: {FILE_FAULTS[number]}"
    if len(given) > LONGEST_TEXT:
        return None, f"the text is longer than {LONGEST_TEXT} bytes"
    fault, line, entry, *table = read_text(given)
    if not fault:
        return table[0], None
    words = TEXT_FAULTS[fault].format(Table._fields[entry])
    return None, f"line {line}: {words}{ANOTHER_DELAY if fault == MISSING and entry >= LIMITS else ''}"


def listed(phases):
    """Phases in words."""
    *others, last = map(str, sorted(phases))
    return f"phases {', '.join(others)} and {last}"


def can_refuse():
    """What each entry can refuse where it is tighter, by its name."""
    yield "Channel_DL", f"a tick with 12 in phases {min(PHASES)} to {max(PHASES)}"
    for order in ORDERS:
        where = listed(phase for phase, row in PHASES.items() if row.order == order)
        for entry, what in ((order.device_limit, "a tick with 12"), (order.phase_limit, "a tick with 11"),
                            (order.expiry, "a take with 10"), (order.earliest, "an ask clutch with 9"),
                            (order.delay, "a device good with 9"), (order.error_delay, "a device failed with 9")):
            if entry:
                yield entry, f"{what} in {where}"


CAN_REFUSE = dict(can_refuse())


def tighter_row(entry, old, new, what):
    """A row of what is tighter."""
    return f"{entry:<21}  {old:>5}  {new:>5}  {what}\n"


def tighter_report(old, new):
    """What is said of two admitted tables, and the status."""
    first, flags = tighter(old, new)
    if first == len(flags):
        return NOWHERE, 0
    rows = [tighter_row("entry", "old", "new", "can refuse")]
    for name, flag, *values in zip(Table._fields, flags, old, new):
        if flag:
            rows.append(tighter_row(name, *values, CAN_REFUSE[name]))
    return TIGHTER + "".join(rows), 1


class Said(NamedTuple):
    """What a call says on standard output and standard error, and its status."""

    out: str
    errors: str
    status: int


def fault_of(name, wrong):
    """The line that says what is wrong with an input."""
    return f"admit: {'standard input' if name == STANDARD_INPUT else name}: {wrong}\n"


def said_of(named):
    """What is said of inputs, each behind its name."""
    out, errors, status = [], "", 0
    for name, given in named:
        table, wrong = taken(given)
        if wrong:
            errors += fault_of(name, wrong)
        else:
            out.append(f"{name}:\n{report(table)}" if len(named) > 1 else report(table))
        if wrong or broken_rule(table):
            status = 1
    return Said("\n".join(out), errors, status)


def said_of_two(named):
    """What is said of an old and a new table, each behind its name."""
    both = [(name, *taken(given)) for name, given in named]
    errors = "".join(fault_of(name, wrong) for name, _, wrong in both if wrong)
    reports = [f"{name}:\n{report(table)}" for name, table, wrong in both if not wrong and broken_rule(table)]
    if errors or reports:
        return Said("\n".join(reports), errors, 1)
    out, status = tighter_report(*(table for _, table, _ in both))
    return Said(out, "", status)


def said_as_text(name, given):
    """What is said where a table is wanted as text."""
    table, wrong = taken(given)
    return Said("", fault_of(name, wrong), 1) if wrong else Said(printed(table).decode(), "", 0)


def said_of_file(name, given, target, is_there, over):
    """What is said where a step file is to be written, and its bytes, or None where none is."""
    table, wrong = taken(given)
    if wrong or broken_rule(table):
        return said_of([(name, given)]), None
    if is_there and not over:
        return Said("", f"admit: {target}: is there already; --over writes over it\n", 1), None
    file = file_of(table, b"")
    return Said(f"{target}: {len(file)} bytes\n", "", 0), file
