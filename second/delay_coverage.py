"""What a comparison covers of delays and of tables of 22 entries: grids, as a title, columns and rows, and marks."""

from default_coverage import NO_ENTRIES, NONE_WISHED
from files import (
    HEADER, MOST_RECORDS, MOST_WITH_DELAYS, RECORD, WITH_DELAYS, WITHOUT_DELAYS, WRONG_LENGTH, block, file_of, fours,
    header_of, judge, read, record, table_of,
)
from list_coverage import EXACT, LONGER, ONE_SHORT
from rules import (
    ASK_CLUTCH, CLUTCH_PHASES, DELAYS, DELIVER, DEVICE_FAILED, DEVICE_GOOD, ENGINE_WAITS,
    ORDERS, PHASES, RAISE_ERROR, START, TAKE, TICK, TOO_EARLY, admitted_step, broken_rule, delay_slacks, earliest_clock,
    has_delays,
)
from tables import DELAY_CONDITIONS, RULES

JUST_KEPT, BROKEN_BY_ONE = "just kept", "broken by one"
ANSWERS = DEVICE_GOOD, DEVICE_FAILED
KEPT, ONE_EARLY, LATER = "kept", "one early", "one later"
# The steps on a given state, those of files, and those of the manual's engine.
GIVEN, JUDGED, MANUAL = "given", "judge", "manual"
BESIDE = tuple(f"{name} {code} {how}" for name in (GIVEN, JUDGED, MANUAL) for code in ANSWERS
               for how in (ONE_EARLY, KEPT, LATER))
AT_STAGE_TIME, AHEAD = "at the stage time", "ahead of the clock"
ZERO_DELAYS = tuple(f"{code} {how}" for code in ANSWERS for how in (AT_STAGE_TIME, AHEAD))
WITHOUT_DELAY = DELIVER, DEVICE_GOOD, DEVICE_FAILED, ENGINE_WAITS, TAKE, ASK_CLUTCH, RAISE_ERROR, TICK
CLUTCH_ANSWERS = tuple(f"{order.name} {code}" for order in ORDERS if order.delay for code in ANSWERS)
# The sizes of an excess, each with the largest that has it.
SIZES = {"1": 1, "16 bits": 2**16 - 1, "32 bits": 2**32 - 1, "64 bits": 2**64 - 1}
REFUSED_IN = "line", "block", "list", "extend"
# What a file has for a table, and what is written of one.
ZEROS, DELAYED, DELAYED_ZEROS = "18 entries", "22 entries", "22 entries, four zeros"
IN_FILES = NO_ENTRIES, ZEROS, DELAYED, DELAYED_ZEROS
NOT_ADMITTED = ", not admitted"
BECAME = "read 0", "read 2", "read 3", "read 4", "judge 0", "judge refused", "list 0"
EIGHT_SHORT = "eight short"
FUNCTIONS = "step", "advance", "judge", "line", "list", "block", "extend", "manual", "write"
ACCEPTED, REFUSED = "accepted", "refused"
COUNTS = range(MOST_WITH_DELAYS, MOST_RECORDS + 2)


def patterns():
    """The rows of a grid of the delays that are 0, with the rule that a table with them gets."""
    for number in range(2**len(DELAYS)):
        zeros = [number >> place & 1 for place in reversed(range(len(DELAYS)))]
        yield pattern(zeros), {0} if not any(zeros) else {0, RULES[-1]} if all(zeros) else {RULES[-1]}


def pattern(delays):
    """The row of four delays: which of them are 0."""
    return " ".join("x" if delay else "0" for delay in delays)


def without_delay(order):
    """The codes that are accepted in phases of an order though the stage time lies ahead of the clock."""
    engine, clutch = bool(order.expiry), bool(order.delay)
    left_out = {ENGINE_WAITS, ASK_CLUTCH} if not engine else {DEVICE_FAILED}
    return {*WITHOUT_DELAY} - left_out - ({*ANSWERS} if clutch else set())


def counts_by_table():
    """The rows of a grid of tables and counts of records at the maxima: as read, written and extended."""
    bad = ZEROS + NOT_ADMITTED, DELAYED + NOT_ADMITTED
    tables = {"read": IN_FILES, "write": (NONE_WISHED, ZEROS, DELAYED, *bad), "extend": (ZEROS, DELAYED, *bad)}
    return {f"{name}, {kind}": {most_by(kind), most_by(kind) + 1} for name, kinds in tables.items() for kind in kinds}


def most_by(kind):
    """The most records beside a table of this kind."""
    return MOST_WITH_DELAYS if kind.startswith(DELAYED) else MOST_RECORDS


def read_numbers(kind):
    """The columns of what a file has for a table."""
    return {*BECAME} - ({"read 4"} if kind == NO_ENTRIES else set())


DELAY_GRIDS = {
    "delay conditions": (
        "conditions of rule 16, each for itself",
        (JUST_KEPT, BROKEN_BY_ONE),
        {condition: {JUST_KEPT, BROKEN_BY_ONE} for condition in DELAY_CONDITIONS},
    ),
    "zero delays": ("delays that are 0, by the rule given", (0, RULES[-1]), dict(patterns())),
    "clutch answers": (
        "answers of a clutch beside its delay, by phase",
        BESIDE,
        {phase: {*BESIDE} for phase in sorted(CLUTCH_PHASES)},
    ),
    "no delays": (
        "answers of a clutch on given states without delays, by phase: the stage time",
        ZERO_DELAYS,
        {phase: {*ZERO_DELAYS} for phase in sorted(CLUTCH_PHASES)},
    ),
    "times ahead": (
        "codes accepted under delays with the stage time ahead of the clock, by order",
        WITHOUT_DELAY,
        {order.name: without_delay(order) for order in ORDERS},
    ),
    "early answers": (
        "answers of a clutch that come too early: the excess on given states, and where they are refused",
        (*SIZES, *REFUSED_IN),
        {row: {*SIZES, *REFUSED_IN} for row in CLUTCH_ANSWERS},
    ),
    "entries": (
        "files by their entries: what became of them",
        BECAME,
        {kind: read_numbers(kind) for kind in IN_FILES},
    ),
    "maxima": ("records beside the maxima, by the table", COUNTS, counts_by_table()),
    "written": (
        "tables that were written: the room",
        (EXACT, ONE_SHORT, EIGHT_SHORT, LONGER),
        {kind: {EXACT, ONE_SHORT, EIGHT_SHORT, LONGER} for kind in (ZEROS, DELAYED)},
    ),
    "under delays": (
        "functions under tables with delays",
        (ACCEPTED, REFUSED),
        {name: {ACCEPTED, REFUSED} for name in FUNCTIONS},
    ),
}


def under_delays(name, table, number):
    """The mark of a function under a table with delays that is admitted."""
    if has_delays(table) and not broken_rule(table):
        yield "under delays", name, REFUSED if number else ACCEPTED


def admit_marks(rule, table):
    """The marks of an admission."""
    if rule not in (0, RULES[-1]):
        return
    yield "zero delays", pattern(table[WITHOUT_DELAYS:]), rule
    found = delay_slacks(table)
    for place, condition in enumerate(DELAY_CONDITIONS if has_delays(table) else ()):
        others = [slack for other, slack in enumerate(found) if other != place]
        if min(others) >= 0 and found[place] in (0, -1):
            yield "delay conditions", condition, BROKEN_BY_ONE if found[place] else JUST_KEPT


def beside_marks(name, table, state, code):
    """The mark of a clutch's answer beside its delay, which is not 0."""
    past = state.clock - earliest_clock(table, state, code)
    how = {-1: ONE_EARLY, 0: KEPT, 1: LATER}.get(past)
    if how and past != state.clock - state.stage_time:
        yield "clutch answers", state.phase, f"{name} {code} {how}"


def single_marks(name, answer, table, state, code):
    """The marks of a step on a given state."""
    number, _, excess, _ = answer
    yield from under_delays(name, table, number)
    if number not in (0, TOO_EARLY) or state.phase not in PHASES:
        return
    order, ahead = PHASES[state.phase].order, state.stage_time - state.clock
    if code in ANSWERS and order.delay:
        yield from beside_marks(GIVEN, table, state, code)
        if not has_delays(table) and ahead in (0, 1):
            yield "no delays", state.phase, f"{code} {AHEAD if ahead else AT_STAGE_TIME}"
        if number:
            size = next(size for size, largest in SIZES.items() if excess <= largest)
            yield "early answers", f"{order.name} {code}", size
    if has_delays(table) and number == 0 and ahead > 0:
        yield "times ahead", order.name, code


def step_marks(answer, table, state, code, _):
    """The marks of a step."""
    yield from single_marks("step", answer, table, state, code)


def advance_marks(answer, table, state, four):
    """The marks of the running judge."""
    yield from single_marks("advance", answer, table, state, four[0])


def along_marks(name, table, records):
    """The marks of a clutch's answers along records from the start, up to the first that is refused."""
    state = START
    for code, amount, middle in map(record, fours(records)):
        number, _, after = admitted_step(table, state, code, amount, middle)
        if code in ANSWERS and state.phase in CLUTCH_PHASES and number in (0, TOO_EARLY):
            yield from beside_marks(name, table, state, code)
        if number:
            return
        state = after


def early_marks(name, number, table, state, records):
    """The mark of a refused record, the first of these, that is the answer of a clutch and too early on the state."""
    if number == TOO_EARLY and records[0] in ANSWERS:
        yield "early answers", f"{PHASES[state.phase].order.name} {records[0]}", name


def in_file(file):
    """What a file that has a header has for a table, or None."""
    kind = {0: NO_ENTRIES, WITHOUT_DELAYS: ZEROS, WITH_DELAYS: DELAYED}.get(header_of(file).k)
    return DELAYED_ZEROS if kind == DELAYED and not has_delays(table_of(file)) else kind


def entries_marks(name, number, file):
    """The mark of a file by its entries; where these say 22, they are all there."""
    kind = in_file(file) if len(file) >= HEADER.size else None
    column = f"{name} {REFUSED if name == 'judge' and number > 4 else number}"
    if kind and column in read_numbers(kind):
        yield "entries", kind, column
    if kind and name == "read" and header_of(file).n in COUNTS and len(file) >= header_of(file).record_offset:
        yield from count_marks("read", kind, header_of(file).n)


def count_marks(name, kind, count):
    """The mark of a count of records beside the maxima."""
    if count in counts_by_table()[f"{name}, {kind}"]:
        yield "maxima", f"{name}, {kind}", count


def read_marks(answer, file):
    """The marks of the reader."""
    yield from entries_marks("read", answer[0], file)


def judge_marks(answer, file):
    """The marks of the judge."""
    _, _, table, records = read(file)
    yield from entries_marks("judge", answer[0], file)
    if has_delays(table) and records:
        yield from under_delays("judge", table, answer[0])
        yield from along_marks(JUDGED, table, records)


def refused_marks(name, number, file, accepted, state):
    """The marks of a file that is judged for its line or its list."""
    _, _, table, records = read(file)
    if records:
        yield from under_delays(name, table, number)
        yield from early_marks(name, number, table, state, records[RECORD.size * accepted:])


def line_marks(answer, file, _):
    """The marks of a line."""
    number, _, accepted, _, state = judge(file)
    if not answer[0]:
        yield from refused_marks("line", number, file, accepted, state)


def list_marks(answer, file, _):
    """The marks of a list that is built."""
    yield from entries_marks("list", answer[0], file)
    number, _, accepted, _, state = judge(file)
    yield from refused_marks("list", number, file, accepted, state)


def block_marks(answer, table, state, records):
    """The marks of a block."""
    number, _, accepted, _, reached = answer
    if len(records) >= RECORD.size:
        yield from under_delays("block", table, number)
        yield from early_marks("block", number, table, reached, records[RECORD.size * accepted:])


def manual_marks(answer, table, records):
    """The marks of the manual's engine."""
    (number, *_), *_ = answer
    if records:
        yield from under_delays("manual", table, number)
        if not broken_rule(table):
            yield from along_marks(MANUAL, table, records)


def kind_of(table, wish=1):
    """What is written of a table, and whether it is admitted; or that none is wished for."""
    if not wish:
        return NONE_WISHED
    return (DELAYED if has_delays(table) else ZEROS) + (NOT_ADMITTED if broken_rule(table) else "")


def write_marks(answer, wish, table, amounts, codes, buffer):
    """The marks of the writer."""
    number, kind = answer[0], kind_of(table, wish)
    if wish:
        yield from under_delays("write", table, number)
    if number != WRONG_LENGTH:
        yield from count_marks("write", kind, len(codes))
    if wish and number in (0, 15):
        spare = len(buffer) - len(file_of(table, bytes(RECORD.size * len(codes))))
        how = {0: EXACT, -1: ONE_SHORT, -8: EIGHT_SHORT}.get(spare, LONGER if spare > 0 else None)
        if how:
            yield "written", kind, how


def extend_marks(answer, table, state, held, count, records, buffer):
    """The marks of an extension."""
    number, _, index, *_ = answer
    yield from under_delays("extend", table, number)
    if number in (0, 2, 4):
        yield from count_marks("extend", kind_of(table), count + len(records) // RECORD.size)
    if number == TOO_EARLY:
        whole = records[RECORD.size * (index - count):]
        yield from early_marks("extend", number, table, block(table, state, records)[-1], whole)


DELAY_MARKS = {
    "admit": admit_marks, "step": step_marks, "advance": advance_marks, "read": read_marks, "judge": judge_marks,
    "line": line_marks, "list": list_marks, "block": block_marks, "manual": manual_marks, "write": write_marks,
    "extend": extend_marks,
}


def delay_marks(name, answer, *parts):
    """What a case covers of delays and of tables of 22 entries."""
    return DELAY_MARKS[name](answer, *parts) if name in DELAY_MARKS else ()
