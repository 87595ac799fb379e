"""What a comparison covers of the old and the new default: grids, as a title, columns and rows, and marks."""

from files import (
    ENTRY_COUNTS, HEADER, NO_ROOM, RECORD, WITHOUT_DELAYS, file_of, fours, header_of, read, record, record_offset,
)
from list_coverage import EXACT, LONGER, NO_BUFFER, ONE_SHORT
from rules import (
    GOOD, NEW_DEFAULT, NO_SUCH_CODE, OLD_DEFAULT, ORDERS, PAST_CLOCK, PAST_STAGE_LIMIT, PHASES, SENT, START, TICK,
    admitted_step, broken_rule, has_delays,
)

OLD, NEW = "old default", "new default"
NAMES = {OLD_DEFAULT: OLD, NEW_DEFAULT: NEW}
NONE_WISHED = "none wished for"
# The table that is handed along with the wish for none.
ADMITTED, DELAYED, BROKEN = HANDED = "admitted", "with delays", "not admitted"
# The room beside what is written: the entries have 36 bytes, and those of delays 8.
BESIDE = {-37: "37 short", -36: "36 short", -35: "35 short", -1: ONE_SHORT, 0: EXACT, 1: "one more", 8: "eight more"}
WRITTEN, FULL, MORE = "written", "no room", "more"
STAGES = {SENT: "sent", GOOD: "good"}
# How long after the stage began a tick ends: what each default just keeps and passes by one, and what tells them apart.
AGES = {OLD: (5, 6, 10), NEW: (6, 10, 11)}
CHANNEL = tuple(f"{name} {age}" for name, ages in AGES.items() for age in ages)
FUNCTIONS = "judge", "line", "list", "block", "extend", "manual", "step", "advance"
OLD_REFUSES, NEW_ACCEPTS = "the old refuses", "the new accepts"
APART = tuple(f"{stage}, {said}" for stage in STAGES.values() for said in (OLD_REFUSES, NEW_ACCEPTS))
# What a file has for a default, and what both say of its records. That the old alone accepts some never comes up.
NO_ENTRIES = "no entries"
BOTH_ACCEPT, NEW_ALONE, NEW_LATER = "both accept", "the new alone accepts", "the new refuses a later record"
ALIKE, OTHER_EXCESS, OLD_ALONE = "both refuse alike", "both refuse, by another excess", "the old alone accepts"
SAID = BOTH_ACCEPT, NEW_ALONE, NEW_LATER, ALIKE, OTHER_EXCESS
# Why a file has no table of its own.
SHORT, OTHER_NUMBER = "under 12 bytes", "another number of entries"
TOO_SHORT = {k: f"{k} entries, not all there" for k in ENTRY_COUNTS[1:]}


def rooms(row):
    """The columns of a row of the grid of rooms: of a default that is given, what would fit without entries."""
    return {*BESIDE.values(), NO_BUFFER, LONGER} if row == NONE_WISHED else {BESIDE[-36], EXACT}


DEFAULT_GRIDS = {
    NONE_WISHED: (
        "numbers of the writer where none is wished for, by the table that is handed along",
        HANDED,
        {number: {*HANDED} for number in (0, 2, 3, 5, 6, NO_ROOM)},
    ),
    "written room": (
        "the old and the new default that are written: the room",
        (NO_BUFFER, *BESIDE.values(), LONGER),
        {row: rooms(row) for row in (NONE_WISHED, OLD, NEW)},
    ),
    "wished records": (
        "records that are written where none is wished for: whether there is room",
        (WRITTEN, FULL),
        {count: {WRITTEN, FULL} for count in (0, 1, MORE)},
    ),
    "channel": (
        "ticks in sent and good under the old and the new default, by the age of the stage",
        CHANNEL,
        {name: {*CHANNEL} for name in FUNCTIONS},
    ),
    "apart": (
        "ticks that the old default refuses with 12 and the new one accepts, by order and stage",
        APART,
        {order.name: {*APART} for order in ORDERS},
    ),
    "both defaults": (
        "files that mean the old or the new default: what both say of their records",
        SAID,
        {row: {*SAID} for row in (NO_ENTRIES, OLD, NEW)},
    ),
    "read as old": (
        "numbers of the reader with the old default for a table: why",
        range(4),
        {SHORT: {1}, NO_ENTRIES: {0, 2, 3}, **{why: {2, 3} for why in TOO_SHORT.values()}, OTHER_NUMBER: {2}},
    ),
}


def handed_kind(table):
    """The column of a table that is handed along."""
    return BROKEN if broken_rule(table) else DELAYED if has_delays(table) else ADMITTED


def room_in(buffer, length):
    """The column of a buffer for a file of this length, or None."""
    spare = len(buffer) - length
    return NO_BUFFER if not buffer else BESIDE.get(spare, LONGER if spare > 0 else None)


def write_marks(answer, wish, table, _, codes, buffer):
    """The marks of the writer."""
    number, row = answer[0], NAMES.get(table) if wish else NONE_WISHED
    if not wish:
        yield NONE_WISHED, number, handed_kind(table)
    if row and number in (0, NO_ROOM):
        how = room_in(buffer, len(file_of(NEW_DEFAULT, bytes(RECORD.size * len(codes)))))
        if how in rooms(row):
            yield "written room", row, how
        if not wish:
            yield "wished records", len(codes) if len(codes) < 2 else MORE, FULL if number else WRITTEN


def channel_marks(name, table, state, code, amount, number):
    """The marks of a tick under one of the defaults, within the channel's limit or past it."""
    if code != TICK or state.stage not in STAGES or state.phase not in PHASES or number not in (0, PAST_STAGE_LIMIT):
        return
    which, age = NAMES.get(table), state.clock + amount - state.stage_time
    if age in AGES.get(which, ()):
        yield "channel", name, f"{which} {age}"
    if which and OLD_DEFAULT.Channel_DL < age <= NEW_DEFAULT.Channel_DL:
        what = OLD_REFUSES if which == OLD else NEW_ACCEPTS
        yield "apart", PHASES[state.phase].order.name, f"{STAGES[state.stage]}, {what}"


def answers_to(table, state, records):
    """Each record's number, its excess and the state after it, from a state to the first that is refused."""
    for given in map(record, fours(records)):
        number, excess, state = admitted_step(table, state, *given)
        yield number, excess, state
        if number:
            return


def along_marks(name, table, state, records, answers):
    """The marks of ticks along records from a state, by the answers to these."""
    for (code, amount, _), (number, _, after) in zip(map(record, fours(records)), answers):
        yield from channel_marks(name, table, state, code, amount, number)
        state = after


def records_marks(name, table, state, records):
    """The marks of ticks along the whole records among these bytes, under one of the defaults."""
    if table in NAMES:
        whole = records[:len(records) // RECORD.size * RECORD.size]
        yield from along_marks(name, table, state, whole, answers_to(table, state, whole))


def answers_of_both(records):
    """The answers to records from the start, under the old and the new default."""
    return {table: list(answers_to(table, START, records)) for table in NAMES}


def verdict(answers):
    """The number, the records accepted and the excess, of answers."""
    number, excess, _ = answers[-1] if answers else (0, 0, START)
    return number, len(answers) - (number > 0), excess


def said(answers):
    """What the old and the new default say, by the answers of both."""
    old, new = (verdict(answers[table]) for table in (OLD_DEFAULT, NEW_DEFAULT))
    if not old[0]:
        return OLD_ALONE if new[0] else BOTH_ACCEPT
    if not new[0]:
        return NEW_ALONE
    return NEW_LATER if new[1] > old[1] else ALIKE if new == old else OTHER_EXCESS


def file_marks(name, file):
    """The marks of a file that is judged under one of the defaults."""
    number, _, table, records = read(file)
    if number or table not in NAMES:
        return
    answers = answers_of_both(records)
    yield from along_marks(name, table, START, records, answers[table])
    row = {0: NO_ENTRIES, WITHOUT_DELAYS: NAMES[table]}.get(header_of(file).k)
    if row:
        yield "both defaults", row, said(answers)


def step_marks(answer, table, state, code, amount):
    """The marks of a step."""
    yield from channel_marks("step", table, state, code, amount, answer[0])


def advance_marks(answer, table, state, four):
    """The marks of the running judge."""
    code, amount, _ = record(four)
    yield from channel_marks("advance", table, state, code, amount, answer[0])


def read_marks(answer, file):
    """The mark of a file that has no table of its own."""
    k = header_of(file).k if len(file) >= HEADER.size else None
    if k is None:
        yield "read as old", SHORT, answer[0]
    elif k not in TOO_SHORT:
        yield "read as old", OTHER_NUMBER if k else NO_ENTRIES, answer[0]
    elif len(file) < record_offset(k):
        yield "read as old", TOO_SHORT[k], answer[0]


def line_marks(answer, file, _):
    """The marks of a line that is laid."""
    if not answer[0]:
        yield from file_marks("line", file)


def block_marks(_, table, state, records):
    """The marks of a block."""
    yield from records_marks("block", table, state, records)


def extend_marks(answer, table, state, held, count, records, buffer):
    """The marks of an extension whose records are judged."""
    if answer[0] in (0, *range(NO_SUCH_CODE, PAST_CLOCK + 1)):
        yield from records_marks("extend", table, state, records)


DEFAULT_MARKS = {
    "step": step_marks, "advance": advance_marks, "read": read_marks, "line": line_marks, "write": write_marks,
    "block": block_marks, "extend": extend_marks,
    "judge": lambda _, file: file_marks("judge", file),
    "list": lambda _, file, __: file_marks("list", file),
    "manual": lambda _, table, records: records_marks("manual", table, START, records),
}


def default_marks(name, answer, *parts):
    """What a case covers of the old and the new default."""
    return DEFAULT_MARKS[name](answer, *parts) if name in DEFAULT_MARKS else ()
