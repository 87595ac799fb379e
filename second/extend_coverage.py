"""What a comparison covers of lists that are extended: grids, as a title, columns and rows, and the marks of a case."""

from files import RECORD, k_written, most_records, record
from list_coverage import (
    CUT, END_NAMES, EXACT, GONE_ON, IN_DONE, IN_ERROR, KEPT, LONGER, NEW, ONE_SHORT, SHIFTS, SHORTER, SIZES, STAYED,
    WENT_ON, WRAPS, damage_marks, foreign_marks, open_marks, room, shift_marks, size_of, tick_marks,
)
from rules import ALLOWED, ASK_CLUTCH, AT_REST, DONE, ENGINE_WAITS, ERROR, PHASES, REQUESTS, admitted_step, broken_rule
from shifts import ENTRY, FIRST_ENTRY, HEAD, OPEN, age_at, along, entry_at, fits, last_entry, shifts_along

# Why an extension is refused, in order, with the number; 0 stands for the record's own.
REASONS = {
    "held": 15, "short": 1, "offset": 2, "length": 3, "records": 2, "shifts": 2, "table": 4, "fit": 14, "record": 0,
    "room": 15,
}
ALONE = "alone"
# Where a state is.
IN_A_SHIFT, RESTING, NO_PHASE = "in a shift", "at rest", "phase above 23"
OUTSIDE = RESTING, IN_DONE, IN_ERROR, NO_PHASE
WHERE = {**{phase: IN_A_SHIFT for phase in PHASES}, AT_REST: RESTING, DONE: IN_DONE, ERROR: IN_ERROR}
# For what a state and a list do not fit, and how they do.
NO_ENTRY, NOT_OPEN, STILL_OPEN, AT_COUNT = "no entry", "end not 0", "end 0", "last record the count"
ONE_OFF = tuple((f"{field} one less", f"{field} one more") for field in ("last record", "request time", "age"))
EMPTY, JUST_BELOW, BELOW = "empty list", "last record just below the count", "last record further below"
BEFORE, AT, AFTER = "clock before the request", "clock at the request", "clock after the request"
# What comes of the records, and of a shift that goes on.
NO_RECORD, ACCEPTED, IS_REFUSED, TOO_MANY = "no record", "accepted", "refused", "too many"
LEFT_OPEN, WAITED, ASKED, THEN_NEW = "left open", "engine only waits", "clutch asked for", "then new shifts"
BECAME = NO_RECORD, LEFT_OPEN, *END_NAMES[1:], WAITED, ASKED, THEN_NEW
IN_ALL, ONE_TOO_MANY = "the most in all", "one more in all"


def later_reasons(reason):
    """The reasons behind this one that have another number and can hold with it: what is not held can't be read."""
    names = list(REASONS)
    later = {name for name in names[names.index(reason) + 1:] if REASONS[name] != REASONS[reason]}
    return later - ({"fit"} if reason == "held" else set())


def first_codes(phase):
    """The codes that can be accepted first in a phase, and none."""
    return {NO_RECORD} | {code for code, (phases, _) in ALLOWED.items() if phase in phases}


EXTEND_GRIDS = {
    "reasons": (
        "reasons for which extensions are refused: what else of another number would be",
        (ALONE, *list(REASONS)[1:]),
        {reason: {ALONE} | later_reasons(reason) for reason in REASONS},
    ),
    "misfits": (
        "states and lists that do not fit, for one thing",
        (IN_A_SHIFT, *OUTSIDE),
        {**{row: {IN_A_SHIFT} for row in (NO_ENTRY, NOT_OPEN, *(row for pair in ONE_OFF for row in pair))},
         **{row: {*OUTSIDE} for row in (STILL_OPEN, AT_COUNT)}},
    ),
    "fits": (
        "states and lists that fit",
        (IN_A_SHIFT, *OUTSIDE),
        {**{row: {*OUTSIDE} for row in (EMPTY, JUST_BELOW, BELOW)},
         **{row: {IN_A_SHIFT} for row in (BEFORE, AT, AFTER)}},
    ),
    "cuts": (
        "phases of files that were extended, and the first new code",
        (NO_RECORD, *ALLOWED),
        {phase: first_codes(phase) for phase in range(ERROR + 1)},
    ),
    "gone on": (
        "open shifts that were extended, by kind and route: what became of them",
        BECAME,
        {row: {*BECAME} for row in SHIFTS},
    ),
    "extended room": (
        "longer lists, by their new shifts: the buffer",
        (SHORTER, ONE_SHORT, EXACT, LONGER),
        {size: {SHORTER, ONE_SHORT, EXACT, LONGER} if size else {EXACT, LONGER} for size in SIZES},
    ),
    "counts": (
        "records before those that were appended",
        (ACCEPTED, IS_REFUSED, TOO_MANY),
        {**{row: {ACCEPTED, IS_REFUSED} for row in ("0", "8 bits", "16 bits", IN_ALL)},
         **{row: {TOO_MANY} for row in (ONE_TOO_MANY, WRAPS)}},
    ),
    "extended left over": (
        "extensions, by the bytes left over",
        (NO_RECORD, ACCEPTED, IS_REFUSED),
        {left: {NO_RECORD, ACCEPTED, IS_REFUSED} for left in range(RECORD.size)},
    ),
}


def run_under_any(table, state, records):
    """The number of the first record that is refused, whether or not the table is admitted, and the codes before it."""
    codes = []
    for place in range(0, len(records) - RECORD.size + 1, RECORD.size):
        code, *rest = record(records[place:place + RECORD.size])
        number, _, state = admitted_step(table, state, code, *rest)
        if number:
            return number, codes
        codes.append(code)
    return 0, codes


def last_of(listed):
    """The entry in the last bytes of what may be no list, or None where it is too short for one."""
    return last_entry(listed) if len(listed) >= HEAD.size + ENTRY.size else None


def reasons(table, state, held, count, records, buffer):
    """All reasons for which an extension can be refused, in order: each by itself, as far as it can be read."""
    number, codes = run_under_any(table, state, records)
    stated, offset = HEAD.unpack_from(buffer) if len(buffer) >= HEAD.size else (0, FIRST_ENTRY)
    found = {
        "held": held > len(buffer),
        "short": held < HEAD.size,
        "offset": offset != FIRST_ENTRY,
        "length": len(buffer) >= HEAD.size and held != FIRST_ENTRY + ENTRY.size * stated,
        "records": count + len(records) // RECORD.size > most_records(k_written(table)),
        "shifts": stated > count,
        "table": broken_rule(table) > 0,
        "fit": held <= len(buffer) and not fits(state, count, last_of(buffer[:held])),
        "record": number > 0,
        "room": held + ENTRY.size * sum(code in REQUESTS for code in codes) > len(buffer),
    }
    return [reason for reason in REASONS if found[reason]]


def reason_marks(found):
    """The marks of the reasons that hold, the first of which is given."""
    others = [reason for reason in found[1:] if reason in later_reasons(found[0])]
    yield from (("reasons", found[0], other) for other in others or [ALONE])


def misfit_marks(state, count, last):
    """The mark of a state and a list that do not fit for one thing alone."""
    where = WHERE.get(state.phase, NO_PHASE)
    if last is None:
        found = [NO_ENTRY]
    elif where == IN_A_SHIFT:
        wanted = count - 1, state.request_time, age_at(state.clock, state.request_time)
        off = [got - right for got, right in zip((last.last, last.request_time, last.age), wanted)]
        found = [{-1: less, 1: more}.get(by) for by, (less, more) in zip(off, ONE_OFF) if by]
        found += [NOT_OPEN] if last.end != OPEN else []
    else:
        found = [STILL_OPEN] if last.end == OPEN else []
        found += [AT_COUNT if last.last == count else None] if last.last >= count else []
    if len(found) == 1 and found[0]:
        yield "misfits", found[0], where


def fit_marks(state, count, last):
    """The mark of a state and a list that fit."""
    where = WHERE.get(state.phase, NO_PHASE)
    if where == IN_A_SHIFT:
        age = state.clock - state.request_time
        yield "fits", BEFORE if age < 0 else AFTER if age else AT, where
    else:
        yield "fits", EMPTY if last is None else JUST_BELOW if last.last == count - 1 else BELOW, where


def count_row(table, count, new):
    """The row of so many records before so many new ones under a table, or None."""
    in_all, most = count + new, most_records(k_written(table))
    if in_all >= most:
        return {most: IN_ALL, most + 1: ONE_TOO_MANY}.get(in_all, WRAPS if in_all >= 2**32 else None)
    return "0" if not count else "8 bits" if count < 2**8 else "16 bits"


def gone_on_marks(last, entry, codes, new):
    """The marks of an open entry, of what it becomes by these codes, and of so many new shifts behind it."""
    yield from shift_marks(GONE_ON, entry)
    if last.kind in REQUESTS and last.first == last.last:
        yield "open shifts", last.kind, CUT
    if last.kind in REQUESTS and last.route < 2:
        row = f"{last.kind}, route {last.route}"
        yield "gone on", row, BECAME[1 + entry.end] if codes else NO_RECORD
        own = codes[:entry.last - last.last]
        if ASK_CLUTCH in own or ENGINE_WAITS in own:
            yield "gone on", row, ASKED if ASK_CLUTCH in own else WAITED
        if new:
            yield "gone on", row, THEN_NEW


def accepted_marks(after, table, state, held, count, new, buffer):
    """The marks of an extension that is accepted, and of the buffer after."""
    codes, states = along(table, state, new)
    listed, shifts = buffer[:held], list(shifts_along(codes, states, count))
    last = last_entry(listed)
    yield from fit_marks(state, count, last)
    if state.phase <= ERROR:
        yield "cuts", state.phase, codes[0] if codes else NO_RECORD
    yield from tick_marks("extend", codes, states, last is not None)
    for shift in shifts:
        yield from shift_marks(NEW, shift)
        yield from open_marks(NEW, shift)
    places = list(range(FIRST_ENTRY, held, ENTRY.size))
    if state.phase in PHASES:
        place = places.pop()
        yield from foreign_marks(listed, place, WENT_ON if codes else STAYED)
        yield from gone_on_marks(last, entry_at(after, place), codes, len(shifts))
    for place in places:
        yield from foreign_marks(listed, place, KEPT)


def extend_marks(answer, table, state, held, count, records, buffer):
    """The marks of an extension."""
    *_, after = answer
    whole, left = divmod(len(records), RECORD.size)
    found = reasons(table, state, held, count, records, buffer)
    first = found[0] if found else None
    if found:
        yield from reason_marks(found)
    if first in ("short", "offset", "length"):
        yield from damage_marks("extend", held, buffer[:HEAD.size])
    if first == "fit":
        yield from misfit_marks(state, count, last_entry(buffer[:held]))
    outcome = {None: ACCEPTED, "record": IS_REFUSED, "records": TOO_MANY}.get(first)
    row = count_row(table, count, whole)
    if outcome and row:
        yield "counts", row, outcome
    if outcome in (ACCEPTED, IS_REFUSED):
        yield "extended left over", left, outcome if whole else NO_RECORD
    if first in (None, "room"):
        more = sum(code in REQUESTS for code in run_under_any(table, state, records)[1])
        yield "extended room", size_of(more), room(held + ENTRY.size * more, buffer)
    if not found:
        yield from accepted_marks(after, table, state, held, count, records[:RECORD.size * whole], buffer)
