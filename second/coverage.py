"""The coverage of a comparison: in how many cases each thing that can come up did, as tables."""

from collections import Counter
from typing import Dict, NamedTuple, Sequence, Set

import extend_coverage
import list_coverage
import m9
from default_coverage import DEFAULT_GRIDS, default_marks
from delay_coverage import ANSWERS, DELAY_GRIDS, SIZES, delay_marks
from files import NO_ROOM, RECORD, block, fours, judge, judged, line, read, record
from places import HOW, PLACES, place_of
from records import LISTED, UNLISTED
from rules import (
    ASK_CLUTCH, BOXES, DEVICE_FAILED, DEVICE_GOOD, DEVICE_PHASES, ENGINE_PHASES, ERROR, GOOD, IN_GEAR, NEUTRAL,
    NO_SUCH_CODE, NOT_ADMITTED, NOT_ALLOWED, ORDERS, PAST_CLOCK, PAST_PHASE_LIMIT, PAST_STAGE_LIMIT, PHASES, RELEASE,
    REQUESTS, RESET, SENT, SET, START, STAGES, SYNC, TAKE, TICK, TOO_EARLY, TOO_LATE, WORKING, WRONG_AMOUNT, WRONG_BOX,
    ZERO_TORQUE, broken_rule, excesses, slacks,
)
from settlements import DELAY_GUARDS
from table_coverage import TABLE_GRIDS, print_marks, rules_marks, tighter_marks
from tables import RULES
from text_coverage import TEXT_GRIDS, text_marks

# No walk takes too late: rules 2 and 3 see to that. No file holds ticks enough to pass the last clock.
NEVER_IN_A_FILE = {TOO_LATE, PAST_CLOCK}

STAGE_NAMES = "none", "sent", "working", "good", "failed", "waiting"
GIVEN_NAMES = tuple(f"({name})" for name in STAGE_NAMES)
ORDER_NAMES = tuple(order.name for order in ORDERS)
# How many numbers are listed in these fields of a state.
LISTED_NUMBERS = {"phase": ERROR + 1, "stage": len(STAGES), "box": len(BOXES)}
ALL_RULES = set(RULES)
OTHER = "other"
NO_CODES = (*UNLISTED, OTHER)
CODES = (*LISTED, *NO_CODES)
BOX_NAMES = "neutral", "in gear"
MOVES = tuple(f"{before}, {after}" for before in BOX_NAMES for after in BOX_NAMES)
# The phases in which walks have the box in gear.
IN_GEAR_PHASES = {5, 6, 7, 8, 9, 15, 16, 17, 18, 19, 20}
RESET_NUMBERS = 0, WRONG_AMOUNT, NOT_ALLOWED
WAS_RESET = "reset"
ERROR_COLUMNS = (*BOX_NAMES, WAS_RESET, *(f"then {code}" for code in REQUESTS))
KEPT, PASSED, REFUSED = "just kept", "passed by one", "refused by it"
STAGE_LIMITS = {SENT: "channel, sent", WORKING: "device", GOOD: "channel, good"}
LESS, MORE = "less", "more"
# The functions that are given a state, and those that begin at the start.
STATE_GIVEN, FROM_START = ("step", "advance", "block", "extend"), ("judge", "manual", "list")
# The refusals with an excess.
OVER = range(TOO_EARLY, PAST_CLOCK + 1)
# The outcomes of blocks, where the refused record of one stands, and the code that bytes left over begin with.
NO_RECORD, ACCEPTED, IS_REFUSED = "no record", "accepted", "refused"
BAD_TABLE = ", bad table"
OUTCOMES = NO_RECORD, NO_RECORD + BAD_TABLE, ACCEPTED, IS_REFUSED, IS_REFUSED + BAD_TABLE
ALONE, FIRST, BETWEEN, LAST = "alone", "first", "between", "last"
LISTED_LEFT, UNLISTED_LEFT = "a code left over", "no code left over"


def reachable(phase):
    """The stages that walks reach in a phase."""
    if phase not in PHASES:
        return {"none"}
    return {"sent", "working", "good", "waiting" if phase in ENGINE_PHASES else "failed"}


def step_numbers(code):
    """The numbers that a step can give on any state and table."""
    if code in NO_CODES:
        return {4, 5}
    own = {8} if code in REQUESTS else {
        TAKE: {10}, ASK_CLUTCH: {9}, DEVICE_GOOD: {9}, DEVICE_FAILED: {9}, TICK: {11, 12, 13}}.get(code, set())
    return {0, 4, 6, 7} | own


def later_numbers(code):
    """The numbers that a record can give behind an accepted one; that leads to a listed state, so a tick gives no 7."""
    return step_numbers(code) - {NOT_ADMITTED} - ({NOT_ALLOWED} if code == TICK else set())


def record_numbers(code):
    """The numbers that a record can give in a file that is read; its states are all listed."""
    return later_numbers(code) - NEVER_IN_A_FILE


def manual_numbers(code):
    """The numbers that a record can give in a list; the first may be refused for the table."""
    return record_numbers(code) | {NOT_ADMITTED}


def numbers_by_event():
    """The rows of a grid of events and numbers; no record takes too late."""
    own = {code: {WRONG_BOX} for code in REQUESTS}
    own.update({ASK_CLUTCH: {TOO_EARLY}, TICK: {PAST_PHASE_LIMIT, PAST_STAGE_LIMIT}})
    delayed = {event for event, *_ in DELAY_GUARDS}
    return {name: {0} | own.get(code, set()) | ({TOO_EARLY} if name in delayed else set())
            for code, names in m9.NAMES_BY_CODE.items() for name in names}


def numbers_by_code(numbers):
    """The rows of a grid of numbers and codes."""
    rows = {number: {code for code in CODES if number in numbers(code)} for number in range(14)}
    return {number: codes for number, codes in rows.items() if codes}


def written_numbers(code):
    """The numbers that the writer can give for a code."""
    return {NO_SUCH_CODE} if code in NO_CODES else {0, WRONG_AMOUNT}


def reset_columns(phase):
    """The functions with the numbers that they can give for a reset; in error 7 is for a state that is not listed."""
    numbers = {"step": {6, 7}, "advance": {6, 7}, "judge": {6, 7}} if phase != ERROR else {
        "step": {0, 6, 7}, "advance": {0, 6, 7}, "judge": {0, 6}}
    return {f"{name} {number}" for name, found in numbers.items() for number in found}


def moves(order, boxes):
    """How taking an order moves these boxes."""
    return {f"{BOX_NAMES[box]}, {BOX_NAMES[{SET: IN_GEAR, RELEASE: NEUTRAL}.get(order, box)]}" for box in boxes}


def walked_box(phase):
    """The box that walks have in a phase."""
    return IN_GEAR if phase in IN_GEAR_PHASES else NEUTRAL


def errors_by_phase():
    """The rows of a grid of failed phases: the box in error, the reset, and the requests that this box allows."""
    return {phase: {BOX_NAMES[walked_box(phase)], WAS_RESET,
                    *(f"then {code}" for code, request in REQUESTS.items() if request.box == walked_box(phase))}
            for phase in sorted(DEVICE_PHASES)}


def limits_by_order(never=()):
    """The rows of a grid of limits and orders; only engines have EX and DE."""
    rows = {}
    for limit in ("channel, sent", "channel, good", "device", "phase", "EX", "DE", "last clock"):
        for row in (f"{limit}: kept", f"{limit}: passed"):
            if row not in never:
                rows[row] = {SYNC.name, ZERO_TORQUE.name} if limit in ("EX", "DE") else set(ORDER_NAMES)
    return rows


def excess_sizes(number):
    """The sizes of an excess on given states: past 32 bits is no clock, so only too early can be; 13's is in a tick."""
    return {TOO_EARLY: {*SIZES}, PAST_CLOCK: {"1", "16 bits"}}.get(number, {*SIZES} - {"64 bits"})


def sizes_by_number():
    """The rows of a grid of functions with their refusals and of sizes; from the start no limit is far off."""
    rows = {f"{name} {number}": excess_sizes(number) for name in STATE_GIVEN for number in OVER}
    rows.update((f"{name} {number}", {"1", "16 bits"})
                for name in FROM_START for number in OVER if number not in NEVER_IN_A_FILE)
    return rows


def both_limits(*how):
    """The columns of ticks that pass both limits."""
    return {f"{limit}: {each}" for limit in STAGE_LIMITS.values() for each in how}


class Grid(NamedTuple):
    """A table of counts: its columns and, for each row, the columns in which something can come up."""

    title: str
    columns: Sequence
    rows: Dict[object, Set]


GRIDS = {
    "numbers": Grid("numbers that each function gave", range(17), {
        "admit": {0, 4},
        "step": {0, *range(4, 14)},
        "advance": {0, *range(4, 14)},
        "read": {*range(5)},
        "judge": {*range(14)} - NEVER_IN_A_FILE,
        "line accepted": {0, 15},
        "line refused": {0, 15},
        "line unread": {0, 15},
        "join": {0, 14, 15, 16},
        "join, held": {15},
        "write": {0, *range(2, 7), 15},
        "manual": {0, *range(4, 14)} - NEVER_IN_A_FILE,
        "block": {0, *range(4, 14)},
        "list": {*range(14), 15} - NEVER_IN_A_FILE,
        "fetch": {*range(4), 14},
        "extend": {*range(16)},
        "extend, held": {15},
    }),
    "rules": Grid("rules that each function gave, 0 for an admitted table, and the nearest tables", range(17), {
        "admit": {0} | ALL_RULES,
        "step": ALL_RULES,
        "advance": ALL_RULES,
        "read": ALL_RULES,
        "judge": ALL_RULES,
        "write": ALL_RULES,
        "manual": ALL_RULES,
        "block": ALL_RULES,
        "list": ALL_RULES,
        "extend": ALL_RULES,
        "broken by one": ALL_RULES,
        "just kept": ALL_RULES,
    }),
    "stages": Grid(
        "phases and stages that accepted walks reached and, in brackets, that were given to step",
        STAGE_NAMES + GIVEN_NAMES,
        {phase: reachable(phase) | set(GIVEN_NAMES) for phase in range(ERROR + 1)},
    ),
    "step": Grid("numbers of step, by code", CODES, numbers_by_code(step_numbers)),
    "advance": Grid("numbers of advance, by code", CODES, numbers_by_code(step_numbers)),
    "judge": Grid("numbers of records in judged files, by code", CODES, numbers_by_code(record_numbers)),
    "write": Grid("numbers of records that were to be written, by code", CODES, numbers_by_code(written_numbers)),
    "takes": Grid(
        "takes accepted by step and advance, by phase, and the box before and after",
        MOVES,
        {phase: moves(row.order, BOXES) for phase, row in PHASES.items()},
    ),
    "file takes": Grid(
        "takes accepted in judged files, by phase, and the box before and after",
        MOVES,
        {phase: moves(row.order, {walked_box(phase)}) for phase, row in PHASES.items()},
    ),
    "resets": Grid(
        "numbers of resets, by phase",
        tuple(f"{name} {number}" for name in ("step", "advance", "judge") for number in RESET_NUMBERS),
        {phase: reset_columns(phase) for phase in range(ERROR + 1)},
    ),
    "accepted resets": Grid(
        "resets accepted by step and by advance, by stage and box",
        tuple(f"{name}, {box}" for name in ("step", "advance") for box in BOX_NAMES),
        {stage: {f"{name}, {box}" for name in ("step", "advance") for box in BOX_NAMES} for stage in STAGE_NAMES},
    ),
    "errors": Grid(
        "errors in judged files, by failed phase: the box, and what was accepted next",
        ERROR_COLUMNS,
        errors_by_phase(),
    ),
    "limits": Grid("limits just kept, or passed by one, in step and advance", ORDER_NAMES, limits_by_order()),
    "file limits": Grid(
        "limits just kept, or passed by one, in judged files",
        ORDER_NAMES,
        limits_by_order(never=("EX: passed", "last clock: kept", "last clock: passed")),
    ),
    "manual": Grid("numbers of the manual's engine in lists, by code", CODES, numbers_by_code(manual_numbers)),
    "places": Grid("places of the manual's machine that lists reached: phases, or those that were left", HOW, PLACES),
    "place resets": Grid("places of the manual's machine where a reset was tried", HOW, PLACES),
    "place errors": Grid(
        "errors of the manual's machine, by failed phase: the box, and what was accepted next",
        ERROR_COLUMNS,
        errors_by_phase(),
    ),
    "events": Grid(
        "events of the manual's machine that were chosen, by the number that their guards on the box and on times gave",
        (0, WRONG_BOX, TOO_EARLY, PAST_PHASE_LIMIT, PAST_STAGE_LIMIT),
        {name: numbers_by_event()[name] for name in m9.EVENTS},
    ),
    "deadlines": Grid(
        "guards of Tick_Tock",
        (KEPT, PASSED, REFUSED),
        {deadline.label: {KEPT, PASSED, REFUSED} for deadline in m9.M9.deadlines},
    ),
    "block places": Grid(
        "numbers of blocks, by the place of the refused record",
        (ALONE, FIRST, BETWEEN, LAST),
        {number: {ALONE, FIRST} | ({BETWEEN, LAST} if number > NOT_ADMITTED else set()) for number in range(4, 14)},
    ),
    "extend places": Grid(
        "numbers of records that were appended, by the place of the refused record",
        (ALONE, FIRST, BETWEEN, LAST),
        {number: {ALONE, FIRST, BETWEEN, LAST} for number in range(NO_SUCH_CODE, 14)},
    ),
    "left over": Grid(
        "blocks, by the bytes left over",
        (*OUTCOMES, LISTED_LEFT, UNLISTED_LEFT),
        {left: {*OUTCOMES} | ({LISTED_LEFT, UNLISTED_LEFT} if left else set()) for left in range(RECORD.size)},
    ),
    "excesses": Grid("refusals with an excess, by its size", tuple(SIZES), sizes_by_number()),
    "both limits": Grid(
        "ticks past both limits, by how far they are past that of the phase beside the other",
        sorted(both_limits(LESS, MORE)),
        # From the start the limit of a phase is the later one: rules 2 to 11 see to that.
        {**{name: both_limits(LESS, MORE) for name in STATE_GIVEN}, **{name: both_limits(LESS) for name in FROM_START}},
    ),
    "digits": Grid(
        "digits of the excess on lines, by number",
        range(1, 6),
        {number: set(range(1, 6)) for number in OVER if number not in NEVER_IN_A_FILE},
    ),
    "unlisted": Grid(
        "numbers of blocks on states that are not listed, by the field",
        (NO_RECORD, NOT_ADMITTED, NO_SUCH_CODE, WRONG_AMOUNT, NOT_ALLOWED),
        {field: {NO_RECORD, NOT_ADMITTED, NO_SUCH_CODE, WRONG_AMOUNT, NOT_ALLOWED} for field in LISTED_NUMBERS},
    ),
    "list ends": Grid(
        "phases and stages in which files ended that have a list",
        STAGE_NAMES,
        {phase: reachable(phase) for phase in range(ERROR + 1)},
    ),
    **{name: Grid(*grid) for grids in (
        list_coverage.LIST_GRIDS, extend_coverage.EXTEND_GRIDS, DELAY_GRIDS, DEFAULT_GRIDS, TEXT_GRIDS, TABLE_GRIDS,
    ) for name, grid in grids.items()},
}


def limit_name(refusal, stage):
    """A limit's name, by the refusal for passing it."""
    if refusal == PAST_STAGE_LIMIT:
        return STAGE_LIMITS[stage]
    return {PAST_PHASE_LIMIT: "phase", TOO_LATE: "EX", TOO_EARLY: "DE", PAST_CLOCK: "last clock"}[refusal]


def limit_marks(grid, table, state, code, amount, number):
    """The limits that an accepted step just keeps, or the one that a refused step passes by one; but for delays."""
    if state.phase not in PHASES or 0 < number < TOO_EARLY or code in ANSWERS:
        return
    for refusal, excess in excesses(table, state, code, amount):
        if (number, excess) in ((0, 0), (refusal, 1)):
            row = f"{limit_name(refusal, state.stage)}: {'passed' if number else 'kept'}"
            yield grid, row, PHASES[state.phase].order.name


def excess_marks(name, number, excess):
    """The mark of a refusal's excess."""
    if excess:
        yield "excesses", f"{name} {number}", next(size for size, largest in SIZES.items() if excess <= largest)


def both_marks(name, stage, found):
    """The mark of a tick that passes both limits unequally far, by its excesses, each behind its refusal."""
    past = dict(found)
    past_stage, past_phase = past.get(PAST_STAGE_LIMIT, 0), past.get(PAST_PHASE_LIMIT, 0)
    if min(past_stage, past_phase) > 0 and past_stage != past_phase:
        yield "both limits", name, f"{STAGE_LIMITS[stage]}: {LESS if past_phase < past_stage else MORE}"


def column(code):
    """The column of a code."""
    return code if code in CODES else OTHER


def record_marks(name, limits, table, state, code, amount, number):
    """The marks of a code, an amount and their number, in the grids of a function and of its limits."""
    yield name, number, column(code)
    yield from limit_marks(limits, table, state, code, amount, number)
    if number == PAST_STAGE_LIMIT:
        yield from both_marks(name, state.stage, excesses(table, state, code, amount))
    if code == RESET and number in RESET_NUMBERS and state.phase <= ERROR:
        yield "resets", state.phase, f"{name} {number}"


def take_marks(grid, state, code, number, after):
    """The mark of a take that is accepted."""
    if (code, number) == (TAKE, 0):
        yield grid, state.phase, f"{BOX_NAMES[state.box]}, {BOX_NAMES[after.box]}"


def single_marks(name, answer, table, state, code, amount):
    """The marks of a step on a given state."""
    number, rule, excess, after = answer
    yield from answer_marks(name, number, rule)
    yield from excess_marks(name, number, excess)
    yield from record_marks(name, "limits", table, state, code, amount, number)
    yield from take_marks("takes", state, code, number, after)
    if (code, number) == (RESET, 0):
        yield "accepted resets", STAGE_NAMES[state.stage], f"{name}, {BOX_NAMES[state.box]}"


def error_marks(grid, accepted):
    """The marks of errors along accepted steps: of each its code, the failed phase before and after it, and the box."""
    reset_from = None
    for code, failed_before, failed, box in accepted:
        if failed and not failed_before:
            yield grid, failed, BOX_NAMES[box]
        if code == RESET:
            reset_from = failed_before
            yield grid, reset_from, WAS_RESET
        if code in REQUESTS and reset_from:
            yield grid, reset_from, f"then {code}"
            reset_from = None


def answer_marks(name, number, rule):
    """The marks of a number and a rule."""
    yield "numbers", name, number
    if rule:
        yield "rules", name, rule


def admit_marks(rule, table):
    """The marks of an admission."""
    yield "numbers", "admit", NOT_ADMITTED if rule else 0
    yield "rules", "admit", rule
    for number, slack in enumerate(slacks(table), 1):
        if slack == -1 and number == rule:
            yield "rules", "broken by one", number
        if slack == 0 and not 0 < rule < number:
            yield "rules", "just kept", number


def step_marks(answer, table, state, code, amount):
    """The marks of a step."""
    yield from single_marks("step", answer, table, state, code, amount)
    if state.phase <= ERROR and state.stage < len(GIVEN_NAMES):
        yield "stages", state.phase, GIVEN_NAMES[state.stage]


def advance_marks(answer, table, state, four):
    """The marks of the running judge."""
    code, amount, _ = record(four)
    yield from single_marks("advance", answer, table, state, code, amount)


def read_marks(answer, _):
    """The marks of the reader."""
    number, rule, _, _ = answer
    yield from answer_marks("read", number, rule)


def judge_marks(answer, file):
    """The marks of the judge, and of each record that it judges."""
    number, rule, _, excess, _ = answer
    yield from answer_marks("judge", number, rule)
    yield from excess_marks("judge", number, excess)
    _, _, table, records = read(file)
    state, accepted = START, []
    yield "stages", state.phase, STAGE_NAMES[state.stage]
    for four, (number, _, after) in zip(fours(records), judged(table, records)):
        code, amount, _ = record(four)
        yield from record_marks("judge", "file limits", table, state, code, amount, number)
        yield from take_marks("file takes", state, code, number, after)
        yield "stages", after.phase, STAGE_NAMES[after.stage]
        if not number:
            accepted.append((code, state.failed_phase, after.failed_phase, after.box))
        state = after
    yield from error_marks("errors", accepted)


def line_marks(answer, file, _):
    """The marks of a line."""
    word, _, reason, _, _, _, excess = line(file).decode().split()
    yield "numbers", f"line {word}", answer[0]
    if excess != "0" and answer[0] == 0:
        yield "digits", int(reason), len(excess)


def join_marks(answer, held, _, __, buffer):
    """The marks of joining."""
    number, _, _ = answer
    yield "numbers", "join, held" if number == NO_ROOM and held > len(buffer) else "join", number


def write_marks(answer, _, __, ___, codes, ____):
    """The marks of the writer."""
    number, rule, index, *_ = answer
    yield from answer_marks("write", number, rule)
    if number in (NO_SUCH_CODE, WRONG_AMOUNT):
        yield "write", number, column(codes[index])
    elif not number:
        yield from (("write", number, code) for code in set(codes))


def event_marks(table, variables, code, amount, number):
    """The marks of the event that a record chooses, and of the guards of Tick_Tock that watch over it."""
    if 0 < number <= NOT_ALLOWED:
        return
    yield "events", "Tick_Tock" if code == TICK else m9.M9.chosen(variables, code).name, number
    found = m9.M9.excesses(table, variables, amount) if code == TICK else []
    if number == PAST_STAGE_LIMIT:
        past = [(deadline.refusal(), excess) for deadline, excess in found]
        yield from both_marks("manual", m9.reading(variables).stage, past)
    for deadline, excess in found:
        if (number, excess) == (0, 0):
            yield "deadlines", deadline.label, KEPT
        if excess > 0 and number == deadline.refusal():
            yield "deadlines", deadline.label, REFUSED
            if excess == 1:
                yield "deadlines", deadline.label, PASSED


def manual_marks(answer, table, records):
    """The marks of the manual's engine, and of each record that it is advanced by."""
    (number, rule, _, excess), *_ = answer
    yield from answer_marks("manual", number, rule)
    yield from excess_marks("manual", number, excess)
    variables, accepted = m9.START, []
    yield ("places", *place_of(variables))
    for four in fours(records):
        code, amount, middle = record(four)
        number, *_, after = m9.step(table, variables, code, amount, middle)
        yield "manual", number, column(code)
        yield from event_marks(table, variables, code, amount, number)
        if code == RESET and number in (0, NOT_ALLOWED):
            yield ("place resets", *place_of(variables))
        yield ("places", *place_of(after))
        if number:
            break
        accepted.append((code, m9.error_phase(variables), m9.error_phase(after), m9.reading(after).box))
        variables = after
    yield from error_marks("place errors", accepted)


def place_in(index, count):
    """The place of a record among so many."""
    if count == 1:
        return ALONE
    return FIRST if index == 0 else LAST if index == count - 1 else BETWEEN


def both_in_records(name, number, table, state, records):
    """The mark of a refused record, the first of these, that passes both limits on the state before it."""
    if number == PAST_STAGE_LIMIT:
        code, amount, _ = record(records[:RECORD.size])
        yield from both_marks(name, state.stage, excesses(table, state, code, amount))


def block_marks(answer, table, state, records):
    """The marks of a block."""
    number, rule, accepted, excess, reached = answer
    yield from answer_marks("block", number, rule)
    yield from excess_marks("block", number, excess)
    count, left = divmod(len(records), RECORD.size)
    if number:
        yield "block places", number, place_in(accepted, count)
    yield from both_in_records("block", number, table, reached, records[RECORD.size * accepted:])
    outcome = NO_RECORD if not count else IS_REFUSED if number else ACCEPTED
    yield "left over", left, outcome + (BAD_TABLE if broken_rule(table) else "")
    if left and outcome == ACCEPTED:
        yield "left over", left, LISTED_LEFT if records[-left] in LISTED else UNLISTED_LEFT
    for field, listed in LISTED_NUMBERS.items():
        if getattr(state, field) >= listed:
            yield "unlisted", field, number if count else NO_RECORD


def list_marks(answer, file, buffer):
    """The marks of a list that is built."""
    number, rule, index, excess, _, _ = answer
    yield from answer_marks("list", number, rule)
    yield from excess_marks("list", number, excess)
    _, _, table, records = read(file)
    *_, state = judge(file)
    yield from both_in_records("list", number, table, state, records[RECORD.size * index:])
    if number in (0, NO_ROOM):
        yield "list ends", state.phase, STAGE_NAMES[state.stage]
    yield from list_coverage.build_marks(file, buffer)


def fetch_marks(answer, number, listed):
    """The marks of a fetch."""
    yield "numbers", "fetch", answer[0]
    yield from list_coverage.fetch_marks(answer, number, listed)


def extend_marks(answer, table, state, held, count, records, buffer):
    """The marks of an extension."""
    number, rule, index, excess, _, _ = answer
    yield from answer_marks("extend, held" if held > len(buffer) else "extend", number, rule)
    yield from excess_marks("extend", number, excess)
    if number in range(NO_SUCH_CODE, PAST_CLOCK + 1):
        yield "extend places", number, place_in(index - count, len(records) // RECORD.size)
        reached = block(table, state, records)[-1]
        yield from both_in_records("extend", number, table, reached, records[RECORD.size * (index - count):])
    yield from extend_coverage.extend_marks(answer, table, state, held, count, records, buffer)


MARKS = {
    "admit": admit_marks,
    "step": step_marks,
    "advance": advance_marks,
    "read": read_marks,
    "judge": judge_marks,
    "line": line_marks,
    "join": join_marks,
    "write": write_marks,
    "manual": manual_marks,
    "block": block_marks,
    "list": list_marks,
    "fetch": fetch_marks,
    "extend": extend_marks,
    "text": text_marks,
    "tighter": tighter_marks,
    "print": print_marks,
    "rules": rules_marks,
    "bad": lambda _: (),
}


def marks(worked):
    """What a case that is worked out covers, as cells: a grid's name, a row and a column."""
    name, parts, answer = worked
    return {*MARKS[name](answer, *parts), *delay_marks(name, answer, *parts), *default_marks(name, answer, *parts)}


def possible_cells():
    """The cells in which something can come up."""
    for name, grid in GRIDS.items():
        for row, columns in grid.rows.items():
            yield from ((name, row, column) for column in columns)


class Coverage:
    """The count of cases for each cell."""

    def __init__(self):
        self.counts = Counter()

    def add(self, worked):
        """Count a case in."""
        self.counts.update(marks(worked))

    def met(self):
        """How many of the possible cells came up."""
        return sum(self.counts[cell] > 0 for cell in possible_cells())

    def faults(self):
        """What did not come up though it can, and what did though it can't, as text."""
        possible = set(possible_cells())
        for said, cells in (("missing", possible - self.counts.keys()), ("impossible", self.counts.keys() - possible)):
            for name, row, column in sorted(cells, key=str):
                yield f"{said}: {GRIDS[name].title}: row {row}, column {column}"

    def tables(self):
        """The grids as lines of text; a dot stands where nothing can come up."""
        for name, grid in GRIDS.items():
            label = max(len(str(row)) for row in grid.rows)
            widths = [max(6, len(str(column)) + 1) for column in grid.columns]
            yield f"{grid.title}:"
            yield aligned("", label, grid.columns, widths)
            for row, possible in grid.rows.items():
                cells = [self.counts[name, row, column] if column in possible else "." for column in grid.columns]
                yield aligned(row, label, cells, widths)
            yield ""


def aligned(row, label, cells, widths):
    """A line of a table."""
    return f"{row:<{label}}" + "".join(f"{cell:>{width}}" for cell, width in zip(cells, widths))
