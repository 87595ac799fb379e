"""The rules of a shift: the limit table and its admission, the state, the phase table and the thirteen steps."""

from typing import NamedTuple, Optional

# The numbers for what tables and steps are refused for.
NOT_ADMITTED, NO_SUCH_CODE, WRONG_AMOUNT, NOT_ALLOWED, WRONG_BOX = 4, 5, 6, 7, 8
TOO_EARLY, TOO_LATE, PAST_PHASE_LIMIT, PAST_STAGE_LIMIT, PAST_CLOCK = 9, 10, 11, 12, 13

LAST_CLOCK = 4_294_967_295
LONGEST_TICK = 65_535


class Table(NamedTuple):
    """The limit table, by the entries' names and in their order; these values make the old default."""

    Channel_DL: int = 5
    Engine_Sync_DL: int = 100
    Engine_Zero_DL: int = 200
    Clutch_Open_DL: int = 150
    Clutch_Close_DL: int = 150
    Gear_Set_DL: int = 300
    Gear_Release_DL: int = 200
    Sync_EX: int = 150
    Zero_EX: int = 250
    Sync_DL: int = 155
    Zero_DL: int = 255
    Sync_DE: int = 151
    Zero_DE: int = 251
    OpenClutch_DL: int = 200
    SetGear_DL: int = 350
    Release_DL: int = 250
    CloseClutch_DL: int = 200
    ChangeDL: int = 1500
    Clutch_Open_DE: int = 0
    Error_Clutch_Open_DE: int = 0
    Clutch_Close_DE: int = 0
    Error_Clutch_Close_DE: int = 0


# What a file without entries means for ever, and what the writer has for the wish for none since request 7.
OLD_DEFAULT = Table()
NEW_DEFAULT = OLD_DEFAULT._replace(Channel_DL=10)
# How many entries there are without the four delays of clutches, and the names of these.
LIMITS = 18
DELAYS = Table._fields[LIMITS:]


def route_sums(t):
    """The sums of the routes F, N, G1 and G2."""
    f = t.Sync_DL + t.OpenClutch_DL + t.SetGear_DL + t.CloseClutch_DL
    n = t.Zero_DL + t.OpenClutch_DL + t.Release_DL + t.CloseClutch_DL
    g1 = t.Zero_EX + t.Release_DL + f
    g2 = t.Zero_DL + t.OpenClutch_DL + t.Release_DL + t.SetGear_DL + t.CloseClutch_DL
    return f, n, g1, g2


def has_delays(t):
    """Whether one of the four delays is not 0."""
    return any(t[LIMITS:])


def delay_slacks(t):
    """By how much each condition of rule 16 on delays that are not all 0 is kept: 0 is just kept, below 0 is broken."""
    return (
        t.Clutch_Open_DE - 1,
        t.Clutch_Close_DE - 1,
        t.Error_Clutch_Open_DE - t.Clutch_Open_DE - 1,
        t.Error_Clutch_Close_DE - t.Clutch_Close_DE - 1,
        t.Clutch_Open_DL - t.Error_Clutch_Open_DE,
        t.Clutch_Close_DL - t.Error_Clutch_Close_DE,
    )


def slacks(t):
    """By how much each of the sixteen rules is kept: 0 is just kept, below 0 is broken. Four zeros keep 16 by 1."""
    both_ways = 2 * t.Channel_DL
    return (
        min(t[:LIMITS]) - 1,
        t.Sync_EX - (both_ways + t.Engine_Sync_DL),
        t.Zero_EX - (both_ways + t.Engine_Zero_DL),
        t.OpenClutch_DL - (both_ways + t.Clutch_Open_DL) - 1,
        t.CloseClutch_DL - (both_ways + t.Clutch_Close_DL) - 1,
        t.SetGear_DL - (both_ways + t.Gear_Set_DL) - 1,
        t.Release_DL - (both_ways + t.Gear_Release_DL) - 1,
        t.Sync_DE - t.Sync_EX - 1,
        t.Zero_DE - t.Zero_EX - 1,
        t.Sync_DL - t.Sync_DE,
        t.Zero_DL - t.Zero_DE,
        *(t.ChangeDL - route_sum for route_sum in route_sums(t)),
        min(delay_slacks(t)) if has_delays(t) else 1,
    )


def broken_rule(table):
    """The number of the first broken rule, or 0 for an admitted table."""
    return next((rule for rule, slack in enumerate(slacks(table), 1) if slack < 0), 0)


class State(NamedTuple):
    """The state of a shift; without arguments the start state."""

    clock: int = 0
    box: int = 0
    phase: int = 0
    phase_time: int = 0
    stage: int = 0
    stage_time: int = 0
    request_time: int = 0
    failed_phase: int = 0


START = State()

BOXES = NEUTRAL, IN_GEAR = range(2)
STAGES = NONE, SENT, WORKING, GOOD, FAILED, WAITING = range(6)
AT_REST, DONE, ERROR = 0, 22, 23


class Order(NamedTuple):
    """An order with its limits, as entries of the table: EX and DE are engines', and the delays are clutches'."""

    name: str
    device_limit: str
    phase_limit: str
    expiry: Optional[str] = None
    earliest: Optional[str] = None
    delay: Optional[str] = None
    error_delay: Optional[str] = None


SYNC = Order("sync", "Engine_Sync_DL", "Sync_DL", "Sync_EX", "Sync_DE")
ZERO_TORQUE = Order("zero torque", "Engine_Zero_DL", "Zero_DL", "Zero_EX", "Zero_DE")
OPEN = Order("open", "Clutch_Open_DL", "OpenClutch_DL",
             delay="Clutch_Open_DE", error_delay="Error_Clutch_Open_DE")
CLOSE = Order("close", "Clutch_Close_DL", "CloseClutch_DL",
              delay="Clutch_Close_DE", error_delay="Error_Clutch_Close_DE")
SET = Order("set", "Gear_Set_DL", "SetGear_DL")
RELEASE = Order("release", "Gear_Release_DL", "Release_DL")
ORDERS = SYNC, ZERO_TORQUE, OPEN, CLOSE, SET, RELEASE


class Phase(NamedTuple):
    """A row of the phase table."""

    order: Order
    when_taken: int
    when_asked: Optional[int] = None


# Phases 1 to 21: the others have no order.
PHASES = {
    1: Phase(SYNC, 3, 2),
    2: Phase(OPEN, 4),
    3: Phase(SET, DONE),
    4: Phase(SET, 5),
    5: Phase(CLOSE, DONE),
    6: Phase(ZERO_TORQUE, 8, 7),
    7: Phase(OPEN, 9),
    8: Phase(RELEASE, 10),
    9: Phase(RELEASE, 14),
    10: Phase(SYNC, 12, 11),
    11: Phase(OPEN, 13),
    12: Phase(SET, DONE),
    13: Phase(SET, 15),
    14: Phase(SET, 16),
    15: Phase(CLOSE, DONE),
    16: Phase(CLOSE, DONE),
    17: Phase(ZERO_TORQUE, 19, 18),
    18: Phase(OPEN, 20),
    19: Phase(RELEASE, DONE),
    20: Phase(RELEASE, 21),
    21: Phase(CLOSE, DONE),
}
ENGINE_PHASES = {phase for phase, row in PHASES.items() if row.when_asked}
DEVICE_PHASES = PHASES.keys() - ENGINE_PHASES
CLUTCH_PHASES = {phase for phase, row in PHASES.items() if row.order.delay}
BOX_WHEN_TAKEN = {SET: IN_GEAR, RELEASE: NEUTRAL}

FROM_NEUTRAL, GEAR_TO_GEAR, TO_NEUTRAL = 1, 2, 3
DELIVER, DEVICE_GOOD, DEVICE_FAILED, ENGINE_WAITS = 4, 5, 6, 7
TAKE, ASK_CLUTCH, RAISE_ERROR, FINISH, TICK, RESET = 8, 9, 10, 11, 12, 13


class Request(NamedTuple):
    """The box that a request needs and the phase that it enters."""

    box: int
    phase: int


REQUESTS = {
    FROM_NEUTRAL: Request(NEUTRAL, 1),
    GEAR_TO_GEAR: Request(IN_GEAR, 6),
    TO_NEUTRAL: Request(IN_GEAR, 17),
}

# The phases and the stages that allow a step.
ALLOWED = {
    FROM_NEUTRAL: ({AT_REST}, STAGES),
    GEAR_TO_GEAR: ({AT_REST}, STAGES),
    TO_NEUTRAL: ({AT_REST}, STAGES),
    DELIVER: (PHASES, {SENT}),
    DEVICE_GOOD: (PHASES, {WORKING}),
    DEVICE_FAILED: (DEVICE_PHASES, {WORKING}),
    ENGINE_WAITS: (ENGINE_PHASES, {WORKING}),
    TAKE: (PHASES, {GOOD}),
    ASK_CLUTCH: (ENGINE_PHASES, {WAITING}),
    RAISE_ERROR: (PHASES, {FAILED}),
    FINISH: ({DONE}, STAGES),
    TICK: (range(ERROR + 1), STAGES),
    RESET: ({ERROR}, STAGES),
}
STAGE_AFTER = {DELIVER: WORKING, DEVICE_GOOD: GOOD, DEVICE_FAILED: FAILED, ENGINE_WAITS: WAITING}


def unreadable(code, amount, middle=0):
    """The refusal 5 or 6 of a code, an amount and a record's middle byte, or 0."""
    if code not in ALLOWED:
        return NO_SUCH_CODE
    least, most = (1, LONGEST_TICK) if code == TICK else (0, 0)
    return 0 if middle == 0 and least <= amount <= most else WRONG_AMOUNT


def order_of(state):
    """The order of the state's phase, or None."""
    return PHASES[state.phase].order if state.phase in PHASES else None


def earliest_clock(table, state, code):
    """The clock that a step may not come before, or None where there is none."""
    order = order_of(state)
    if code == ASK_CLUTCH:
        return state.phase_time + getattr(table, order.earliest)
    if code == DEVICE_GOOD and order.delay:
        return state.stage_time + getattr(table, order.delay)
    if code == DEVICE_FAILED and order.error_delay:
        return state.stage_time + getattr(table, order.error_delay)
    return None


def latest_clocks(table, state, code):
    """The clocks that a step may not pass, each behind its refusal and in the order of refusals."""
    order = order_of(state)
    if code == TAKE and order.expiry:
        return [(TOO_LATE, state.phase_time + getattr(table, order.expiry))]
    if code != TICK:
        return []
    latest = [(PAST_CLOCK, LAST_CLOCK)]
    if order:
        if state.stage in (SENT, GOOD):
            latest.append((PAST_STAGE_LIMIT, state.stage_time + table.Channel_DL))
        if state.stage == WORKING:
            latest.append((PAST_STAGE_LIMIT, state.stage_time + getattr(table, order.device_limit)))
        latest.append((PAST_PHASE_LIMIT, state.phase_time + getattr(table, order.phase_limit)))
    return latest


def excesses(table, state, code, amount):
    """The milliseconds by which a step is too early or past each limit, each behind its refusal and in that order."""
    clock, earliest = state.clock + amount, earliest_clock(table, state, code)
    if earliest is not None:
        return [(TOO_EARLY, earliest - clock)]
    return [(number, clock - latest) for number, latest in latest_clocks(table, state, code)]


def forbidden(table, state, code, amount):
    """The refusal 7 to 13 of a step on a state with its excess, or 0 and 0."""
    phases, stages = ALLOWED[code]
    if state.phase not in phases or state.stage not in stages or state.box not in BOXES:
        return NOT_ALLOWED, 0
    if code in REQUESTS and state.box != REQUESTS[code].box:
        return WRONG_BOX, 0
    found = excesses(table, state, code, amount)
    return next(((number, excess) for number, excess in found if excess > 0), (0, 0))


def enter(state, phase):
    """The state once the phase is entered."""
    return State(
        clock=state.clock,
        box=state.box,
        phase=phase,
        phase_time=state.clock,
        stage=SENT if phase in PHASES else NONE,
        stage_time=state.clock,
        request_time=0 if phase == AT_REST else state.request_time,
        failed_phase=state.phase if phase == ERROR else 0,
    )


def box_when_taken(state):
    """The box once the order of the phase is taken."""
    return BOX_WHEN_TAKEN.get(PHASES[state.phase].order, state.box)


def after(state, code, amount):
    """The state after a step that is not forbidden."""
    if code in REQUESTS:
        return enter(state._replace(request_time=state.clock), REQUESTS[code].phase)
    if code in STAGE_AFTER:
        return state._replace(stage=STAGE_AFTER[code], stage_time=state.clock)
    if code == TAKE:
        return enter(state._replace(box=box_when_taken(state)), PHASES[state.phase].when_taken)
    if code == ASK_CLUTCH:
        return enter(state, PHASES[state.phase].when_asked)
    if code == RAISE_ERROR:
        return enter(state, ERROR)
    if code in (FINISH, RESET):
        return enter(state, AT_REST)
    return state._replace(clock=state.clock + amount)


def admitted_step(table, state, code, amount, middle=0):
    """One step under an admitted table: number, excess and state."""
    unread = unreadable(code, amount, middle)
    number, excess = (unread, 0) if unread else forbidden(table, state, code, amount)
    return number, excess, state if number else after(state, code, amount)


def step(table, state, code, amount, middle=0):
    """One step on any state and table: number, rule, excess and state."""
    rule = broken_rule(table)
    if rule:
        return NOT_ADMITTED, rule, 0, state
    number, excess, state = admitted_step(table, state, code, amount, middle)
    return number, 0, excess, state
