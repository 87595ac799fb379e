"""Wrong versions of rules.py, in the order of document 01: what is wrong, a text of it, and the text in its place."""

from rules import OLD_DEFAULT


def words(name):
    """A name of rules.py in document 01's words."""
    return name.lower().replace("_", " ")


# The limit table and its admission.

SLACKS = {
    1: "min(t[:LIMITS]) - 1,",
    2: "t.Sync_EX - (both_ways + t.Engine_Sync_DL),",
    3: "t.Zero_EX - (both_ways + t.Engine_Zero_DL),",
    4: "t.OpenClutch_DL - (both_ways + t.Clutch_Open_DL) - 1,",
    5: "t.CloseClutch_DL - (both_ways + t.Clutch_Close_DL) - 1,",
    6: "t.SetGear_DL - (both_ways + t.Gear_Set_DL) - 1,",
    7: "t.Release_DL - (both_ways + t.Gear_Release_DL) - 1,",
    8: "t.Sync_DE - t.Sync_EX - 1,",
    9: "t.Zero_DE - t.Zero_EX - 1,",
    10: "t.Sync_DL - t.Sync_DE,",
    11: "t.Zero_DL - t.Zero_DE,",
    16: "min(delay_slacks(t)) if has_delays(t) else 1,",
}
ROUTES = {12: "f", 13: "n", 14: "g1", 15: "g2"}


def off_rules():
    """Each rule dropped, one tighter and one looser; rule 1 one looser is rule 1 dropped."""
    for rule, slack in SLACKS.items():
        yield f"rule {rule} dropped", slack, "0,"
        yield f"rule {rule} one tighter", slack, f"-1 + {slack}"
        if rule > 1:
            yield f"rule {rule} one looser", slack, f"1 + {slack}"
    for rule, route in ROUTES.items():
        for how, wrong in ("dropped", "0"), ("one tighter", f"{route} + 1"), ("one looser", f"{route} - 1"):
            sums = ", ".join(wrong if other == route else other for other in ROUTES.values())
            yield f"rule {rule} {how}", "return f, n, g1, g2", f"return {sums}"


def off_old_default():
    """Each entry one more in the old default; but for Channel_DL, the new one has it from there."""
    for name, value in OLD_DEFAULT._asdict().items():
        yield f"{name} one more in the old default", f"    {name}: int = {value}\n", f"    {name}: int = {value + 1}\n"


ADMISSION = [
    *off_old_default(),
    *off_rules(),
    ("rule 1 leaves Channel_DL out", SLACKS[1], "min(t[1:LIMITS]) - 1,"),
    ("rule 1 leaves ChangeDL out", SLACKS[1], "min(t[:LIMITS - 1]) - 1,"),
    ("Ch for 2Ch", "2 * t.Channel_DL", "t.Channel_DL"),
    ("2Ch wraps at 16 bits", "2 * t.Channel_DL", "2 * t.Channel_DL % 2**16"),
    ("route sums wrap at 16 bits", "t.ChangeDL - route_sum for", "t.ChangeDL - route_sum % 2**16 for"),
    ("F with Zero_DL", "f = t.Sync_DL", "f = t.Zero_DL"),
    ("F without CloseClutch_DL", "t.SetGear_DL + t.CloseClutch_DL\n    n", "t.SetGear_DL\n    n"),
    ("N with Sync_DL", "n = t.Zero_DL", "n = t.Sync_DL"),
    ("N with SetGear_DL", "t.Release_DL + t.CloseClutch_DL", "t.SetGear_DL + t.CloseClutch_DL"),
    ("G1 with Zero_DL", "t.Zero_EX + t.Release_DL + f", "t.Zero_DL + t.Release_DL + f"),
    ("G1 with Sync_EX", "t.Zero_EX + t.Release_DL + f", "t.Sync_EX + t.Release_DL + f"),
    ("G1 without Release_DL", "t.Zero_EX + t.Release_DL + f", "t.Zero_EX + f"),
    ("G1 with N for F", "t.Release_DL + f\n", "t.Release_DL + n\n"),
    ("G2 with Zero_EX", "g2 = t.Zero_DL", "g2 = t.Zero_EX"),
    ("G2 without SetGear_DL", "t.Release_DL + t.SetGear_DL + t.CloseClutch_DL", "t.Release_DL + t.CloseClutch_DL"),
    ("the last broken rule is given", "next((rule for rule, slack in enumerate(slacks(table), 1) if slack < 0), 0)",
     "max((rule for rule, slack in enumerate(slacks(table), 1) if slack < 0), default=0)"),
]

# The phase table, and the limits by order.

NEIGHBOURS = {
    "SYNC": "ZERO_TORQUE",
    "ZERO_TORQUE": "SYNC",
    "OPEN": "CLOSE",
    "CLOSE": "OPEN",
    "SET": "RELEASE",
    "RELEASE": "SET",
}
# Each phase's order, the rest of its row, and that with another next phase.
ROWS = {
    1: ("SYNC", "3, 2", "4, 2"),
    2: ("OPEN", "4", "3"),
    3: ("SET", "DONE", "5"),
    4: ("SET", "5", "DONE"),
    5: ("CLOSE", "DONE", "AT_REST"),
    6: ("ZERO_TORQUE", "8, 7", "9, 7"),
    7: ("OPEN", "9", "8"),
    8: ("RELEASE", "10", "12"),
    9: ("RELEASE", "14", "13"),
    10: ("SYNC", "12, 11", "13, 11"),
    11: ("OPEN", "13", "14"),
    12: ("SET", "DONE", "15"),
    13: ("SET", "15", "16"),
    14: ("SET", "16", "15"),
    15: ("CLOSE", "DONE", "AT_REST"),
    16: ("CLOSE", "DONE", "ERROR"),
    17: ("ZERO_TORQUE", "19, 18", "20, 18"),
    18: ("OPEN", "20", "19"),
    19: ("RELEASE", "DONE", "21"),
    20: ("RELEASE", "21", "DONE"),
    21: ("CLOSE", "DONE", "AT_REST"),
}


def off_rows():
    """Each phase with the neighbour of its order, and with another next phase."""
    for phase, (order, rest, wrong) in ROWS.items():
        row, other = f" {phase}: Phase({order}, {rest})", NEIGHBOURS[order]
        yield f"phase {phase} has the order {words(other)}", row, f" {phase}: Phase({other}, {rest})"
        yield f"phase {phase} is taken to another phase", row, f" {phase}: Phase({order}, {wrong})"


def off_limits():
    """Each order's limits one more."""
    for order in NEIGHBOURS:
        for limit in ("device_limit", "phase_limit"):
            place = f"getattr(table, order.{limit})"
            yield f"the {words(limit)} of {words(order)} one more", place, f"{place} + (order is {order})"


PHASES = [
    *off_rows(),
    *off_limits(),
    ("phase 1 asks for the clutch as 6", "Phase(SYNC, 3, 2)", "Phase(SYNC, 3, 7)"),
    ("phase 6 asks for the clutch as 17", "Phase(ZERO_TORQUE, 8, 7)", "Phase(ZERO_TORQUE, 8, 18)"),
    ("phase 10 asks for the clutch as 1", "Phase(SYNC, 12, 11)", "Phase(SYNC, 12, 2)"),
    ("phase 17 asks for the clutch as 6", "Phase(ZERO_TORQUE, 19, 18)", "Phase(ZERO_TORQUE, 19, 7)"),
    ("sync has the device limit of zero torque", '"Engine_Sync_DL"', '"Engine_Zero_DL"'),
    ("zero torque has the device limit of sync", '"Engine_Zero_DL"', '"Engine_Sync_DL"'),
    ("open has the device limit of close", '"Clutch_Open_DL"', '"Clutch_Close_DL"'),
    ("close has the device limit of open", '"Clutch_Close_DL"', '"Clutch_Open_DL"'),
    ("set has the device limit of release", '"Gear_Set_DL"', '"Gear_Release_DL"'),
    ("release has the device limit of set", '"Gear_Release_DL"', '"Gear_Set_DL"'),
    ("sync has the phase limit of zero torque", '"Sync_DL"', '"Zero_DL"'),
    ("zero torque has the phase limit of sync", '"Zero_DL"', '"Sync_DL"'),
    ("open has the phase limit of close", '"OpenClutch_DL"', '"CloseClutch_DL"'),
    ("close has the phase limit of open", '"CloseClutch_DL"', '"OpenClutch_DL"'),
    ("set has the phase limit of release", '"SetGear_DL"', '"Release_DL"'),
    ("release has the phase limit of set", '"Release_DL"', '"SetGear_DL"'),
    ("sync has the EX of zero torque", '"Sync_EX"', '"Zero_EX"'),
    ("zero torque has the EX of sync", '"Zero_EX"', '"Sync_EX"'),
    ("sync has the DE of zero torque", '"Sync_DE"', '"Zero_DE"'),
    ("zero torque has the DE of sync", '"Zero_DE"', '"Sync_DE"'),
    ("sync has DE for EX", '"Sync_EX"', '"Sync_DE"'),
    ("zero torque has EX for DE", '"Zero_DE"', '"Zero_EX"'),
]

# Entering a phase.

PHASE_TIME, STAGE_TIME = "phase_time=state.clock,", "stage_time=state.clock,"
BOX, REQUEST_TIME = "box=state.box,", "request_time=0 if phase == AT_REST else"
BY_DONE = "NEUTRAL if state.phase in (19, 21) else IN_GEAR"
FAILED, OTHERWISE = "failed_phase=state.phase if phase == ERROR", "if phase == ERROR else 0,"

ENTERING = [
    ("entering keeps the phase time", PHASE_TIME, "phase_time=state.phase_time,"),
    ("entering 0, 22 or 23 keeps the phase time", PHASE_TIME,
     "phase_time=state.clock if phase in PHASES else state.phase_time,"),
    ("entering keeps the stage time", STAGE_TIME, "stage_time=state.stage_time,"),
    ("entering 0, 22 or 23 keeps the stage time", STAGE_TIME,
     "stage_time=state.clock if phase in PHASES else state.stage_time,"),
    ("entering 1 to 21 keeps the stage", "stage=SENT if phase", "stage=state.stage if phase"),
    ("entering 1 to 21 makes the stage working", "stage=SENT if phase", "stage=WORKING if phase"),
    ("entering 0, 22 or 23 keeps the stage", "in PHASES else NONE,", "in PHASES else state.stage,"),
    ("entering 0, 22 or 23 makes the stage sent", "in PHASES else NONE,", "in PHASES else SENT,"),
    ("entering 22 moves the box too", BOX, f"box=({BY_DONE}) if phase == DONE else state.box,"),
    ("entering 22 makes the box in gear", BOX, "box=IN_GEAR if phase == DONE else state.box,"),
    ("entering 22 makes the box neutral", BOX, "box=NEUTRAL if phase == DONE else state.box,"),
    *((f"entering 22 from {phase} makes the box {words(box)}", BOX,
       f"box={box} if phase == DONE and state.phase == {phase} else state.box,")
      for phase, box in ((5, "IN_GEAR"), (15, "IN_GEAR"), (16, "IN_GEAR"), (21, "NEUTRAL"))),
    ("entering 23 makes the box neutral", BOX, "box=NEUTRAL if phase == ERROR else state.box,"),
    ("entering 23 makes the box in gear", BOX, "box=IN_GEAR if phase == ERROR else state.box,"),
    ("entering 23 from 19 and 21 makes the box neutral", BOX,
     "box=NEUTRAL if phase == ERROR and state.phase in (19, 21) else state.box,"),
    ("entering 0 makes the box neutral", BOX, "box=NEUTRAL if phase == AT_REST else state.box,"),
    ("entering 0 makes the box in gear", BOX, "box=IN_GEAR if phase == AT_REST else state.box,"),
    ("entering 10 makes the box in gear", BOX, "box=IN_GEAR if phase == 10 else state.box,"),
    ("entering 0 keeps the request time", REQUEST_TIME, "request_time=state.request_time if phase == AT_REST else"),
    ("entering 0 sets the request time to the clock", REQUEST_TIME,
     "request_time=state.clock if phase == AT_REST else"),
    ("entering 22 sets the request time to 0", REQUEST_TIME, "request_time=0 if phase in (AT_REST, DONE) else"),
    ("entering 23 sets the request time to 0", REQUEST_TIME, "request_time=0 if phase in (AT_REST, ERROR) else"),
    ("entering 23 sets the failed phase to 0", FAILED, "failed_phase=0 if phase == ERROR"),
    ("entering 23 sets the failed phase to 23", FAILED, "failed_phase=phase if phase == ERROR"),
    ("entering 23 keeps the failed phase", FAILED, "failed_phase=state.failed_phase if phase == ERROR"),
    ("entering 22 sets the failed phase", FAILED, "failed_phase=state.phase if phase in (DONE, ERROR)"),
    ("entering 0 keeps the failed phase", OTHERWISE,
     "if phase == ERROR else state.failed_phase if phase == AT_REST else 0,"),
    ("entering 22 keeps the failed phase", OTHERWISE,
     "if phase == ERROR else state.failed_phase if phase == DONE else 0,"),
    ("entering 1 to 21 keeps the failed phase", OTHERWISE,
     "if phase == ERROR else state.failed_phase if phase in PHASES else 0,"),
]

# The thirteen steps: codes and amounts, when a step is allowed, its limits and its effect.

CODES = [
    ("code 0 is a step", "    TICK: (range", "    0: ({AT_REST}, STAGES),\n    TICK: (range"),
    ("code 14 is a step", "    TICK: (range", "    14: ({AT_REST}, STAGES),\n    TICK: (range"),
    ("code 12 is no step", "if code not in ALLOWED:", "if code not in ALLOWED or code == TICK:"),
    ("code 13 is no step", "if code not in ALLOWED:", "if code not in ALLOWED or code == RESET:"),
    ("code 14 has a wrong amount", "if code not in ALLOWED:", "if code not in (*ALLOWED, 14):"),
    ("a tick of 0 is allowed", "(1, LONGEST_TICK)", "(0, LONGEST_TICK)"),
    ("a tick of 1 is refused", "(1, LONGEST_TICK)", "(2, LONGEST_TICK)"),
    ("a tick of 65,535 is refused", "(1, LONGEST_TICK)", "(1, LONGEST_TICK - 1)"),
    ("a tick of 65,536 is allowed", "(1, LONGEST_TICK)", "(1, LONGEST_TICK + 1)"),
    ("an amount of 1 is allowed for codes 1 to 11", "else (0, 0)", "else (0, 0 if code == RESET else 1)"),
    ("an amount of 1 is allowed for reset", "else (0, 0)", "else (0, 1 if code == RESET else 0)"),
    ("any amount is allowed for reset", "else (0, 0)", "else (0, LAST_CLOCK if code == RESET else 0)"),
    ("a reset has the amount of a tick", "(1, LONGEST_TICK) if code == TICK", "(1, LONGEST_TICK) if code >= TICK"),
    ("the middle byte of a reset may be anything", "middle == 0 and least", "(middle == 0 or code == RESET) and least"),
    ("the middle byte may be anything", "middle == 0 and least", "least"),
    ("the middle byte may be 1", "middle == 0 and least", "middle <= 1 and least"),
    ("the middle byte may be 255", "middle == 0 and least", "middle in (0, 255) and least"),
]

FROM_NEUTRAL, GEAR_TO_GEAR = "FROM_NEUTRAL: ({AT_REST}, STAGES)", "GEAR_TO_GEAR: ({AT_REST}, STAGES)"
FINISH, RESET = "FINISH: ({DONE}, STAGES)", "RESET: ({ERROR}, STAGES)"
WRONG_BOX, UNLISTED_BOX = "if code in REQUESTS and state.box", "state.box not in BOXES"

ALLOWED_WHEN = [
    ("request from neutral in stage none alone", FROM_NEUTRAL, "FROM_NEUTRAL: ({AT_REST}, {NONE})"),
    ("request from neutral in stage 6", FROM_NEUTRAL, "FROM_NEUTRAL: ({AT_REST}, range(7))"),
    ("request from neutral in done", FROM_NEUTRAL, "FROM_NEUTRAL: ({AT_REST, DONE}, STAGES)"),
    ("request gear to gear in stage none alone", GEAR_TO_GEAR, "GEAR_TO_GEAR: ({AT_REST}, {NONE})"),
    ("request gear to gear in done", GEAR_TO_GEAR, "GEAR_TO_GEAR: ({AT_REST, DONE}, STAGES)"),
    ("request to neutral in stage none alone", "{AT_REST}, STAGES),\n    DELIVER", "{AT_REST}, {NONE}),\n    DELIVER"),
    ("request from neutral with the box in gear", "Request(NEUTRAL, 1)", "Request(IN_GEAR, 1)"),
    ("request gear to gear with the box neutral", "Request(IN_GEAR, 6)", "Request(NEUTRAL, 6)"),
    ("request to neutral with the box neutral", "Request(IN_GEAR, 17)", "Request(NEUTRAL, 17)"),
    ("request to neutral with either box", WRONG_BOX, "if code in REQUESTS and code != TO_NEUTRAL and state.box"),
    ("deliver in stage working", "(PHASES, {SENT})", "(PHASES, {SENT, WORKING})"),
    ("deliver in stage none", "(PHASES, {SENT})", "(PHASES, {NONE, SENT})"),
    ("device good in stage sent", "DEVICE_GOOD: (PHASES, {", "DEVICE_GOOD: (PHASES, {SENT, "),
    ("device good in stage waiting", "DEVICE_GOOD: (PHASES, {", "DEVICE_GOOD: (PHASES, {WAITING, "),
    ("device good in no engine phase", "DEVICE_GOOD: (PHASES", "DEVICE_GOOD: (DEVICE_PHASES"),
    ("device failed in an engine phase", "DEVICE_FAILED: (DEVICE_PHASES", "DEVICE_FAILED: (PHASES"),
    ("device failed in stage good", "(DEVICE_PHASES, {WORKING})", "(DEVICE_PHASES, {WORKING, GOOD})"),
    ("engine waits in any of 1 to 21", "ENGINE_WAITS: (ENGINE_PHASES", "ENGINE_WAITS: (PHASES"),
    ("engine waits in stage good", "(ENGINE_PHASES, {WORKING})", "(ENGINE_PHASES, {WORKING, GOOD})"),
    ("take in stage working", "(PHASES, {GOOD})", "(PHASES, {WORKING, GOOD})"),
    ("take in stage waiting", "(PHASES, {GOOD})", "(PHASES, {GOOD, WAITING})"),
    ("ask clutch in stage working", "(ENGINE_PHASES, {WAITING})", "(ENGINE_PHASES, {WORKING, WAITING})"),
    ("raise error in stage waiting", "(PHASES, {FAILED})", "(PHASES, {FAILED, WAITING})"),
    ("raise error in no engine phase", "RAISE_ERROR: (PHASES", "RAISE_ERROR: (DEVICE_PHASES"),
    ("finish in stage none alone", FINISH, "FINISH: ({DONE}, {NONE})"),
    ("finish in stage 6", FINISH, "FINISH: ({DONE}, range(7))"),
    ("finish in error", FINISH, "FINISH: ({DONE, ERROR}, STAGES)"),
    ("finish at rest", FINISH, "FINISH: ({AT_REST, DONE}, STAGES)"),
    ("reset in stage none alone", RESET, "RESET: ({ERROR}, {NONE})"),
    ("reset in stages none and failed alone", RESET, "RESET: ({ERROR}, {NONE, FAILED})"),
    ("reset in stage 6", RESET, "RESET: ({ERROR}, range(7))"),
    ("reset in done", RESET, "RESET: ({DONE, ERROR}, STAGES)"),
    ("reset in done alone", RESET, "RESET: ({DONE}, STAGES)"),
    ("reset at rest", RESET, "RESET: ({AT_REST, ERROR}, STAGES)"),
    ("reset in phases 1 to 21", RESET, "RESET: ({*PHASES, ERROR}, STAGES)"),
    ("reset in stage failed of phases 1 to 21", "return NOT_ALLOWED,",
     "return 0 if code == RESET and state.phase in PHASES and state.stage == FAILED else NOT_ALLOWED,"),
    ("reset everywhere", RESET, "RESET: (range(ERROR + 1), STAGES)"),
    ("reset in phase 24", RESET, "RESET: ({ERROR, ERROR + 1}, STAGES)"),
    ("reset nowhere", RESET, "RESET: ((), STAGES)"),
    ("no reset with the box neutral", UNLISTED_BOX, f"{UNLISTED_BOX} or code == RESET and state.box == NEUTRAL"),
    ("no reset with the box in gear", UNLISTED_BOX, f"{UNLISTED_BOX} or code == RESET and state.box == IN_GEAR"),
    ("a reset with a wrong box gives 8", WRONG_BOX, "if code == RESET and state.box:\n        return WRONG_BOX, 0\n    "
     f"{WRONG_BOX}"),
    ("a tick in phase 24", "range(ERROR + 1)", "range(ERROR + 2)"),
    ("no tick in error", "range(ERROR + 1)", "range(ERROR)"),
    ("a tick in stage 6", "(range(ERROR + 1), STAGES)", "(range(ERROR + 1), range(7))"),
    ("a box of 2 is listed", UNLISTED_BOX, "state.box > 2"),
    ("a box of 1 is not listed", UNLISTED_BOX, "state.box > 0"),
    ("a failed phase above 23 is refused", UNLISTED_BOX, f"{UNLISTED_BOX} or state.failed_phase > ERROR"),
]

PASSED, EARLY = "in found if excess > 0", "if earliest is not None:"
EX, HAS_EX = "state.phase_time + getattr(table, order.expiry)", "if code == TAKE and order.expiry:"
DE = "state.phase_time + getattr(table, order.earliest)"
CHANNEL, CHANNEL_STAGES = "state.stage_time + table.Channel_DL", "(SENT, GOOD)"
DEVICE, DEVICE_STAGE = "state.stage_time + getattr(table, order.device_limit)", "if state.stage == WORKING:"
PHASE, ADD_PHASE = "state.phase_time + getattr(table, order.phase_limit)", "        latest.append((PAST_PHASE_LIMIT"

LIMITS = [
    ("equal is passed", PASSED, "in found if excess >= 0"),
    ("one past is kept", PASSED, "in found if excess > 1"),
    ("EX one more", EX, f"{EX} + 1"),
    ("EX one less", EX, f"{EX} - 1"),
    ("EX from the stage time", EX, EX.replace("phase_time", "stage_time")),
    ("EX wraps at 32 bits", EX, f"({EX}) % 2**32"),
    ("no EX", HAS_EX, "if False:"),
    ("EX in sync phases alone", HAS_EX, "if code == TAKE and order is SYNC:"),
    ("EX in zero torque phases alone", HAS_EX, "if code == TAKE and order is ZERO_TORQUE:"),
    ("DE one more", DE, f"{DE} + 1"),
    ("DE one less", DE, f"{DE} - 1"),
    ("DE from the stage time", DE, DE.replace("phase_time", "stage_time")),
    ("DE from the request time", DE, DE.replace("phase_time", "request_time")),
    ("DE wraps at 32 bits", DE, f"({DE}) % 2**32"),
    ("no DE", EARLY, "if earliest is not None and code != ASK_CLUTCH:"),
    ("the clock up to 4,294,967,294", "(PAST_CLOCK, LAST_CLOCK)", "(PAST_CLOCK, LAST_CLOCK - 1)"),
    ("the clock up to 4,294,967,296", "(PAST_CLOCK, LAST_CLOCK)", "(PAST_CLOCK, LAST_CLOCK + 1)"),
    ("the clock without an end", "(PAST_CLOCK, LAST_CLOCK)", "(PAST_CLOCK, 2**64)"),
    ("the channel's limit one more", CHANNEL, f"{CHANNEL} + 1"),
    ("the channel's limit one less", CHANNEL, f"{CHANNEL} - 1"),
    ("the channel's limit one more in stage sent", CHANNEL, f"{CHANNEL} + (state.stage == SENT)"),
    ("the channel's limit one more in stage good", CHANNEL, f"{CHANNEL} + (state.stage == GOOD)"),
    ("the channel's limit from the phase time", CHANNEL, CHANNEL.replace("stage_time", "phase_time")),
    ("the channel's limit wraps at 32 bits", CHANNEL, f"({CHANNEL}) % 2**32"),
    ("2Ch for the channel's limit", CHANNEL, f"{CHANNEL} * 2"),
    ("the channel's limit in stage sent alone", CHANNEL_STAGES, "(SENT,)"),
    ("the channel's limit in stage good alone", CHANNEL_STAGES, "(GOOD,)"),
    ("the channel's limit in stage failed too", CHANNEL_STAGES, "(SENT, GOOD, FAILED)"),
    ("the channel's limit in stage waiting too", CHANNEL_STAGES, "(SENT, GOOD, WAITING)"),
    ("the device's limit one more", DEVICE, f"{DEVICE} + 1"),
    ("the device's limit one less", DEVICE, f"{DEVICE} - 1"),
    ("the device's limit from the phase time", DEVICE, DEVICE.replace("stage_time", "phase_time")),
    ("the device's limit wraps at 32 bits", DEVICE, f"({DEVICE}) % 2**32"),
    ("the device's limit in stage waiting too", DEVICE_STAGE, "if state.stage in (WORKING, WAITING):"),
    ("the device's limit in stage sent too", DEVICE_STAGE, "if state.stage in (SENT, WORKING):"),
    ("no device's limit", DEVICE_STAGE, "if False:"),
    ("the phase limit one more", PHASE, f"{PHASE} + 1"),
    ("the phase limit one less", PHASE, f"{PHASE} - 1"),
    ("the phase limit from the stage time", PHASE, PHASE.replace("phase_time", "stage_time")),
    ("the phase limit from the request time", PHASE, PHASE.replace("phase_time", "request_time")),
    ("the phase limit wraps at 32 bits", PHASE, f"({PHASE}) % 2**32"),
    *((f"no phase limit in stage {words(stage)}", ADD_PHASE, f"        state.stage == {stage} or {ADD_PHASE.strip()}")
      for stage in ("NONE", "SENT", "WORKING", "GOOD", "FAILED", "WAITING")),
]

STAGED, TICKED = "stage_time=state.clock)", "clock=state.clock + amount)"
NEXT, CLUTCH = "PHASES[state.phase].when_taken", "PHASES[state.phase].when_asked"
TAKEN_BOX, BY_ORDER = "BOX_WHEN_TAKEN.get(PHASES[state.phase].order, state.box)", "{SET: IN_GEAR, RELEASE: NEUTRAL}"
TAKING, ERRING = "enter(state._replace(box=box_when_taken(state)), ", "enter(state, ERROR)"
ENDING, RESTING = "    if code in (FINISH, RESET):\n", "enter(state, AT_REST)"
AFTER = "state if number else after(state, code, amount)"

EFFECTS = [
    ("a request keeps the request time", "enter(state._replace(request_time=state.clock), ", "enter(state, "),
    ("request from neutral enters 2", "Request(NEUTRAL, 1)", "Request(NEUTRAL, 2)"),
    ("request gear to gear enters 17", "Request(IN_GEAR, 6)", "Request(IN_GEAR, 17)"),
    ("request to neutral enters 6", "Request(IN_GEAR, 17)", "Request(IN_GEAR, 6)"),
    *((f"{words(step)} keeps the stage time", STAGED,
       f"stage_time=state.stage_time if code == {step} else state.clock)")
      for step in ("DELIVER", "DEVICE_GOOD", "DEVICE_FAILED", "ENGINE_WAITS")),
    ("deliver sets the phase time", STAGED,
     "stage_time=state.clock, phase_time=state.clock if code == DELIVER else state.phase_time)"),
    ("deliver makes the stage good", "{DELIVER: WORKING", "{DELIVER: GOOD"),
    ("device good makes the stage waiting", "DEVICE_GOOD: GOOD", "DEVICE_GOOD: WAITING"),
    ("device failed makes the stage good", "DEVICE_FAILED: FAILED", "DEVICE_FAILED: GOOD"),
    ("engine waits makes the stage failed", "ENGINE_WAITS: WAITING", "ENGINE_WAITS: FAILED"),
    ("take enters the clutch phase if there is one", NEXT, f"{CLUTCH} or {NEXT}"),
    ("ask clutch enters the next phase", CLUTCH, NEXT),
    ("raise error enters 22", ERRING, "enter(state, DONE)"),
    ("raise error enters 0", ERRING, "enter(state, AT_REST)"),
    ("finish enters 23", RESTING, "enter(state, AT_REST if code == RESET else ERROR)"),
    ("a tick moves the clock one too far", TICKED, "clock=state.clock + amount + 1)"),
    ("a tick sets the stage time", TICKED, "clock=state.clock + amount, stage_time=state.clock)"),
    ("a tick sets the failed phase to 0", TICKED, "clock=state.clock + amount, failed_phase=0)"),
    ("a step hands its state back untouched", AFTER, "state"),
    ("a refused tick moves the clock", AFTER, AFTER.replace("if number", "if number and code != TICK")),
]

# The box: taking a set order makes it in gear, taking a release order neutral, and nothing else moves it.

BOXES = [
    ("entering 22 moves the box and taking doesn't", TAKEN_BOX,
     f"state.box if {NEXT} != DONE else {BY_DONE}"),
    ("taking never moves the box", TAKING, "enter(state, "),
    ("taking set and release crossed", BY_ORDER, "{SET: NEUTRAL, RELEASE: IN_GEAR}"),
    ("taking set keeps the box", BY_ORDER, "{RELEASE: NEUTRAL}"),
    ("taking release keeps the box", BY_ORDER, "{SET: IN_GEAR}"),
    ("taking set moves the box to the other side", TAKEN_BOX, f"1 - state.box if {TAKEN_BOX} == IN_GEAR else NEUTRAL"),
    *((f"taking {order} in phase {phase} keeps the box", TAKEN_BOX,
       f"state.box if state.phase == {phase} else {TAKEN_BOX}")
      for order, phases in (("set", (3, 4, 12, 13, 14)), ("release", (8, 9, 19, 20))) for phase in phases),
    ("taking release in gear to gear keeps the box", TAKEN_BOX,
     f"state.box if state.phase in (8, 9) else {TAKEN_BOX}"),
    ("taking set in gear to gear keeps the box", TAKEN_BOX,
     f"state.box if state.phase in (12, 13, 14) else {TAKEN_BOX}"),
    *((f"taking {words(order)} makes the box {words(box)}", BY_ORDER, f"{{{order}: {box}, {BY_ORDER[1:]}")
      for order in ("SYNC", "ZERO_TORQUE", "OPEN", "CLOSE") for box in ("NEUTRAL", "IN_GEAR")),
    ("deliver moves the box too", STAGED,
     "stage_time=state.clock, box=box_when_taken(state) if code == DELIVER else state.box)"),
    ("device good moves the box too", STAGED,
     "stage_time=state.clock, box=box_when_taken(state) if code == DEVICE_GOOD else state.box)"),
    ("device failed moves the box too", STAGED,
     "stage_time=state.clock, box=box_when_taken(state) if code == DEVICE_FAILED else state.box)"),
    ("device good moves the box and taking doesn't", f"{STAGED}\n    if code == TAKE:\n        return {TAKING}",
     "stage_time=state.clock, box=box_when_taken(state) if code == DEVICE_GOOD else state.box)\n"
     "    if code == TAKE:\n        return enter(state, "),
    ("ask clutch makes the box neutral", f"enter(state, {CLUTCH})", f"enter(state._replace(box=NEUTRAL), {CLUTCH})"),
    ("raise error moves the box as taking does", ERRING, TAKING + "ERROR)"),
    ("finish makes the box neutral", RESTING, "enter(state._replace(box=state.box * (code == RESET)), AT_REST)"),
    ("finish makes the box in gear", RESTING,
     "enter(state._replace(box=state.box if code == RESET else IN_GEAR), AT_REST)"),
    ("reset makes the box neutral", RESTING, "enter(state._replace(box=state.box * (code == FINISH)), AT_REST)"),
    ("reset makes the box in gear", RESTING,
     "enter(state._replace(box=state.box if code == FINISH else IN_GEAR), AT_REST)"),
    ("reset makes the box what taking would have", ENDING,
     "    if code == RESET and state.failed_phase in PHASES:\n"
     "        state = state._replace(box=box_when_taken(state._replace(phase=state.failed_phase)))\n" + ENDING),
    ("a tick makes the box neutral", TICKED, "clock=state.clock + amount, box=NEUTRAL)"),
]

# Reset.


def off_resets():
    """Reset with each field that entering 0 sets left as it was."""
    for field in ("request_time", "failed_phase", "phase_time", "stage_time", "stage"):
        wrong = f"{RESTING}._replace(**({{'{field}': state.{field}}} if code == RESET else {{}}))"
        yield f"reset keeps the {words(field)}", RESTING, wrong


RESETS = [
    *off_resets(),
    ("reset sets the request time to the clock", RESTING,
     f"{RESTING}._replace(request_time=state.clock if code == RESET else 0)"),
    ("reset enters 22", RESTING, "enter(state, AT_REST if code == FINISH else DONE)"),
    ("reset enters the failed phase", RESTING, "enter(state, AT_REST if code == FINISH else state.failed_phase)"),
    ("reset goes back to the start state", RESTING, f"START if code == RESET else {RESTING}"),
    ("reset sets the clock to 0", RESTING, "enter(state._replace(clock=state.clock * (code == FINISH)), AT_REST)"),
    ("reset does nothing", ENDING, "    if code == FINISH:\n"),
]

# The order of refusals of one step: 4, 5, 6, 7, 8, 9, 10 and 13, 12, 11. No step can get two of 8, 9 and 10.

RULE, RULE_ANSWER = "    if rule:", "return NOT_ADMITTED, rule, 0, state"
NO_CODE, ALLOWED = "if code not in ALLOWED:", "    phases, stages = ALLOWED[code]\n"
UNREAD, FORBIDDEN = "(unread, 0) if unread else", "forbidden(table, state, code, amount)"
GIVES = f"code in ALLOWED and {FORBIDDEN}[0] =="
LATEST = "    return latest\n"
OVER_FIRST = """\
    for number, excess in excesses(table, state, code, amount) if code == {} and state.phase in {} else ():
        if excess > 0:
            return number, excess
"""

STEP_ORDER = [
    ("5 before 4", RULE, "    if rule and code in ALLOWED:"),
    ("5 and 6 before 4", RULE, "    if rule and not unreadable(code, amount, middle):"),
    *((f"{number} before 4", RULE, f"    if rule and (unreadable(code, amount, middle) or not ({GIVES} {number})):")
      for number in range(7, 14)),
    ("4 without its rule", RULE_ANSWER, "return NOT_ADMITTED, 0, 0, state"),
    ("4 with the start state", RULE_ANSWER, "return NOT_ADMITTED, rule, 0, START"),
    ("6 for the middle byte before 5", NO_CODE, "if code not in ALLOWED and middle == 0:"),
    ("6 for the amount before 5", NO_CODE, "if code not in ALLOWED and amount == 0:"),
    *((f"7 for the {field} before 5", UNREAD, f"(NOT_ALLOWED, 0) if state.{field} > {last} else {UNREAD}")
      for field, last in (("phase", "ERROR"), ("stage", "WAITING"), ("box", "IN_GEAR"))),
    *((f"{number} before 6", UNREAD, f"{FORBIDDEN} if {GIVES} {number} else {UNREAD}") for number in range(7, 14)),
    ("8 before 7", ALLOWED, f"{ALLOWED}    {WRONG_BOX} != REQUESTS[code].box:\n        return WRONG_BOX, 0\n"),
    ("8 before 7 for a box above 1", UNLISTED_BOX, f"{UNLISTED_BOX} and code not in REQUESTS"),
    ("9 before 7", ALLOWED, ALLOWED + OVER_FIRST.format("ASK_CLUTCH", "ENGINE_PHASES")),
    ("10 before 7", ALLOWED, ALLOWED + OVER_FIRST.format("TAKE", "PHASES")),
    ("13, 12 and 11 before 7", ALLOWED, ALLOWED + OVER_FIRST.format("TICK", "range(256)")),
    ("12 before 13", LATEST, "    return latest[1:-1] + latest[:1] + latest[1:][-1:]\n"),
    ("11 before 12", LATEST, "    return latest[:1] + latest[1:][::-1]\n"),
    ("11 before 13", LATEST, "    return latest[1:][-1:] + latest[:1] + latest[1:-1]\n"),
    ("12 and 11 before 13", LATEST, "    return latest[1:] + latest[:1]\n"),
]

# The excess of the refusals 9 to 13. The number that is given with it stays right.

OVER, WITHIN, STEPPED = "((number, excess) for number", "if excess > 0), (0, 0))", "return number, 0, excess, state"
ORDER, OTHER = "PHASES[state.phase].order", "(ZERO_TORQUE if PHASES[state.phase].order is SYNC else SYNC)"
PAST = "(state.clock + amount - state.{} - {})"
ALSO_PHASE = "dict(found)[PAST_PHASE_LIMIT]"


def entry(limit, order=ORDER):
    """An order's limit under the table."""
    return f"getattr(table, {order}.{limit})"


def other_excess(number, wrong):
    """The text by which the excess of a number is another."""
    return OVER, f"((number, {wrong} if number == {number} else excess) for number"


def off_excesses():
    """The excess of each number off by one, always the same, too narrow, or another part of the tick."""
    for number in range(9, 14):
        for how, wrong in (
            ("one more", "excess + 1"), ("one less", "excess - 1"), ("always 0", "0"), ("always 1", "1"),
            ("with the other sign", "-excess"), ("of 8 bits", "excess % 2**8"), ("the number", "number"),
        ):
            yield f"the excess of {number} is {how}", *other_excess(number, wrong)
    for number in range(9, 13):
        for how, wrong in (
            ("of 16 bits", "excess % 2**16"), ("at most 16 bits", "min(excess, 2**16 - 1)"),
            ("of 32 bits with a sign", "(excess + 2**31) % 2**32 - 2**31"),
            ("at most 31 bits", "min(excess, 2**31 - 1)"),
        ):
            yield f"the excess of {number} is {how}", *other_excess(number, wrong)
    for number in range(11, 14):
        for how, wrong in (
            ("measured from the old clock", "excess - amount"), ("the whole tick", "amount"),
            ("what was left of the limit", "amount - excess"),
        ):
            yield f"the excess of {number} is {how}", *other_excess(number, wrong)


def off_measures():
    """The excesses of 9, 10 and 11 from another time, to another limit, and an age or a limit for them."""
    limits = {9: ("earliest", -1), 10: ("expiry", 1), 11: ("phase_limit", 1)}
    others = {9: ("expiry", "phase_limit", "device_limit"), 10: ("earliest", "phase_limit", "device_limit"),
              11: ("device_limit",)}
    for number, (limit, sign) in limits.items():
        for time in ("stage_time", "request_time"):
            yield (f"the excess of {number} from the {words(time)}",
                   *other_excess(number, f"{sign} * {PAST.format(time, entry(limit))}"))
        for other in others[number]:
            yield (f"the excess of {number} to the {words(other)}",
                   *other_excess(number, f"{sign} * {PAST.format('phase_time', entry(other))}"))
        yield (f"the excess of {number} is the age of the phase",
               *other_excess(number, PAST.format("phase_time", "0")))
        yield f"the excess of {number} is the whole limit", *other_excess(number, entry(limit))
    for number, limit, sign in ((9, "earliest", -1), (10, "expiry", 1)):
        yield (f"the excess of {number} to the limit of the other engine's order",
               *other_excess(number, f"{sign} * {PAST.format('phase_time', entry(limit, OTHER))}"))


EXCESSES = [
    *off_excesses(),
    *off_measures(),
    ("the excess of 9 wraps at 32 bits", *other_excess(9, "excess % 2**32")),
    ("the excess of 9 is at most 32 bits", *other_excess(9, "min(excess, LAST_CLOCK)")),
    ("the excess of 9 to a sum that wraps at 32 bits",
     *other_excess(9, "(excess + state.clock) % 2**32 - state.clock")),
    ("the excess of 11 to the channel's limit", *other_excess(11, PAST.format("stage_time", "table.Channel_DL"))),
    ("the excess of 11 to ChangeDL", *other_excess(11, PAST.format("phase_time", "table.ChangeDL"))),
    ("the excess of 12 is that of 11 where a tick passes both limits",
     *other_excess(12, f"({ALSO_PHASE} if {ALSO_PHASE} > 0 else excess)")),
    *((f"the excess of 12 is that of 11 where a tick passes both limits in stage {words(stage)}",
       *other_excess(12, f"({ALSO_PHASE} if {ALSO_PHASE} > 0 and state.stage == {stage} else excess)"))
      for stage in ("SENT", "WORKING", "GOOD")),
    ("the excess of 12 is always that of 11", *other_excess(12, ALSO_PHASE)),
    ("the excess of 12 is the larger one where a tick passes both limits",
     *other_excess(12, f"max(excess, {ALSO_PHASE})")),
    ("the excess of 12 is the smaller one where a tick passes both limits",
     *other_excess(12, f"(min(excess, {ALSO_PHASE}) if {ALSO_PHASE} > 0 else excess)")),
    ("the excess of 12 is the sum where a tick passes both limits",
     *other_excess(12, f"excess + max(0, {ALSO_PHASE})")),
    ("the excess of 12 to the device's limit in stages sent and good", *other_excess(
        12, f"({PAST.format('stage_time', entry('device_limit'))} if state.stage != WORKING else excess)")),
    ("the excess of 12 to the channel's limit in stage working",
     *other_excess(12, PAST.format("stage_time", "table.Channel_DL"))),
    ("the excess of 12 from the phase time", *other_excess(12, "excess + state.stage_time - state.phase_time")),
    ("the excess of 12 is the age of the stage", *other_excess(12, PAST.format("stage_time", "0"))),
    ("the excess of 13 is the new clock", *other_excess(13, "state.clock + amount")),
    ("the excess of 13 is that of 12 where a tick passes that limit too",
     *other_excess(13, "(max(0, dict(found).get(PAST_STAGE_LIMIT, 0)) or excess)")),
    ("the excess of 13 is that of 11 where a tick passes that limit too",
     *other_excess(13, "(max(0, dict(found).get(PAST_PHASE_LIMIT, 0)) or excess)")),
    ("the excess is the largest of those that are passed", OVER, "((number, max(dict(found).values())) for number"),
    ("an accepted step with the milliseconds that are left", WITHIN,
     "if excess > 0), (0, min((-excess for _, excess in found), default=0)))"),
    ("an accepted step with its amount", WITHIN, "if excess > 0), (0, amount))"),
    ("an accepted step with an excess of 1", WITHIN, "if excess > 0), (0, 1))"),
    ("7 with an excess of 1", "return NOT_ALLOWED, 0", "return NOT_ALLOWED, 1"),
    ("7 with the age of the phase", "return NOT_ALLOWED, 0", "return NOT_ALLOWED, state.clock - state.phase_time"),
    *((f"7 with the excess of {number}", "return NOT_ALLOWED, 0",
       f"return NOT_ALLOWED, max(0, dict(excesses(table, state, code, amount)).get({number}, 0)) "
       f"if code == {code} and state.phase in {phases} else 0")
      for number, code, phases in ((9, "ASK_CLUTCH", "ENGINE_PHASES"), (10, "TAKE", "ENGINE_PHASES"),
                                   (11, "TICK", "range(256)"), (12, "TICK", "range(256)"), (13, "TICK", "range(256)"))),
    ("8 with an excess of 1", "return WRONG_BOX, 0", "return WRONG_BOX, 1"),
    ("8 with the clock", "return WRONG_BOX, 0", "return WRONG_BOX, state.clock"),
    ("5 with how far the code is past the last", UNREAD, f"(unread, max(0, code - 13)) if unread == 5 else {UNREAD}"),
    ("6 with how far the amount is past the longest tick", UNREAD,
     f"(unread, max(0, amount - LONGEST_TICK)) if unread == 6 else {UNREAD}"),
    *((f"6 with the excess of {number}", UNREAD,
       f"(unread, {FORBIDDEN}[1]) if unread == 6 and {GIVES} {number} else {UNREAD}") for number in range(9, 14)),
    ("4 with its rule for the excess", RULE_ANSWER, "return NOT_ADMITTED, rule, rule, state"),
    ("4 with how far the rule is broken", RULE_ANSWER, "return NOT_ADMITTED, rule, -slacks(table)[rule - 1], state"),
    ("4 with the excess of the step", RULE_ANSWER,
     "return NOT_ADMITTED, rule, admitted_step(table, state, code, amount, middle)[1], state"),
    ("a step without its excess", STEPPED, "return number, 0, 0, state"),
    ("the excess for the rule", STEPPED, "return number, excess, 0, state"),
    ("rule and excess crossed", RULE_ANSWER, "return NOT_ADMITTED, 0, rule, state"),
]

WRONG_RULES = [
    *ADMISSION, *PHASES, *ENTERING, *CODES, *ALLOWED_WHEN, *LIMITS, *EFFECTS, *BOXES, *RESETS, *STEP_ORDER, *EXCESSES,
]
