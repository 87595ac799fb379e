"""Wrong versions of the manual's machine: what is wrong, the file, a text of it, and the text in its place."""

import m9_printed
from m9 import EVENTS, FINAL_FLAGS, Machine
from settlements import ADDED, OWN_EVENT, REQUESTED, SETTLED_ACTIONS, SETTLEMENTS

PRINTED, SETTLED, M9 = "m9_printed.py", "settlements.py", "m9.py"
DEADLINES = Machine(SETTLEMENTS).deadlines

# The texts of the events, each as it stands in its file.
TEXTS = {text.split("\n", 1)[0]: f"\n{text}\n"
         for text in [*m9_printed.EVENTS.strip().split("\n\n"), OWN_EVENT.strip()]}


def clause(event, label):
    """The lines of a guard or an action, as they stand in the file."""
    lines = TEXTS[event].splitlines(keepends=True)
    begin, = (place for place, line in enumerate(lines) if line.startswith(f"{label} : "))
    end = next((place for place in range(begin + 1, len(lines)) if not lines[place].startswith(" ")), len(lines))
    return "".join(lines[begin:end])


def rewritten(what, event, old, new):
    """A wrong version with a text of an event changed; in the event it stands once."""
    assert TEXTS[event].count(old) == 1
    return what, SETTLED if event == "RESET" else PRINTED, TEXTS[event], TEXTS[event].replace(old, new)


# What is settled, back as it is printed.

AS_PRINTED = [
    ("FromNeu_RequestOpenClutch waits for Zero_DE", SETTLED, "OpenClutch_Sync_DE", "OpenClutch_Zero_DE"),
    ("NoNeu_OpenClutch_Releasing grd1 contradicts grd2", SETTLED,
     '"NoNeu_OpenClutch_Releasing", "grd1", "NoNeu_RequestOpenClutch_Releasing = TRUE"',
     '"NoNeu_OpenClutch_Releasing", "grd1", "NoNeu_OpenClutch_Releasing = TRUE"'),
    ("Error_FromNeu_SetGear_NoClutch asks for the gear to be set", SETTLED,
     '"grd4", "Error_Gear_Set = TRUE"', '"grd4", "Gear_Set = TRUE"'),
    ("grd35 from from neutral's time", SETTLED, "NoNeu_SetGear_SettingClutchT", "FromNeu_SetGear_ClutchT"),
    ("grd46 until the gear is set", SETTLED,
     "FromNeu_SyncSpeed = TRUE ∧ Gear_Request_Set = FALSE", "FromNeu_SyncSpeed = TRUE ∧ Gear_Set = FALSE"),
    ("grd47 of to neutral", SETTLED,
     'FromNeu_OpenClutch = TRUE ∧ Gear_Request_Set = FALSE "\n        "⇒ time + tick ≤ FromNeu_OpenClutchT',
     'ToNeu_OpenClutch = TRUE ∧ Gear_Set = FALSE "\n        "⇒ time + tick ≤ ToNeu_OpenClutchT'),
    *((f"{event} asks nothing of its device", SETTLED, f'    Settlement("{event}", ADDED, "{stands}", ', "    # (")
      for event, label, stands, _ in SETTLEMENTS if label == ADDED),
    *((f"{event} leaves the box as it is", SETTLED, f'    Settlement("{event}", REQUESTED, "{stands}", ', "    # (")
      for event, label, stands, _ in SETTLED_ACTIONS if label == REQUESTED),
]


# Guards of events. Left out is that an order was not left the other way: its device is good or at its other end, never
# both, so that no list of records shows this guard.


def dropped_guards():
    """The first guard of each event dropped, and of each that ends a shift the one on its device."""
    for event in EVENTS.values():
        if event.name not in ("FINAL", "Tick_Tock", "NoNeu_OpenClutch_Releasing"):
            yield rewritten(f"{event.name} without grd1", event.name, clause(event.name, "grd1"), "")
    for name in FINAL_FLAGS:
        yield rewritten(f"{name} asks nothing of its device", name, clause(name, "grd4"), "")


def dropped_limits():
    """The guard on the box or on a time of each event dropped, where a list can show it: no list takes too late."""
    for event in EVENTS.values():
        for guard in event.guards:
            if guard.stands.startswith(("isNeu", "time ≥")) and not guard.why:
                yield rewritten(f"{event.name} without {guard.label}, {guard.stands}", event.name,
                              clause(event.name, guard.label), "")


def own_flag():
    """Events that happen twice: their own flag need not be down."""
    for name in ("Engine_SyncSpeed", "Clutch_Open", "Gear_Release", "FromNeu_OpenClutch", "ToNeu_ZeroTorque",
                 "NoNeu_ZeroTorque", "NoNeu_Release_Clutch", "Gear_Request_Set", "Clutch_Request_Close"):
        label, = (guard.label for guard in EVENTS[name].guards if guard.printed == f"{name} = FALSE")
        yield rewritten(f"{name} twice", name, clause(name, label), "")


GUARDS = [*dropped_guards(), *dropped_limits(), *own_flag()]

# Actions. Left out are those of request 2 that fall away: where they stand, the box is on their side already. Left out
# is too that RESET lowers a flag that is never up in error.

NEVER_UP_IN_ERROR = {*FINAL_FLAGS, "Clutch_Close"}


def dropped_actions():
    """Each printed action on a time or the box dropped, each of FINAL, and each of RESET."""
    for event in EVENTS.values():
        for action in event.actions if event.name != "Tick_Tock" else ():
            shown = action.variable != event.name and action.printed and action.stands
            if shown or event.name == "FINAL" or event.name == "RESET" and action.variable not in NEVER_UP_IN_ERROR:
                yield rewritten(f"{event.name} leaves {action.variable} as it is", event.name,
                                clause(event.name, action.label), "")


def crossed_actions():
    """Each action on the box that is added, with the other side."""
    for event, label, stands, _ in SETTLED_ACTIONS:
        if label == REQUESTED:
            text = f'"{event}", REQUESTED, "{stands}"'
            other = text.replace("TRUE", "false").replace("FALSE", "TRUE").replace("false", "FALSE")
            yield f"{event} moves the box to the other side", SETTLED, text, other


ACTIONS = [
    *dropped_actions(),
    rewritten("Tick_Tock leaves the time as it is", "Tick_Tock", "time := time + tick", "time := time"),
    *crossed_actions(),
    rewritten("from neutral without the clutch ends neutral", "FromNeu_SetGear_NoClutch",
              "isNeu := FALSE", "isNeu := TRUE"),
    rewritten("to neutral without the clutch ends in gear", "ToNeu_Release_NoClutch",
              "isNeu := TRUE", "isNeu := FALSE"),
    rewritten("Gear_Set moves the box", "Gear_Set", "Gear_SetT := time\n",
              "Gear_SetT := time\nact3 : isNeu := FALSE\n"),
    rewritten("Gear_Release moves the box", "Gear_Release", "Gear_ReleaseT := time\n",
              "Gear_ReleaseT := time\nact3 : isNeu := TRUE\n"),
    rewritten("an error of from neutral makes the box neutral", "Error_FromNeu_CloseClutch",
              "Error_FromNeu_CloseClutch := TRUE\n", "Error_FromNeu_CloseClutch := TRUE\nact2 : isNeu := TRUE\n"),
    rewritten("Clutch_Open stamps the close's time", "Clutch_Open", "Clutch_OpenT := time", "Clutch_CloseT := time"),
    ("FINAL changes the box", PRINTED, "act42 : Gear_Request_Set := FALSE\n",
     "act42 : Gear_Request_Set := FALSE\nact43 : isNeu := TRUE\n"),
    ("the box begins in gear", PRINTED, "  act2 : isNeu := TRUE", "  act2 : isNeu := FALSE"),
    ("a flag begins up", PRINTED, "act86 : Gear_Request_Set := FALSE", "act86 : Gear_Request_Set := TRUE"),
    ("two variables crossed in their order", PRINTED, "Clutch_Open Error_Clutch_Open Clutch_Close",
     "Error_Clutch_Open Clutch_Open Clutch_Close"),
    ("two times crossed in their order", PRINTED, "Engine_SyncSpeedT Engine_ZeroTorqueT Clutch_OpenT",
     "Engine_ZeroTorqueT Engine_SyncSpeedT Clutch_OpenT"),
]

# Reset.

ERRORS = [literal.split(" = ")[0] for literal in EVENTS["RESET"].guards[0].stands.split(" ∨ ")]
LAST_ACTION = "Gear_Request_Set := FALSE\n"


def left_errors():
    """RESET's guard without each of the errors."""
    for flag, other in zip(ERRORS, ERRORS[1:] + ERRORS[:1]):
        yield rewritten(f"no RESET after {flag}", "RESET", f"{flag} = TRUE", f"{other} = TRUE")


def kept_flags(what, begins):
    """RESET without its actions on flags that begin so."""
    text = TEXTS["RESET"]
    for action in EVENTS["RESET"].actions:
        if action.variable.startswith(begins):
            text = text.replace(clause("RESET", action.label), "")
    return f"RESET leaves {what} as they are", SETTLED, TEXTS["RESET"], text


RESETS = [
    *left_errors(),
    kept_flags("all errors", "Error_"),
    kept_flags("the controller's errors", ("Error_FromNeu", "Error_ToNeu", "Error_NoNeu")),
    kept_flags("the devices' errors", ("Error_Clutch", "Error_Gear")),
    kept_flags("the requests", "Request"),
    kept_flags("the devices' flags", ("Engine", "Clutch", "Gear")),
    kept_flags("all flags of gear to gear", ("NoNeu", "Error_NoNeu")),
    rewritten("RESET for a device's error", "RESET", clause("RESET", "grd1"),
              "grd1 : " + " ∨ ".join(f"Error_{name} = TRUE" for name in
                                     ("Clutch_Open", "Clutch_Close", "Gear_Release", "Gear_Set")) + "\n"),
    rewritten("RESET for a request too", "RESET", "grd1 : ", "grd1 : RequestToNeu = TRUE ∨ "),
    rewritten("RESET in done too", "RESET", "grd1 : ", "grd1 : FromNeu_CloseClutch = TRUE ∨ "),
    rewritten("RESET makes the box neutral", "RESET", LAST_ACTION, f"{LAST_ACTION}act64 : isNeu := TRUE\n"),
    rewritten("RESET makes the box in gear", "RESET", LAST_ACTION, f"{LAST_ACTION}act64 : isNeu := FALSE\n"),
    rewritten("RESET sets a time to 0", "RESET", LAST_ACTION, f"{LAST_ACTION}act64 : Gear_Request_SetT := 0\n"),
    rewritten("RESET stamps a time", "RESET", LAST_ACTION, f"{LAST_ACTION}act64 : RequestFromNeuT := time\n"),
]

# The guards of Tick_Tock.

OTHER_LIMITS = {
    "Sync_DL": "Zero_DL", "Zero_DL": "Sync_DL", "OpenClutch_DL": "CloseClutch_DL", "CloseClutch_DL": "OpenClutch_DL",
    "SetGear_DL": "Release_DL", "Release_DL": "SetGear_DL", "Engine_Sync_DL": "Engine_Zero_DL",
    "Engine_Zero_DL": "Engine_Sync_DL", "Clutch_Open_DL": "Clutch_Close_DL", "Clutch_Close_DL": "Clutch_Open_DL",
    "Gear_Release_DL": "Gear_Set_DL", "Gear_Set_DL": "Gear_Release_DL", "Channel_DL": "Sync_EX",
}


def off_deadlines():
    """Guards of Tick_Tock, in turn with a neighbour's limit and with the time itself for the one it counts from."""
    settled = {settlement.label for settlement in SETTLEMENTS if settlement.event == "Tick_Tock"}
    for place, (label, _, (_, time, limit)) in enumerate(DEADLINES):
        lines = clause("Tick_Tock", label)
        if label in settled:
            continue
        if place % 2:
            yield rewritten(f"{label} from the time itself", "Tick_Tock", lines, lines.replace(f" {time}", " time"))
        else:
            other = OTHER_LIMITS[limit]
            yield rewritten(f"{label} with {other}", "Tick_Tock", lines, lines.replace(f" {limit}", f" {other}"))


PASSES, PAST = "excess > 0]", "return number, passed[0]"

TICKS = [
    *off_deadlines(),
    ("grd22 gives 12", M9, '<= 22 else', '<= 21 else'),
    ("grd23 gives 11", M9, '<= 22 else', '<= 23 else'),
    ("11 before 12 by deadlines", M9, "PAST_STAGE_LIMIT, PAST_PHASE_LIMIT):",
     "PAST_PHASE_LIMIT, PAST_STAGE_LIMIT):"),
    ("equal passes a deadline", M9, PASSES, "excess >= 0]"),
    ("one past keeps a deadline", M9, PASSES, "excess > 1]"),
    ("a refused tick moves the manual's time", M9, f"{PAST}, variables\n",
     f"{PAST}, done(self.tick_tock.actions, variables, amount)\n"),
]

# Choosing an event, and the order of refusals.

STEPS = [
    ("a code without its last event", M9, "event for event in self.events[code] if",
     "event for event in self.events[code][:-1] if"),
    ("asking a moment early", M9, "if excess > 0:", "if excess > 1:"),
    ("asking a moment late", M9, "if excess > 0:", "if excess >= 0:"),
    ("a wrong box gives 7", M9, "return WRONG_BOX", "return NOT_ALLOWED"),
    ("too early gives 10", M9, "return TOO_EARLY if", "return TOO_LATE if"),
    ("no event gives 8", M9, "if event else (NOT_ALLOWED,", "if event else (WRONG_BOX,"),
    ("a refused event acts", M9, "variables if number else done(event.actions, variables)",
     "done(event.actions, variables) if event else variables"),
    ("the manual's engine knows no rule", M9, "return NOT_ADMITTED, rule, 0, variables",
     "return NOT_ADMITTED, 0, 0, variables"),
    ("the manual's engine takes any table", M9, "        rule = broken_rule(table)\n", "        rule = 0\n"),
    ("the manual's engine does not look at the middle byte", M9, "unreadable(code, amount, middle)",
     "unreadable(code, amount)"),
    ("one flag of a group is not enough", M9, "all(any(map(value, group))", "all(all(map(value, group))"),
    ("Zero_DE for Sync_DE in phase 10 too", M9, '"OpenClutch_Sync_DE": "Sync_DE"', '"OpenClutch_Sync_DE": "Zero_DE"'),
    ("Sync_DE for Zero_DE", M9, '"OpenClutch_Zero_DE": "Zero_DE"', '"OpenClutch_Zero_DE": "Sync_DE"'),
]

# The excess: of a tick that of the guard that refuses, of an event that of its guard on times.

ALL_PASSED = "for refusal, excess in found if excess > 0"
BOUND, STEPPED = "else TOO_LATE, excess", "return number, 0, excess, variables"
TO_ANOTHER = 'variables[bound.time] + getattr(table, LIMITS[bound.limit].replace("DE", "{}")) - variables["time"]'

EXCESSES = [
    *((f"the excess of a tick is {how}", M9, PAST, f"return number, {wrong}") for how, wrong in (
        ("one more", "passed[0] + 1"), ("one less", "passed[0] - 1"), ("always 0", "0"), ("always 1", "1"),
        ("with the other sign", "-passed[0]"), ("of 8 bits", "passed[0] % 2**8"), ("the whole tick", "amount"),
        ("measured from the old time", "passed[0] - amount"), ("what was left of the limit", "amount - passed[0]"),
        ("that of grd2 to grd22 where they refuse too",
         f"([excess {ALL_PASSED} and refusal == PAST_PHASE_LIMIT] or passed)[0]"),
        ("that of the first guard that refuses", f"[excess {ALL_PASSED}][0]"),
        ("the smallest of those that refuse", f"min(excess {ALL_PASSED})"),
        ("the sum of those that refuse", f"sum(excess {ALL_PASSED})"),
    )),
    *((f"the excess of {number} in the manual's engine is {how}", M9, PAST,
       f"return number, {wrong} if number == {number} else passed[0]")
      for number in (11, 12)
      for how, wrong in (("one more", "passed[0] + 1"), ("one less", "passed[0] - 1"), ("0", "0"))),
    *((f"the excess of asking too early is {how}", M9, BOUND, f"else TOO_LATE, {wrong}") for how, wrong in (
        ("one more", "excess + 1"), ("one less", "excess - 1"), ("always 0", "0"), ("always 1", "1"),
        ("with the other sign", "-excess"), ("of 8 bits", "excess % 2**8"),
        ("the time since the request", 'variables["time"] - variables[bound.time]'),
        ("the whole limit", "getattr(table, LIMITS[bound.limit])"),
        ("measured to EX", TO_ANOTHER.format("EX")), ("measured to DL", TO_ANOTHER.format("DL")),
    )),
    *((f"{what} with the milliseconds to its guard on times", M9, "return 0, 0\n",
       'return 0, sum(-bound.excess(table, variables, variables["time"]) for bound in self.bounds '
       f'if bound.relation == "{relation}")\n')
      for what, relation in (("a take", "≤"), ("asking for the clutch", "≥"))),
    ("an event that is accepted with an excess of 1", M9, "return 0, 0\n", "return 0, 1\n"),
    ("a tick that is accepted with its amount", M9, "return 0, 0, done(", "return 0, amount, done("),
    ("a tick that is accepted with the milliseconds that are left", M9, "return 0, 0, done(",
     "return 0, min(-excess for _, excess in found), done("),
    ("7 of the manual's engine with an excess", M9, "(NOT_ALLOWED, 0)", "(NOT_ALLOWED, 1)"),
    ("7 of the manual's engine with the time", M9, "(NOT_ALLOWED, 0)", '(NOT_ALLOWED, variables["time"])'),
    ("8 of the manual's engine with an excess", M9, "return WRONG_BOX, 0", "return WRONG_BOX, 1"),
    ("4 of the manual's engine with an excess", M9, "return NOT_ADMITTED, rule, 0, variables",
     "return NOT_ADMITTED, rule, rule, variables"),
    ("5 and 6 of the manual's engine with an excess", M9, "unreadable(code, amount, middle), 0",
     "unreadable(code, amount, middle), 1"),
    ("the manual's engine without an excess", M9, STEPPED, "return number, 0, 0, variables"),
    ("the manual's engine with the excess for the rule", M9, STEPPED, "return number, excess, 0, variables"),
]

# The reading.

LEFT = "left = variables[order.taken] or order.asked and variables[order.asked]"
PHASE_TIME, REQUEST_TIME = 'variables[f"{entering}T"]', 'variables[f"{request_of(phase)}T"]'

READING = [
    ("the box crossed", M9, 'NEUTRAL if variables["isNeu"] else IN_GEAR', 'IN_GEAR if variables["isNeu"] else NEUTRAL'),
    ("error reads as done", M9, "box, ERROR, NONE)", "box, DONE, NONE)"),
    ("done reads as at rest", M9, "box, DONE, NONE)", "box, AT_REST, NONE)"),
    ("error with the box in gear alone", M9, "if error_phase(variables):",
     'if error_phase(variables) and not variables["isNeu"]:'),
    ("good reads as working", M9, "        return GOOD\n", "        return WORKING\n"),
    ("sent reads as working", M9, "return WORKING if variables[device.request] else SENT", "return WORKING"),
    ("working reads as sent", M9, "return WORKING if variables[device.request] else SENT", "return SENT"),
    ("waiting reads as failed", M9, "return device.other_stage", "return FAILED"),
    ("failed and waiting read as working", M9, "if variables[device.other]:", "if False:"),
    ("the stage time of sent is the request's", M9, "{SENT: entering,", "{SENT: request_of(phase),"),
    ("the stage time of working is the phase's", M9, "WORKING: device.request,", "WORKING: entering,"),
    ("the stage time of good is that of working", M9, "GOOD: device.good}", "GOOD: device.request}"),
    ("the stage time of failed is the phase's", M9, ".get(stage)", ".get(stage, entering)"),
    ("the phase time reads the request's", M9, f"phase_time={PHASE_TIME}", f"phase_time={REQUEST_TIME}"),
    ("the request time reads the phase's", M9, f"request_time={REQUEST_TIME}", f"request_time={PHASE_TIME}"),
    ("to neutral reads gear to gear's request", M9, "for first in (1, 6, 17)", "for first in (1, 6)"),
    ("an order is not left by asking", M9, LEFT, "left = variables[order.taken]"),
    ("an order is not left by taking", M9, LEFT, "left = order.asked and variables[order.asked]"),
]

WRONG_M9 = [*AS_PRINTED, *GUARDS, *ACTIONS, *RESETS, *TICKS, *STEPS, *EXCESSES, *READING]
