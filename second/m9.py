"""The manual's machine m9 as documents 01 and 02 settle it: its events, one step, and its variables in our terms."""

import re
from typing import NamedTuple, Optional, Tuple

import m9_printed
from rules import (
    ASK_CLUTCH, AT_REST, DELIVER, DEVICE_FAILED, DEVICE_GOOD, DONE, ENGINE_WAITS, ERROR, FAILED, FINISH, FROM_NEUTRAL,
    GEAR_TO_GEAR, GOOD, IN_GEAR, LAST_CLOCK, NEUTRAL, NONE, NOT_ADMITTED, NOT_ALLOWED, PAST_CLOCK, PAST_PHASE_LIMIT,
    PAST_STAGE_LIMIT, RAISE_ERROR, RESET, SENT, TAKE, TICK, TO_NEUTRAL, TOO_EARLY, TOO_LATE, WAITING, WORKING,
    WRONG_BOX, Table, broken_rule, unreadable,
)
from settlements import OWN_EVENT, RESETTING, SETTLED

# The manual's names of limits, and the entries of the table that they are.
LIMITS = {**{name: name for name in Table._fields}, "OpenClutch_Sync_DE": "Sync_DE", "OpenClutch_Zero_DE": "Zero_DE"}


class Guard(NamedTuple):
    """A guard as printed, or None for one that isn't, as it stands here, and why if that is another."""

    label: str
    printed: Optional[str]
    stands: str
    why: str = ""


class Action(NamedTuple):
    """What an event sets a variable to, or None for one that falls away; as printed, if it is, and why if otherwise."""

    label: str
    variable: str
    value: Optional[str]
    printed: Optional[str] = None
    why: str = ""

    @property
    def stands(self):
        """The action as it stands here, or None for one that falls away."""
        return self.value and f"{self.variable} := {self.value}"


class Event(NamedTuple):
    """An event of the machine."""

    name: str
    guards: Tuple[Guard, ...]
    actions: Tuple[Action, ...]


def labelled(text):
    """The labels in a text, with the formula behind each."""
    found = re.findall(r"((?:grd|act)\d+) : (.*?)(?=\s+(?:grd|act)\d+ : |\s*$)", text, re.DOTALL)
    return [(label, " ".join(formula.split())) for label, formula in found]


def action_of(label, printed, stands, why=""):
    """An action, by its printed form and by that which stands here; either may be None."""
    variable, value = (stands or printed).split(" := ")
    return Action(label, variable, value if stands else None, printed, why)


def clauses_of(name, text):
    """The guards and actions of an event: label, printed form, what stands in its place, and why if that is another."""
    settled = {settlement.label: settlement for settlement in SETTLED if settlement.event == name}
    for label, printed in labelled(text):
        *_, stands, why = settled.pop(label, (printed, ""))
        yield label, printed, stands, why
    for label, (*_, stands, why) in settled.items():
        yield label, None, stands, why


def is_action(_, printed, stands, __):
    """Whether a clause, by its label, its printed form, what stands in its place and why, is an action."""
    return " := " in (stands or printed)


def event_of(text):
    """The event that a text prints, with what is settled of it."""
    name, clauses = text.split("\n", 1)
    found = list(clauses_of(name, clauses))
    return Event(
        name,
        tuple(Guard(*clause) for clause in found if not is_action(*clause)),
        tuple(action_of(*clause) for clause in found if is_action(*clause)),
    )


def own_event(text, why):
    """The event that a text has and the manual doesn't: nothing of it is printed."""
    name, *both = event_of(text)
    return Event(name, *(tuple(clause._replace(printed=None, why=why) for clause in clauses) for clauses in both))


PRINTED_EVENTS = tuple(map(event_of, m9_printed.EVENTS.strip().split("\n\n")))
EVENTS = {event.name: event for event in (*PRINTED_EVENTS, own_event(OWN_EVENT.strip(), RESETTING))}

VALUES = {"TRUE": True, "FALSE": False, "0": 0}
INITIALISATION = tuple(action_of(label, printed, printed) for label, printed in labelled(m9_printed.INITIALISATION))
START = {variable: None for variable in m9_printed.VARIABLES.split()}
START.update((action.variable, VALUES[action.value]) for action in INITIALISATION)

BOOLS = tuple(name for name, value in START.items() if isinstance(value, bool))
NATURALS = tuple(name for name in START if name not in BOOLS)


class Device(NamedTuple):
    """The flags of an order to a device: that it has been asked for, that it is good, and its other end."""

    request: str
    good: str
    other: str
    other_stage: int = FAILED


SYNC = Device("Engine_Request_SyncSpeed", "Engine_SyncSpeed", "Engine_WaitForSyncClutch", WAITING)
ZERO = Device("Engine_Request_ZeroTorque", "Engine_ZeroTorque", "Engine_WaitForZeroClutch", WAITING)
OPEN = Device("Clutch_Request_Open", "Clutch_Open", "Error_Clutch_Open")
CLOSE = Device("Clutch_Request_Close", "Clutch_Close", "Error_Clutch_Close")
RELEASE = Device("Gear_Request_Release", "Gear_Release", "Error_Gear_Release")
SET = Device("Gear_Request_Set", "Gear_Set", "Error_Gear_Set")
DEVICES = SYNC, ZERO, OPEN, CLOSE, RELEASE, SET


class Order(NamedTuple):
    """An order of the controller: the flag that enters it, its device, and the flags that leave it."""

    entering: str
    device: Device
    taken: str
    asked: Optional[str] = None

    def error(self):
        """The flag of its error; an engine's order has none."""
        return None if self.asked else f"Error_{self.taken}"


# The orders by our phases.
ORDERS = {
    1: Order("RequestFromNeu", SYNC, "FromNeu_SyncSpeed", "FromNeu_RequestOpenClutch"),
    2: Order("FromNeu_RequestOpenClutch", OPEN, "FromNeu_OpenClutch"),
    3: Order("FromNeu_SyncSpeed", SET, "FromNeu_SetGear_NoClutch"),
    4: Order("FromNeu_OpenClutch", SET, "FromNeu_SetGear_Clutch"),
    5: Order("FromNeu_SetGear_Clutch", CLOSE, "FromNeu_CloseClutch"),
    6: Order("RequestNoNeu", ZERO, "NoNeu_ZeroTorque", "NoNeu_RequestOpenClutch_Releasing"),
    7: Order("NoNeu_RequestOpenClutch_Releasing", OPEN, "NoNeu_OpenClutch_Releasing"),
    8: Order("NoNeu_ZeroTorque", RELEASE, "NoNeu_Release_NoClutch"),
    9: Order("NoNeu_OpenClutch_Releasing", RELEASE, "NoNeu_Release_Clutch"),
    10: Order("NoNeu_Release_NoClutch", SYNC, "NoNeu_SyncSpeed", "NoNeu_RequestOpenClutch_Setting"),
    11: Order("NoNeu_RequestOpenClutch_Setting", OPEN, "NoNeu_OpenClutch_Setting"),
    12: Order("NoNeu_SyncSpeed", SET, "NoNeu_SetGear_NoClutch"),
    13: Order("NoNeu_OpenClutch_Setting", SET, "NoNeu_SetGear_SettingClutch"),
    14: Order("NoNeu_Release_Clutch", SET, "NoNeu_SetGear_ReleasingClutch"),
    15: Order("NoNeu_SetGear_SettingClutch", CLOSE, "NoNeu_CloseClutch_Setting"),
    16: Order("NoNeu_SetGear_ReleasingClutch", CLOSE, "NoNeu_CloseClutch_Releasing"),
    17: Order("RequestToNeu", ZERO, "ToNeu_ZeroTorque", "ToNeu_RequestOpenClutch"),
    18: Order("ToNeu_RequestOpenClutch", OPEN, "ToNeu_OpenClutch"),
    19: Order("ToNeu_ZeroTorque", RELEASE, "ToNeu_Release_NoClutch"),
    20: Order("ToNeu_OpenClutch", RELEASE, "ToNeu_Release_Clutch"),
    21: Order("ToNeu_Release_Clutch", CLOSE, "ToNeu_CloseClutch"),
}

# The events of each code. An event is named as the flag that it raises.
NAMES_BY_CODE = {
    FROM_NEUTRAL: {"RequestFromNeu"},
    GEAR_TO_GEAR: {"RequestNoNeu"},
    TO_NEUTRAL: {"RequestToNeu"},
    DELIVER: {device.request for device in DEVICES},
    DEVICE_GOOD: {device.good for device in DEVICES},
    DEVICE_FAILED: {device.other for device in DEVICES if device.other_stage == FAILED},
    ENGINE_WAITS: {device.other for device in DEVICES if device.other_stage == WAITING},
    TAKE: {order.taken for order in ORDERS.values()},
    ASK_CLUTCH: {order.asked for order in ORDERS.values() if order.asked},
    RAISE_ERROR: {order.error() for order in ORDERS.values() if order.error()},
    FINISH: {"FINAL"},
    TICK: {"Tick_Tock"},
    RESET: {"RESET"},
}


class Needs(NamedTuple):
    """What guards on flags ask for: flags that are up, flags that are down, and groups of which one at least is up."""

    up: Tuple[str, ...]
    down: Tuple[str, ...]
    either: Tuple[Tuple[str, ...], ...]

    def met(self, variables):
        """Whether all of them hold."""
        value = variables.__getitem__
        return (all(map(value, self.up)) and not any(map(value, self.down))
                and all(any(map(value, group)) for group in self.either))


def needs_of(formulas):
    """What formulas on flags ask for."""
    up, down, either = [], [], []
    for formula in formulas:
        flags, values = zip(*(literal.split(" = ") for literal in formula.split(" ∨ ")))
        if len(flags) > 1 and set(values) == {"TRUE"}:
            either.append(flags)
        else:
            value, = values
            {"TRUE": up, "FALSE": down}[value].extend(flags)
    return Needs(tuple(up), tuple(down), tuple(either))


class Bound(NamedTuple):
    """A guard on a time and a limit."""

    relation: str
    time: str
    limit: str

    def excess(self, table, variables, now):
        """By how much a time passes it; an earliest time is passed downwards."""
        past = now - (variables[self.time] + getattr(table, LIMITS[self.limit]))
        return -past if self.relation == "≥" else past


def bound_of(formula):
    """A guard on a time; the manual has its time and its limit in either order."""
    relation, *names = re.fullmatch(r"time(?: \+ tick)? ([≤≥]) (\w+) \+ (\w+)", formula).groups()
    limit, = (name for name in names if name in LIMITS)
    time, = (name for name in names if name not in LIMITS)
    return Bound(relation, time, limit)


class Deadline(NamedTuple):
    """A guard of Tick_Tock: while the flags are so, the bound holds."""

    label: str
    flags: Needs
    bound: Bound

    def refusal(self):
        """The number for passing it: up to grd22 they are the controller's, from grd23 on the channels' and devices'."""
        return PAST_PHASE_LIMIT if int(self.label[len("grd"):]) <= 22 else PAST_STAGE_LIMIT


def deadline_of(label, formula):
    """A guard of Tick_Tock."""
    flags, bound = formula.split(" ⇒ ")
    return Deadline(label, needs_of(flags.split(" ∧ ")), bound_of(bound))


class Ready(NamedTuple):
    """An event made ready to run: its guards on flags, on the box and on times, and what it sets."""

    name: str
    flags: Needs
    box: Needs
    bounds: Tuple[Bound, ...]
    actions: Tuple[Action, ...]

    def refusal(self, table, variables):
        """The number 8, 9 or 10 for its guards on the box and on times with the excess, or 0 and 0."""
        if not self.box.met(variables):
            return WRONG_BOX, 0
        for bound in self.bounds:
            excess = bound.excess(table, variables, variables["time"])
            if excess > 0:
                return TOO_EARLY if bound.relation == "≥" else TOO_LATE, excess
        return 0, 0


def ready(name, guards, actions):
    """An event with these guards, made ready to run."""
    times = [formula for formula in guards if formula.startswith("time ")]
    box = [formula for formula in guards if formula.startswith("isNeu ")]
    flags = [formula for formula in guards if formula not in times + box]
    return Ready(name, needs_of(flags), needs_of(box), tuple(map(bound_of, times)), actions)


def done(actions, variables, tick=0):
    """The variables after actions, all of which see those before."""
    now = {"time": variables["time"], "time + tick": variables["time"] + tick, **VALUES}
    return {**variables, **{action.variable: now[action.value] for action in actions}}


class Machine:
    """The machine; what is settled by the settlements that are off stands as printed."""

    def __init__(self, off=()):
        settled = {(settlement.event, settlement.label) for settlement in off}

        def formulas(event, clauses):
            """The guards or the actions of an event that count, by their labels."""
            chosen = ((clause.label, clause.printed if (event.name, clause.label) in settled else clause.stands)
                      for clause in clauses)
            return {label: formula for label, formula in chosen if formula}

        self.events = {code: [] for code in NAMES_BY_CODE}
        for event in EVENTS.values():
            code, = (code for code, names in NAMES_BY_CODE.items() if event.name in names)
            if code != TICK:
                actions = [action_of(label, None, formula) for label, formula in formulas(event, event.actions).items()]
                self.events[code].append(ready(event.name, formulas(event, event.guards).values(), tuple(actions)))
        self.tick_tock = EVENTS["Tick_Tock"]
        # grd1, tick > 0, is the amount's: a tick of 0 is refused with 6.
        deadlines = formulas(self.tick_tock, self.tick_tock.guards).items()
        self.deadlines = [deadline_of(*guard) for guard in deadlines if guard[0] != "grd1"]

    def excesses(self, table, variables, amount):
        """By how much a tick passes each deadline that watches; 0 is just kept."""
        now = variables["time"] + amount
        up = [deadline for deadline in self.deadlines if variables[deadline.flags.up[0]]]
        return [(deadline, deadline.bound.excess(table, variables, now))
                for deadline in up if deadline.flags.met(variables)]

    def tick(self, table, variables, amount):
        """Tick_Tock: the number 13, 12 or 11 with the excess of its first guard, or 0 and 0, and the variables."""
        found = [(PAST_CLOCK, variables["time"] + amount - LAST_CLOCK)]
        found += [(deadline.refusal(), excess) for deadline, excess in self.excesses(table, variables, amount)]
        for number in (PAST_CLOCK, PAST_STAGE_LIMIT, PAST_PHASE_LIMIT):
            passed = [excess for refusal, excess in found if refusal == number and excess > 0]
            if passed:
                return number, passed[0], variables
        return 0, 0, done(self.tick_tock.actions, variables, amount)

    def chosen(self, variables, code):
        """The first event of a code whose guards on flags hold, or None."""
        return next((event for event in self.events[code] if event.flags.met(variables)), None)

    def event(self, table, variables, code):
        """The event of a code: the number 7 to 10 with its excess, or 0 and 0, and the variables."""
        event = self.chosen(variables, code)
        number, excess = event.refusal(table, variables) if event else (NOT_ALLOWED, 0)
        return number, excess, variables if number else done(event.actions, variables)

    def step(self, table, variables, code, amount, middle=0):
        """One step under any table: number, rule, excess and variables."""
        rule = broken_rule(table)
        if rule:
            return NOT_ADMITTED, rule, 0, variables
        number, excess = unreadable(code, amount, middle), 0
        if not number:
            number, excess, variables = (self.tick(table, variables, amount) if code == TICK
                                         else self.event(table, variables, code))
        return number, 0, excess, variables


M9 = Machine()
step = M9.step


class Reading(NamedTuple):
    """Variables in our terms; a time reads 0 where the manual keeps none: outside phases 1 to 21 all three do."""

    clock: int
    box: int
    phase: int
    stage: int
    phase_time: int = 0
    stage_time: int = 0
    request_time: int = 0


def request_of(phase):
    """The flag of the request that a phase belongs to."""
    return ORDERS[max(first for first in (1, 6, 17) if first <= phase)].entering


def error_phase(variables):
    """The phase whose error is raised, or None."""
    return next((phase for phase, order in ORDERS.items() if order.error() and variables[order.error()]), None)


FINAL_FLAGS, = needs_of(guard.stands for guard in EVENTS["FINAL"].guards).either


def done_phase(variables):
    """The phase that was the last of a shift that is done, or None."""
    last = (phase for phase, order in ORDERS.items() if order.taken in FINAL_FLAGS and variables[order.taken])
    return next(last, None)


def order_phase(variables):
    """The first phase that is entered and not left, or None."""
    for phase, order in ORDERS.items():
        left = variables[order.taken] or order.asked and variables[order.asked]
        if variables[order.entering] and not left:
            return phase
    return None


def stage_of(variables, device):
    """The stage by a device's flags."""
    if variables[device.other]:
        return device.other_stage
    if variables[device.good]:
        return GOOD
    return WORKING if variables[device.request] else SENT


def reading(variables):
    """What the variables mean in our terms."""
    clock, box = variables["time"], NEUTRAL if variables["isNeu"] else IN_GEAR
    if error_phase(variables):
        return Reading(clock, box, ERROR, NONE)
    if done_phase(variables):
        return Reading(clock, box, DONE, NONE)
    phase = order_phase(variables)
    if not phase:
        return Reading(clock, box, AT_REST, NONE)
    entering, device, *_ = ORDERS[phase]
    stage = stage_of(variables, device)
    begun = {SENT: entering, WORKING: device.request, GOOD: device.good}.get(stage)
    return Reading(
        clock, box, phase, stage,
        phase_time=variables[f"{entering}T"],
        stage_time=variables[f"{begun}T"] if begun else 0,
        request_time=variables[f"{request_of(phase)}T"],
    )


def flags(variables):
    """The flags in the manual's order, a byte each."""
    return bytes(variables[name] for name in BOOLS)


def times(variables):
    """The times in the manual's order."""
    return [variables[name] for name in NATURALS]
