"""The generated parts of docs/MANUAL.md: what is settled, event by event, and the flags that are up at each place."""

import re

import m9
import places
import reached
from corpus import case_of, packed
from m9 import BOOLS, EVENTS, M9, NAMES_BY_CODE
from pages import NotMade, table_of
from program import ROOT, printed
from records import packed_steps
from rules import FINISH, OLD_DEFAULT, TICK
from settlements import ADDED, DELAY_GUARDS, REQUESTED, SETTLED, SETTLEMENTS
from walks import timed

PAGE = ROOT / "docs" / "MANUAL.md"


def run_text(steps):
    """A list of steps as document 01 writes it, where tN is a tick."""
    return "`" + " ".join(f"t{amount}" if code == TICK else str(code) for code, amount in steps) + "`"


def code_of(event):
    """The code of the step that an event is."""
    code, = (code for code, names in NAMES_BY_CODE.items() if event in names)
    return code


def what_changes(settlement, found):
    """What a settlement that is off changes on the states reached under the old default, in words.

    A delay is looked for under the new default with the house values: it is 0 in the other.
    """
    name = "house" if settlement in DELAY_GUARDS else "old default"
    table, ticks = reached.SEARCHED[name]
    change = reached.first_change(settlement, table, found[name])
    if not change:
        return "nothing"
    if change.printed == change.settled:
        return f"{run_text(change.steps)}: accepted either way, as printed with isNeu as before"
    said = f"{run_text(change.steps)}: as printed {change.printed or 'accepted'}, here {change.settled or 'accepted'}"
    if settlement in DELAY_GUARDS:
        said = f"with the house values {said}"
    if not change.accepted():
        said += "; what is accepted is the same"
    end = reached.stop(settlement, table, ticks)
    return f"{said}; stuck after {run_text(end)}" if end else said


def settled_row(settlement, found):
    """The row of a settlement."""
    event = EVENTS[settlement.event]
    clause, = (clause for clause in event.guards + event.actions if clause.label == settlement.label)
    before, here = (f"`{formula}`" if formula else "nothing" for formula in (clause.printed, clause.stands))
    return f"{settlement.event}, {label_text(clause)}", before, here, clause.why, what_changes(settlement, found)


def searched_text(found):
    """What was searched, in words and figures."""
    numbers = {name: sum(bool(reached.first_change(settlement, reached.SEARCHED[name][0], states))
                         for settlement in SETTLED) for name, states in found.items()}
    variables = [state.variables for states in found.values() for state in states]
    enabled = max(sum(event.flags.met(each) for event in events) for each in variables for events in M9.events.values())
    error_flags = [flag for flag in BOOLS if flag.startswith("Error_")]
    errors = sum(each[flag] for each in variables if M9.chosen(each, FINISH) for flag in error_flags)
    return (
        f"Searched were {len(found['old default'])} states under the old default table, where "
        f"{numbers['old default']} of the {len(SETTLED)} change an answer, {len(found['small'])} under a table with "
        f"small limits, where {numbers['small']} do, and {len(found['house'])} under the new default table with the "
        f"house values of the clutches' delays, where {numbers['house']} do; states that can do the same now count as "
        f"one. In all of them "
        f"at most {enabled} event of a step has its guards on flags hold, and where FINAL's guard holds, "
        f"{errors} error flags are up."
    )


def settled_part():
    """The guards and actions that stand otherwise than printed, and what that changes."""
    found = {name: list(reached.reached(M9, *search)) for name, search in reached.SEARCHED.items()}
    head = "event and label", "printed", "stands here", "why", "on reached states, with this one as printed"
    rows = [settled_row(settlement, found) for settlement in SETTLED]
    return f"{table_of(head, rows)}\n\n{searched_text(found)}"


def label_text(clause):
    """The label of a guard or an action, or that the manual has none for it."""
    return "added" if clause.label in (ADDED, REQUESTED) else clause.label


def event_row(event):
    """The row of an event."""
    guards = [f"{label_text(guard)} {guard.stands}" for guard in event.guards]
    actions = [f"{label_text(action)} {action.stands}" for action in event.actions if action.stands]
    settled = [label_text(clause) for clause in event.guards + event.actions if clause.why]
    against = f"settled: {', '.join(settled)}" if settled else "as printed"
    if event.name == "Tick_Tock":
        guards = ["grd1 tick > 0", "grd2 to grd55 in the table below"]
    if event.name == "FINAL":
        actions = ["act1 to act42, := FALSE: " + ", ".join(action.variable for action in event.actions)]
    if event.name == "RESET":
        actions, against = [f":= FALSE: all {len(event.actions)} flags but isNeu"], "not the manual's: request 2"
    return event.name, str(code_of(event.name)), "; ".join(guards), "; ".join(actions), against


def deadline_row(deadline):
    """The row of a guard of Tick_Tock."""
    (up, down, _), (_, time, limit) = deadline.flags, deadline.bound
    settled = any((settlement.event, settlement.label) == ("Tick_Tock", deadline.label) for settlement in SETTLEMENTS)
    return deadline.label, ", ".join(up), ", ".join(down), f"{time} + {m9.LIMITS[limit]}", str(deadline.refusal()), \
        "settled" if settled else "as printed"


def events_part():
    """Every event, and the guards of Tick_Tock."""
    events = table_of(("event", "step", "guards", "actions", "against the manual"), map(event_row, EVENTS.values()))
    head = "guard of Tick_Tock", "while up", "and down", "time + tick at most", "else", "against the manual"
    return f"{events}\n\n{table_of(head, map(deadline_row, M9.deadlines))}"


def place_text(phase, how):
    """A place in words."""
    if phase == places.AT_REST:
        return f"at rest, {how}"
    return f"{how} from {phase}" if how in (places.DONE, places.ERROR) else f"{phase} {how}"


def flags_in(line):
    """The names of the flags that are up in a line of manual whose list was accepted."""
    found = re.match(r"manual 0 0 \d+ 0 ((?:0[01]){%d}) " % len(BOOLS), line)
    if not found:
        raise NotMade(f"not a line of manual with all records accepted: {line[:80]}")
    return [name for name, value in zip(BOOLS, bytes.fromhex(found.group(1))) if value]


def place_order(place):
    """Where a place stands in the table: at rest and phases with their stages, then done, then error."""
    phase, how = place
    return how == places.ERROR, how == places.DONE, phase, places.HOW.index(how)


def flags_part(command):
    """The flags that the program has up at each place, by the first way that leads there."""
    ways = places.ways()
    order = sorted(ways, key=place_order)
    walks = [packed_steps(timed(OLD_DEFAULT, ways[place][0], min)) for place in order]
    lines, faults = printed(command, [packed(case_of("manual", OLD_DEFAULT, walk)) for walk in walks])
    if faults:
        raise NotMade("; ".join(faults))
    rows = [(place_text(*place), ", ".join(flags_in(line)) or "none") for place, line in zip(order, lines)]
    return table_of(("place", "flags that are up"), rows)


def parts(command):
    """The generated parts by name."""
    return {"settled": settled_part(), "events": events_part(), "flags": flags_part(command)}
