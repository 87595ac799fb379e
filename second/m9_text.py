"""The machine m9 as facts by name: those of m9.py, of the definitions in antt and of the code, to be compared."""

import re

import m9
from m9 import BOOLS, EVENTS, LIMITS, NATURALS, START, bound_of, deadline_of
from program import ROOT
from rules import (
    LAST_CLOCK, NOT_ALLOWED, PAST_CLOCK, TOO_EARLY, TOO_LATE, WRONG_BOX, Table,
)
from settlements import REQUESTED

SPECS = "crates/manual/specs"
# The files of events, in the manual's order.
EVENT_SPECS = [f"{SPECS}/{name}.antt" for name in "Requests FromNeutral ToNeutral GearToGear Devices Final".split()]
TICKS, RESETS, STEPS, NAMES, VARIABLES = (
    f"{SPECS}/{name}.antt" for name in ("Ticks", "Reset", "Steps", "Names", "Variables"))
STRUCT, TICK_CODE = "crates/manual/src/lib.rt", "crates/manual_ticks/src/lib.rt"
# The crates with the functions of events, and what the names of their events begin with.
CRATES = {
    "manual_devices": r"Request|Engine_|(Error_)?(Clutch|Gear)_|FINAL|RESET",
    "manual_neutral": r"(Error_)?(From|To)Neu_",
    "manual_gears": r"(Error_)?NoNeu_",
}
EVENT_CODE = {crate: f"crates/{crate}/src/lib.rt" for crate in CRATES}
FILES = (*EVENT_SPECS, TICKS, RESETS, STEPS, NAMES, VARIABLES, STRUCT, TICK_CODE, *EVENT_CODE.values())

# The names of the steps in the text, by code.
STEP_NAMES = dict(enumerate((
    "FromNeutral", "GearToGear", "ToNeutral", "Deliver", "DeviceGood", "DeviceFailed", "EngineWaits", "Take",
    "AskClutch", "RaiseError", "Finish", "Tick", "Reset"), 1))
# The table's entries by their names in the text, such as open_clutch_dl.
ENTRIES = {entry.replace("_", "").lower(): entry for entry in Table._fields}


class Unread(Exception):
    """Text that is not in the shape of the others."""


def entry_of(field):
    """The table's entry that a field of the text is."""
    return ENTRIES.get(field.replace("_", ""), field)


def files():
    """The text of the files."""
    return {name: (ROOT / name).read_text(encoding="utf-8") for name in FILES}


# What facts say.


def bounded(relation, time, limit):
    """A guard on a time."""
    return f"time {relation} {time} + {limit}"


def over(relation, label, time, limit):
    """The excess of an event whose guard of this label is on a time: its label, and what it is measured against."""
    if relation == "≥":
        return f"before {label}", f"{time} + {limit} - time"
    return f"past {label}", f"time - ({time} + {limit})"


def deadline(up, down, time, limit):
    """A guard of Tick_Tock."""
    flags = [f"{flag} = TRUE" for flag in up] + [f"{flag} = FALSE" for flag in down]
    return f"{' ∧ '.join(flags)} ⇒ time + tick ≤ {time} + {limit}"


def guarded(formula, number, mark):
    """A guard, the number that refuses where it doesn't hold, and what is settled of it."""
    return f"{formula}, else {number}{f' ({mark})' if mark else ''}"


def clauses(name, labelled):
    """The facts of an event: its labels in order, and what stands under each."""
    yield f"{name}: its labels in order", " ".join(label for label, _ in labelled)
    for label, said in labelled:
        yield f"{name} {label}", said


def once(pairs):
    """Facts by their names; one that is said twice differently is said as both."""
    found = {}
    for name, said in pairs:
        found[name] = f"{found[name]} and again {said}" if name in found else said
    return found


# The facts of m9.py.


def number_of(formula):
    """The number that refuses where a guard of an event does not hold."""
    if formula.startswith("time "):
        return TOO_EARLY if "≥" in formula else TOO_LATE
    return WRONG_BOX if formula.startswith("isNeu ") else NOT_ALLOWED


def names_in(formula):
    """The variables and limits in a formula; a time whose flag is there too is left out."""
    names = {name for name in re.findall(r"\w+", formula) if name in START or name in LIMITS}
    return names - {"time", *(f"{name}T" for name in names)}


def mark_of(guard):
    """What the text has to say of a guard that is settled."""
    if not guard.why:
        return ""
    if guard.printed is None:
        return f"{guard.label}: not printed"
    return f"01: printed {' '.join(sorted(names_in(guard.printed) - names_in(guard.stands)))}"


def action_said(action):
    """An action's label and what it says."""
    if not action.why:
        return action.label, action.stands
    said = "not printed" if action.printed is None else f"printed {action.printed}"
    return action.label, f"{action.stands or 'nothing'} (02: {said})"


def unmarked(event):
    """The event that is not the manual's, of which nothing is marked."""
    return event._replace(guards=[guard._replace(why="") for guard in event.guards],
                          actions=[action._replace(why="") for action in event.actions])


def guard_said(guard):
    """A guard's label and what it says."""
    formula, number = guard.stands, number_of(guard.stands)
    if "⇒" in formula:
        watched = deadline_of(guard.label, formula)
        (up, down, _), (_, time, limit) = watched.flags, watched.bound
        formula, number = deadline(up, down, time, LIMITS[limit]), watched.refusal()
    elif number in (TOO_EARLY, TOO_LATE):
        relation, time, limit = bound_of(formula)
        formula = bounded(relation, time, LIMITS[limit])
    return guard.label, guarded(formula, number, mark_of(guard))


def overs_said(guards):
    """The excess of an event that has a guard on a time."""
    for guard in guards:
        if number_of(guard.stands) in (TOO_EARLY, TOO_LATE):
            relation, time, limit = bound_of(guard.stands)
            yield over(relation, guard.label, time, LIMITS[limit])


def manual_events(in_code):
    """The facts of the events; definitions have the excess first, code the guards on flags, and the excess behind all guards."""
    for event in EVENTS.values():
        if event.name == "RESET":
            event = unmarked(event)
        # Tick_Tock's grd1, tick > 0, is asked of the record.
        guards = [guard for guard in event.guards if guard.stands != "tick > 0"]
        if in_code and event.name != "Tick_Tock":
            guards.sort(key=lambda guard: number_of(guard.stands) != NOT_ALLOWED)
        said, overs = [*map(guard_said, guards)], [*overs_said(guards)]
        yield from clauses(event.name, (said + overs if in_code else overs + said) + [*map(action_said, event.actions)])
    yield "Tick_Tock: the clock's end", f"{LAST_CLOCK}, else {PAST_CLOCK}"


def manual_definitions():
    """The facts that the definitions have to say."""
    flags, times = [name for name in BOOLS if name != "isNeu"], [name for name in NATURALS if name != "time"]
    place = {name: number for number, name in enumerate(START, 1)}
    yield "the events in order", " ".join(EVENTS)
    yield from manual_events(in_code=False)
    yield "Tick_Tock: its excess", "of the first that is passed of clock_limit stage_limits phase_limits"
    for code, name in STEP_NAMES.items():
        events = [event.name for event in m9.M9.events[code]] or ["Tick_Tock"]
        yield f"step {name}", " ".join(events)
    yield "the flags in order", " ".join(flags)
    yield "the times in order", " ".join(times)
    for name in flags + times:
        yield f"number of {name}", str(place[name])
        yield f"{'flag' if name in flags else 'time_of'} {name}", name
    yield "the variables in order", " ".join(START)
    yield "initialisation", "variables 0 true (λ (f : Flag). false) (λ (τ : Time). 0)"


def manual_code():
    """The facts that the code has to say."""
    for crate, names in CRATES.items():
        yield f"the events of {crate} in order", " ".join(name for name in EVENTS if re.match(names, name))
    yield from manual_events(in_code=True)
    yield "the variables in order", " ".join(f"{name}: {'bool' if name in BOOLS else 'u32'}" for name in START)
    for name, value in START.items():
        yield f"initialisation of {name}", str(value).lower()


# The facts of the text.


def plain(text):
    """Text without antt's quotes, with single spaces."""
    return " ".join(text.replace("«", "").replace("»", "").split())


def mark_in(comment):
    """What a comment says of what is settled, behind its label."""
    document = re.search(r"\b0[12]:", comment)
    if not document:
        return ""
    if comment.endswith("; not printed"):
        return f"{document.group()} not printed"
    _, _, printed = comment.rpartition("; printed ")
    return f"{document.group()} printed {printed if ':=' in printed else ' '.join(sorted(names_in(printed)))}"


def label_in(comment):
    """The label that a comment begins with."""
    return re.split("[:;]", comment)[0].strip()


def commented(text, sign):
    """The pieces of a text that a comment ends, each with it."""
    return [(plain(piece), plain(comment)) for piece, comment in re.findall(rf"(.*?){sign}([^\n]*)\n", text, re.DOTALL)]


def matched(patterns, text):
    """What the first pattern that the whole text fits makes of it."""
    for pattern, make in patterns:
        found = re.fullmatch(pattern, text)
        if found:
            return make(*found.groups())
    raise Unread(f"can't be read: {text}")


def either(text, sign, read):
    """A disjunction of flags."""
    return " ∨ ".join(f"{read(flag)} = TRUE" for flag in text.split(sign))


ANTT_GUARDS = (
    (r"\(v\.(\w+) ! (\d+)\)", lambda flag, number: (f"{flag} = TRUE", number)),
    (r"\(not v\.(\w+) ! (\d+)\)", lambda flag, number: (f"{flag} = FALSE", number)),
    (r"\(\((v\.\w+(?: \|\| v\.\w+)+)\) ! (\d+)\)",
     lambda flags, number: (either(flags, " || ", lambda flag: flag[len("v."):]), number)),
    (r"\(leb v\.time \(v\.(\w+) \+ t\.(\w+)\) ! (\d+)\)",
     lambda time, limit, number: (bounded("≤", time, entry_of(limit)), number)),
    (r"\(leb \(v\.(\w+) \+ t\.(\w+)\) v\.time ! (\d+)\)",
     lambda time, limit, number: (bounded("≥", time, entry_of(limit)), number)),
)
ANTT_OVERS = (
    (r"\(v\.time - \(v\.(\w+) \+ t\.(\w+)\)\)", lambda time, limit: ("≤", time, entry_of(limit))),
    (r"\(\(v\.(\w+) \+ t\.(\w+)\) - v\.time\)", lambda time, limit: ("≥", time, entry_of(limit))),
)
ANTT_ACTIONS = (
    (r"raise Flag\.(\w+)", lambda flag: f"{flag} := TRUE"),
    (r"lower Flag\.(\w+)", lambda flag: f"{flag} := FALSE"),
    (r"stamp Time\.(\w+)", lambda time: f"{time} := time"),
    (r"set_neu (true|false)", lambda value: f"isNeu := {value.upper()}"),
)


def over_read(patterns, piece, comment):
    """An excess: its label, and what it is measured against."""
    relation, time, limit = matched(patterns, piece)
    words, label = label_in(comment).rsplit(" ", 1)
    wanted, said = over(relation, label, time, limit)
    return f"{words} {label}", said if wanted == f"{words} {label}" else f"{said}, which is {wanted}"


def antt_event(name, body):
    """The facts of an event's definition: `event (guards) (actions) v`, or `timed (excess) (guards) (actions) v`.

    The excess, each guard and each action have a comment.
    """
    kind, body = re.match(r"\s*(event|timed)\b(.*)", body, re.DOTALL).groups()
    pieces, read = commented(body, "--"), guard_read
    found = [over_read(ANTT_OVERS, *pieces.pop(0))] if kind == "timed" else []
    for piece, comment in pieces:
        begun = piece.startswith("(")
        if "∷ []) (" in piece:
            piece, read, begun = piece.split("∷ []) ", 1)[1], action_read, True
        piece = piece[1:] if begun else piece[len("∷ "):]
        found.append((label_in(comment), read(piece, comment)))
    if not plain(body).endswith("∷ []) v"):
        raise Unread(f"{name}: can't be read to its end")
    return clauses(name, found)


def guard_read(piece, comment):
    """A guard of a definition."""
    return guarded(*matched(ANTT_GUARDS, piece), mark_in(comment))


def marked(said, comment):
    """An action, and what is settled of it."""
    mark = mark_in(comment)
    return f"{said} ({mark})" if mark else said


def action_read(piece, comment):
    """An action of a definition; what is left out stands there as its comment."""
    return marked(matched(ANTT_ACTIONS, piece) if piece else "nothing", comment)


def definitions_in(text):
    """The definitions in a file of antt, each with its arguments and its body; comments before them are left out."""
    parts = re.split(r"^(?:abbrev|unfoldable) pub (\S+) :[^\n]*\n\1([^=\n]*) =", text, flags=re.MULTILINE)
    return [(plain(name), plain(arguments), re.split(r"\n\n", body)[0] + "\n")
            for name, arguments, body in zip(parts[1::3], parts[2::3], parts[3::3])]


def conjunction(text, negated, flag):
    """The flags up and the flags down of a conjunction."""
    up, down = [], []
    for literal in re.split(r" &&? ", re.sub(negated, r"!\1", text).replace("(", "").replace(")", "")):
        name = re.fullmatch(rf"(!?){flag}(\w+)" if not literal.startswith("!") else r"(!)(\w+)", literal)
        if not name:
            raise Unread(f"can't be read: {literal}")
        (down if name.group(1) else up).append(name.group(2))
    return up, down


def antt_deadline(piece, comment, number):
    """A guard of Tick_Tock's definition."""
    found = re.fullmatch(r"(?:∷ )?past \((.*)\) now v\.(\w+) t\.(\w+)", piece)
    if not found:
        raise Unread(f"can't be read: {piece}")
    up, down = conjunction(found.group(1), r"not v\.(\w+)", r"v\.")
    return guarded(deadline(up, down, found.group(2), entry_of(found.group(3))), number, mark_in(comment))


def antt_ticks(text):
    """The facts of Tick_Tock's definition: its groups of guards, the numbers of the groups, and its action."""
    bodies = {name: (arguments, body) for name, arguments, body in definitions_in(text)}
    numbers = {}
    for number, limits in re.findall(r"refusing (\d+) \((\w+) t v now\)", bodies["tick_guards"][1]):
        numbers[limits] = number
    found = []
    for limits in ("phase_limits", "stage_limits"):
        for group in re.findall(r"(\w+) t v now", bodies[limits][1]):
            for piece, comment in commented(bodies[group][1], "--"):
                found.append((label_in(comment), antt_deadline(piece, comment, numbers.get(limits, "no number"))))
    event = plain(bodies["Tick_Tock"][1])
    number, excess = ("first (tick_guards t v (v.time + tick))", "tick_excess t v (v.time + tick)")
    acts = event == f"record {{ enabled = true; number = {number}; excess = {excess}; after = pass tick v; -- act1 }}"
    found.append(("act1", "time := time + tick" if acts else event))
    yield from clauses("Tick_Tock", found)
    guards, last = plain(bodies["tick_guards"][1]), plain(bodies["clock_limit"][1])
    first = re.fullmatch(r"refusing (\d+) \(clock_limit now\) \+\+ \(refusing \d+ \(stage_limits t v now\)"
                         r" \+\+ refusing \d+ \(phase_limits t v now\)\)", guards)
    end = re.fullmatch(r"\(now - (\d+)\) ∷ \[\] -- 01: .*; not printed", last)
    yield "Tick_Tock: the clock's end", f"{end.group(1)}, else {first.group(1)}" if first and end else f"{last} {guards}"
    excess = plain(bodies["tick_excess"][1])
    limits = re.fullmatch(r"first_past \((\w+) now \+\+ \((\w+) t v now \+\+ (\w+) t v now\)\)", excess)
    yield "Tick_Tock: its excess", f"of the first that is passed of {' '.join(limits.groups())}" if limits else excess


def antt_reset(text):
    """The facts of RESET's definition: its guard, and that it lowers every flag."""
    bodies = {name: plain(body) for name, _, body in definitions_in(text)}
    flags = either(bodies["erred"], " || ", lambda flag: flag[len("v."):])
    number, = re.fullmatch(r"event \(\(erred v ! (\d+)\) ∷ \[\]\) \(lower_all ∷ \[\]\) v", bodies["RESET"]).groups()
    lowers = bodies["lower_all"] == "variables v.time v.isNeu (λ (f : Flag). false) (time_of v)"
    lowered = [name for name in BOOLS if name != "isNeu" and lowers]
    return clauses("RESET", [("grd1", guarded(flags, number, "")), *lowering(lowered)])


def lowering(flags):
    """The labels and actions that lower flags."""
    return [(f"act{number}", f"{flag} := FALSE") for number, flag in enumerate(flags, 1)]


def antt_steps(text):
    """The facts of the steps: for each its events in order."""
    lists, steps = {}, {}
    for name, _, body in definitions_in(text):
        lists[name] = [word for word in re.findall(r"(\w+)(?: t)? v", plain(body))]
    for step, event in re.findall(r"^stepped t v \(?(\w+)(?: n\))? = («?\w+»?)", text, re.MULTILINE):
        steps[step] = plain(event)

    def expanded(name):
        return sum(map(expanded, lists[name]), []) if name in lists else [name]

    for step, name in steps.items():
        yield f"step {step}", " ".join(expanded(name))


# What the record of variables is given for the two that are neither a flag nor the time of one.
GIVEN = {"time": "now", "isNeu": "neutral"}


def definition_facts(texts):
    """The facts of the definitions."""
    names = []
    for file in EVENT_SPECS:
        for name, _, body in definitions_in(texts[file]):
            names.append(name)
            yield from antt_event(name, body)
    for file in (TICKS, RESETS):
        names += [name for name, _, _ in definitions_in(texts[file]) if name in EVENTS]
    yield "the events in order", " ".join(names)
    yield from antt_ticks(texts[TICKS])
    yield from antt_reset(texts[RESETS])
    yield from antt_steps(texts[STEPS])
    for kind in ("Flag", "Time"):
        declared = re.search(rf"pub data {kind} : Type 0 where\n(.*?)\n\n", texts[NAMES], re.DOTALL).group(1)
        names = re.findall(rf"^  (\w+) : {kind}$", plain_lines(declared), re.MULTILINE)
        yield f"the {kind.lower()}s in order", " ".join(names)
    for name, number in re.findall(r"^(?:flag|time)_number (\w+) = (\d+)$", plain_lines(texts[NAMES]), re.MULTILINE):
        yield f"number of {name}", number
    read = r"^(flag|time_of) v (\w+) = v\.(\w+)$"
    for kind, name, value in re.findall(read, plain_lines(texts[VARIABLES]), re.MULTILINE):
        yield f"{kind} {name}", value
    record = re.search(r"^variables [^\n]*= record \{\n(.*?)^\}", texts[VARIABLES], re.DOTALL | re.MULTILINE).group(1)
    fields = re.findall(r"^  (\w+) = (.*);$", plain_lines(record), re.MULTILINE)
    own = {**{name: f"f {name}" for name in BOOLS}, **{name: f"τ {name}" for name in NATURALS}, **GIVEN}
    yield "the variables in order", " ".join(
        name if value == own.get(name) else f"{name} = {value}" for name, value in fields)
    start, = re.findall(r"^initialisation = (.*)$", texts[VARIABLES], re.MULTILINE)
    yield "initialisation", start


def plain_lines(text):
    """Text without antt's quotes."""
    return text.replace("«", "").replace("»", "")


CODE_GUARDS = (
    (r"v\.(\w+)", lambda flag: (f"{flag} = TRUE", NOT_ALLOWED)),
    (r"!v\.(\w+)", lambda flag: (f"{flag} = FALSE", NOT_ALLOWED)),
    (r"\(?(v\.\w+(?: \| v\.\w+)+)\)?",
     lambda flags: (either(flags, " | ", lambda flag: flag[len("v."):]), NOT_ALLOWED)),
    (r"let number = late\(v\.time, v\.(\w+), table\.(\w+)\)",
     lambda time, limit: (bounded("≤", time, entry_of(limit)), TOO_LATE)),
    (r"let number = early\(v\.time, v\.(\w+), table\.(\w+)\)",
     lambda time, limit: (bounded("≥", time, entry_of(limit)), TOO_EARLY)),
    (r"let number = on_side\(v\.(isNeu)\)", lambda flag: (f"{flag} = TRUE", WRONG_BOX)),
    (r"let number = on_side\(!v\.(isNeu)\)", lambda flag: (f"{flag} = FALSE", WRONG_BOX)),
)
CODE_OVERS = (
    (r"let excess = late_by\(v\.time, v\.(\w+), table\.(\w+)\)", lambda time, limit: ("≤", time, entry_of(limit))),
    (r"let excess = early_by\(v\.time, v\.(\w+), table\.(\w+)\)", lambda time, limit: ("≥", time, entry_of(limit))),
)
CODE_ACTIONS = (
    (r"v\.(\w+) = (true|false)", lambda flag, value: f"{flag} := {value.upper()}"),
    (r"v\.(\w+) = v\.time", lambda time: f"{time} := time"),
)


# What an event's function ends in, by whether it has a guard with a number, and one on a time.
ENDS = {
    (False, False): "Event::free(enabled, v)",
    (True, False): "Event { number, ..Event::free(enabled, v) }",
    (True, True): "Event { enabled, number, excess, after: v, }",
}


def functions_in(text):
    """The functions in a file of code, each with its body."""
    return re.findall(r"^(?:pub )?fn (\w+)\(.*?\n\{\n(.*?)^\}", text, re.DOTALL | re.MULTILINE)


def code_event(name, body):
    """The facts of an event's function."""
    found = []
    for piece, comment in commented(body, "//"):
        label = label_in(comment)
        piece = re.sub(r"^(let enabled =|&) ", "", piece).rstrip(";").strip()
        if label.startswith("act") or label == REQUESTED and not piece.startswith("let number "):
            found.append((label, marked(matched(CODE_ACTIONS, piece) if piece else "nothing", comment)))
        elif piece.startswith("let excess "):
            found.append(over_read(CODE_OVERS, piece, comment))
        else:
            found.append((label, guarded(*matched(CODE_GUARDS, piece), mark_in(comment))))
    numbered = any(f"else {number}" in said for label, said in found for number in (WRONG_BOX, TOO_EARLY, TOO_LATE))
    timed = "let excess " in body
    rest = plain(body.rsplit("//", 1)[1].split("\n", 1)[1])
    if rest != ENDS[numbered, timed]:
        raise Unread(f"{name}: can't be read to its end: {rest}")
    return clauses(name, found)


def code_reset(body, erred):
    """The facts of RESET's function, which has no labels; what it does not lower it hands on."""
    kept = re.fullmatch(r"let after = Variables { ((?:\w+: v\.\w+, )*)\.\.Variables::default\(\) };"
                        r" Event::free\(v\.erred\(\), after\)", plain(body)).group(1)
    handed_on = [name for name, value in re.findall(r"(\w+): v\.(\w+),", kept) if name == value]
    if not {"isNeu", *NATURALS} <= set(handed_on) or len(handed_on) != kept.count(","):
        raise Unread("RESET: what it hands on can't be read")
    flags, number = matched(CODE_GUARDS, plain(erred).replace("self.", "v."))
    lowered = [name for name in BOOLS if name not in handed_on]
    return clauses("RESET", [("grd1", guarded(flags, number, "")), *lowering(lowered)])


# A guard of Tick_Tock in code: its flags, its label and what is settled of it, its time and its limit.
GUARD = r"Guard \{\s*flags: (.*?),\s*//([^\n]*)\n\s*since: v\.(\w+),\s*limit: table\.(\w+),\s*\},\n"
# The answers of Tick_Tock in order: the clock's end with its number, and the numbers of the limits.
ANSWERED = (r"let now = v\.time as u64 \+ \(tick as u64\); let Some\(time\) = v\.time\.checked_add\(tick\) else "
            r"{ return Moved::refused\((\d+), times::beyond\(now, (\d+)\), v\); }; "
            r"if let Some\(over\) = stage_limits\(v, table, now\) { return Moved::refused\((\d+), over, v\); } "
            r"if let Some\(over\) = phase_limits\(v, table, now\) { return Moved::refused\((\d+), over, v\); } "
            r"Moved::accepted\(Variables { time, \.\.v }\) // (act\d+)")


def code_ticks(text):
    """The facts of Tick_Tock's functions."""
    bodies = dict(functions_in(text))
    answered = re.fullmatch(ANSWERED, plain(bodies["Tick_Tock"]))
    if not answered:
        raise Unread("Tick_Tock: what it asks for can't be read")
    number, last, stages, phases, act = answered.groups()
    found = []
    for limits, refusal in (("phase_limits", phases), ("stage_limits", stages)):
        for flags, comment, time, limit in re.findall(GUARD, bodies[limits], re.DOTALL):
            up, down = conjunction(plain(flags), r"!v\.(\w+)", r"v\.")
            formula = deadline(up, down, time, entry_of(limit))
            found.append((label_in(plain(comment)), guarded(formula, refusal, mark_in(plain(comment)))))
        left = plain(re.sub(r"//[^\n]*\n", "", re.sub(GUARD, "", bodies[limits], flags=re.DOTALL)))
        if left != "let guards = [ ]; first_past(&guards, now)":
            raise Unread(f"{limits}: its guards are not all asked")
    found.append((act, "time := time + tick"))
    yield from clauses("Tick_Tock", found)
    yield "Tick_Tock: the clock's end", f"{last}, else {number}"


# What the events and Tick_Tock are answered by: the bodies of the constructors that they name.
ANSWERS = {
    "free": "Event { enabled, number: 0, excess: 0, after, }",
    "accepted": "Moved { number: 0, rule: 0, excess: 0, variables, }",
    "refused": "Moved { number, rule: 0, excess, variables, }",
}

# What a variable is by Default.
DEFAULTS = {"bool": "false", "u32": "0"}


def method(text, name):
    """The body of a public method."""
    return re.search(rf"^    pub fn {name}\(.*?\n    \{{\n(.*?)\n    \}}", text, re.DOTALL | re.MULTILINE).group(1)


def code_facts(texts):
    """The facts of the code."""
    erred = method(texts[STRUCT], "erred")
    for name, says in ANSWERS.items():
        if plain(method(texts[STRUCT], name)) != says:
            raise Unread(f"{name}: what it answers can't be read")
    for crate, file in EVENT_CODE.items():
        functions = functions_in(texts[file])
        yield f"the events of {crate} in order", " ".join(name for name, _ in functions)
        for name, body in functions:
            yield from code_reset(body, erred) if name == "RESET" else code_event(name, body)
    yield from code_ticks(texts[TICK_CODE])
    struct = re.search(r"#\[derive\(Clone, Copy, Default\)\]\npub struct Variables \{\n(.*?)\n\}", texts[STRUCT], re.DOTALL).group(1)
    fields = re.findall(r"pub (\w+): (\w+),", struct)
    yield "the variables in order", " ".join(f"{name}: {kind}" for name, kind in fields)
    start = re.search(r"pub fn initialisation\(\).*?Variables \{\n(.*?)\.\.Variables::default\(\)\n", texts[STRUCT], re.DOTALL)
    given = dict(re.findall(r"(\w+): (\w+),", start.group(1)))
    for name, kind in fields:
        yield f"initialisation of {name}", given.get(name, DEFAULTS[kind])


def differences(wanted, found):
    """In words, what two lists of facts do not agree on."""
    for name in {**wanted, **found}:
        if wanted.get(name) != found.get(name):
            yield f"{name}\n  wanted {wanted.get(name, 'nothing')}\n  got    {found.get(name, 'nothing')}"
