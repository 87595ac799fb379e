"""Wrong versions of shifts.py where it extends a list: what is wrong, a text of it, and the text in its place."""

# The refusals, in their order.

WHOLE = "records[:len(records) // RECORD.size * RECORD.size]"
LISTED = f"listed, new = buffer[:held], {WHOLE}\n"
HELD = "    if held > len(buffer):\n        return NO_ROOM, 0, 0, 0, 0, buffer\n"
DAMAGED = "    number = damage(listed)\n    if number:\n        return number, 0, 0, 0, 0, buffer\n"
MOST = "most_records(k_written(table))"
RECORDS = f"    if count + len(new) // RECORD.size > {MOST}:\n        return WRONG_HEADER, 0, 0, 0, 0, buffer\n"
SHIFTS = "    if count_of(listed) > count:\n        return WRONG_HEADER, 0, 0, 0, 0, buffer\n"
TABLE = "    rule = broken_rule(table)\n    if rule:\n        return NOT_ADMITTED, rule, 0, 0, 0, buffer\n"
FIT = "    if not fits(state, count, last_entry(listed)):\n        return NOT_IN_LIST, 0, 0, 0, 0, buffer\n"
JUDGED = ("    number, _, accepted, excess, _ = block(table, state, new)\n"
          "    if number:\n        return number, 0, count + accepted, excess, 0, buffer\n")
LAID = ("    number, length, after = laid(extended(table, state, count, new, listed), buffer)\n"
        "    return number, 0, 0, 0, length, after\n")
ALL = HELD + DAMAGED + RECORDS + SHIFTS + TABLE + FIT + JUDGED + LAID
UNDER_8 = "    if held < HEAD.size:\n        return TOO_SHORT, 0, 0, 0, 0, buffer\n"
# Two of them that need what comes before, as they stand before it.
OTHER_OFFSET = "    if buffer[4:8] not in (b'', b'\\x08\\0\\0\\0'):\n        return WRONG_HEADER, 0, 0, 0, 0, buffer\n"
NEEDS = "sum(1 for four in fours(new) if four[0] in REQUESTS)"
NO_ROOM = f"    if held + ENTRY.size * {NEEDS} > len(buffer):\n        return NO_ROOM, 0, 0, 0, 0, buffer\n"


def without(check):
    """Extending without a check."""
    return ALL, ALL.replace(check, "")


def before(later, check):
    """Extending with a check before one that comes before it."""
    later = JUDGED.replace("number:", "number > 4:") if later == JUDGED else later
    return ALL, ALL.replace(check, later + check)


def not_3_for(condition, name):
    """Extending with another refusal before 3 where this holds."""
    refused = f"if number == WRONG_LENGTH and {condition}:\n        return {name}, 0, 0, 0, 0, buffer\n    if number:"
    return DAMAGED, DAMAGED.replace("if number:", refused)


def judged_with(answer):
    """Records that are refused with this answer."""
    return JUDGED, JUDGED.replace("number, 0, count + accepted, excess, 0, buffer", answer)


def laid_with(answer):
    """A longer list that is answered so."""
    return LAID, LAID.replace("number, 0, 0, 0, length, after", answer)


REFUSALS = [
    ("any held list", *without(HELD)),
    ("a held list that fills the buffer is refused", HELD, HELD.replace(">", ">=")),
    ("one byte held past the buffer", HELD, HELD.replace("len(buffer)", "len(buffer) + 1")),
    ("a held list of 32 bits", HELD, HELD.replace("held >", "held % 2**32 >")),
    ("14 for 15 of a held list", HELD, HELD.replace("NO_ROOM", "NOT_IN_LIST")),
    ("1 before 15 for a held list", *before(UNDER_8, HELD)),
    ("2 before 15 for a held list", *before(OTHER_OFFSET, HELD)),
    ("2 before 1 for a held list", *before(OTHER_OFFSET, DAMAGED)),
    ("the records' 2 before 15 for a held list", *before(RECORDS, HELD)),
    ("the records' 2 before 1", *before(RECORDS, DAMAGED)),
    ("the records' 2 before 3", *not_3_for(f"count + len(new) // RECORD.size > {MOST}", "WRONG_HEADER")),
    ("the shifts' 2 before 3", *not_3_for("count_of(listed) > count", "WRONG_HEADER")),
    ("4 before 15 for a held list", *before(TABLE, HELD)),
    ("4 before 1 to 3 of a list", *before(TABLE, DAMAGED)),
    ("4 before the records' 2", *before(TABLE, RECORDS)),
    ("4 before the shifts' 2", *before(TABLE, SHIFTS)),
    ("14 before 4", *before(FIT, TABLE)),
    ("14 before the shifts' 2", *before(FIT, SHIFTS)),
    ("14 before the records' 2", *before(FIT, RECORDS)),
    ("14 before 3 of a list",
     *not_3_for("len(listed) > 23 and not fits(state, count, last_entry(listed))", "NOT_IN_LIST")),
    ("a record's own before 14", *before(JUDGED, FIT)),
    ("a record's own before 4", ALL, ALL.replace(TABLE, "    from rules import OLD_DEFAULT\n" + JUDGED.replace(
        "block(table", "block(OLD_DEFAULT if broken_rule(table) else table") + TABLE)),
    ("a record's own before the shifts' 2", *before(JUDGED, SHIFTS)),
    ("a record's own before the records' 2", *before(JUDGED, RECORDS)),
    ("a record's own before 1 to 3 of a list", *before(JUDGED, DAMAGED)),
    ("a record's own before 15 for a held list", *before(JUDGED, HELD)),
    ("15 before a record's own of an extension", *before(NO_ROOM, JUDGED)),
    ("15 before 14 of an extension", *before(NO_ROOM, FIT)),
    ("15 before 4 of an extension", *before(NO_ROOM, TABLE)),
    ("15 before the shifts' 2", *before(NO_ROOM, SHIFTS)),
    ("15 before the records' 2", *before(NO_ROOM, RECORDS)),
    ("15 before 1 to 3 of a list", *before(NO_ROOM, DAMAGED)),
    ("any list is extended that has a header", ALL, ALL.replace(DAMAGED, UNDER_8)),
    ("any offset is extended", DAMAGED,
     DAMAGED.replace("damage(listed)", "damage(listed[:4] + b'\\x08\\0\\0\\0' + listed[8:])")),
    ("any length is extended", DAMAGED, DAMAGED.replace("if number:", "if number and number != WRONG_LENGTH:")),
    ("3 for 1 of a held list", DAMAGED, DAMAGED.replace("return number", "return 3 if number == 1 else number")),
    ("2 for 3 of a held list", DAMAGED, DAMAGED.replace("return number", "return 2 if number == 3 else number")),
    ("3 for 2 of a held list", DAMAGED, DAMAGED.replace("return number", "return 3 if number == 2 else number")),
    ("the list's damage over the whole buffer", DAMAGED, DAMAGED.replace("damage(listed)", "damage(buffer)")),
    ("a held length that wraps at 32 bits", DAMAGED, DAMAGED.replace(
        "if number:", "if number and (number < 3 or held != (8 + 16 * count_of(listed)) % 2**32):")),
    ("any number of records is extended", *without(RECORDS)),
    ("16,372 records are too many to extend", RECORDS, RECORDS.replace(">", ">=")),
    ("16,373 records are not too many to extend", RECORDS, RECORDS.replace(" > most", " - 1 > most")),
    ("only the records before are counted", RECORDS, RECORDS.replace("count + len(new) // RECORD.size", "count")),
    ("the sum of records wraps at 32 bits", RECORDS, RECORDS.replace(
        "count + len(new) // RECORD.size", "(count + len(new) // RECORD.size) % 2**32")),
    ("records before of 16 bits", RECORDS, RECORDS.replace("count +", "count % 2**16 +")),
    ("bytes left over count as a record", RECORDS,
     RECORDS.replace("len(new) // RECORD.size", "-(-len(records) // RECORD.size)")),
    ("too many records give 3", RECORDS, RECORDS.replace("WRONG_HEADER", "WRONG_LENGTH")),
    ("more shifts than records", *without(SHIFTS)),
    ("as many shifts as records are refused", SHIFTS, SHIFTS.replace(">", ">=")),
    ("one shift more than records", SHIFTS, SHIFTS.replace("> count", "> count + 1")),
    ("more shifts than records give 14", SHIFTS, SHIFTS.replace("WRONG_HEADER", "NOT_IN_LIST")),
    ("shifts are counted with the new records", SHIFTS, SHIFTS.replace("> count", "> count + len(new) // RECORD.size")),
    ("an extension admits any table", *without(TABLE)),
    ("4 without its rule of an extension", TABLE, TABLE.replace("NOT_ADMITTED, rule", "NOT_ADMITTED, 0")),
    ("4 with the count for the index", TABLE, TABLE.replace("rule, 0, 0, 0, buffer", "rule, count, 0, 0, buffer")),
    ("no 4 without a record", TABLE, TABLE.replace("if rule", "if rule and new")),
    ("any state is extended", *without(FIT)),
    ("16 for 14 of an extension", FIT, FIT.replace("NOT_IN_LIST", "16")),
    ("no 14 without a record", FIT, FIT.replace("if not", "if new and not")),
    ("the first entry for the last", FIT, FIT.replace("last_entry(listed)", "last_entry(listed[:24])")),
    ("the buffer's last entry for the list's", FIT, FIT.replace("last_entry(listed)", "last_entry(buffer)")),
    ("index not counted on", *judged_with("number, 0, accepted, excess, 0, buffer")),
    ("index is the count before", *judged_with("number, 0, count, excess, 0, buffer")),
    ("index one more of an extension", *judged_with("number, 0, count + accepted + 1, excess, 0, buffer")),
    ("no index of an extension", *judged_with("number, 0, 0, excess, 0, buffer")),
    ("no excess of an extension", *judged_with("number, 0, count + accepted, 0, 0, buffer")),
    ("an extension's excess of 32 bits", *judged_with("number, 0, count + accepted, excess % 2**32, 0, buffer")),
    ("index and excess crossed of an extension", *judged_with("number, 0, excess, count + accepted, 0, buffer")),
    ("a refused extension keeps its length", *judged_with("number, 0, count + accepted, excess, held, buffer")),
    ("a refused extension keeps what was accepted", *judged_with(
        "number, 0, count + accepted, excess, 0, "
        "laid(extended(table, state, count, new[:4 * accepted], listed), buffer)[2]")),
    ("appended records from the start state", JUDGED, JUDGED.replace("state, new", "START, new")),
    ("the first new record is not judged", JUDGED,
     JUDGED.replace("state, new)", "along(table, state, new[:4])[1][-1], new[4:])")),
    ("15 with the index of the longer file",
     *laid_with("number, 0, (count + len(new) // 4) * (number > 0), 0, length, after")),
    ("the longer file's count for the index",
     *laid_with("number, 0, (count + len(new) // 4) * (number == 0), 0, length, after")),
    ("14 for 15 of a longer list", *laid_with("number and 14, 0, 0, 0, length, after")),
    ("15 with the length that is held", *laid_with("number, 0, 0, 0, length or held, after")),
    ("15 with the open entry gone on", LAID, LAID.replace("    return", (
        "    if number and state.phase in PHASES:\n        codes, states = along(table, state, new)\n"
        "        after = (listed[:-ENTRY.size] + entries_of([gone_on(last_entry(listed), codes, states, count)])"
        " + buffer[held:])\n    return"))),
    ("an exact fit is refused to longer lists", *laid_with(
        "(NO_ROOM, 0, 0, 0, 0, buffer) if len(buffer) == length > held else (number, 0, 0, 0, length, after)")),
    ("an exact fit is refused where no shift is new", *laid_with(
        "(NO_ROOM, 0, 0, 0, 0, buffer) if len(buffer) == length == held else (number, 0, 0, 0, length, after)")),
    ("the length of the new entries", *laid_with("number, 0, 0, 0, max(0, length - held), after")),
    ("the length that was held", *laid_with("number, 0, 0, 0, length and held, after")),
    ("the buffer for the longer list's length", *laid_with("number, 0, 0, 0, length and len(buffer), after")),
    ("bytes behind the longer list are made 0", *laid_with(
        "number, 0, 0, 0, length, after[:length] + bytes(len(after) - length) if length else after")),
]

# What is left over behind the last whole record.

LEFT_OVER = [
    ("bytes left over are refused", HELD,
     "    if len(records) % RECORD.size:\n        return WRONG_LENGTH, 0, 0, 0, 0, buffer\n" + HELD),
    ("bytes left over are refused with 5", JUDGED,
     "    if len(records) % RECORD.size:\n        return 5, 0, count, 0, 0, buffer\n" + JUDGED),
    ("bytes left over are a record", LISTED, LISTED.replace(WHOLE, "records + bytes(-len(records) % RECORD.size)")),
    ("the last record is left out where none is left over", LISTED, LISTED.replace(
        WHOLE, "records[:max(0, len(records) - 1) // RECORD.size * RECORD.size]")),
]

# Whether state and list fit.

OPEN, LAST, TIME = "last.end == OPEN and ", "last.last == count - 1\n", "last.request_time == state.request_time\n"
AGE = "last.age == age_at(state.clock, state.request_time))"
OUTSIDE = "last is None or (last.end != OPEN and last.last < count)"
IN_A_SHIFT = "    if state.phase in PHASES:\n        return (last is not None"
AGE_AT = "max(0, clock - request_time)"

FITS = [
    ("any end fits a shift", OPEN, ""),
    ("only done does not fit a shift", OPEN, "last.end != 1 and "),
    ("only an error does not fit a shift", OPEN, "last.end != 2 and "),
    ("any last record fits a shift", LAST, "True\n"),
    ("a last record one less fits a shift", LAST, "last.last in (count - 2, count - 1)\n"),
    ("a last record one more fits a shift", LAST, "last.last in (count - 1, count)\n"),
    ("a last record below the count fits a shift", LAST, "last.last < count\n"),
    ("the count for the last record of a shift", LAST, "last.last == count\n"),
    ("any request time fits", TIME, "True\n"),
    ("a request time that is later fits", TIME, TIME.replace("==", ">=")),
    ("a request time that is earlier fits", TIME, TIME.replace("==", "<=")),
    ("a request time of 16 bits fits", TIME, TIME.replace("state.request_time", "state.request_time % 2**16")),
    ("the phase time for the request time", TIME, TIME.replace("state.request_time", "state.phase_time")),
    ("any age fits", AGE, "True)"),
    ("an age that is less fits", AGE, AGE.replace("==", "<=")),
    ("an age that is more fits", AGE, AGE.replace("==", ">=")),
    ("the age in its phase fits", AGE, AGE.replace("state.request_time", "state.phase_time")),
    ("any age fits a clock before the request", AGE, AGE[:-1] + " or state.clock < state.request_time)"),
    ("an age wraps", AGE_AT, "(clock - request_time) % 2**32"),
    ("an age of a clock before the request is the other way", AGE_AT, "abs(clock - request_time)"),
    ("a clock before the request does not fit", AGE, AGE[:-1] + " and state.clock >= state.request_time)"),
    ("no shift need be in the list", IN_A_SHIFT,
     f"    if last is None:\n        return state.phase not in PHASES or count == 0\n{IN_A_SHIFT}"),
    ("an empty list fits no state", OUTSIDE, OUTSIDE.replace("last is None or", "last is not None and")),
    ("an empty list fits a state at rest alone", OUTSIDE,
     OUTSIDE.replace("last is None or", "last is None and state.phase == 0 or last and")),
    ("an open shift fits outside", OUTSIDE, "last is None or last.last < count"),
    ("an open shift fits at rest", OUTSIDE,
     OUTSIDE.replace("last.end != OPEN", "(last.end != OPEN or state.phase == 0)")),
    ("an open shift fits in done and error", OUTSIDE,
     OUTSIDE.replace("last.end != OPEN", "(last.end != OPEN or state.phase in ENDS)")),
    ("an end above 2 does not fit", OUTSIDE, OUTSIDE.replace("last.end != OPEN", "last.end in (1, 2)")),
    ("only the end of done fits in done", OUTSIDE,
     OUTSIDE.replace("last.end != OPEN", "last.end != OPEN and not (state.phase == DONE and last.end == 2)")),
    ("only the end of an error fits in error", OUTSIDE,
     OUTSIDE.replace("last.end != OPEN", "last.end != OPEN and not (state.phase == ERROR and last.end == 1)")),
    ("any last record fits outside", OUTSIDE, "last is None or last.end != OPEN"),
    ("a last record at the count fits outside", OUTSIDE, OUTSIDE.replace("< count", "<= count")),
    ("a last record before the count does not fit outside", OUTSIDE, OUTSIDE.replace("< count", "< count - 1")),
    ("the last record just before the count alone fits in done and error", OUTSIDE, OUTSIDE.replace(
        "< count", "< count and (state.phase not in ENDS or last.last == count - 1)")),
    ("only phases up to 20 are in a shift", IN_A_SHIFT,
     IN_A_SHIFT.replace("in PHASES", "in PHASES and state.phase < 21")),
    ("phase 1 is not in a shift", IN_A_SHIFT, IN_A_SHIFT.replace("in PHASES", "in PHASES and state.phase > 1")),
    ("done is in a shift", IN_A_SHIFT, IN_A_SHIFT.replace("in PHASES", "in (*PHASES, DONE)")),
    ("error is in a shift", IN_A_SHIFT, IN_A_SHIFT.replace("in PHASES", "in (*PHASES, ERROR)")),
    ("phases above 23 are in a shift", IN_A_SHIFT, IN_A_SHIFT.replace("in PHASES", "not in (0, DONE, ERROR)")),
    ("a state that is not listed does not fit", FIT,
     FIT.replace("if not", "if state.phase > 23 or state.box > 1 or state.stage > 5 or not")),
]

# The longer list: the open shift that goes on, the new ones, and what stays as it is.

STAYS = "    if not codes:\n        return entry\n"
ROUTE = "route = 1 if asked else entry.route"
GONE_ON = "entry._replace(last=before + last, route=route, end=end, age=age_at(clock, entry.request_time))"
GOES_ON = "    if state.phase in PHASES:\n        going_on = "
ENTRIES = "entries = entries[:-ENTRY.size] + entries_of([going_on])"
LONGER = "list_of(entries + entries_of(shifts_along(codes, states, count)))"
BEFORE = "    entries = listed[HEAD.size:]\n"


def gone_on_with(**wrong):
    """An entry that goes on with other values in these fields."""
    fields = {"last": "before + last", "route": "route", "end": "end", "age": "age_at(clock, entry.request_time)"}
    fields.update(wrong)
    return GONE_ON, f"entry._replace({', '.join(f'{name}={value}' for name, value in fields.items())})"


def eighth_byte(kept):
    """An entry that goes on with this as its eighth byte."""
    return f"eighth = {kept}\n        {ENTRIES}\n        entries = entries[:-9] + eighth + entries[-8:]"


LONGER_LISTS = [
    ("an open shift stays open", *gone_on_with(end="0")),
    ("an open shift that goes on is done", *gone_on_with(end="end and 1")),
    ("a shift that goes on keeps its last record", *gone_on_with(last="entry.last")),
    ("a shift that goes on counts from record 0 again", *gone_on_with(last="last")),
    ("last one more of a shift that goes on", *gone_on_with(last="before + last + 1")),
    ("last one less of a shift that goes on", *gone_on_with(last="before + last - 1")),
    ("a shift that goes on keeps its age", *gone_on_with(age="entry.age")),
    ("the age of a shift that goes on since the cut", *gone_on_with(age="age_at(clock, states[0].clock)")),
    ("the age of a shift that goes on is its clock", *gone_on_with(age="clock")),
    ("the age of a shift that goes on with the new ticks twice",
     *gone_on_with(age="2 * clock - states[0].clock - entry.request_time")),
    ("the age of a shift that goes on of 16 bits", *gone_on_with(age="age_at(clock, entry.request_time) % 2**16")),
    ("the age of a shift that goes on wraps", *gone_on_with(age="(clock - entry.request_time) % 2**32")),
    ("the new ticks are added to the age", *gone_on_with(age="entry.age + clock - states[0].clock")),
    ("the request time of a shift that goes on is the cut's", *gone_on_with(request_time="states[0].clock")),
    ("a shift that goes on begins at the cut", *gone_on_with(first="before")),
    ("a shift that goes on gets a kind of 1 to 3", *gone_on_with(kind="min(3, max(1, entry.kind))")),
    ("a shift that goes on gets the kind of its first new code", *gone_on_with(kind="codes[0]")),
    ("route lost on going on", ROUTE, "route = int(asked)"),
    ("route kept on going on", ROUTE, "route = entry.route"),
    ("route on going on of one bit", ROUTE, "route = 1 if asked else entry.route % 2"),
    ("route on going on at most 1", ROUTE, "route = 1 if asked else min(1, entry.route)"),
    ("an ask is added to the route", ROUTE, "route = entry.route + asked"),
    ("an ask is or-ed to the route", ROUTE, "route = entry.route | asked"),
    ("an ask behind a route stays as it was", ROUTE, "route = entry.route or int(asked)"),
    ("route 1 on going on where the engine waits", ROUTE,
     "route = 1 if asked or 7 in codes[:last + 1] else entry.route"),
    ("route 1 on going on where a new shift asks", ROUTE, "route = 1 if ASK_CLUTCH in codes else entry.route"),
    ("a shift that goes on without a record is done", STAYS,
     "    if not codes:\n        return entry._replace(end=1)\n"),
    ("a shift that goes on without a record loses its age", STAYS,
     "    if not codes:\n        return entry._replace(age=0)\n"),
    ("an open shift does not go on", GOES_ON, GOES_ON.replace("in PHASES", "in PHASES and not codes")),
    ("no shift goes on", GOES_ON, GOES_ON.replace("state.phase in PHASES", "False")),
    ("a shift goes on that has ended", GOES_ON, GOES_ON.replace("state.phase in PHASES", "len(listed) > 8 and codes")),
    ("a shift that goes on gets an entry more", ENTRIES, "entries = entries + entries_of([going_on])"),
    ("the first entry goes on", ENTRIES, "entries = entries_of([going_on]) + entries[ENTRY.size:]"),
    ("the eighth byte stays in a shift that goes on", ENTRIES, eighth_byte("entries[-9:-8]")),
    ("the eighth byte stays without a record", ENTRIES, eighth_byte("b'\\0' if codes else entries[-9:-8]")),
    ("eighth bytes before become 0", BEFORE,
     "    entries = b''.join(ENTRY.pack(*found) for found in ENTRY.iter_unpack(listed[HEAD.size:]))\n"),
    ("routes before become at most 1", BEFORE,
     BEFORE + "    entries = b''.join(entries[at:at + 5] + bytes((min(1, entries[at + 5]),))"
     " + entries[at + 6:at + 16] for at in range(0, len(entries), 16))\n"),
    ("earlier entries are lost", LONGER,
     "list_of(entries[-ENTRY.size:] + entries_of(shifts_along(codes, states, count)))"),
    ("all entries before are lost", LONGER, "list_of(entries_of(shifts_along(codes, states, count)))"),
    ("new entries before the old", LONGER, "list_of(entries_of(shifts_along(codes, states, count)) + entries)"),
    ("no new entry", LONGER, "list_of(entries)"),
    ("one new entry at most", LONGER, "list_of(entries + entries_of(list(shifts_along(codes, states, count))[:1]))"),
    ("no new entry behind a shift that goes on", LONGER,
     "list_of(entries + entries_of(() if state.phase in PHASES else shifts_along(codes, states, count)))"),
    ("record numbers begin at 0 again", LONGER, "list_of(entries + entries_of(shifts_along(codes, states, 0)))"),
    ("record numbers go on one later", LONGER, "list_of(entries + entries_of(shifts_along(codes, states, count + 1)))"),
    ("record numbers go on behind the last shift", LONGER, "list_of(entries + entries_of(shifts_along(codes, states, "
     "last_entry(listed).last + 1 if len(listed) > 8 else 0)))"),
    ("the header's count is not renewed", LONGER, f"listed[:HEAD.size] + {LONGER}[HEAD.size:]"),
    ("the header's count grows by one at most", LONGER,
     f"HEAD.pack(min(count_of(listed) + 1, count_of({LONGER})), FIRST_ENTRY) + {LONGER}[HEAD.size:]"),
    ("the header's count of 8 bits in a longer list", LONGER,
     f"HEAD.pack(count_of({LONGER}) % 2**8, FIRST_ENTRY) + {LONGER}[HEAD.size:]"),
    ("new request times since the cut", LONGER, "list_of(entries + entries_of(shift._replace(request_time="
     "shift.request_time - state.clock) for shift in shifts_along(codes, states, count)))"),
    ("new shifts under the old default", "    codes, states = along(table, state, records)\n",
     "    codes, states = along(type(table)(), state, records)\n"),
    ("the longer list goes on from the start state", "    codes, states = along(table, state, records)\n",
     "    codes, states = along(table, START, records)\n"),
]

WRONG_EXTENDS = [*REFUSALS, *LEFT_OVER, *FITS, *LONGER_LISTS]
