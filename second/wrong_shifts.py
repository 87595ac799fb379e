"""Wrong versions of shifts.py, in the order of request 5: what is wrong, a text of it, and the text in its place."""

# The list: its header, its entries and their layout.

HEAD_LAYOUT, ENTRY_LAYOUT = 'struct.Struct("<II")', 'struct.Struct("<HHBBBxII")'
HEADED = "HEAD.pack(len(entries) // ENTRY.size, FIRST_ENTRY) + entries"
PACKED = "ENTRY.pack(*shift) for shift in shifts"
FIELDS = "first", "last", "kind", "route", "end", "request_time", "age"


def packed(*fields):
    """Entries with these fields."""
    return PACKED, f"ENTRY.pack({', '.join(fields)}) for {', '.join(FIELDS)} in shifts"


def packed_with(**wrong):
    """Entries with other values in these fields."""
    return packed(*(wrong.get(field, field) for field in FIELDS))


LAYOUT = [
    ("the list's header is big-endian", HEAD_LAYOUT, 'struct.Struct(">II")'),
    ("entries are big-endian", ENTRY_LAYOUT, 'struct.Struct(">HHBBBxII")'),
    ("records of 32 bits and times of 16 in entries", ENTRY_LAYOUT, 'struct.Struct("<IIBBBxHH")'),
    ("the zero byte before the kind", ENTRY_LAYOUT, 'struct.Struct("<HHxBBBII")'),
    ("the zero byte before the end", ENTRY_LAYOUT, 'struct.Struct("<HHBBxBII")'),
    ("the zero byte behind the age", ENTRY_LAYOUT, 'struct.Struct("<HHBBBIIx")'),
    ("the zero byte is 1", PACKED, 'ENTRY.pack(*shift)[:7] + b"\\1" + ENTRY.pack(*shift)[8:] for shift in shifts'),
    ("the zero byte is the end again", PACKED,
     "ENTRY.pack(*shift)[:7] + bytes((shift.end,)) + ENTRY.pack(*shift)[8:] for shift in shifts"),
    ("count and offset crossed in the header", HEADED, "HEAD.pack(FIRST_ENTRY, len(entries) // ENTRY.size) + entries"),
    ("offset 12 in the header", HEADED, "HEAD.pack(len(entries) // ENTRY.size, 12) + entries"),
    ("offset 0 for an empty list", HEADED,
     "HEAD.pack(len(entries) // ENTRY.size, FIRST_ENTRY if entries else 0) + entries"),
    ("the header counts bytes", HEADED, "HEAD.pack(len(entries), FIRST_ENTRY) + entries"),
    ("the header counts one more", HEADED, "HEAD.pack(len(entries) // ENTRY.size + 1, FIRST_ENTRY) + entries"),
    ("the header's count of 8 bits", HEADED, "HEAD.pack(len(entries) // ENTRY.size % 2**8, FIRST_ENTRY) + entries"),
    ("no header without a shift", HEADED, f'{HEADED} if entries else b""'),
    ("first and last crossed", *packed("last", "first", *FIELDS[2:])),
    ("kind and route crossed", *packed("first", "last", "route", "kind", *FIELDS[4:])),
    ("route and end crossed", *packed("first", "last", "kind", "end", "route", *FIELDS[5:])),
    ("request time and age crossed", *packed(*FIELDS[:5], "age", "request_time")),
    ("the last record's number of 8 bits", *packed_with(last="last % 2**8")),
    ("the first record's number of 8 bits", *packed_with(first="first % 2**8")),
    ("request time of 16 bits", *packed_with(request_time="request_time % 2**16")),
    ("age of 8 bits", *packed_with(age="age % 2**8")),
    ("the end of the shift for its age", *packed_with(age="request_time + age & 2**32 - 1")),
]

# What a shift is: its records, kind, route, end and times.

LAST = "next((at for at in range(place, len(codes)) if states[at + 1].phase in ENDS), len(codes) - 1)"
END = "ENDS.get(states[last + 1].phase, OPEN)"
ASKED, CLOCK = "ASK_CLUTCH in codes[place:last + 1]", "states[last + 1].clock\n"
ENDING = "ENDS = {DONE: 1, ERROR: 2}"
REQUESTED, ASKED_AT = "if code in REQUESTS)", "asked_at = states[first].clock"
NEW = "yield Shift(before + first, before + last, codes[first], int(asked), end, asked_at, age_at(clock, asked_at))"
STAYS = ("next((at for at in range(last + 1, len(states)) if states[at].phase != states[last + 1].phase), len(states))"
         " - 1")


def new_with(**wrong):
    """New shifts with other values in these fields."""
    fields = dict(zip(FIELDS, ("before + first", "before + last", "codes[first]", "int(asked)", "end", "asked_at",
                               "age_at(clock, asked_at)")), **wrong)
    return NEW, f"yield Shift({', '.join(fields.values())})"


def last_until(condition):
    """A shift whose last record is the first for which this holds, but its end as it is there or was before."""
    return (f"{LAST}\n", LAST.replace("states[at + 1].phase in ENDS", condition) + "\n    "
            "states = [*states[:last + 1], states[last] if states[last].phase in ENDS else states[last + 1]]\n")


SHIFTS = [
    ("a shift ends at the finish or the reset", *last_until("at > place and states[at + 1].phase == 0")),
    ("ticks in done and error belong to the shift", f"{LAST}\n",
     f"{LAST}\n    last = {STAYS} - 1 if states[last + 1].phase in ENDS else last\n"),
    ("ticks in done are counted into the age", CLOCK,
     f"states[{STAYS} if states[last + 1].phase == DONE else last + 1].clock\n"),
    ("ticks in error are counted into the age", CLOCK,
     f"states[{STAYS} if states[last + 1].phase == ERROR else last + 1].clock\n"),
    ("a shift ends before the record that enters 22 or 23", *new_with(last="before + last - (end > 0)")),
    ("a shift ends behind the record that enters 22 or 23", *new_with(last="before + last + (end > 0)")),
    ("an open shift ends before the last record", *new_with(last="before + max(first, last - (end == 0))")),
    ("an open shift ends at its request", *new_with(last="before + (last if end else first)")),
    ("an open shift has no last record", *new_with(last="before + last if end else 0")),
    ("an open shift is as old as its last phase", CLOCK, "states[last + 1].clock if states[last + 1].phase in ENDS "
     "else states[last + 1].phase_time\n"),
    ("the age before the last record", CLOCK, "states[last].clock\n"),
    ("the age at the file's end", CLOCK, "states[-1].clock\n"),
    ("the age from 0", *new_with(age="clock")),
    ("the age from the file's first record", *new_with(age="age_at(clock, states[0].clock)")),
    ("the age in its last phase", *new_with(age="age_at(clock, states[last].phase_time)")),
    ("no age while a shift is open", *new_with(age="age_at(clock, asked_at) * (end > 0)")),
    ("no age of a shift in error", *new_with(age="age_at(clock, asked_at) * (end < 2)")),
    ("every request time 0", ASKED_AT, "asked_at = states[first].request_time"),
    ("the request time before the record before", ASKED_AT, "asked_at = states[max(0, first - 1)].clock"),
    ("the request time behind the record behind", ASKED_AT, "asked_at = states[min(first + 2, len(codes))].clock"),
    ("the request time since the rest began", *new_with(request_time="states[first].phase_time")),
    ("the end's clock for the request time", *new_with(request_time="clock")),
    ("first one more", *new_with(first="before + first + 1")),
    ("first one less", *new_with(first="before + max(0, first - 1)")),
    ("first is the record behind the request", *new_with(first="before + min(first + 1, last)")),
    ("last one more", *new_with(last="before + last + 1")),
    ("last one less", *new_with(last="before + max(0, last - 1)")),
    ("last is a count", *new_with(last="last - first + 1")),
    ("records are counted from 1", *new_with(first="before + first + 1", last="before + last + 1")),
    ("bytes for records", *new_with(first="4 * (before + first)", last="4 * (before + last)")),
    ("the kind of the last record", *new_with(kind="codes[last]")),
    ("the kind of the file's first record", *new_with(kind="codes[0]")),
    ("the kind of the first request", *new_with(kind="next(code for code in codes if code in REQUESTS)")),
    ("the phase for the kind", *new_with(kind="states[first + 1].phase")),
    ("kinds 0 to 2", *new_with(kind="codes[first] - 1")),
    ("gear to gear and to neutral crossed", *new_with(kind="{1: 1, 2: 3, 3: 2}[codes[first]]")),
    ("route 1 where the engine only waited", ASKED, "7 in codes[place:last + 1]"),
    ("route 1 where the clutch was opened only", ASKED,
     "any(states[at].phase in (2, 7, 11, 18) and states[at].stage > 1 for at in range(place, last + 1))"),
    ("route 0 always", *new_with(route="0")),
    ("route 1 always", *new_with(route="1")),
    ("routes 1 and 2", *new_with(route="1 + asked")),
    ("route crossed", *new_with(route="int(not asked)")),
    ("route 1 where an earlier shift asked", ASKED, "ASK_CLUTCH in codes[:last + 1]"),
    ("route 1 where a later shift asks", ASKED, "ASK_CLUTCH in codes[place:]"),
    ("route 1 in a shift that is open or done alone", *new_with(route="int(asked and end < 2)")),
    ("route 1 in a shift that has ended alone", *new_with(route="int(asked and end > 0)")),
    ("no route while the ask is the last record", ASKED, "ASK_CLUTCH in codes[place:last]"),
    ("no route by the sync's ask gear to gear", *new_with(
        route="int(any(codes[at] == 9 and states[at].phase != 10 for at in range(first, last + 1)))")),
    ("done and error crossed", ENDING, "ENDS = {DONE: 2, ERROR: 1}"),
    ("an error is an end as done is", ENDING, "ENDS = {DONE: 1, ERROR: 1}"),
    ("an error is no end", ENDING, "ENDS = {DONE: 1}"),
    ("done is no end", ENDING, "ENDS = {ERROR: 2}"),
    ("an error leaves a shift open", END, "int(states[last + 1].phase == DONE)"),
    ("done leaves a shift open", END, "2 * (states[last + 1].phase == ERROR)"),
    ("open is 3", "OPEN)", "3)"),
    ("an entry for a reset", REQUESTED, "if code in REQUESTS or code == 13)"),
    ("an entry for a finish", REQUESTED, "if code in REQUESTS or code == 11)"),
    ("no entry for gear to gear", REQUESTED, "if code in (1, 3))"),
    ("no entry for to neutral", REQUESTED, "if code in (1, 2))"),
    ("no entry for a request that is the last record", REQUESTED, "if code in REQUESTS and place < len(codes) - 1)"),
    ("no entry for a request that is the first record", REQUESTED, "if code in REQUESTS and place)"),
    ("no entry for an open shift", NEW, f"if end:\n            {NEW}"),
    ("no entry for a shift in error", NEW, f"if end < 2:\n            {NEW}"),
    ("no entry for a shift without the clutch", NEW, f"if asked:\n            {NEW}"),
    ("the last shift first", PACKED, "ENTRY.pack(*shift) for shift in reversed(list(shifts))"),
    ("each shift twice", PACKED, "2 * ENTRY.pack(*shift) for shift in shifts"),
    ("the first shift alone", PACKED, "ENTRY.pack(*shift) for shift in list(shifts)[:1]"),
    ("the last shift alone", PACKED, "ENTRY.pack(*shift) for shift in list(shifts)[-1:]"),
]

# Building: the file's own refusals first, then 15.

REFUSED = "    if number:\n        return number, rule, accepted, excess, 0, buffer\n"
BUILT = "shifts_along(*along(table, START, records), 0)"
LAID = f"laid(list_of(entries_of({BUILT})), buffer)\n    return number, 0, 0, 0, length, after"


def refused_with(answer):
    """A refused file that is answered so."""
    return REFUSED, f"    if number:\n        return {answer}, buffer\n"


def built_with(answer, text="after"):
    """A list that is answered so."""
    return LAID, LAID.replace("number, 0, 0, 0, length, after", f"{answer}, {text}")


BUILD = [
    ("a list of the accepted beginning", REFUSED + "    _, _, table, records = read(file)\n",
     REFUSED.replace("if number:", "if 0 < number < 5:")
     + "    _, _, table, records = read(file)\n    records = records[:RECORD.size * accepted]\n"),
    ("an entry for a refused request", REFUSED, REFUSED.replace("if number:", "if number not in (0, 7, 8):")),
    ("the list of a refused file behind its number", REFUSED, REFUSED.replace(
        ", 0, buffer", ", 0, list_of(b'') + buffer[8:] if len(buffer) > 7 else buffer")),
    ("15 before the file's own", REFUSED,
     "    if len(buffer) < HEAD.size:\n        return NO_ROOM, 0, 0, 0, 0, buffer\n" + REFUSED),
    ("15 before a record's own", REFUSED,
     REFUSED.replace("        return", "        if number > 4 and len(buffer) < HEAD.size:\n            "
                     "return NO_ROOM, 0, 0, 0, 0, buffer\n        return")),
    ("no rule with 4 of a list", *refused_with("number, 0, accepted, excess, 0")),
    ("no index of a file without a list", *refused_with("number, rule, 0, excess, 0")),
    ("no excess of a file without a list", *refused_with("number, rule, accepted, 0, 0")),
    ("the index one more of a file without a list", *refused_with("number, rule, accepted + (number > 4), excess, 0")),
    ("a length of a file without a list", *refused_with("number, rule, accepted, excess, 8 * (number > 4)")),
    ("index and excess crossed of a file without a list", *refused_with("number, rule, excess, accepted, 0")),
    ("the count for the index of a list", *built_with("number, 0, accepted * (number == 0), 0, length")),
    ("the count for the index with 15", *built_with("number, 0, accepted * (number > 0), 0, length")),
    ("a list under the old default", BUILT, "shifts_along(*along(type(table)(), START, records), 0)"),
    ("the length without the list's header", *built_with("number, 0, 0, 0, max(0, length - HEAD.size)")),
    ("the count of shifts for the list's length", *built_with("number, 0, 0, 0, length // ENTRY.size")),
    ("the buffer for the list's length", *built_with("number, 0, 0, 0, length and len(buffer)")),
    ("an exact fit is refused to lists", *built_with(
        "*((NO_ROOM, 0, 0, 0, 0, buffer) if length == len(buffer) else (number, 0, 0, 0, length, after))", "")),
    ("an exact fit is refused to a list without a shift", *built_with(
        "*((NO_ROOM, 0, 0, 0, 0, buffer) if 8 == length == len(buffer) else (number, 0, 0, 0, length, after))", "")),
    ("14 for 15 of a list", *built_with("number and 14, 0, 0, 0, length")),
    ("15 with the header laid",
     *built_with("number, 0, 0, 0, length", "list_of(b'') + after[8:] if number and len(after) > 7 else after")),
    ("15 with the list's length", *built_with("number, 0, 0, 0, length or len(buffer) + 1")),
    ("bytes behind the list are made 0",
     *built_with("number, 0, 0, 0, length", "after[:length] + bytes(len(after) - length) if length else after")),
]

# Fetching, in the order 1, 2, 3, 14.

SHORT, HEADER = "if len(listed) < HEAD.size:", "count, offset = HEAD.unpack_from(listed)\n    if offset != FIRST_ENTRY:"
LENGTH = "len(listed) == FIRST_ENTRY + ENTRY.size * count"
PAST, FOUND = "number >= count_of(listed)", "entry_at(listed, FIRST_ENTRY + ENTRY.size * number)"
FETCHED = f"    return refusal, Shift() if refusal else {FOUND}\n"
GIVEN_14 = f"{PAST}:\n        refusal = NOT_IN_LIST\n{FETCHED}"


def found_at(place):
    """An entry at this byte, and zeros behind the list."""
    return FOUND, f"entry_at(listed + bytes(99_999), {place})"


def number_of(bits):
    """A fetch by so many bits of the number."""
    return "    refusal = damage(listed)\n", f"    refusal, number = damage(listed), number % 2**{bits}\n"


def refused_for(condition):
    """A fetch that is refused with 2 where this holds of the entry."""
    return FETCHED, (f"    if not refusal and (lambda entry, eighth: {condition})({FOUND}, listed[15 + 16 * number]):\n"
                     f"        refusal = WRONG_HEADER\n{FETCHED}")


FETCH = [
    ("1 for a list of 8 bytes", SHORT, "if len(listed) <= HEAD.size:"),
    ("1 for a list without room for an entry", SHORT, "if len(listed) < HEAD.size + ENTRY.size:"),
    ("1 below 12 bytes for lists too", SHORT, "if len(listed) < 12:"),
    ("3 for a list under 8 bytes", SHORT + "\n        return TOO_SHORT", SHORT + "\n        return WRONG_LENGTH"),
    ("2 for a list of no bytes", SHORT + "\n        return TOO_SHORT",
     SHORT + "\n        return TOO_SHORT if listed else WRONG_HEADER"),
    ("count and offset crossed in a list that is read", HEADER, HEADER.replace("count, offset", "offset, count")),
    ("2 and 3 crossed of a list", f"{HEADER}\n        return WRONG_HEADER\n    return 0 if {LENGTH} else WRONG_LENGTH",
     f"{HEADER}\n        return WRONG_LENGTH\n    return 0 if {LENGTH} else WRONG_HEADER"),
    ("3 before 2 of a list", HEADER, HEADER.replace("if offset", f"if {LENGTH} and offset")),
    ("any offset in a list", HEADER, HEADER.replace("offset != FIRST_ENTRY", "False")),
    ("an offset of 0 in a list", HEADER, HEADER.replace("!= FIRST_ENTRY", "not in (0, FIRST_ENTRY)")),
    ("offset 9 in a list", HEADER, HEADER.replace("!= FIRST_ENTRY", "not in (9, FIRST_ENTRY)")),
    ("offset 12 in a list", HEADER, HEADER.replace("!= FIRST_ENTRY", "not in (12, FIRST_ENTRY)")),
    ("offset 16 in a list", HEADER, HEADER.replace("!= FIRST_ENTRY", "not in (16, FIRST_ENTRY)")),
    ("a list's offset of 8 bits", HEADER, HEADER.replace("if offset", "if offset % 2**8")),
    ("a list's offset of 16 bits", HEADER, HEADER.replace("if offset", "if offset % 2**16")),
    ("any offset in an empty list", HEADER, HEADER.replace("if offset", "if count and offset")),
    ("any length of a list", LENGTH, "True"),
    ("a list may be longer", LENGTH, LENGTH.replace("==", ">=")),
    ("a list may be shorter", LENGTH, LENGTH.replace("==", "<=")),
    ("a list may have a byte more", LENGTH, f"len(listed) - 1 == FIRST_ENTRY + ENTRY.size * count or {LENGTH}"),
    ("a list of whole entries", LENGTH, "len(listed) % ENTRY.size == FIRST_ENTRY"),
    ("a list's length wraps at 32 bits", LENGTH, f"{LENGTH.replace('==', '== (')}) % 2**32"),
    ("a list's count of 8 bits", LENGTH, f"{LENGTH} % 2**8"),
    ("a list's count of 16 bits", LENGTH, f"{LENGTH} % 2**16"),
    ("3 for an empty list", LENGTH, f"count and {LENGTH}"),
    ("14 past the count only", GIVEN_14,
     GIVEN_14.replace(">=", ">").replace("entry_at(listed,", "entry_at(listed + bytes(16),")),
    ("14 at the count only", GIVEN_14, GIVEN_14.replace(">=", "==").replace(
        FOUND, f"Shift() if number > count_of(listed) else {FOUND}")),
    ("14 at the last shift too", PAST, "number + 1 >= count_of(listed)"),
    ("14 for shift 0", PAST, f"(not number or {PAST})"),
    ("shifts are fetched from 1", GIVEN_14,
     GIVEN_14.replace("number >=", "not 0 < number <=").replace("* number", "* (number - 1)")),
    ("15 for 14 of a fetch", f"{PAST}:\n        refusal = NOT_IN_LIST", f"{PAST}:\n        refusal = NO_ROOM"),
    ("14 before 3", "    if not refusal and number", "    if refusal in (0, WRONG_LENGTH) and number"),
    ("14 before 2", "    if not refusal and number", "    if refusal in (0, WRONG_HEADER) and number"),
    ("a number of 8 bits is fetched", *number_of(8)),
    ("a number of 16 bits is fetched", *number_of(16)),
    ("a number of 32 bits is fetched", *number_of(32)),
    ("an entry's place wraps at 32 bits", *number_of(28)),
    ("an entry's place wraps at 64 bits", *number_of(60)),
    ("an entry's place of 16 bits", FOUND,
     FOUND.replace("FIRST_ENTRY", "FIRST_ENTRY + 0").replace("* number)", "* number % 2**16)")),
    ("the first shift whatever the number", *found_at("FIRST_ENTRY")),
    ("the last shift whatever the number", *found_at("len(listed) - ENTRY.size")),
    ("the next shift", *found_at("FIRST_ENTRY + ENTRY.size * (number + 1)")),
    ("entries from byte 0 on", *found_at("ENTRY.size * number")),
    ("entries from byte 12 on", *found_at("12 + ENTRY.size * number")),
    ("entries of 15 bytes", *found_at("FIRST_ENTRY + 15 * number")),
    ("a refused fetch with the first entry", FETCHED,
     "    return refusal, entry_at(listed + bytes(24), FIRST_ENTRY) if refusal == 14 else Shift() if refusal else "
     f"{FOUND}\n"),
    ("2 for a shift of kind 0", *refused_for("entry.kind == 0")),
    ("2 for a shift of kind 4", *refused_for("entry.kind > 3")),
    ("2 for a route above 1", *refused_for("entry.route > 1")),
    ("2 for an end above 2", *refused_for("entry.end > 2")),
    ("2 for an eighth byte that is not 0", *refused_for("eighth")),
    ("2 for a last record before the first", *refused_for("entry.last < entry.first")),
    ("the kind is fetched modulo 4", FOUND, f"(lambda entry: entry._replace(kind=entry.kind % 4))({FOUND})"),
    ("any route is fetched as 1", FOUND, f"(lambda entry: entry._replace(route=min(1, entry.route)))({FOUND})"),
    ("the end is fetched with the eighth byte", FOUND,
     f"(lambda entry: entry._replace(end=entry.end + 256 * listed[15 + 16 * number]))({FOUND})"),
    ("the request time is fetched in 16 bits", FOUND,
     f"(lambda entry: entry._replace(request_time=entry.request_time % 2**16))({FOUND})"),
    ("the age is fetched with a sign", FOUND,
     f"(lambda entry: entry._replace(age=entry.age - 2**32 * (entry.age >> 31)))({FOUND})"),
]

WRONG_SHIFTS = [*LAYOUT, *SHIFTS, *BUILD, *FETCH]
