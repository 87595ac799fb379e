"""What a comparison covers of lists that are built and fetched from: grids, as a title, columns and rows, and marks."""

from files import RECORD, judge, read
from rules import DONE, ERROR, NOT_ADMITTED, PHASES, REQUESTS, START, TICK, TOO_EARLY, TOO_LATE
from shifts import ENTRY, FIRST_ENTRY, HEAD, OPEN, along, count_of, damage, entry_at, shifts_along

MORE = "more"
# How many shifts a list has or gets.
SIZES = 0, 1, 2, MORE
END_NAMES = "open", "done", "error"
SHIFTS = tuple(f"{kind}, route {route}" for kind in REQUESTS for route in (0, 1))
# What became of a shift.
BUILT, FETCHED, NEW, GONE_ON = "built", "fetched", "new", "gone on"
ALL_ENDS = tuple(f"{how} {end}" for how in (BUILT, FETCHED, NEW, GONE_ON) for end in END_NAMES)
# How the room of a buffer is to what a list needs, and for the shifts that have begun.
NO_BUFFER, SHORTER, ONE_SHORT, EXACT, LONGER = ROOMS = "no buffer", "shorter", "one short", "exact", "longer"
NO_ROOM, ROOM = "no room", "room"
# The last record of a shift that stays open.
REQUEST_LAST, LATER, CUT = "the request last", "later", "cut behind the request"
OPEN_AT = (*(f"{how}, {last}" for how in (BUILT, NEW) for last in (REQUEST_LAST, LATER)), CUT)
# Where a tick belongs to no shift, and in what it is.
BEFORE_ALL, BEHIND, IN_DONE, IN_ERROR = LOOSE = "at rest before all", "at rest behind a shift", "in done", "in error"
TICKED = "list", "list, last", "extend", "extend, last"
# What can be wrong with the length of a list, its offset, and its length beside its count.
LENGTHS = tuple(f"{length} byte{'s' * (length != 1)}" for length in range(HEAD.size))
OFFSETS = "offset less", "offset more", "offset 8 in its low byte"
OFF = {-1: "a byte less", 1: "a byte more", -ENTRY.size: "an entry less", ENTRY.size: "an entry more"}
WRAPS, OTHER = "wraps at 32 bits", "other"
DAMAGES = (*LENGTHS, *OFFSETS, *OFF.values(), WRAPS, OTHER)
# Numbers of shifts that are past the count, by the bits that would have to be lost for one that is not.
LOST = {2**60: "2^60", 2**32: "2^32", 2**28: "2^28", 2**16: "2^16"}
FIRST, MIDDLE, LAST, AT_COUNT, ONE_PAST, LARGEST = "first", "between", "last", "at the count", "one past", "2^64 - 1"
NUMBERS = FIRST, MIDDLE, LAST, AT_COUNT, ONE_PAST, *LOST.values(), LARGEST
# What no file leads to in an entry and its eighth byte, and what became of an entry beside being fetched.
NOT_LISTED = {
    "kind": lambda shift, _: shift.kind not in REQUESTS,
    "route": lambda shift, _: shift.route > 1,
    "end": lambda shift, _: shift.end >= len(END_NAMES),
    "eighth byte": lambda _, eighth: eighth != 0,
    "first behind last": lambda shift, _: shift.first > shift.last,
}
KEPT, STAYED, WENT_ON = "kept", "no record", "went on"


def refused_columns(number):
    """The columns of a file's refusal: 9, 11 and 12 are given in a shift, and 1 to 4 before there is one."""
    begun = {f"{size} begun" for size in SIZES if size or number < TOO_EARLY}
    return {NO_ROOM, ROOM} | (begun if number > NOT_ADMITTED else set())


LIST_GRIDS = {
    "shifts": ("shifts of lists, by kind and route: how they end", ALL_ENDS, {row: {*ALL_ENDS} for row in SHIFTS}),
    "list room": ("lists that were built, by their shifts: the buffer", ROOMS, {size: {*ROOMS} for size in SIZES}),
    "open shifts": ("shifts that stay open, by kind: where", OPEN_AT, {kind: {*OPEN_AT} for kind in REQUESTS}),
    "loose ticks": ("ticks that belong to no shift", TICKED, {place: {*TICKED} for place in LOOSE}),
    "refused lists": (
        "numbers of files that get no list: the shifts begun before, and the room for them",
        (*(f"{size} begun" for size in SIZES), NO_ROOM, ROOM),
        {number: refused_columns(number) for number in range(1, 13) if number != TOO_LATE},
    ),
    "list damage": (
        "lists that are refused with 1, 2 and 3",
        DAMAGES,
        {name: {*DAMAGES} for name in ("fetch", "extend")},
    ),
    "fetches": (
        "numbers that were fetched, by the shifts of the list",
        NUMBERS,
        {0: {AT_COUNT, ONE_PAST, LARGEST}, 1: {*NUMBERS} - {MIDDLE}, 2: {*NUMBERS} - {MIDDLE}, MORE: {*NUMBERS}},
    ),
    "foreign entries": (
        "entries with what no file leads to, by the field: what became of them",
        (FETCHED, KEPT, STAYED, WENT_ON),
        {field: {FETCHED, KEPT} | ({STAYED, WENT_ON} if field != "end" else set()) for field in NOT_LISTED},
    ),
}


def size_of(count):
    """The row of so many shifts."""
    return count if count in SIZES else MORE


def room(length, buffer):
    """The column of a buffer for a list of this length."""
    if not buffer:
        return NO_BUFFER
    spare = len(buffer) - length
    return {-1: ONE_SHORT, 0: EXACT}.get(spare, LONGER if spare > 0 else SHORTER)


def shift_marks(how, shift):
    """The mark of a shift whose kind, route and end are listed."""
    if shift.kind in REQUESTS and shift.route < 2 and shift.end < len(END_NAMES):
        yield "shifts", f"{shift.kind}, route {shift.route}", f"{how} {END_NAMES[shift.end]}"


def open_marks(how, shift):
    """The mark of a shift that stays open."""
    if shift.end == OPEN:
        yield "open shifts", shift.kind, f"{how}, {REQUEST_LAST if shift.first == shift.last else LATER}"


def tick_marks(name, codes, states, shift_before):
    """The marks of ticks outside of shifts along accepted records."""
    for place, code in enumerate(codes):
        phase = states[place].phase
        if code == TICK and phase not in PHASES:
            row = {DONE: IN_DONE, ERROR: IN_ERROR}.get(phase, BEHIND if shift_before else BEFORE_ALL)
            yield "loose ticks", row, name
            if place == len(codes) - 1:
                yield "loose ticks", row, f"{name}, last"
        shift_before = shift_before or code in REQUESTS


def build_marks(file, buffer):
    """The marks of a list that is built, or of the file that gets none."""
    number, _, accepted, _, _ = judge(file)
    _, _, table, records = read(file)
    codes, states = along(table, START, records[:RECORD.size * accepted])
    shifts = list(shifts_along(codes, states, 0))
    needed = HEAD.size + ENTRY.size * len(shifts)
    if number:
        if number > NOT_ADMITTED:
            yield "refused lists", number, f"{size_of(len(shifts))} begun"
        yield "refused lists", number, NO_ROOM if len(buffer) < needed else ROOM
        return
    yield "list room", size_of(len(shifts)), room(needed, buffer)
    yield from tick_marks("list", codes, states, False)
    for shift in shifts:
        yield from shift_marks(BUILT, shift)
        yield from open_marks(BUILT, shift)


def damage_marks(name, length, head):
    """The mark of a list of this length that is refused with 1, 2 or 3, by the bytes of its header."""
    if length < HEAD.size:
        yield "list damage", name, LENGTHS[length]
        return
    count, offset = HEAD.unpack(head)
    needed = FIRST_ENTRY + ENTRY.size * count
    if offset != FIRST_ENTRY:
        yield "list damage", name, OFFSETS[0 if offset < FIRST_ENTRY else 2 if offset % 2**8 == FIRST_ENTRY else 1]
    else:
        yield "list damage", name, OFF.get(length - needed, WRAPS if needed % 2**32 == length else OTHER)


def number_columns(number, count):
    """The columns of a number that is fetched from so many shifts."""
    if number < count:
        return {FIRST, LAST} if count == 1 else {{0: FIRST, count - 1: LAST}.get(number, MIDDLE)}
    past = {count: AT_COUNT, count + 1: ONE_PAST, 2**64 - 1: LARGEST}
    if number in past:
        return {past[number]}
    return set([name for bits, name in LOST.items() if number % bits < count][:1])


def foreign_marks(listed, place, how):
    """The marks of what is not listed in the entry at this byte."""
    for field, odd in NOT_LISTED.items():
        if odd(entry_at(listed, place), listed[place + 7]):
            yield "foreign entries", field, how


def fetch_marks(answer, number, listed):
    """The marks of a fetch."""
    refusal, shift = answer
    if damage(listed):
        yield from damage_marks("fetch", len(listed), listed[:HEAD.size])
        return
    for column in number_columns(number, count_of(listed)):
        yield "fetches", size_of(count_of(listed)), column
    if not refusal:
        yield from shift_marks(FETCHED, shift)
        yield from foreign_marks(listed, FIRST_ENTRY + ENTRY.size * number, FETCHED)
