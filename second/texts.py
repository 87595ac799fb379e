"""Limit tables as text, read and printed; and of tables which entries are tighter, and all the rules they break."""

from files import k_written
from rules import LIMITS, Table, route_sums, slacks
from tables import LARGEST_ENTRY

# The faults of a text.
NO_NAME, GIVEN_TWICE, NO_NUMBER, TOO_LARGE, MISSING = range(1, 6)

NAMES = [name.encode() for name in Table._fields]
LINE_FEED, SPACE, TAB, CARRIAGE_RETURN, COMMENT = b"\n", b" ", b"\t", b"\r", b"#"

# The entries that are waiting times, tighter where they are larger, and ChangeDL, which is free.
WAITING_TIMES = 11, 12, 18, 19, 20, 21
FREE = 17


def words_of(line):
    """The words of a line: what stands between blanks, up to a comment."""
    said = line.split(COMMENT)[0]
    for blank in (TAB, CARRIAGE_RETURN):
        said = said.replace(blank, SPACE)
    return [word for word in said.split(SPACE) if word]


def value_of(digits):
    """The number that digits stand for; of more than six behind leading zeros, that of the first six: too large too."""
    return int(digits.lstrip(b"0")[:6] or b"0")


def wrong_line(given, name, *behind):
    """The fault of a line's words behind lines that gave these entries, or 0, and the entry."""
    if name not in NAMES:
        return NO_NAME, 0
    entry = NAMES.index(name)
    if entry in given:
        return GIVEN_TWICE, entry
    if len(behind) != 1 or not behind[0].isdigit():
        return NO_NUMBER, entry
    if value_of(behind[0]) > LARGEST_ENTRY:
        return TOO_LARGE, entry
    return 0, entry


def first_missing(given):
    """The first entry that is missing beside those that are given, or None; the delays where one of them is given."""
    with_delays = any(entry >= LIMITS for entry in given)
    wanted = range(len(NAMES) if with_delays else LIMITS)
    return next((entry for entry in wanted if entry not in given), None)


def read(text):
    """The reader: the fault, its line and its entry; or three times 0 and the table."""
    given, lines = {}, text.split(LINE_FEED)
    for number, line in enumerate(lines, 1):
        words = words_of(line)
        if not words:
            continue
        fault, entry = wrong_line(given, *words)
        if fault:
            return fault, number, entry
        given[entry] = value_of(words[1])
    missing = first_missing(given)
    if missing is not None:
        return MISSING, len(lines), missing
    return 0, 0, 0, Table(*(given.get(entry, 0) for entry in range(len(NAMES))))


def printed(table):
    """The table as text: without its delays where all four are 0."""
    lines = [b"%s %d\n" % line for line in zip(NAMES, table)]
    return b"".join(lines[:k_written(table)])


def is_tighter(entry, old, new):
    """Whether an entry is tighter in a new table than in the old one."""
    if entry == FREE:
        return False
    return new > old if entry in WAITING_TIMES else new < old


def tighter(old, new):
    """The first tighter entry of a new table, or 22, and for each entry 1 where it is tighter."""
    flags = bytes(is_tighter(entry, *both) for entry, both in enumerate(zip(old, new)))
    return flags.index(1) if any(flags) else len(flags), flags


def all_rules(table):
    """For each rule 1 where it is broken, and the four route sums."""
    return (bytes(slack < 0 for slack in slacks(table)), *route_sums(table))
