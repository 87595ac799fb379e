"""Wrong versions of request 7, the two defaults: what is wrong, the file, a text, and the text in its place."""

from rules import NEW_DEFAULT
from wrong_files import ANSWER_2, ANSWER_3, ANSWER_5_6, BLOCK, FULL, JUDGED, MANY

RULES, FILES, SHIFTS, M9, CORPUS = "rules.py", "files.py", "shifts.py", "m9.py", "corpus.py"

# The new default itself, and the channel time of any table.

CHANNEL, LIMIT = "_replace(Channel_DL=10)", "state.stage_time + table.Channel_DL"
DEFAULTS = f"OLD_DEFAULT = Table()\nNEW_DEFAULT = OLD_DEFAULT.{CHANNEL}\n"


def off_entries():
    """Each entry but Channel_DL one more in the new default alone."""
    for name, value in NEW_DEFAULT._asdict().items():
        if name != "Channel_DL":
            yield f"{name} one more in the new default", CHANNEL, f"_replace(Channel_DL=10, {name}={value + 1})"


TABLES = [
    *((f"Channel_DL {time} in the new default", CHANNEL, f"_replace(Channel_DL={time})") for time in (1, 5, 9, 11, 15)),
    *off_entries(),
    ("the house values in the new default", CHANNEL, "_replace(Channel_DL=10, Clutch_Open_DE=20, "
     "Error_Clutch_Open_DE=60, Clutch_Close_DE=20, Error_Clutch_Close_DE=60)"),
    ("Channel_DL 10 in the old default too", "    Channel_DL: int = 5\n", "    Channel_DL: int = 10\n"),
    ("the old and the new default crossed", DEFAULTS, "OLD_DEFAULT = Table(Channel_DL=10)\nNEW_DEFAULT = Table()\n"),
    *((f"a channel time of {how}", LIMIT, f"state.stage_time + {time}") for how, time in (
        ("5 under any table", "5"), ("10 under any table", "10"),
        ("10 at the least", "max(10, table.Channel_DL)"), ("10 at the most", "min(10, table.Channel_DL)"),
        ("10 under the old default", "(10 if table == OLD_DEFAULT else table.Channel_DL)"),
        ("5 under the new default", "(5 if table == NEW_DEFAULT else table.Channel_DL)"),
        ("10 for 5", "(10 if table.Channel_DL == 5 else table.Channel_DL)"),
        ("5 for 10", "(5 if table.Channel_DL == 10 else table.Channel_DL)"),
        ("10 where an order is sent under the old default",
         "(10 if table == OLD_DEFAULT and state.stage == SENT else table.Channel_DL)"),
        ("10 where a device is good under the old default",
         "(10 if table == OLD_DEFAULT and state.stage == GOOD else table.Channel_DL)"),
    )),
]

# The reader and the judge: what has no table of its own means the old default for ever.

READ_OLD, READ_JUDGED = "    return OLD_DEFAULT\n", "in judged(table, records):"
JUDGED_FOR_LINE, JUDGED_FOR_LIST = "excess, state = ", "number, rule, accepted, excess, _ = "
JUDGED_AS_NEW = ("judge(file_of(NEW_DEFAULT, read(file)[3]) if not read(file)[0] and read(file)[2] == OLD_DEFAULT "
                 "else file)")
ENTRIES_READ = "return Table(*ENTRIES.unpack(entries + bytes(ENTRIES.size - len(entries))))"


def read_new(when):
    """The text by which files without a table of their own are read under the new default when this holds."""
    return READ_OLD, f"    return NEW_DEFAULT if {when} else OLD_DEFAULT\n"


def judged_under(table):
    """The text by which records are judged under this table."""
    return READ_JUDGED, f"in judged({table}, records):"


READER = [
    ("no table of its own is read as the new default", READ_OLD, "    return NEW_DEFAULT\n"),
    *((f"the new default is read {how}", *read_new(when)) for how, when in (
        ("of no entries", "k == 0 and len(file) >= HEADER.size"),
        ("of a good file without entries", "not damage(file)"),
        ("of no entries in a damaged file", "k == 0 and len(file) >= HEADER.size and damage(file)"),
        ("of a header alone", "len(file) == HEADER.size"),
        ("under 12 bytes", "len(file) < HEADER.size"), ("of no bytes", "not file"),
        ("where not all entries are there", "k in ENTRY_COUNTS[1:]"),
        ("where not all 18 entries are there", "k == WITHOUT_DELAYS"),
        ("where not all 22 entries are there", "k == WITH_DELAYS"),
        ("of another number of entries", "k not in ENTRY_COUNTS"),
    )),
    ("the old default in a file is read as the new", ENTRIES_READ, ENTRIES_READ.replace(
        "return ", "found = ") + "\n        return NEW_DEFAULT if found == OLD_DEFAULT else found"),
    ("the new default in a file is read as the old", ENTRIES_READ, ENTRIES_READ.replace(
        "return ", "found = ") + "\n        return OLD_DEFAULT if found == NEW_DEFAULT else found"),
    ("no entries are judged under the new default",
     *judged_under("NEW_DEFAULT if records and header_of(file).k == 0 else table")),
    ("the old default in a file is judged as the new",
     *judged_under("NEW_DEFAULT if records and header_of(file).k and table == OLD_DEFAULT else table")),
    ("the new default in a file is judged as the old", *judged_under("OLD_DEFAULT if table == NEW_DEFAULT else table")),
    ("a file is judged under the new default where the old refuses it with 12", JUDGED,
     f"{JUDGED} if {JUDGED}[0] != 12 or table != OLD_DEFAULT else admitted_step(NEW_DEFAULT, state, *record(four))"),
    ("the line of a file under the new default for the old", f"{JUDGED_FOR_LINE}judge(file)",
     JUDGED_FOR_LINE + JUDGED_AS_NEW),
    ("a block under the new default", BLOCK, BLOCK.replace("table", "table if broken_rule(table) else NEW_DEFAULT")),
    ("a block under the new default for the old", BLOCK,
     BLOCK.replace("table", "NEW_DEFAULT if table == OLD_DEFAULT else table")),
]

LISTS = [
    ("the list of a file under the new default for the old", f"    {JUDGED_FOR_LIST}judge(file)\n",
     "    from files import file_of\n    from rules import NEW_DEFAULT, OLD_DEFAULT\n"
     f"    {JUDGED_FOR_LIST}{JUDGED_AS_NEW}\n"),
    ("a list goes on under the new default for the old", "block(table, state, new)",
     "block(table._replace(Channel_DL=10) if table == type(table)() else table, state, new)"),
    ("a list goes on under the old default for the new", "block(table, state, new)",
     "block(type(table)() if table == type(table)(Channel_DL=10) else table, state, new)"),
]

MANUAL = [
    (f"the manual's engine with a channel time of {other} for {time}", "getattr(table, LIMITS[self.limit])",
     f'({other} if (self.limit, table.Channel_DL) == ("Channel_DL", {time}) else getattr(table, LIMITS[self.limit]))')
    for time, other in ((5, 10), (10, 5))
]

# The writer: the wish for none is the new default, written in eighteen entries. NEW_DEFAULT itself is no table given.

WISH, LAID = "NEW_DEFAULT if table is None else table\n", "laid(file_of(table, records), buffer)"
NONE = "table is NEW_DEFAULT"


def none_written(k):
    """The text by which the wish for none is written as so many entries."""
    return LAID, f"laid(file_with_entries({k}, table, records) if {NONE} else file_of(table, records), buffer)"


def none_first(condition, answer):
    """The text by which the wish for none is answered so before it is written, on this condition."""
    return LAID, f"{answer} if {NONE} and {condition} else {LAID}"


LENGTH, MOST = "RECORD.size * len(codes)", "most_records(k_written(table))"
WRITER = [
    ("the wish for none is written as no entries", *none_written(0)),
    ("the wish for none is written as no entries where there is no room for more",
     *none_first(f"len(buffer) < 48 + {LENGTH}", "laid(file_without_entries(records), buffer)")),
    ("the wish for none without records is written as no entries",
     *none_first("not records", "laid(file_without_entries(records), buffer)")),
    ("the wish for none is written as 22 entries", *none_written("WITH_DELAYS")),
    ("the wish for none is written as 17 entries", *none_written("WITHOUT_DELAYS - 1")),
    ("the wish for none is written as 1 entry", *none_written(1)),
    ("the wish for none is written as the old default", WISH, WISH.replace("NEW", "OLD")),
    ("the wish for none is written as the old default where that accepts the records", *none_first(
        "not judge(file_without_entries(records))[0]", "laid(file_of(OLD_DEFAULT, records), buffer)")),
    ("the wish for none is written as the old default where there is a record",
     *none_first("records", "laid(file_of(OLD_DEFAULT, records), buffer)")),
    ("the new default is written where the old is given", WISH, WISH.replace("is None", "in (None, OLD_DEFAULT)")),
    ("the old default is written where the new is given", WISH,
     WISH.replace("else table", "else OLD_DEFAULT if table == NEW_DEFAULT else table")),
    *((f"the {name} default given is written as no entries", LAID,
       f"laid(file_without_entries(records) if table == {name.upper()}_DEFAULT and table is not NEW_DEFAULT "
       "else file_of(table, records), buffer)") for name in ("old", "new")),
    ("room for the wish for none as if there were no entries", *none_first(
        f"12 + {LENGTH} <= len(buffer) < 48 + {LENGTH}", f"(0, 48 + {LENGTH}, file_of(table, records)[:len(buffer)])")),
    ("room for the wish for none as if there were 22 entries",
     *none_first(f"len(buffer) < 56 + {LENGTH}", "(NO_ROOM, 0, buffer)")),
    ("an exact fit is refused to the wish for none",
     *none_first(f"len(buffer) == 48 + {LENGTH}", "(NO_ROOM, 0, buffer)")),
    ("the length of the wish for none without its entries",
     *none_first(f"len(buffer) >= 48 + {LENGTH}", f"(0, 12 + {LENGTH}, {LAID}[2])")),
    ("15 for the wish for none with the entries laid", *none_first(
        f"48 <= len(buffer) < 48 + {LENGTH}", "(NO_ROOM, 0, file_of(table, b'') + buffer[48:])")),
    ("15 for the wish for none with no entries laid", *none_first(
        f"12 + {LENGTH} <= len(buffer) < 48 + {LENGTH}",
        f"(NO_ROOM, 0, file_without_entries(records) + buffer[12 + {LENGTH}:])")),
    *((f"15 before {before} where none is wished for", answer,
       f"({answer}) if table is not NEW_DEFAULT else {FULL} ({answer})")
      for before, answer in (("3", ANSWER_3), ("2", ANSWER_2), ("5 and 6", ANSWER_5_6))),
    ("no 5 and 6 where none is wished for", "        if number:\n            return number, 0, index",
     f"        if number and not ({NONE} and amount < 2**16):\n            return number, 0, index"),
    *((f"{most:,} records where none is wished for", MANY, MANY.replace(MOST, f"({most} if {NONE} else {MOST})"))
      for most in (16_370, 16_371, 16_373, 16_381)),
    ("4 for the wish for none", "    rule = broken_rule(table)\n    if rule:\n",
     f"    rule = 1 if {NONE} else broken_rule(table)\n    if rule:\n"),
]

# The table that is handed along with the wish for none.

GIVEN = "table if wish else None"
HANDED = [
    ("the table handed along is written where none is wished for", "table"),
    ("the wish for none refused where the table handed along is not admitted",
     "table if wish or rules.broken_rule(table) else None"),
    ("the wish for none with the table handed along where that has delays",
     "table if wish or rules.has_delays(table) else None"),
    ("the wish for none with the delays handed along",
     "table if wish else rules.NEW_DEFAULT._replace(**dict(zip(rules.DELAYS, table[rules.LIMITS:])))"),
    ("the wish for none with the limits handed along and 10 for the channel",
     "table if wish else table._replace(Channel_DL=10, **dict.fromkeys(rules.DELAYS, 0))"),
    ("the wish for none with the channel time handed along",
     "table if wish else rules.NEW_DEFAULT._replace(Channel_DL=table.Channel_DL)"),
    ("a table that is not admitted is taken for the wish for none",
     "table if wish and not rules.broken_rule(table) else None"),
]

WRONG_DEFAULTS = [
    *((what, file, old, new)
      for file, versions in ((RULES, TABLES), (FILES, READER + WRITER), (SHIFTS, LISTS), (M9, MANUAL))
      for what, old, new in versions),
    *((what, CORPUS, GIVEN, new) for what, new in HANDED),
]
