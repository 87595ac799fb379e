"""Wrong versions of what texts.py says of tables: what is wrong, a text of it, and the text in its place."""

from wrong_texts import NAMES

# What is printed of a table.

PRINTED, EACH = 'b"".join(lines[:k_written(table)])', r'b"%s %d\n" % line'
WRITTEN, PAIRS = "k_written(table)]", "zip(NAMES, table)]"
PRINTER = [
    ("22 lines are always printed", WRITTEN, "22]"),
    ("18 lines are always printed", WRITTEN, "18]"),
    *((f"22 lines where {how} is not 0", WRITTEN, f"22 if {what} else 18]") for how, what in (
        ("the first delay", "table[18]"), ("the last delay", "table[21]"), ("a plain delay", "any(table[18::2])"),
        ("an error delay", "any(table[19::2])"), ("each delay", "all(table[18:])"))),
    ("delays that are 0 are left out", PAIRS, f"{PAIRS[:-1]} if line[1] or line[0] in NAMES[:LIMITS]]"),
    ("entries that are 0 are left out", PAIRS, f"{PAIRS[:-1]} if line[1]]"),
    ("lines are printed in the other order", PAIRS, "reversed([*zip(NAMES, table)])]"),
    ("lines are printed by their names", PAIRS, "sorted(zip(NAMES, table))]"),
    ("delays are printed first", PAIRS, "[*zip(NAMES[18:], table[18:]), *zip(NAMES[:18], table)]]"),
    ("small letters are printed", EACH, r'b"%s %d\n" % (line[0].lower(), line[1])'),
    *((f"{how} is printed", EACH, f'b"{form}" % line') for how, form in (
        ("a tab", r"%s\t%d\n"), ("two spaces", r"%s  %d\n"), ("an equals sign", r"%s=%d\n"),
        ("a space before", r" %s %d\n"), ("a space behind", r"%s %d \n"), ("a carriage return", r"%s %d\r\n"),
        ("a number of five digits", r"%s %05d\n"), ("a number of two digits", r"%s %02d\n"),
        ("a number in columns", r"%s %5d\n"), ("a number in sixteens", r"%s %x\n"), ("a sign", r"%s %+d\n"),
        ("no line feed", r"%s %d"), ("an empty line more", r"%s %d\n\n"), ("a name alone", r"%s%.0d\n"),
    )),
    ("no line feed at the end of what is printed", PRINTED, f"{PRINTED}[:-1]"),
    ("an empty line is printed at the end", PRINTED, rf'{PRINTED} + b"\n"'),
    ("a comment is printed first", PRINTED, rf'b"# a table\n" + {PRINTED}'),
    *((f"{NAMES[entry]} and {NAMES[entry + 1]} crossed where they are printed", PAIRS,
       f"zip(NAMES[:{entry}] + NAMES[{entry}:{entry + 2}][::-1] + NAMES[{entry + 2}:], table)]")
      for entry in (0, 7, 9, 11, 17, 18, 20)),
]

# Which entries are tighter.

WAITING, FREE, IS_FREE = "WAITING_TIMES = 11, 12, 18, 19, 20, 21\n", "FREE = 17\n", "        return False\n"
LARGER, SMALLER, FIRST = "return new > old if", "else new < old", "flags.index(1) if any(flags) else len(flags)"
FLAGS = "return flags.index(1) if any(flags) else len(flags), flags"
TIMES = 11, 12, 18, 19, 20, 21


def off_sides():
    """Each entry with the side of the others: waiting times as limits, limits as waiting times."""
    for entry, name in enumerate(NAMES):
        if entry != 17:
            others = [time for time in TIMES if time != entry] if entry in TIMES else [*TIMES, entry]
            yield f"{name} is tighter on the other side", WAITING, f"WAITING_TIMES = {', '.join(map(str, others))}\n"


TIGHTER = [
    *off_sides(),
    *((f"{NAMES[entry]} is never tighter", IS_FREE, f"{IS_FREE}    if entry == {entry}:\n{IS_FREE}")
      for entry in (0, 12, 16, 18, 21)),
    ("ChangeDL counts where it is smaller", FREE, "FREE = 22\n"),
    ("ChangeDL counts where it is larger", IS_FREE, "        return new > old\n"),
    ("ChangeDL counts where it differs", IS_FREE, "        return new != old\n"),
    ("equal waiting times are tighter", LARGER, "return new >= old if"),
    ("equal limits are tighter", SMALLER, "else new <= old"),
    ("what differs is tighter", LARGER, "return new != old if True or"),
    ("a waiting time that was 0 is not tighter", LARGER, "return new > old > 0 if"),
    ("a limit that becomes 0 is not tighter", SMALLER, "else 0 < new < old"),
    ("limits are compared by 8 bits", SMALLER, "else new % 2**8 < old % 2**8"),
    ("waiting times are compared by 8 bits", LARGER, "return new % 2**8 > old % 2**8 if"),
    ("limits are compared with a sign", SMALLER, "else (new ^ 2**15) < (old ^ 2**15)"),
    ("waiting times are compared with a sign", LARGER, "return (new ^ 2**15) > (old ^ 2**15) if"),
    ("the old and the new table crossed", "zip(old, new)", "zip(new, old)"),
    ("the last that is tighter", FIRST, FIRST.replace("index", "rindex")),
    *((f"{none} where nothing is tighter", FIRST, FIRST.replace("len(flags)", str(none))) for none in (0, 17, 21, 23)),
    ("how many are tighter for the first", FIRST, "sum(flags)"),
    ("the first alone is flagged", FLAGS, FLAGS.replace(", flags", ", bytes(e == flags.find(1) for e in range(22))")),
    ("flags for what is not tighter", FLAGS, FLAGS.replace(", flags", ", bytes(1 - flag for flag in flags)")),
    ("flags in the other order", FLAGS, FLAGS.replace(", flags", ", flags[::-1]")),
    ("flags of 255", FLAGS, FLAGS.replace(", flags", ", bytes(255 * flag for flag in flags)")),
    ("18 flags", FLAGS, FLAGS.replace(", flags", ", flags[:18]")),
]

# All rules and the route sums.

BROKEN, SUMS = "slack < 0 for slack in slacks(table)", "*route_sums(table))"
TERMS = {"F": "Sync_DL OpenClutch_DL SetGear_DL CloseClutch_DL", "N": "Zero_DL OpenClutch_DL Release_DL CloseClutch_DL",
         "G1": "Zero_EX Release_DL Sync_DL OpenClutch_DL SetGear_DL CloseClutch_DL",
         "G2": "Zero_DL OpenClutch_DL Release_DL SetGear_DL CloseClutch_DL"}


def off_rules():
    """Each rule one tighter and one looser where all are told, and each sum without each of its terms."""
    for rule in range(1, 17):
        for how, least in (("one tighter", 1), ("one looser", -1)):
            yield (f"{how} among all rules: rule {rule}", BROKEN,
                   f"slack < {least} * (rule == {rule}) for rule, slack in enumerate(slacks(table), 1)")
    for place, (route, terms) in enumerate(TERMS.items()):
        for term in terms.split():
            yield (f"{route} told without {term}", SUMS,
                   f"*(each - table.{term} * (place == {place}) for place, each in enumerate(route_sums(table))))")


ALL_RULES = [
    *off_rules(),
    ("the first broken rule alone", BROKEN, "sum(each < 0 for each in slacks(table)[:rule]) == 1 and slack < 0 "
     "for rule, slack in enumerate(slacks(table), 1)"),
    ("flags for rules that are kept", BROKEN, BROKEN.replace("<", ">=")),
    ("rules in the other order", BROKEN, BROKEN.replace("slacks(table)", "slacks(table)[::-1]")),
    ("fifteen rules", BROKEN, BROKEN.replace("slacks(table)", "slacks(table)[:15]")),
    ("sums in the other order", SUMS, "*route_sums(table)[::-1])"),
    ("the larger of G1 and G2", SUMS, "*route_sums(table)[:2], max(route_sums(table)[2:]))"),
    ("sums of 16 bits", SUMS, "*(each % 2**16 for each in route_sums(table)))"),
    ("sums of admitted tables alone", SUMS, "*(each * (min(slacks(table)) >= 0) for each in route_sums(table)))"),
    ("what is left for sums", SUMS, "*(abs(table.ChangeDL - each) for each in route_sums(table)))"),
]

WRONG_TABLES = PRINTER + TIGHTER + ALL_RULES
