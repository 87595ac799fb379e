"""Wrong versions of request 6, the delays of clutches: what is wrong, the file, a text, and the text in its place."""

from settlements import DELAY_GUARDS
from wrong_files import K_WRITTEN, RECORD_OFFSET
from wrong_m9 import rewritten
from wrong_rules import ALLOWED, GIVES, OVER, OVER_FIRST, PASSED, RULE, SLACKS, UNREAD, words

RULES, FILES, SHIFTS, SETTLED, M9 = "rules.py", "files.py", "shifts.py", "settlements.py", "m9.py"
CORPUS = "corpus.py"

# Rule 16, and rule 1 beside it.

CONDITIONS = {
    "open at least 1": "        t.Clutch_Open_DE - 1,\n",
    "close at least 1": "        t.Clutch_Close_DE - 1,\n",
    "failing to open exceeds open": "t.Error_Clutch_Open_DE - t.Clutch_Open_DE - 1,\n",
    "failing to close exceeds close": "t.Error_Clutch_Close_DE - t.Clutch_Close_DE - 1,\n",
    "failing to open within its limit": "t.Clutch_Open_DL - t.Error_Clutch_Open_DE,\n",
    "failing to close within its limit": "t.Clutch_Close_DL - t.Error_Clutch_Close_DE,\n",
}
PLAIN_OPEN, PLAIN_CLOSE, ERROR_OPEN, ERROR_CLOSE, OPEN_LIMIT, CLOSE_LIMIT = CONDITIONS.values()
RULE_16, DELAYED = SLACKS[16], "if has_delays(t) else 1,"
FIRST = "next((rule for rule, slack in enumerate(slacks(table), 1) if slack < 0), 0)"


def off_conditions():
    """Each condition of rule 16 one tighter and one looser, and dropped where that is more than one looser."""
    for name, slack in CONDITIONS.items():
        indent = slack[:len(slack) - len(slack.lstrip())]
        yield f"rule 16 one tighter: {name}", slack, f"{indent}-1 + {slack.lstrip()}"
        yield f"rule 16 one looser: {name}", slack, f"{indent}1 + {slack.lstrip()}"
        if "at least" not in name:
            yield f"rule 16 without: {name}", slack, "0,\n"


def only(order):
    """Rule 16 of one clutch alone."""
    places = [place for place, name in enumerate(CONDITIONS) if words(order) in name]
    return RULE_16, f"min(delay_slacks(t)[place] for place in {places}) {DELAYED}"


ADMISSION = [
    *off_conditions(),
    ("rule 16 for open alone", *only("OPEN")),
    ("rule 16 for close alone", *only("CLOSE")),
    ("rule 16 with the device limits crossed for open", OPEN_LIMIT, OPEN_LIMIT.replace("Open_DL", "Close_DL")),
    ("rule 16 with the device limits crossed for close", CLOSE_LIMIT, CLOSE_LIMIT.replace("Close_DL", "Open_DL")),
    ("rule 16 with the phase limit of open", OPEN_LIMIT, OPEN_LIMIT.replace("Clutch_Open_DL", "OpenClutch_DL")),
    ("rule 16 with the phase limit of close", CLOSE_LIMIT, CLOSE_LIMIT.replace("Clutch_Close_DL", "CloseClutch_DL")),
    ("rule 16 with the plain delay of open within the limit", OPEN_LIMIT, OPEN_LIMIT.replace("Error_", "")),
    ("rule 16 with the plain delay of close within the limit", CLOSE_LIMIT, CLOSE_LIMIT.replace("Error_", "")),
    ("rule 16 with the error delay of open beside close", ERROR_OPEN,
     ERROR_OPEN.replace("t.Clutch_Open", "t.Clutch_Close")),
    ("rule 16 with the error delay of close beside open", ERROR_CLOSE,
     ERROR_CLOSE.replace("t.Clutch_Close", "t.Clutch_Open")),
    ("rule 16 with the delay and the channel within the limit of open", OPEN_LIMIT,
     OPEN_LIMIT.replace(",\n", " - t.Channel_DL,\n")),
    ("four zeros break rule 16", RULE_16, "min(delay_slacks(t)),"),
    ("one clutch without delays keeps rule 16", RULE_16,
     "min([1] + [slack for place, slack in enumerate(delay_slacks(t)) if any(t[LIMITS + place % 2 * 2:][:2])]),"),
    ("two plain delays of 0 keep rule 16", DELAYED, "if t.Clutch_Open_DE or t.Clutch_Close_DE else 1,"),
    ("two error delays of 0 keep rule 16", DELAYED, "if t.Error_Clutch_Open_DE or t.Error_Clutch_Close_DE else 1,"),
    ("a plain delay of 0 for open keeps rule 16", DELAYED, "if t.Clutch_Open_DE else 1,"),
    ("a plain delay of 0 for close keeps rule 16", DELAYED, "if t.Clutch_Close_DE else 1,"),
    ("one delay of 0 keeps rule 16", DELAYED, "if all(t[LIMITS:]) else 1,"),
    ("rule 16 before all others", FIRST, f"16 if slacks(table)[15] < 0 else {FIRST}"),
    ("rule 16 before 15", FIRST, FIRST.replace("< 0)", "< 0 and not (rule == 15 and slacks(table)[15] < 0))")),
    ("rule 16 is given as 1", FIRST, f"{FIRST} % 16 + (slacks(table)[15] < 0) * ({FIRST} == 16)"),
    ("rule 1 over all 22 entries", SLACKS[1], "min(t) - 1,"),
    ("rule 1 over all 22 entries unless four are 0", SLACKS[1], "min(t if has_delays(t) else t[:LIMITS]) - 1,"),
    ("rule 1 over the plain delays too", SLACKS[1], "min(*t[:LIMITS], *(t[LIMITS::2] if has_delays(t) else ())) - 1,"),
]

# Steps 5 and 6 in open and close phases.

ROWS = {"OPEN": 'delay="Clutch_Open_DE", error_delay="Error_Clutch_Open_DE"',
        "CLOSE": 'delay="Clutch_Close_DE", error_delay="Error_Clutch_Close_DE"'}
BOTH_ROWS = (f'{ROWS["OPEN"]})\nCLOSE = Order("close", "Clutch_Close_DL", "CloseClutch_DL",\n'
             f'              {ROWS["CLOSE"]})\n')
# What is asked of each answer, and the clock that it may not come before.
ANSWERS = {
    "DEVICE_GOOD": ("if code == DEVICE_GOOD and order.delay:", "state.stage_time + getattr(table, order.delay)"),
    "DEVICE_FAILED": ("if code == DEVICE_FAILED and order.error_delay:",
                      "state.stage_time + getattr(table, order.error_delay)"),
}
(GOOD, GOOD_FROM), (FAILED, FAILED_FROM) = ANSWERS.values()
EARLY, EITHER = "return [(TOO_EARLY, earliest - clock)]", "code in (DEVICE_GOOD, DEVICE_FAILED)"


def off_answers():
    """Each answer with its delay from another time, off by one, of one clutch alone, in all phases or in none."""
    for answer, (asked, clock) in ANSWERS.items():
        name, delay = words(answer), clock[len("state.stage_time + getattr(table, "):-1]
        for time in ("phase_time", "request_time"):
            yield f"the delay of {name} from the {words(time)}", clock, clock.replace("stage_time", time)
        for how, wrong in (
            ("one more", f"{clock} + 1"), ("one less", f"{clock} - 1"), ("doubled", clock.replace("+", "+ 2 *")),
            ("wraps at 32 bits", f"({clock}) % 2**32"), ("at most the last clock", f"min({clock}, LAST_CLOCK)"),
            *((f"from the {how} of both times",
               clock.replace("state.stage_time", f"{of}(state.stage_time, state.phase_time)"))
              for how, of in (("later", "max"), ("earlier", "min"))),
            ("and the channel's", f"{clock} + table.Channel_DL"),
        ):
            yield f"the delay of {name} {how}", clock, wrong
        for order in ROWS:
            yield (f"the delay of {name} in {words(order)} phases alone", asked,
                   asked.replace(":", f" and order is {order}:"))
        for phase in (2, 5, 7, 11, 15, 16, 18, 21):
            yield f"no delay of {name} in phase {phase}", asked, asked.replace(":", f" and state.phase != {phase}:")
        yield f"no delay of {name}", asked, "if False:"
        yield f"a delay of 0 asks nothing of {name}", asked, asked.replace(":", f" and getattr(table, {delay}):")
        yield f"four zeros ask nothing of {name}", asked, asked.replace(":", " and has_delays(table):")
        both = f"{asked}\n        return {clock}"
        for other in ("Clutch_Open_DE", "Clutch_Close_DE"):
            yield (f"{name} has {other} in other phases too", both,
                   both.replace(f" and {delay}:", ":").replace(delay, f"{delay} or '{other}'"))
        yield (f"{name} needs the stage time in other phases too", both,
               f"{asked.replace(f' and {delay}:', ':')}\n        return {clock} if {delay} else state.stage_time")


STEPS = [
    *off_answers(),
    ("device good has the error delay", GOOD_FROM, GOOD_FROM.replace("order.delay", "order.error_delay")),
    ("device failed has the plain delay", FAILED_FROM, FAILED_FROM.replace("error_delay", "delay")),
    ("plain and error delays crossed for open", ROWS["OPEN"],
     'delay="Error_Clutch_Open_DE", error_delay="Clutch_Open_DE"'),
    ("plain and error delays crossed for close", ROWS["CLOSE"],
     'delay="Error_Clutch_Close_DE", error_delay="Clutch_Close_DE"'),
    ("open and close delays crossed", BOTH_ROWS,
     BOTH_ROWS.replace("Open_DE", "x_DE").replace("Close_DE", "Open_DE").replace("x_DE", "Close_DE")),
    *((f"{words(order)} has {right.replace(*pair)} for {right}", f'delay="{right}"', f'delay="{right.replace(*pair)}"')
      for order, pair in (("OPEN", ("Open", "Close")), ("CLOSE", ("Close", "Open")))
      for right in (f"Clutch_{pair[0]}_DE", f"Error_Clutch_{pair[0]}_DE")),
    ("at its delay a clutch is early", PASSED, f"{PASSED} or excess == 0 and {EITHER}"),
    ("one before its delay a clutch is not early", PASSED, f"{PASSED} + ({EITHER})"),
    ("a delay of device good holds for taking too", GOOD, GOOD.replace("== DEVICE_GOOD", "in (DEVICE_GOOD, TAKE)")),
    ("a delay of device good holds for deliver too", GOOD, GOOD.replace("== DEVICE_GOOD", "in (DEVICE_GOOD, DELIVER)")),
    ("an error delay holds for raising the error too", FAILED,
     FAILED.replace("== DEVICE_FAILED", "in (DEVICE_FAILED, RAISE_ERROR)")),
    *((f"{number} for an early clutch", EARLY, f"return [({number} if {EITHER} else TOO_EARLY, earliest - clock)]")
      for number in (7, 10, 12)),
    *((f"9 before 7 for {words(answer)} of a clutch", ALLOWED, ALLOWED + OVER_FIRST.format(answer, "CLUTCH_PHASES"))
      for answer in ANSWERS),
    ("9 before 6 for a clutch", UNREAD,
     f"forbidden(table, state, code, amount) if {EITHER} and {GIVES} 9 else {UNREAD}"),
    ("9 before 4 for a clutch", RULE,
     f"    if rule and (unreadable(code, amount, middle) or not ({EITHER} and {GIVES} 9)):"),
    ("7 with the excess of a clutch", "return NOT_ALLOWED, 0",
     f"return NOT_ALLOWED, max(0, excesses(table, state, code, amount)[0][1]) "
     f"if {EITHER} and state.phase in CLUTCH_PHASES else 0"),
]

# The excess of an early clutch. The number that is given with it stays right.

OTHER_DELAY = "getattr(table, order_of(state).{})"


def off_excess(wrong):
    """The text by which the excess of an early clutch is another."""
    return OVER, f"((number, {wrong} if {EITHER} else excess) for number"


EXCESSES = [(f"the excess of an early clutch is {how}", *off_excess(wrong)) for how, wrong in (
    ("one more", "excess + 1"), ("one less", "excess - 1"), ("always 0", "0"), ("always 1", "1"),
    ("with the other sign", "-excess"), ("of 8 bits", "excess % 2**8"), ("of 16 bits", "excess % 2**16"),
    ("of 32 bits", "excess % 2**32"), ("at most 32 bits", "min(excess, LAST_CLOCK)"),
    ("at most 31 bits", "min(excess, 2**31 - 1)"),
    ("to a sum that wraps at 32 bits", "(excess + state.clock) % 2**32 - state.clock"),
    ("the age of the stage", "state.clock - state.stage_time"),
    ("from the phase time", "excess + state.phase_time - state.stage_time"),
    ("to the stage time", "max(0, state.stage_time - state.clock)"),
    ("to the device's limit", f"state.stage_time + {OTHER_DELAY.format('device_limit')} - state.clock"),
    *((f"the {words(delay)}", OTHER_DELAY.format(delay)) for delay in ("delay", "error_delay")),
    *((f"to the {words(delay)}", f"state.stage_time + {OTHER_DELAY.format(delay)} - state.clock")
      for delay in ("delay", "error_delay")),
)]

# Files of 22 entries, the two record maxima, and what is written of a table.

COUNTS, MOST = "k not in ENTRY_COUNTS or ", "return MOST_WITH_DELAYS if k == WITH_DELAYS else MOST_RECORDS"
TOO_MANY, MAXIMA = f"{RECORD_OFFSET}n > most_records(k):", "= 16_372, 16_370"
HAS, ENTRIES = "len(entries) == 2 * k", "entries + bytes(ENTRIES.size - len(entries))"
READ_RULE, RECORDS = "        rule = broken_rule(table)\n", "file[header_of(file).record_offset:]"
MANY = "len(codes) > most_records(k_written(table))"
PACKED = "ENTRIES.pack(*table)[:2 * k]"
FOUR_ZEROS = "k == WITH_DELAYS and len(file) >= record_offset(k) and not has_delays(table_of(file))"
HOUSE = "b'\\x14\\0\\x3c\\0\\x14\\0\\x3c\\0'"

READER = [
    ("22 entries are refused", COUNTS, "k not in ENTRY_COUNTS[:2] or "),
    *((f"{k} entries", COUNTS, f"k not in ({k}, *ENTRY_COUNTS) or ") for k in (20, 21, 23)),
    ("22 entries with four zeros are refused with 2", COUNTS, f"{COUNTS}{FOUR_ZEROS} or "),
    ("22 entries with four zeros are refused with 4", READ_RULE,
     READ_RULE.replace("\n", " or 16 * (header_of(file).k == WITH_DELAYS and not has_delays(table))\n")),
    ("22 entries with one delay of 0 are refused with 2", COUNTS,
     f"{COUNTS}k == WITH_DELAYS and len(file) >= record_offset(k) and 0 in table_of(file)[LIMITS:] or "),
    ("16,372 records behind 22 entries", MOST, "return MOST_RECORDS"),
    ("16,370 records behind any entries", MOST, "return MOST_WITH_DELAYS"),
    ("16,370 records behind 18 entries too", MOST, "return MOST_WITH_DELAYS if k else MOST_RECORDS"),
    ("16,371 records behind 22 entries", MAXIMA, "= 16_372, 16_371"),
    ("16,369 records behind 22 entries", MAXIMA, "= 16_372, 16_369"),
    ("16,372 records are read behind 22 entries", TOO_MANY, TOO_MANY.replace("most_records(k)", "MOST_RECORDS")),
    ("16,370 records are read behind any entries", TOO_MANY, TOO_MANY.replace("most_records(k)", "MOST_WITH_DELAYS")),
    ("the maximum to read by the delays", TOO_MANY, TOO_MANY.replace("(k):", "(k_written(table_of(file))):")),
    ("as many records as 65,536 bytes hold", TOO_MANY,
     TOO_MANY.replace("most_records(k)", "(65_536 - record_offset(k)) // 4")),
    ("a table of 22 entries in 48 bytes", HAS, "len(entries) >= 2 * WITHOUT_DELAYS"),
    ("no table of 22 entries in 56 bytes", HAS, f"{HAS} and (k < WITH_DELAYS or len(file) > record_offset(k))"),
    ("delays of 18 entries from the bytes of records", ENTRIES,
     "file[HEADER.size:][:ENTRIES.size].ljust(ENTRIES.size, b'\\0')"),
    ("delays of 18 entries are the house values", ENTRIES, f"(entries + {HOUSE})[:ENTRIES.size]"),
    ("delays of no entries are the house values", "    return OLD_DEFAULT\n", "    return OLD_DEFAULT._replace("
     "Clutch_Open_DE=20, Error_Clutch_Open_DE=60, Clutch_Close_DE=20, Error_Clutch_Close_DE=60)\n"),
    ("delays of 22 entries are 0", ENTRIES, "entries[:2 * WITHOUT_DELAYS] + bytes(8)"),
    ("delays of 22 entries crossed", ENTRIES, f"({ENTRIES})[:36] + ({ENTRIES})[40:] + ({ENTRIES})[36:40]"),
    ("delays stand before the limits", ENTRIES,
     f"({ENTRIES})[8:] + ({ENTRIES})[:8] if k == WITH_DELAYS else {ENTRIES}"),
    ("records from byte 48 behind 22 entries", RECORDS, "file[min(header_of(file).record_offset, 48):]"),
]

WRITER = [
    ("a table is always written as 22 entries", K_WRITTEN, "return WITH_DELAYS"),
    ("a table is always written as 18 entries", K_WRITTEN, "return WITHOUT_DELAYS"),
    ("18 and 22 entries crossed", K_WRITTEN, "return WITHOUT_DELAYS if has_delays(table) else WITH_DELAYS"),
    ("22 entries by the first delay", K_WRITTEN, K_WRITTEN.replace("has_delays(table)", "table.Clutch_Open_DE")),
    ("22 entries by the plain delays", K_WRITTEN, K_WRITTEN.replace("has_delays(table)", "any(table[LIMITS::2])")),
    ("22 entries by the last delay", K_WRITTEN, K_WRITTEN.replace("has_delays(table)", "table[-1]")),
    ("22 entries where no delay is 0", K_WRITTEN, K_WRITTEN.replace("has_delays(table)", "all(table[LIMITS:])")),
    ("delays are written as zeros", PACKED, "(ENTRIES.pack(*table)[:36] + bytes(8))[:2 * k]"),
    ("16,372 records are written with delays", MANY, "len(codes) > MOST_RECORDS"),
    ("16,370 records are written at the most", MANY, "len(codes) > MOST_WITH_DELAYS"),
    ("the maximum to write is that of delays once the table is admitted", MANY,
     "len(codes) > (MOST_RECORDS if broken_rule(table) else most_records(k_written(table)))"),
    ("4 before 2 for delays", MANY, f"{MANY} and not (has_delays(table) and broken_rule(table))"),
]

EXTENDING = [
    ("16,372 records with delays are extended", "most_records(k_written(table))", "most_records(18)"),
    ("16,370 records are extended at the most", "most_records(k_written(table))", "most_records(22)"),
    ("the maximum to extend is that of delays once the table is admitted", "most_records(k_written(table))",
     "most_records(18 if broken_rule(table) else k_written(table))"),
    ("the maximum to extend by the first delay", "most_records(k_written(table))",
     "most_records(22 if table.Clutch_Open_DE else 18)"),
]

# The manual's engine.

TIME = "variables[self.time]"
IS_DELAY = 'self.limit.endswith("Clutch_Open_DE") or self.limit.endswith("Clutch_Close_DE")'


def crossed(formula):
    """A guard on a delay with each other delay, and from the other clutch's time."""
    time, delay = formula.split(" ≥ ")[1].split(" + ")
    for other in (each.stands.split(" + ")[1] for each in DELAY_GUARDS):
        if other != delay:
            yield f"with {other}", formula.replace(delay, other)
    other = time.replace("Open", "x").replace("Close", "Open").replace("x", "Close")
    yield f"from {other}", formula.replace(time, other)


def off_guards():
    """Each guard on a delay dropped, crossed with another, and from the time of an order before."""
    for event, _, stands, _ in DELAY_GUARDS:
        text = f'Settlement("{event}", REQUESTED, "{stands}", '
        yield f"{event} without a delay", SETTLED, f"    {text}", "    # ("
        for how, wrong in crossed(stands):
            yield f"{event} {how}", SETTLED, text, text.replace(stands, wrong)
        for phase in ("FromNeu_RequestOpenClutchT" if "Open" in event else "FromNeu_SetGear_ClutchT", "time"):
            time = stands.split(" ≥ ")[1].split(" + ")[0]
            yield f"{event} from {phase}", SETTLED, text, text.replace(f"≥ {time}", f"≥ {phase}")


MANUAL = [
    *off_guards(),
    ("delays of the manual's engine from the phase's start", M9, TIME,
     f"(reading(variables).phase_time if {IS_DELAY} else {TIME})"),
    ("delays of the manual's engine from the request", M9, TIME,
     f"(reading(variables).request_time if {IS_DELAY} else {TIME})"),
    ("9 of a clutch before 7 in the manual's engine", M9, "if event else (NOT_ALLOWED, 0)",
     "if event else (TOO_EARLY, 1) if code == DEVICE_FAILED and variables['time'] < variables['Clutch_Request_OpenT'] "
     "+ table.Error_Clutch_Open_DE else (NOT_ALLOWED, 0)"),
    *(rewritten(f"{event} has a clutch's delay", event, f"{event}T := time\n", f"{event}T := time\n"
                f"grd9 : time ≥ {time} + Clutch_Open_DE\n")
      for event, time in (("Gear_Set", "Gear_Request_SetT"), ("Gear_Release", "Gear_Request_ReleaseT"),
                          ("Engine_SyncSpeed", "Engine_Request_SyncSpeedT"))),
]

WRONG_DELAYS = [
    *((what, file, old, new)
      for file, versions in ((RULES, ADMISSION + STEPS + EXCESSES), (FILES, READER + WRITER), (SHIFTS, EXTENDING))
      for what, old, new in versions),
    ("the record maximum by the table where none is wished for", CORPUS, "return files.write(",
     "return (2, 0, 0, 0, buffer) if not wish and len(codes) == len(amounts) > "
     "files.most_records(files.k_written(table)) else files.write("),
    *MANUAL,
]
