"""Wrong versions of files.py, in the order of document 01: what is wrong, a text of it, and the text in its place."""

# The reader: the header's fields and bounds, the table, the records, and the order 1, 2, 3, 4.

SHORT, HEADER = "return TOO_SHORT\n", "return WRONG_HEADER\n"
TABLE_OFFSET, ENTRIES = "table_offset != HEADER.size or ", "k not in ENTRY_COUNTS or "
RECORD_OFFSET, COUNT = "offset != record_offset(k) or ", "n > most_records(k):\n        return WRONG_HEADER\n"
LENGTH = "len(file) == offset + RECORD.size * n"
HAS_TABLE, HAS_ENTRIES, SAYS = "len(entries) == 2 * k", "if k in ENTRY_COUNTS[1:]", "header_of(file).k if len(file)"
GOOD = "if not number:"

READER = [
    ("1 for 12 bytes", "len(file) < HEADER.size", "len(file) <= HEADER.size"),
    ("2 for 11 bytes", SHORT, "return TOO_SHORT if len(file) < 11 else WRONG_HEADER\n"),
    ("2 for no bytes", SHORT, "return TOO_SHORT if file else WRONG_HEADER\n"),
    ("3 before 1", SHORT, "return WRONG_LENGTH\n"),
    ("3 before 2", HEADER, f"return WRONG_HEADER if {LENGTH} else WRONG_LENGTH\n"),
    ("3 before 2 for too many records", COUNT, f"n > most_records(k) and {LENGTH}:\n        return WRONG_HEADER\n"),
    ("3 before 2 above 65,536 bytes", SHORT, f"{SHORT}    if len(file) > 65_536:\n        return WRONG_LENGTH\n"),
    ("4 before 3", GOOD, "if not number or number == WRONG_LENGTH and broken_rule(table):"),
    ("4 before 2", GOOD, "if not number or number == WRONG_HEADER and broken_rule(table):"),
    ("4 without its rule in a file", "return number, rule, table, b", "return number, 0, table, b"),
    ("4 is never given", GOOD, "if False:"),
    ("table offset 11", TABLE_OFFSET, "table_offset not in (11, 12) or "),
    ("table offset 13", TABLE_OFFSET, "table_offset not in (12, 13) or "),
    ("table offset of 8 bits", TABLE_OFFSET, "table_offset % 2**8 != HEADER.size or "),
    ("any table offset", TABLE_OFFSET, ""),
    ("1 entry", ENTRIES, "k not in (1, *ENTRY_COUNTS) or "),
    ("17 entries", ENTRIES, "k not in (17, *ENTRY_COUNTS) or "),
    ("19 entries", ENTRIES, "k not in (19, *ENTRY_COUNTS) or "),
    ("any number of entries", ENTRIES, ""),
    ("0 entries are refused", ENTRIES, "k not in ENTRY_COUNTS[1:] or "),
    ("18 entries are refused", ENTRIES, "k not in (0, WITH_DELAYS) or "),
    ("record offset one less", RECORD_OFFSET, "offset not in (record_offset(k) - 1, record_offset(k)) or "),
    ("record offset one more", RECORD_OFFSET, "offset not in (record_offset(k), record_offset(k) + 1) or "),
    ("record offset of 16 bits", RECORD_OFFSET, "offset % 2**16 != record_offset(k) or "),
    ("record offset 12 with a table too", RECORD_OFFSET, "offset not in (12, record_offset(k)) or "),
    ("any record offset", RECORD_OFFSET, ""),
    ("16,372 records are too many to read", COUNT, COUNT.replace(">", ">=")),
    ("16,373 records are not too many to read", COUNT, COUNT.replace("(k)", "(k) + 1")),
    ("record count of 16 bits", COUNT, COUNT.replace("n >", "n % 2**16 >")),
    ("any number of records", COUNT, COUNT.replace("n > most_records(k)", "False")),
    ("16,371 is the most to read and write", "= 16_372, 16_370", "= 16_371, 16_370"),
    ("16,373 is the most to read and write", "= 16_372, 16_370", "= 16_373, 16_370"),
    ("a record more than the count", LENGTH, f"{LENGTH} or len(file) == offset + RECORD.size * (n + 1)"),
    ("a record less than the count", LENGTH, f"{LENGTH} or len(file) == offset + RECORD.size * (n - 1)"),
    ("a header alone is a file", LENGTH, f"{LENGTH} or len(file) == HEADER.size"),
    ("the header is big-endian", '"<HHII"', '">HHII"'),
    ("the amount is big-endian", '"<BBH"', '">BBH"'),
    ("code and middle byte crossed", "code, middle, amount = RECORD", "middle, code, amount = RECORD"),
    ("no table in 48 bytes", HAS_TABLE, "len(file) > record_offset(k)"),
    ("a table for any number but 0", HAS_ENTRIES, "if k"),
    ("a table for the number 0", SAYS, "header_of(file).k or 18 if len(file)"),
    ("never a table", HAS_ENTRIES, "if k == 19"),
    ("a table one entry early", "file[HEADER.size:record_offset(k)]", "file[HEADER.size - 2:record_offset(k) - 2]"),
    ("records from byte 12 with a table too", "file[header_of(file).record_offset:]", "file[HEADER.size:]"),
    ("records of a file refused with 4", 'b"" if number else', 'b"" if number and not rule else'),
]

# The judge and the running judge.

JUDGED = "admitted_step(table, state, *record(four))"
PLACES = "range(0, len(records), RECORD.size)"
VERDICT, ADVANCED = "return number, rule, accepted, excess, state", "return step(table, state, *record(four))"
REFUSED = "        if number:\n            return\n"

JUDGE = [
    ("the refused record counts as accepted", "accepted += number == 0", "accepted += 1"),
    ("the header's count for that of records accepted", VERDICT,
     "return number, rule, len(records) // RECORD.size, excess, state"),
    ("the start state with every refusal", VERDICT, VERDICT.replace("state", "START if number else state")),
    ("the first record is left out", PLACES, "range(RECORD.size, len(records), RECORD.size)"),
    ("the last record is left out", PLACES, "range(0, len(records) - RECORD.size, RECORD.size)"),
    ("judging goes on after a refusal", REFUSED, ""),
    ("judging by the old default", JUDGED, "admitted_step(OLD_DEFAULT, state, *record(four))"),
    ("judging from the box in gear", "    state = START\n", "    state = START._replace(box=1)\n"),
    ("only the first record is judged", JUDGED, f"{JUDGED} if state == START else (0, 0, state)"),
    ("judging ends at a reset", REFUSED, REFUSED.replace(":", " or four[0] == 13:")),
    ("a reset is no record of a file", JUDGED, f"(5, 0, state) if four[0] == 13 else {JUDGED}"),
    ("a reset in a file begins anew", JUDGED, f"(0, 0, START) if four[0] == 13 and state.phase == 23 else {JUDGED}"),
    ("a reset is not counted as accepted", "accepted += number == 0",
     "accepted += number == 0 and (state.phase, state.phase_time) != (0, state.clock)"),
    ("the running judge knows no reset", ADVANCED,
     ADVANCED.replace("return", "return (5, 0, 0, state) if four[0] == 13 else")),
    ("the running judge leaves the middle byte out", ADVANCED, "return step(table, state, *record(four)[:2])"),
    ("the running judge admits any table", ADVANCED, f"number, *rest = {JUDGED}\n    return number, 0, *rest"),
]

# The excess of the judge and of the running judge.

EACH, RAN = "accepted += number == 0", "number, rule, excess, reached = engine(table, reached, *record(four))"


def judge_gives(excess):
    """A judge that gives this excess."""
    return VERDICT, VERDICT.replace("excess", excess)


def advance_gives(excess):
    """A running judge that gives this excess."""
    return ADVANCED, ADVANCED.replace("return", "*answer, excess, state =") + f"\n    return *answer, {excess}, state"


EXCESSES = [
    ("the judge without an excess", *judge_gives("0")),
    ("the judge keeps the excess of the record before", EACH, f"{EACH}\n        excess *= number == 0"),
    ("the judge's excess of 8 bits", *judge_gives("excess % 2**8")),
    ("the judge's excess of 15 bits", *judge_gives("excess % 2**15")),
    ("the judge's excess one more", *judge_gives("excess + (excess > 0)")),
    ("the judge with the rule for the excess", *judge_gives("excess or rule")),
    ("the judge with the clock of the refused record", *judge_gives("excess + state.clock * (number > 8)")),
    ("the judge's count and excess crossed", VERDICT, "return number, rule, excess, accepted, state"),
    *((f"the judge without the excess of {number}", *judge_gives(f"excess * (number != {number})"))
      for number in (9, 11, 12)),
    ("the running judge without an excess", *advance_gives("0")),
    ("the running judge's excess of 32 bits", *advance_gives("excess % 2**32")),
    ("the running judge's excess at most 32 bits", *advance_gives("min(excess, 2**32 - 1)")),
    ("the running judge's excess of 16 bits", *advance_gives("excess % 2**16")),
    ("the running judge with the rule for the excess", *advance_gives("excess or answer[1]")),
    *((f"the running judge without the excess of {number}", *advance_gives(f"excess * (answer[0] != {number})"))
      for number in range(9, 14)),
    ("a run keeps the excess of the record before", RAN, f"{RAN.replace('excess', 'found')}\n        "
     "excess = excess if number else found"),
]

# The block call: its records, its number and rule, its count and its state.

WHOLE, BLOCK = "records[:len(records) // RECORD.size * RECORD.size]", "    return run(step, state, table, whole)\n"
NUMBER, RULE = "unreadable(*record(whole[:RECORD.size]))", "broken_rule(table)"
LISTED_NUMBERS = {"phase": 24, "stage": 6, "box": 2}


def block_first(condition, answer):
    """A block that is answered so before a record is judged."""
    return f"    if {condition}:\n        return {answer}, 0, 0, state\n{BLOCK}"


def block_by(engine):
    """A block whose records are answered by this one by one."""
    return BLOCK.replace("step", f"lambda table, state, code, amount, middle: {engine}")


def block_gives(answer, begin="state"):
    """A block that begins on this and gives this answer."""
    return f"    number, rule, accepted, excess, reached = run(step, {begin}, table, whole)\n    return {answer}\n"


def off_listing():
    """States that are not listed: 7 before 5 and 6, an empty block refused, the first record on them accepted."""
    for field, count in LISTED_NUMBERS.items():
        not_listed = f"state.{field} >= {count} and not {RULE}"
        yield (f"7 before 5 and 6 in a block for a {field} that is not listed", BLOCK,
               block_first(f"whole and {not_listed}", "7, 0"))
        yield (f"7 for an empty block and a {field} that is not listed", BLOCK,
               block_first(f"not whole and {not_listed}", "7, 0"))
        yield (f"a block's first record on a {field} that is not listed", BLOCK,
               block_gives("number, rule, accepted, excess, reached if accepted else state",
                           f"state._replace({field}=min(state.{field}, {count - 1}))"))


BLOCKS = [
    ("bytes left over in a block are a record", WHOLE, "records + bytes(-len(records) % RECORD.size)"),
    ("three bytes left over in a block are a record", WHOLE,
     f"records + bytes(1) if len(records) % RECORD.size == 3 else {WHOLE}"),
    ("bytes left over stand before a block's records", WHOLE, "records[len(records) % RECORD.size:]"),
    ("a block with bytes left over has no record", WHOLE, 'b"" if len(records) % RECORD.size else records'),
    ("bytes left over refuse a block with 3", BLOCK, block_first("whole != records", "WRONG_LENGTH, 0")),
    ("the last record of a block is left out", BLOCK, BLOCK.replace("whole", "whole[:-RECORD.size]")),
    ("the first record of a block is left out", BLOCK, BLOCK.replace("whole", "whole[RECORD.size:]")),
    ("only the first record of a block is judged", BLOCK, BLOCK.replace("whole", "whole[:RECORD.size]")),
    ("a block has at most 32 records", BLOCK, BLOCK.replace("whole", "whole[:32 * RECORD.size]")),
    ("a block has at most a file's records", BLOCK, BLOCK.replace("whole", "whole[:MOST_RECORDS * RECORD.size]")),
    ("a block begins at the start state", BLOCK, BLOCK.replace("state", "START")),
    ("a block under the old default", BLOCK, BLOCK.replace("table", "OLD_DEFAULT")),
    ("a block under any table", BLOCK,
     block_by(f"step(OLD_DEFAULT if {RULE} else table, state, code, amount, middle)")),
    ("a block leaves the middle byte out", BLOCK, block_by("step(table, state, code, amount)")),
    ("a block knows no reset", BLOCK,
     block_by("(5, 0, 0, state) if code == 13 else step(table, state, code, amount, middle)")),
    ("4 for an empty block", BLOCK, block_first(RULE, f"NOT_ADMITTED, {RULE}")),
    ("4 for a block of bytes left over alone", BLOCK, block_first(f"records and {RULE}", f"NOT_ADMITTED, {RULE}")),
    ("no 4 for a block of one record", BLOCK, block_first(f"len(whole) == RECORD.size and {RULE}", "0, 0")),
    ("4 after 5 and 6 for a block", BLOCK, block_first(f"whole and {NUMBER}", f"{NUMBER}, 0")),
    ("4 after 7 for a block", BLOCK, block_first(f"whole and state.box > 1 and not {NUMBER}", "7, 0")),
    ("4 without its rule for a block", BLOCK, block_gives("number, 0, accepted, excess, reached")),
    ("the rule is given for an empty block", BLOCK, block_first("not whole", f"0, {RULE}")),
    *off_listing(),
    ("the refused record of a block counts as accepted", BLOCK,
     block_gives("number, rule, accepted + (number > 0), excess, reached")),
    ("every record of a block counts as accepted", BLOCK,
     block_gives("number, rule, len(whole) // RECORD.size, excess, reached")),
    ("no record of a refused block counts as accepted", BLOCK,
     block_gives("number, rule, 0 if number else accepted, excess, reached")),
    ("a block's count of 8 bits", BLOCK, block_gives("number, rule, accepted % 2**8, excess, reached")),
    ("a refused block leaves the state as it was", BLOCK,
     block_gives("number, rule, accepted, excess, state if number else reached")),
    ("a refused block leaves the start state", BLOCK,
     block_gives("number, rule, accepted, excess, START if number else reached")),
    ("a block leaves the state after its first record", BLOCK,
     block_gives("number, rule, accepted, excess, run(step, state, table, whole[:RECORD.size])[-1]")),
    ("a refused block leaves the state after the refused record", BLOCK,
     "    from rules import after\n" + block_gives(
         "number, rule, accepted, excess, after(reached, *record(whole[RECORD.size * accepted:][:RECORD.size])[:2]) "
         "if number > 6 else reached")),
]

# The excess of a block.

BLOCK_EXCESSES = [
    (f"a block {what}", BLOCK, block_gives(f"number, rule, accepted, {excess}, reached")) for what, excess in (
        ("without an excess", "0"),
        ("with the excess of its first record alone", "excess * (accepted == 0)"),
        ("with the excess of a later record alone", "excess * (accepted > 0)"),
        ("with an excess of 32 bits", "excess % 2**32"),
        ("with an excess of at most 32 bits", "min(excess, 2**32 - 1)"),
        ("with an excess of 16 bits", "excess % 2**16"),
        ("with the excess from the clock that it began with", "excess and excess + state.clock - reached.clock"),
        ("with the rule for the excess", "excess or rule"),
        ("with the count for the excess", "excess or accepted * (number > 0)"),
        *((f"without the excess of {number}", f"excess * (number != {number})") for number in range(9, 14)),
    )
] + [("a block's count and excess crossed", BLOCK, block_gives("number, rule, excess, accepted, reached"))]

# The line, and a text laid into a buffer.

UNREAD, FEED = "number <= NOT_ADMITTED", "{excess}\\n"
READ, JUDGE_FILE = "number, rule, table, records = read(file)", "accepted, excess, state = judge(file)"
LAID, NO_ROOM = "return 0, len(text), text + buffer[len(text):]", "return NO_ROOM, 0, buffer"
DOES_NOT_FIT, LAID_LINE = "if len(text) > len(buffer):", "return laid(line(file), buffer)"

SEVENTH, FIELDS = " {excess}", "{word} {accepted} {number} {state.clock} {state.phase} {state.box} {excess}"


def off_sevenths():
    """The excess in each other place of the line, and in other forms."""
    for name, field in (("count", " {accepted}"), ("reason", " {number}"), ("clock", " {state.clock}"),
                        ("phase", " {state.phase}"), ("box", " {state.box}")):
        before, behind = FIELDS.split(field)
        yield f"the excess before the {name}", FIELDS, before + SEVENTH + field + behind[:-len(SEVENTH)]
    for how, wrong in (
        ("missing", ""), ("missing where it is 0", "{f' {excess}' if excess else ''}"),
        ("missing where accepted", "{f' {excess}' if number else ''}"),
        ("missing where unread", "{'' if 0 < number <= NOT_ADMITTED else f' {excess}'}"),
        ("missing where refused with 5 to 8", "{'' if 4 < number < 9 else f' {excess}'}"),
        ("in hexadecimal", " {excess:x}"), ("in two digits", " {excess:02}"), ("with a sign", " {excess:+}"),
        ("with commas", " {excess:,}"), ("in seconds", " {excess / 1000}"), ("in whole seconds", " {excess // 1000}"),
        ("of 8 bits", " {excess % 2**8}"), ("in four digits", " {excess % 10**4}"), ("with its unit", " {excess} ms"),
        ("behind two spaces", "  {excess}"), ("twice", " {excess} {excess}"), ("always 0", " 0"),
        ("1 where accepted", " {excess or int(number == 0)}"), ("1 where unread", " {excess or int(0 < number < 5)}"),
        ("1 with 5 to 8", " {excess or int(4 < number < 9)}"), ("one more", " {excess + (excess > 0)}"),
        ("the reason", " {number}"), ("the stage", " {state.stage}"), ("the failed phase", " {state.failed_phase}"),
    ):
        yield f"the line's excess {how}", SEVENTH, wrong


LINE = [
    *off_sevenths(),
    ("the line with the rule for the excess", f"number, _, {JUDGE_FILE}",
     f"number, rule, {JUDGE_FILE}\n    excess = excess or rule"),
    ("refused for 4", UNREAD, "number < NOT_ADMITTED"),
    ("unread for 5", UNREAD, "number <= 5"),
    ("refused for 1", UNREAD, "1 < number <= NOT_ADMITTED"),
    ("refused and unread crossed", UNREAD, "number > NOT_ADMITTED"),
    ("accepted with a capital", '"accepted"', '"Accepted"'),
    ("reason before records accepted", "{accepted} {number} {", "{number} {accepted} {"),
    ("clock before reason", "{number} {state.clock}", "{state.clock} {number}"),
    ("phase before clock", "{state.clock} {state.phase}", "{state.phase} {state.clock}"),
    ("box before phase", "{state.phase} {state.box}", "{state.box} {state.phase}"),
    ("failed phase for phase", "{state.phase}", "{state.failed_phase}"),
    ("records accepted in hexadecimal", "{accepted}", "{accepted:x}"),
    ("reason in hexadecimal", "{number}", "{number:x}"),
    ("clock in hexadecimal", "{state.clock}", "{state.clock:x}"),
    ("phase in hexadecimal", "{state.phase}", "{state.phase:x}"),
    ("reason in two digits", "{number}", "{number:02}"),
    ("records accepted of 8 bits", "{accepted}", "{accepted % 2**8}"),
    ("clock of 16 bits", "{state.clock}", "{state.clock % 2**16}"),
    ("no line feed", FEED, "{excess}"),
    ("two line feeds", FEED, f"{FEED}\\n"),
    ("a space before the line feed", FEED, "{excess} \\n"),
    ("two spaces after the word", "{word} ", "{word}  "),
    ("an exact fit is refused", DOES_NOT_FIT, "if len(text) >= len(buffer):"),
    ("one byte short is laid", DOES_NOT_FIT, "if len(text) > len(buffer) + 1:"),
    ("an exact fit is refused to lines", LAID_LINE,
     "number, length, after = laid(line(file), buffer)\n"
     "    return (NO_ROOM, 0, buffer) if length == len(buffer) else (number, length, after)"),
    ("14 for 15 to lines and writers", NO_ROOM, "return BEYOND_HELD, 0, buffer"),
    ("15 with a length", NO_ROOM, "return NO_ROOM, len(text), buffer"),
    ("15 with the beginning laid", NO_ROOM, "return NO_ROOM, 0, text[:len(buffer)]"),
    ("bytes behind the text are made 0", LAID, "return 0, len(text), text + bytes(len(buffer) - len(text))"),
    ("a text laid at the buffer's end", LAID, "return 0, len(text), buffer[len(text):] + text"),
    ("the length one more", LAID, "return 0, len(text) + 1, text + buffer[len(text):]"),
    ("an input is cut at 65,536 bytes", READ, "number, rule, table, records = read(file[:65_536])"),
    ("an input is cut at 65,535 bytes", READ, "number, rule, table, records = read(file[:65_535])"),
    ("an input is cut at 65,536 bytes for the line", JUDGE_FILE, JUDGE_FILE.replace("file", "file[:65_536]")),
    ("an input is cut at 65,535 bytes for the line", JUDGE_FILE, JUDGE_FILE.replace("file", "file[:65_535]")),
]

# The writer: its bounds, what it writes, and the order 3, 2, 4, first record with 5 or 6, 15.

UNEQUAL, BROKEN = "if len(codes) != len(amounts)", "    if rule:\n"
MANY = "if len(codes) > most_records(k_written(table))"
FAULTY, BROKEN_TABLE = "any(map(unreadable, codes, amounts))", "broken_rule(table)"
FULL = "(NO_ROOM, 0, 0, 0, buffer) if len(file_of(table, bytes(RECORD.size * len(codes)))) > len(buffer) else"
ANSWER_3, ANSWER_2 = "WRONG_LENGTH, 0, 0, 0, buffer", "WRONG_HEADER, 0, 0, 0, buffer"
ANSWER_4, ANSWER_5_6 = "NOT_ADMITTED, rule, 0, 0, buffer", "number, 0, index, 0, buffer"
TABLE_RULE = "    rule = broken_rule(table)\n    if rule:\n"
K_WRITTEN = "return WITH_DELAYS if has_delays(table) else WITHOUT_DELAYS"

WRITER = [
    ("fewer amounts than codes", UNEQUAL, "if len(codes) < len(amounts)"),
    ("fewer codes than amounts", UNEQUAL, "if len(codes) > len(amounts)"),
    ("16,372 records are too many to write", MANY, MANY.replace(">", ">=")),
    ("16,373 records are not too many to write", MANY, f"{MANY} + 1"),
    ("2 before 3 of the writer", UNEQUAL, f"{UNEQUAL} and len(codes) <= most_records(k_written(table))"),
    ("4 before 3 of the writer", UNEQUAL, f"{UNEQUAL} and not {BROKEN_TABLE}"),
    ("4 before 2 of the writer", MANY, f"{MANY} and not {BROKEN_TABLE}"),
    ("5 and 6 before 3", UNEQUAL, f"{UNEQUAL} and not {FAULTY}"),
    ("5 and 6 before 2", MANY, f"{MANY} and not {FAULTY}"),
    ("5 and 6 before 4 of the writer", BROKEN, f"    if rule and not {FAULTY}:\n"),
    ("15 before 3", ANSWER_3, f"{FULL} ({ANSWER_3})"),
    ("15 before 2", ANSWER_2, f"{FULL} ({ANSWER_2})"),
    ("15 before 4", ANSWER_4, f"{FULL} ({ANSWER_4})"),
    ("15 before 5 and 6", ANSWER_5_6, f"{FULL} ({ANSWER_5_6})"),
    ("4 without its rule of the writer", ANSWER_4, "NOT_ADMITTED, 0, 0, 0, buffer"),
    ("the writer admits any table", TABLE_RULE, TABLE_RULE.replace("broken_rule(table)", "0")),
    ("the writer admits no table", TABLE_RULE,
     TABLE_RULE.replace("broken_rule(table)", "int(table is not NEW_DEFAULT)")),
    ("the index one more", ANSWER_5_6, "number, 0, index + 1, 0, buffer"),
    ("the index is always 0", ANSWER_5_6, "number, 0, 0, 0, buffer"),
    ("the last record with 5 or 6", "in enumerate(zip(codes, amounts)):",
     "in reversed(list(enumerate(zip(codes, amounts)))):"),
    ("the writer knows no reset", "number = unreadable(code, amount)",
     "number = 5 if code == 13 else unreadable(code, amount)"),
    ("the writer writes resets with any amount", "number = unreadable(code, amount)",
     "number = 0 if code == 13 and amount < 2**16 else unreadable(code, amount)"),
    ("the writer writes code 14", "number = unreadable(code, amount)",
     "number = 0 if (code, amount) == (14, 0) else unreadable(code, amount)"),
    ("amounts are cut to 16 bits", TABLE_RULE, f"    amounts = [amount % 2**16 for amount in amounts]\n{TABLE_RULE}"),
    ("a middle byte of 1 is written", "RECORD.pack(code, 0, amount)", "RECORD.pack(code, 1, amount)"),
    ("no table is written", K_WRITTEN, "return 0"),
    ("k is written in bytes", "HEADER.pack(HEADER.size, k,", "HEADER.pack(HEADER.size, 2 * k,"),
    ("n is written in bytes", "len(records) // RECORD.size) +", "len(records)) +"),
    ("n is written one more", "len(records) // RECORD.size) +", "len(records) // RECORD.size + 1) +"),
    ("records are written before the table", "+ entries + records", "+ records + entries"),
    ("the length without the header", "return number, 0, 0, length, buffer",
     "return number, 0, 0, max(0, length - HEADER.size), buffer"),
]

# Joining, in the order 15 for held, 14, 15, 16. Of 14 and 16 only one can hold.

HELD, GAP, ROOM = "if held > len(buffer):", "if offset > held:", "if end > len(buffer):"
OVERLAP, DIFFERS = "if buffer[offset:offset + len(overlap)] != overlap:", "return OVERLAP_DIFFERS, held, buffer"
JOINED, REST = "return 0, held + len(rest),", "rest + buffer[held + len(rest):]"

JOIN = [
    ("held at the buffer's end is refused", HELD, "if held >= len(buffer):"),
    ("held one past the buffer's end", HELD, "if held > len(buffer) + 1:"),
    ("any held", HELD, "if False:"),
    ("a part that begins at held is refused", GAP, "if offset >= held:"),
    ("a part that begins one past held", GAP, "if offset > held + 1:"),
    ("a part that ends with the buffer is refused", ROOM, "if end >= len(buffer):"),
    ("a part that ends one past the buffer", ROOM, "if end > len(buffer) + 1:"),
    ("14 before 15 for held", HELD, "if held > len(buffer) and offset <= held:"),
    ("16 before 15 for held", HELD, "if held > len(buffer) and buffer[offset:end] == part[:len(buffer[offset:end])]:"),
    ("15 before 14", GAP, "if offset > held and end <= len(buffer):"),
    ("16 before 15", ROOM, "if end > len(buffer) and buffer[offset:held] == part[:held - offset]:"),
    ("14 for 15 of the part", f"{ROOM}\n        return NO_ROOM", f"{ROOM}\n        return BEYOND_HELD"),
    ("15 for 14", "return BEYOND_HELD, held", "return NO_ROOM, held"),
    ("the overlap is not compared", OVERLAP, "if False:"),
    ("the overlap's first byte is not compared", OVERLAP, "if buffer[offset:held][1:len(overlap)] != overlap[1:]:"),
    ("the overlap's last byte is not compared", OVERLAP,
     "if buffer[offset:offset + len(overlap)][:-1] != overlap[:-1]:"),
    ("the part is compared beyond held", OVERLAP, "if buffer[offset:end] != part:"),
    ("a part appended as if its offset were held", "part[:held - offset], part[held - offset:]", 'b"", part'),
    ("held falls back to the part's end", JOINED, "return 0, end,"),
    ("held grows by the part's length", JOINED, "return 0, held + len(part),"),
    ("held stays", JOINED, "return 0, held,"),
    ("bytes beyond the new count are made 0", REST, "rest + bytes(len(buffer) - held - len(rest))"),
    ("the rest is not appended", REST, "buffer[held:]"),
    ("14 moves held", "return BEYOND_HELD, held", "return BEYOND_HELD, offset"),
    ("15 moves held", f"{ROOM}\n        return NO_ROOM, held", f"{ROOM}\n        return NO_ROOM, len(buffer)"),
    ("16 moves held", DIFFERS, "return OVERLAP_DIFFERS, offset, buffer"),
    ("16 changes the buffer", DIFFERS, "return OVERLAP_DIFFERS, held, buffer[:offset] + part + buffer[end:]"),
]

WRONG_FILES = [*READER, *JUDGE, *EXCESSES, *BLOCKS, *BLOCK_EXCESSES, *LINE, *WRITER, *JOIN]
