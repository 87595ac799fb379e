"""Wrong versions of reading a text, in texts.py: what is wrong, a text of it, and the text in its place."""

from rules import Table

NAMES = Table._fields

# The words of a line: blanks and comments.

SAID, BLANKS = "line.split(COMMENT)[0]", "(TAB, CARRIAGE_RETURN)"
FOUND = "[word for word in said.split(SPACE) if word]"
AS_BLANK = {"a vertical tab": r"\x0b", "a form feed": r"\x0c", "a NUL": r"\0", "a byte of 160": r"\xa0",
            "an equals sign": "=", "a colon": ":", "a comma": ",", "a semicolon": ";"}


def cleaned(word):
    """The text by which each word is read as this."""
    return FOUND, FOUND.replace("[word for", f"[{word} for")


WORDS = [
    ("a comment does not end a word", SAID, r'__import__("re").split(rb"(?:^|(?<=[ \t\r]))#", line)[0]'),
    ("there are no comments", SAID, "line"),
    ("a comment stands at a line's start alone", SAID, 'b"" if line.startswith(COMMENT) else line'),
    ("a comment begins at the last of its marks", SAID, "line.rsplit(COMMENT, 1)[0]"),
    ("a comment ends at its second mark", SAID, 'b"".join(line.split(COMMENT)[::2])'),
    ("a mark behind a number is part of no comment", SAID, 'line.replace(COMMENT, SPACE)'),
    ("a semicolon begins a comment too", SAID, f'{SAID}.split(b";")[0]'),
    ("two slashes begin a comment too", SAID, f'{SAID}.split(b"//")[0]'),
    ("a point ends what a line says", SAID, f'{SAID}.split(b".")[0]'),
    ("a NUL ends what a line says", SAID, rf'{SAID}.split(b"\0")[0]'),
    ("the first 255 bytes of a line alone", SAID, f"{SAID}[:255]"),
    ("a tab is no blank", BLANKS, "(CARRIAGE_RETURN,)"),
    ("a carriage return is no blank", BLANKS, "(TAB,)"),
    ("a carriage return is a blank at a line's end alone", SAID,
     rf'{SAID}.rstrip(b"\r").replace(b"\r", b"?")'),
    ("a carriage return is nothing", SAID, rf'{SAID}.replace(b"\r", b"")'),
    ("a tab is nothing", SAID, rf'{SAID}.replace(b"\t", b"")'),
    *((f"{blank} is a blank too", BLANKS, f'(TAB, CARRIAGE_RETURN, b"{byte}")') for blank, byte in AS_BLANK.items()),
    ("two blanks have a word between them", FOUND, 'said.split(SPACE) if said.strip(b" ") else []'),
    ("a line that begins with a blank says nothing", FOUND, f"[] if said.startswith(SPACE) else {FOUND}"),
    ("a line that ends with a blank says nothing", FOUND, f"[] if said.endswith(SPACE) else {FOUND}"),
    ("a name alone means 0", FOUND, f'({FOUND} + [b"0"])[:max(2, len({FOUND}))] if {FOUND} else []'),
    ("a word ends at a NUL", *cleaned(r'word.split(b"\0")[0]')),
    ("bytes above 127 are left out of words", *cleaned("bytes(byte for byte in word if byte < 128)")),
    ("control bytes are left out of words", *cleaned("bytes(byte for byte in word if byte > 31)")),
    ("a unit behind a number", *cleaned(r'__import__("re").sub(rb"^([0-9]+)[A-Za-z]+$", rb"\1", word)')),
    ("a number in quotes", *cleaned("""word.strip(b'"')""")),
    ("a number with a sign of thousands", *cleaned("""word.translate(None, b",'")""")),
    ("a number from 0x on", *cleaned('b"%d" % int(word, 16) if word[:2] == b"0x" and word[2:].isalnum() else word')),
    ("a plus sign is left out", *cleaned('word.lstrip(b"+")')),
    ("a minus sign is left out", *cleaned('word.lstrip(b"-")')),
    ("an equals sign is left out", *cleaned('word.lstrip(b"=")')),
    ("a point behind a number is left out", *cleaned('word.rstrip(b".")')),
]

# Names. A line's name is found by another key, or is another entry's.

NAMED = "    if name not in NAMES:\n        return NO_NAME, 0\n    entry = NAMES.index(name)\n"
LIST, INDEX = "[name.encode() for name in Table._fields]", "NAMES.index(name)\n"
JUDGED = "        fault, entry = wrong_line(given, *words)\n"


def named_by(key, name=None):
    """The text by which a name is found by a key of it, and the word by the same or another one."""
    return NAMED, (f"    keys = [{key.replace('name', 'each')} for each in NAMES]\n    name = {name or key}\n"
                   "    if name not in keys:\n        return NO_NAME, 0\n    entry = keys.index(name)\n")


def named_where(holds):
    """The text by which a word is the first name of which this holds."""
    return NAMED, (f"    found = [each for each in NAMES if {holds}]\n    if not found:\n        return NO_NAME, 0\n"
                   "    entry = NAMES.index(found[0])\n")


def crossed(entry):
    """An entry and its neighbour, as the text of a dict."""
    return f"{{{entry}: {entry + 1}, {entry + 1}: {entry}}}"


def off_names():
    """Each name misspelled, and crossed with its neighbour where it is read."""
    for entry, name in enumerate(NAMES):
        other = name.replace("_", "", 1) if "_" in name else "Change_DL"
        yield f"{other} for {name}", LIST, f"{LIST[:-1]}]\nNAMES[{entry}] = b\"{other}\""
    for entry, name in enumerate(NAMES[:-1]):
        yield (f"{name} and {NAMES[entry + 1]} crossed where they are read", INDEX,
               f"{crossed(entry)}.get(NAMES.index(name), NAMES.index(name))\n")


FINDING = [
    *off_names(),
    ("the case of names does not matter", *named_by("name.lower()")),
    ("the case of a name's first letter does not matter", *named_by("name[:1].lower() + name[1:]")),
    ("names may be all capitals", *named_by("name", "name if name in keys else next("
                                             "(each for each in keys if each.upper() == name), name)")),
    ("a dash in a name is as good", *named_by('name.replace(b"-", b"_")')),
    ("names need no underscores", *named_by('name.replace(b"_", b"")')),
    ("a name without its last byte will do", *named_by("name", "name if name in keys else next("
                                                       "(each for each in keys if each[:-1] == name), name)")),
    ("the beginning of a name will do", *named_where("each.startswith(name)")),
    ("the end of a name will do", *named_where("each == name or each.endswith(name) and name not in NAMES")),
    ("a name with more behind it will do", *named_where("name.startswith(each)")),
    ("a name with more before it will do", *named_where("name.endswith(each) and (each == name or name not in NAMES)")),
    ("all bytes of a name but the first are compared", *named_where("name == each or name[1:] == each[1:] and "
                                                                    "name not in NAMES")),
    ("all bytes of a name but the last are compared", *named_where("name == each or name[:-1] == each[:-1] and "
                                                                   "len(name) == len(each) and name not in NAMES")),
    ("the first missing name for one that is none", "return NO_NAME, 0", "return NO_NAME, first_missing(given) or 0"),
    ("entry 22 for no name", "return NO_NAME, 0", "return NO_NAME, 22"),
    ("a line without a name is left out", JUDGED, f"{JUDGED}        if fault == NO_NAME:\n            continue\n"),
]

# The faults of a line and their order.

TWICE = "    if entry in given:\n        return GIVEN_TWICE, entry\n"
NUMBER = "    if len(behind) != 1 or not behind[0].isdigit():\n        return NO_NUMBER, entry\n"
LARGE = "    if value_of(behind[0]) > LARGEST_ENTRY:\n        return TOO_LARGE, entry\n"
IS_TWICE, IS_LARGE = "entry in given:", "> LARGEST_ENTRY:"
ALONE, IS_NUMBER, VALUE = "len(behind) != 1", "behind[0].isdigit()", 'int(digits.lstrip(b"0")[:6] or b"0")'
FAULTS = "= range(1, 6)"
LARGE_WORD = "behind and behind[0].isdigit() and value_of(behind[0]) > LARGEST_ENTRY"

LINE = [
    ("3 before 2 in a text", TWICE + NUMBER, NUMBER + TWICE),
    ("4 before 2 in a text", TWICE, TWICE.replace("given:", f"given and not ({ALONE[:-4]}== 1 and {LARGE_WORD}):")),
    ("4 before 3 in a text", NUMBER, f"    if {LARGE_WORD}:\n        return TOO_LARGE, entry\n{NUMBER}"),
    ("3 before 1 in a text", NAMED, f"    if {ALONE} and name not in NAMES:\n        return NO_NUMBER, 0\n{NAMED}"),
    ("4 is given as 3", "return TOO_LARGE, entry", "return NO_NUMBER, entry"),
    *((f"{one} and {other} crossed in texts", FAULTS,
       f"= {', '.join(str({one: other, other: one}.get(fault, fault)) for fault in range(1, 6))}")
      for one, other in ((1, 2), (2, 3), (3, 4), (4, 5), (1, 5))),
    *((f"entry 0 with fault {fault}", f"return {name}, entry", f"return {name}, 0")
      for fault, name in ((2, "GIVEN_TWICE"), (3, "NO_NUMBER"), (4, "TOO_LARGE"))),
    *((f"the entry one more with fault {fault}", f"return {name}, entry", f"return {name}, entry + 1")
      for fault, name in ((2, "GIVEN_TWICE"), (3, "NO_NUMBER"), (4, "TOO_LARGE"))),
    ("the later of two is taken", TWICE, ""),
    ("a name given before is left out", JUDGED, f"{JUDGED}        if fault == GIVEN_TWICE:\n            continue\n"),
    ("a name twice in a row alone is told", IS_TWICE, "entry in list(given)[-1:]:"),
    ("a name may come twice with the same number", IS_TWICE,
     f"entry in given and ({ALONE} or not {IS_NUMBER} or value_of(behind[0]) != given[entry]):"),
    ("a limit may come twice", IS_TWICE, "entry in given and entry >= LIMITS:"),
    ("a delay may come twice", IS_TWICE, "entry in given and entry < LIMITS:"),
    ("a name may come again behind 0", IS_TWICE, "given.get(entry):"),
    ("a third word is left out", ALONE, "not behind"),
    ("leading zeros are refused", IS_NUMBER, f'{IS_NUMBER} or behind[0][:1] == b"0" < behind[0]'),
    ("0 is refused as a number", IS_NUMBER, f'{IS_NUMBER} or not behind[0].strip(b"0")'),
    *((f"more than {most} digits are refused", IS_NUMBER, f"{IS_NUMBER} or len(behind[0]) > {most}")
      for most in (5, 8, 20)),
    ("65,535 is too large for a text", IS_LARGE, ">= LARGEST_ENTRY:"),
    ("65,536 is not too large for a text", IS_LARGE, "> LARGEST_ENTRY + 1:"),
    ("32,768 is too large for a text", IS_LARGE, "> 32_767:"),
    ("five digits are never too large", IS_LARGE, "> 99_999:"),
    ("no number is too large", LARGE, ""),
    ("0 is too small for a text", IS_LARGE, "> LARGEST_ENTRY or not value_of(behind[0]):"),
    ("delays may be larger", IS_LARGE, "> LARGEST_ENTRY * (1 + (entry >= LIMITS)):"),
    ("the first five digits of a number", VALUE, VALUE.replace("6", "5")),
    ("the first six digits with the zeros", VALUE, 'int(digits[:6])'),
    ("the last five digits of a number", VALUE, "int(digits[-5:])"),
    *((f"a number of {bits} bits", VALUE, f"int(digits[-4_000:]) % 2**{bits}") for bits in (8, 15, 16, 17, 32, 64)),
    ("leading zeros for eights", VALUE, f'int(digits, 8) if digits[:1] == b"0" and len(digits) < 30 else {VALUE}'),
    ("at most the largest entry", VALUE, f"min({VALUE}, LARGEST_ENTRY)"),
]

# The lines of a text and their numbers, and the entries that are missing.

LINES, COUNTED = "text.split(LINE_FEED)", "enumerate(lines, 1)"
TOLD, MISSED = "return fault, number, entry", "return MISSING, len(lines), missing"
WANTED = "range(len(NAMES) if with_delays else LIMITS)"
WITH_DELAYS = "any(entry >= LIMITS for entry in given)"
NEXT = "next((entry for entry in wanted if entry not in given), None)"
TABLE = "Table(*(given.get(entry, 0) for entry in range(len(NAMES))))"
TAIL = f"    if missing is not None:\n        {MISSED}\n    return 0, 0, 0, {TABLE}"

READER = [
    ("lines are counted from 0", COUNTED, "enumerate(lines)"),
    ("lines are counted from 2", COUNTED, "enumerate(lines, 2)"),
    ("lines without a word are not counted", LINES, f"[line for line in {LINES} if words_of(line)]"),
    ("empty lines are not counted", LINES, f"[line for line in {LINES} if line] or [text]"),
    ("a comment's line is not counted", LINES, f"[line for line in {LINES} if line[:1] != COMMENT] or [text]"),
    ("what stands behind the last line feed is left out", LINES, f"{LINES}[:-1]"),
    ("a last line without a line feed is left out", LINES, f"(text[:text.rfind(LINE_FEED) + 1]).split(LINE_FEED)"),
    ("no empty line behind the last line feed", LINES, "text.removesuffix(LINE_FEED).split(LINE_FEED)"),
    ("the first line is left out", LINES, f"[b''] + {LINES}[1:]"),
    ("a carriage return ends a line", LINES, "text.replace(CARRIAGE_RETURN, LINE_FEED).split(LINE_FEED)"),
    ("a carriage return and a line feed end a line", LINES, "text.split(CARRIAGE_RETURN + LINE_FEED)"),
    ("a line feed is a blank", LINES, "text.replace(LINE_FEED, SPACE).split(LINE_FEED)"),
    ("every sign that Python knows ends a line", LINES, r"(text + b'\n').replace(b'\x0b', b'\n').splitlines()"),
    ("a comment goes on to the text's end", LINES, "text.split(COMMENT)[0].split(LINE_FEED)"),
    ("a NUL ends the text", LINES, r"text.split(b'\0')[0].split(LINE_FEED)"),
    ("a byte order mark is left out", LINES, r"text.removeprefix(b'\xef\xbb\xbf').split(LINE_FEED)"),
    ("65,536 bytes of a text alone", LINES, "text[:65_536].split(LINE_FEED)"),
    ("the last wrong line decides", COUNTED, f"reversed(list({COUNTED}))"),
    ("22 lines with a word are enough", "        if not words:", "        if not words or len(given) == len(NAMES):"),
    ("18 lines with a word are enough", "        if not words:", "        if not words or len(given) == LIMITS:"),
    *((f"a line's number of {bits} bits", TOLD, TOLD.replace("number", f"number % 2**{bits}")) for bits in (8, 16)),
    ("the line before the wrong one", TOLD, TOLD.replace("number", "number - 1")),
    ("the number of names given for the line", TOLD, TOLD.replace("number", "len(given) + 1")),
    *((f"a missing entry with {how} for its line", MISSED, MISSED.replace("len(lines)", line)) for how, line in (
        ("0", "0"), ("1", "1"), ("the line before the last", "len(lines) - 1"), ("one line more", "len(lines) + 1"),
        ("the last line that has a word", "max((at for at, each in enumerate(lines, 1) if words_of(each)), default=1)"),
        ("the last line that is not empty", "max((at for at, each in enumerate(lines, 1) if each), default=1)"),
        ("the number of names", "len(given)"), ("8 bits", "len(lines) % 2**8"), ("16 bits", "len(lines) % 2**16"),
    )),
    ("the entry one more with fault 5", MISSED, f"{MISSED} + 1"),
    ("the number of names for a missing entry", MISSED, "return MISSING, len(lines), len(given)"),
    ("delays partly given are accepted", WANTED, "range(LIMITS)"),
    ("delays must be given", WANTED, "range(len(NAMES))"),
    ("delays given will do", WANTED, "range(LIMITS, len(NAMES)) if with_delays else range(LIMITS)"),
    ("a missing delay comes before a missing limit", WANTED,
     "[*(range(LIMITS, len(NAMES)) if with_delays else ()), *range(LIMITS)]"),
    ("the last that is missing", NEXT, NEXT.replace("in wanted", "in reversed(wanted)")),
    ("nothing is missing", NEXT, "None"),
    ("18 or 22 names are enough", NEXT, f"None if len(given) in (LIMITS, len(NAMES)) else {NEXT}"),
    *((f"{NAMES[entry]} need not be given", NEXT, NEXT.replace("if entry", f"if entry != {entry} and entry"))
      for entry in (0, 7, 16, 17, 18, 21)),
    *((f"the delays are wanted {how}", WITH_DELAYS, wanted) for how, wanted in (
        ("where the first is given", "LIMITS in given"), ("where the last is given", "len(NAMES) - 1 in given"),
        ("where a plain one is given", "18 in given or 20 in given"),
        ("where an error delay is given", "19 in given or 21 in given"),
        ("where two are given", "sum(entry >= LIMITS for entry in given) > 1"),
        ("where one is not 0", "any(given[entry] for entry in given if entry >= LIMITS)"),
        ("unless three are given", "sum(entry >= LIMITS for entry in given) in (1, 2)"),
    )),
    ("a text without names is the old default", TAIL, f"    if not given:\n        return 0, 0, 0, Table()\n{TAIL}"),
    ("an empty text is the old default", TAIL, f"    if not text:\n        return 0, 0, 0, Table()\n{TAIL}"),
    ("what is missing is the old default's", TAIL, f"    return 0, 0, 0, {TABLE}".replace(", 0)", ", Table()[entry])")),
    ("the delays that are read are 0", TABLE, TABLE.replace("range(len(NAMES))", "range(LIMITS)")),
    ("delays that are not given are the house values", TABLE,
     TABLE.replace("entry, 0", "entry, 0 if entry < LIMITS else 60 if entry % 2 else 20")),
    ("a table in the order of its lines", TABLE, "Table(*[*given.values(), 0, 0, 0, 0][:len(NAMES)])"),
]

WRONG_TEXTS = WORDS + FINDING + LINE + READER
