"""What a comparison covers of tables that are read from texts: grids, as a title, columns and rows, and marks."""

import re

from delay_coverage import pattern, patterns
from rules import LIMITS, Table
from tables import LARGEST_ENTRY
from texts import (
    CARRIAGE_RETURN, COMMENT, GIVEN_TWICE, LINE_FEED, MISSING, NAMES, NO_NAME, NO_NUMBER, SPACE, TAB, TOO_LARGE, read,
    value_of, words_of,
)

IN_A_LINE = NO_NAME, GIVEN_TWICE, NO_NUMBER, TOO_LARGE
NO_ENTRY = "no entry"
# The place of a line in a text, or of a byte in a word.
ONLY, FIRST, BETWEEN, LAST = PLACES = "only", "first", "between", "last"
# What stands behind a name, and how many words.
GOOD, BAD, LARGE = BEHIND = "a number", "no number", "too large a number"
NONE, DIGITS, LARGE_WORDS, OTHERS = "nothing", "digits alone", "too large a number", "other bytes"
MORE = "more"
# How a first word can be near to a name, and what else it can be.
CASE, CUT, CUT_BEFORE, LONGER, LONGER_BEFORE, ANOTHER_BYTE = NEAR = (
    "another case", "last byte gone", "first byte gone", "a byte behind", "a byte before", "another byte",
)
A_NUMBER, JOINED, MARKED, ODD = ("a number", "a name and more behind it", "a name behind a byte order mark",
                                 "anything else")
BYTE_ORDER_MARK = b"\xef\xbb\xbf"
ALONE, FOLLOWED = "alone", "words behind"
BLANKS = {SPACE: "space", TAB: "tab", CARRIAGE_RETURN: "carriage return"}
BEFORE_NAME, BEFORE_NUMBER, BEHIND_NUMBER, NO_WORD = BLANK_PLACES = (
    "before a name", "before a number", "behind a number", "without a word",
)
BEHIND_BLANKS, TOUCHING, APART, EMPTY = "behind blanks", "touching a word", "behind a word and blanks", "empty"
LIMITS_ALL, LIMITS_NOT_ALL = "all limits", "not all limits"
FED, FED_BEHIND_RETURN, UNFED = ENDS = "line feed", "carriage return and line feed", "no line feed"
EIGHTEEN, TWENTY_TWO, FOUR_ZEROS = "18 names", "22 names", "22 names, four zeros"
IN_ORDER, OTHER_ORDER = "in order", "in another order"
PLAIN, LEADING = "as it is", "leading zeros"
# The sizes of numbers, each with the largest that has it; and numbers that lose their upper bits to an allowed one.
SIZES = {"0": 0, "less": LARGEST_ENTRY - 1, "65535": LARGEST_ENTRY, "65536": LARGEST_ENTRY + 1, "5 digits": 99_999,
         "6 to 20 digits": 10**20 - 1}
LONGEST = "more digits"
LOST = {f"{bits} bits lost": 2**bits for bits in (16, 32, 64)}

BYTES = {"NUL": b"\0", "control": b"\x01\x0b\x0c\x1f\x7f", "sign": b"+-", "point": b".,", "beside the digits": b"/:"}
LETTER, HIGH, OTHER = "letter", "above 127", "other"


def counts_given():
    """The rows of a grid of how many names are given, with the faults that come of it: 18 may not be the limits."""
    return {"0": {MISSING}, "1 to 16": {MISSING}, "17": {MISSING}, "18": {0, MISSING},
            **{str(count): {MISSING} for count in range(LIMITS + 1, len(NAMES))}, str(len(NAMES)): {0}}


TEXT_GRIDS = {
    "text faults": (
        "faults of texts, by entry",
        range(1, 6),
        {NO_ENTRY: {NO_NAME}, **{name: {GIVEN_TWICE, NO_NUMBER, TOO_LARGE, MISSING} for name in Table._fields}},
    ),
    "wrong lines": (
        "faults of texts, by the place of the line",
        PLACES,
        {**{fault: {*PLACES} for fault in IN_A_LINE}, GIVEN_TWICE: {BETWEEN, LAST}, MISSING: {ONLY, LAST}},
    ),
    "next faults": (
        "faults of lines, by what is wrong with the text without that line",
        range(6),
        {fault: set(range(6)) for fault in IN_A_LINE},
    ),
    "later in the line": (
        "lines with no name or a name given before, by what stands behind it",
        BEHIND,
        {fault: {*BEHIND} for fault in (NO_NAME, GIVEN_TWICE)},
    ),
    "words behind": (
        "names that have not one number behind them: the number of words",
        (0, 1, 2, MORE),
        {NONE: {0}, DIGITS: {2, MORE}, LARGE_WORDS: {2, MORE}, OTHERS: {1, 2, MORE}},
    ),
    "wrong bytes": (
        "single bytes that are no digits, by their place in the word",
        PLACES,
        {kind: {*PLACES} for kind in (*BYTES, LETTER, HIGH, OTHER)},
    ),
    "near names": ("first words that are near to a name", NEAR, {name: {*NEAR} for name in Table._fields}),
    "far names": (
        "other first words that are no name",
        (ALONE, FOLLOWED),
        {kind: {ALONE, FOLLOWED} for kind in (A_NUMBER, JOINED, MARKED, ODD)},
    ),
    "names given": ("texts with no wrong line, by the names given", (0, MISSING), counts_given()),
    "delays given": (
        "texts with no wrong line, by the delays given",
        (LIMITS_ALL, LIMITS_NOT_ALL),
        {row: {LIMITS_ALL, LIMITS_NOT_ALL} for row, _ in patterns()},
    ),
    "names in order": (
        "texts that are read, by the order of their lines",
        (IN_ORDER, OTHER_ORDER),
        {row: {IN_ORDER, OTHER_ORDER} for row in (EIGHTEEN, TWENTY_TWO, FOUR_ZEROS)},
    ),
    "blanks": (
        "blanks in texts that are read",
        BLANK_PLACES,
        {blank: {*BLANK_PLACES} for blank in BLANKS.values()},
    ),
    "comments": (
        "comments in texts that are read, and in lines with a fault",
        (ALONE, BEHIND_BLANKS, TOUCHING, APART, EMPTY),
        {0: {ALONE, BEHIND_BLANKS, TOUCHING, APART, EMPTY}, **{fault: {TOUCHING, APART} for fault in IN_A_LINE}},
    ),
    "read numbers": (
        "numbers that are read or too large",
        (PLAIN, LEADING),
        {size: {PLAIN, LEADING} for size in (*SIZES, LONGEST, *LOST)},
    ),
    "text ends": ("faults of texts, by how the text ends", ENDS, {fault: {*ENDS} for fault in range(6)}),
}


def place_in(index, count):
    """The place of one among so many."""
    return ONLY if count == 1 else FIRST if index == 0 else LAST if index == count - 1 else BETWEEN


def byte_kind(byte):
    """The row of a byte that is no digit."""
    if byte > 127:
        return HIGH
    found = next((kind for kind, those in BYTES.items() if byte in those), None)
    return found or (LETTER if chr(byte).isalpha() else OTHER)


def number_marks(word):
    """The marks of a word of digits that is read, or too large."""
    digits = word.lstrip(b"0")
    how = PLAIN if digits == word or word == b"0" else LEADING
    # So many digits are as far as one needs to look.
    value = int(digits[:40] or b"0")
    yield "read numbers", next((size for size, largest in SIZES.items() if value <= largest), LONGEST), how
    for row, lost in LOST.items():
        if lost <= value < 2 * lost and value % lost <= LARGEST_ENTRY:
            yield "read numbers", row, how


def behind_kind(behind):
    """What stands behind a name."""
    if len(behind) != 1 or not behind[0].isdigit():
        return BAD
    return LARGE if value_of(behind[0]) > LARGEST_ENTRY else GOOD


def no_number_marks(behind):
    """The marks of what is not one number."""
    if not behind:
        what = NONE
    elif not all(map(bytes.isdigit, behind)):
        what = OTHERS
    else:
        what = LARGE_WORDS if max(map(value_of, behind)) > LARGEST_ENTRY else DIGITS
    yield "words behind", what, len(behind) if len(behind) < 3 else MORE
    places = [place for place, byte in enumerate(behind[0]) if not bytes((byte,)).isdigit()] if len(behind) == 1 else []
    if len(places) == 1:
        yield "wrong bytes", byte_kind(behind[0][places[0]]), place_in(places[0], len(behind[0]))


def near_to(word, name):
    """How a word is near to a name, or None."""
    ways = {
        CASE: word.lower() == name.lower(), CUT: word == name[:-1], CUT_BEFORE: word == name[1:],
        LONGER: word[:-1] == name, LONGER_BEFORE: word[1:] == name,
        ANOTHER_BYTE: len(word) == len(name) and sum(ours != theirs for ours, theirs in zip(word, name)) == 1,
    }
    return next((way for way, holds in ways.items() if holds), None)


def no_name_marks(word, behind):
    """The marks of a first word that is no name."""
    near = [(name, near_to(word, name.encode())) for name in Table._fields]
    for name, how in near:
        if how:
            yield "near names", name, how
    if not any(how for _, how in near):
        what = ODD
        if word.isdigit():
            what = A_NUMBER
        elif word.startswith(tuple(NAMES)):
            what = JOINED
        elif word.startswith(BYTE_ORDER_MARK) and word[len(BYTE_ORDER_MARK):] in NAMES:
            what = MARKED
        yield "far names", what, FOLLOWED if behind else ALONE


def comment_marks(fault, line):
    """The marks of the comment in a line, if it has one."""
    said, hash_sign, comment = line.partition(COMMENT)
    if not hash_sign:
        return
    if not fault and not comment:
        yield "comments", fault, EMPTY
    if words_of(said):
        yield "comments", fault, APART if said[-1:] in BLANKS else TOUCHING
    else:
        yield "comments", fault, BEHIND_BLANKS if said else ALONE


READ_LINE = re.compile(rb"([ \t\r]*)[^ \t\r#]+([ \t\r]+)[^ \t\r#]+([ \t\r]*)")


def read_marks(text, table):
    """The marks of a text that is read."""
    given = []
    for line in text.split(LINE_FEED):
        yield from comment_marks(0, line)
        words = words_of(line)
        if words:
            given.append(NAMES.index(words[0]))
            yield from number_marks(words[1])
            found = zip(BLANK_PLACES, READ_LINE.match(line).groups())
        else:
            found = [(NO_WORD, line.split(COMMENT)[0])]
        for place, blanks in found:
            yield from (("blanks", name, place) for blank, name in BLANKS.items() if blank in blanks)
    row = EIGHTEEN if len(given) == LIMITS else TWENTY_TWO if any(table[LIMITS:]) else FOUR_ZEROS
    yield "names in order", row, IN_ORDER if given == sorted(given) else OTHER_ORDER


def given_marks(fault, text):
    """The marks of the names in a text that has no wrong line."""
    given = {NAMES.index(words[0]) for words in map(words_of, text.split(LINE_FEED)) if words}
    yield "names given", "1 to 16" if 0 < len(given) < LIMITS - 1 else str(len(given)), fault
    delays = pattern([entry in given for entry in range(LIMITS, len(NAMES))])
    yield "delays given", delays, LIMITS_ALL if given >= set(range(LIMITS)) else LIMITS_NOT_ALL


def wrong_marks(fault, lines, index):
    """The marks of the first wrong line."""
    name, *behind = words_of(lines[index])
    yield from comment_marks(fault, lines[index])
    yield "next faults", fault, read(LINE_FEED.join(lines[:index] + lines[index + 1:]))[0]
    if fault in (NO_NAME, GIVEN_TWICE):
        yield "later in the line", fault, behind_kind(behind)
    if fault == NO_NAME:
        yield from no_name_marks(name, behind)
    if fault == NO_NUMBER:
        yield from no_number_marks(behind)
    if fault == TOO_LARGE:
        yield from number_marks(behind[0])


def end_of(text):
    """How a text ends."""
    if not text.endswith(LINE_FEED):
        return UNFED
    return FED_BEHIND_RETURN if text.endswith(CARRIAGE_RETURN + LINE_FEED) else FED


def text_marks(answer, text):
    """The marks of a text."""
    fault, number, entry, *table = answer
    lines = text.split(LINE_FEED)
    yield "text ends", fault, end_of(text)
    if fault:
        yield "text faults", NO_ENTRY if fault == NO_NAME else Table._fields[entry], fault
        yield "wrong lines", fault, place_in(number - 1, len(lines))
    if fault in IN_A_LINE:
        yield from wrong_marks(fault, lines, number - 1)
    else:
        yield from given_marks(fault, text)
    if not fault:
        yield from read_marks(text, *table)
